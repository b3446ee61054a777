// A program run with an input and an output that a shell can give it, and what it leaves.
use std::ffi::CStr;
use std::fs::{File, OpenOptions};
use std::io::{Result, Write};
use std::os::fd::AsRawFd;
use std::os::unix::fs::OpenOptionsExt;
use std::os::unix::process::CommandExt;
use std::process::{self, Command, Stdio};
use std::thread;
use std::time::Duration;

extern "C" {
    fn close(descriptor: i32) -> i32;
    fn geteuid() -> u32;
    fn unlockpt(descriptor: i32) -> i32;
    fn ptsname_r(descriptor: i32, name: *mut i8, length: usize) -> i32;
}

// Linux's flag of a terminal that is opened without being taken for the program's own.
const NO_CONTROL: i32 = 0o400;

// The user who may read no file but those that everyone may.
const NOBODY: u32 = 65534;

pub enum Input {
    Nothing,
    AtOnce(Vec<u8>),
    ByteByByte(Vec<u8>),
    // Bytes, behind which reading fails.
    BreaksOff(Vec<u8>),
    Folder,
    // A descriptor that may only be written.
    Unreadable,
    Closed,
}

#[derive(Clone, Copy)]
pub enum Output {
    Taken,
    Full,
    Closed,
}

// The side of a terminal from which the bytes come that are written at the other. The other is closed behind them, and then a read fails.
fn breaking(bytes: &[u8]) -> Result<File> {
    let near = OpenOptions::new().read(true).write(true).custom_flags(NO_CONTROL).open("/dev/ptmx")?;
    let mut name = [0; 64];
    let made = unsafe { unlockpt(near.as_raw_fd()) == 0 && ptsname_r(near.as_raw_fd(), name.as_mut_ptr(), name.len()) == 0 };
    assert!(made, "a terminal has two sides");
    let name = unsafe { CStr::from_ptr(name.as_ptr()) }.to_str().unwrap();
    OpenOptions::new().write(true).custom_flags(NO_CONTROL).open(name)?.write_all(bytes)?;
    Ok(near)
}

// What stands at descriptor 0, and what is written to it, if it is a pipe, so many bytes at a time.
fn lent(input: Input) -> Result<(Stdio, Vec<u8>, usize)> {
    let none = Vec::new();
    Ok(match input {
        Input::Nothing | Input::Closed => (Stdio::null(), none, 0),
        Input::AtOnce(bytes) => {
            let all = bytes.len();
            (Stdio::piped(), bytes, all)
        }
        Input::ByteByByte(bytes) => (Stdio::piped(), bytes, 1),
        Input::BreaksOff(bytes) => (breaking(&bytes)?.into(), none, 0),
        Input::Folder => (File::open("/")?.into(), none, 0),
        Input::Unreadable => (OpenOptions::new().write(true).open("/dev/null")?.into(), none, 0),
    })
}

// A program that is started with a descriptor closed.
fn start_without(command: &mut Command, descriptor: i32) {
    let without = move || {
        unsafe { close(descriptor) };
        Ok(())
    };
    unsafe { command.pre_exec(without) };
}

// Runs a command, and answers its output. One for nobody runs as that user if this program runs as root, who may read every file.
pub fn run(mut command: Command, input: Input, output: Output, for_nobody: bool) -> Result<process::Output> {
    if let Input::Closed = input {
        start_without(&mut command, 0);
    }
    let (stdin, bytes, step) = lent(input)?;
    command.stdin(stdin).stderr(Stdio::piped());
    match output {
        Output::Taken => command.stdout(Stdio::piped()),
        Output::Full => command.stdout(OpenOptions::new().write(true).open("/dev/full")?),
        Output::Closed => {
            start_without(&mut command, 1);
            command.stdout(Stdio::null())
        }
    };
    if for_nobody && unsafe { geteuid() } == 0 {
        command.uid(NOBODY).gid(NOBODY);
    }
    let mut child = command.spawn()?;
    if let Some(mut pipe) = child.stdin.take() {
        thread::spawn(move || {
            for part in bytes.chunks(step.max(1)) {
                if pipe.write_all(part).is_err() {
                    return; // the program has ended, or reads no more
                }
                thread::sleep(Duration::from_millis(1));
            }
        });
    }
    child.wait_with_output()
}
