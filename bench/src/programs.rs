// The programs deposit, join and filed, run as a user may run them. What comes on standard output and on standard error is held to what should: a
// whole text, or none, and what failed, in the system's words.
use crate::document::{BLINDED, SHEET};
use crate::header::root;
use crate::lengths::{self, JOINED};
use crate::running::{run as run_command, Input, Output};
use crate::{joins, sheets};
use std::fs;
use std::os::unix::fs::PermissionsExt;
use std::path::{Path, PathBuf};
use std::process::Command;

const PROGRAMS: [&str; 3] = ["deposit", "join", "filed"];

// Files in the folder that the programs are run in: a sheet, the same with the line of nine numbers and with its text, the same over the retired prime
// with its text, no bytes, as many as a sheet may have, one more, and one that may not be read. There are also a folder, and a name that no file has.
const WORKED: &str = "worked.sheet";
const NINE: &str = "nine.sheet";
const NINE_TEXT: &str = "nine.out";
const FILED: [&str; 2] = ["filed.sheet", "filed.out"];
const EMPTY: &str = "empty";
const LONGEST: &str = "longest";
const LONGER: &str = "longer";
const SECRET: &str = "secret";
const FOLDER: &str = "folder";
const MISSING: &str = "missing";
// The name of a program's own input.
const INPUT: &str = "/dev/stdin";

// What goes wrong with each of these names.
const FAULTS: [(&str, &str); 3] = [(FOLDER, "Is a directory"), (SECRET, "Permission denied"), (MISSING, "No such file or directory")];

// What is told of each output that takes nothing.
const OUTPUTS: [(&str, Output, &str); 2] = [
    ("a full device as output", Output::Full, "standard output: No space left on device\n"),
    ("a closed output", Output::Closed, "standard output: Bad file descriptor\n"),
];

// The sheet, with empty lines behind it up to a length.
fn lengthened(length: usize) -> Vec<u8> {
    let mut sheet = SHEET.to_vec();
    sheet.resize(length, b'\n');
    sheet
}

// What stands in the file of a name.
fn bytes_of(name: &str) -> Vec<u8> {
    match name {
        NINE => BLINDED.to_vec(),
        NINE_TEXT => sheets::printed(BLINDED).into_bytes(),
        EMPTY => vec![],
        LONGEST => lengthened(lengths::SHEET),
        LONGER => lengthened(lengths::SHEET + 1),
        _ => SHEET.to_vec(),
    }
}

// The line of a refusal.
fn refusal(number: u32, detail: u32) -> Vec<u8> {
    format!("refused,{number},{detail}\n").into_bytes()
}

// What `join` prints.
fn joined(one: &[u8], two: &[u8]) -> Vec<u8> {
    let mut joined = vec![0; JOINED];
    match joins::join(one, two, &mut joined) {
        [0, _, length] => joined[..length as usize].to_vec(),
        [number, detail, _] => refusal(number, detail),
    }
}

// The folder, the runs made in it, and those that differ.
struct Bench {
    folder: PathBuf,
    runs: usize,
    off: usize,
}

impl Bench {
    // The folder with the programs and the files.
    fn new() -> std::io::Result<Bench> {
        let folder = std::env::temp_dir().join(format!("guppyspoon-programs-{}", std::process::id()));
        fs::create_dir_all(folder.join(FOLDER))?;
        fs::set_permissions(&folder, fs::Permissions::from_mode(0o755))?;
        for program in PROGRAMS {
            fs::copy(root().join("target/bin").join(program), folder.join(program))?;
        }
        for name in [WORKED, NINE, NINE_TEXT, EMPTY, LONGEST, LONGER, SECRET] {
            fs::write(folder.join(name), bytes_of(name))?;
        }
        fs::set_permissions(folder.join(SECRET), fs::Permissions::from_mode(0o000))?;
        for file in fs::read_dir(root().join("crates/filed/data"))? {
            let file = file?;
            fs::copy(file.path(), folder.join(file.file_name()))?;
        }
        Ok(Bench { folder, runs: 0, off: 0 })
    }

    // A program on an input and an output, for a user who may not read the file that no one may. What is printed must begin as is due, or be just
    // that where it is all of it; what is told must be what is due.
    fn try_run(&mut self, way: &str, words: &[&str], input: Input, output: Output, all: bool, due: &[u8], told: &str) {
        let mut command = Command::new(self.folder.join(words[0]));
        command.args(&words[1..]).current_dir(&self.folder);
        self.runs += 1;
        let found = run_command(command, input, output, words.contains(&SECRET)).expect("a program can be run");
        let printed = if all { found.stdout == due } else { found.stdout.starts_with(due) };
        if found.status.success() && printed && found.stderr == told.as_bytes() {
            return;
        }
        self.off += 1;
        println!("DIFFERENCE {}, {way}: it ends with {}", words.join(" "), found.status);
        println!("  prints \"{}\" where \"{}\" is due", found.stdout.escape_ascii(), due.escape_ascii());
        println!("  tells \"{}\" where \"{}\" is due", found.stderr.escape_ascii(), told.escape_default());
    }

    // A run that tells nothing and prints just what is due.
    fn prints(&mut self, way: &str, words: &[&str], input: Input, due: &[u8]) {
        self.try_run(way, words, input, Output::Taken, true, due, "");
    }

    // A run that tells what failed.
    fn tells(&mut self, way: &str, words: &[&str], input: Input, output: Output, told: &str) {
        self.try_run(way, words, input, output, true, b"", told);
    }

    // Outputs that take nothing, with arguments or an input that are as they should be.
    fn no_output(&mut self, words: &[&str], input: fn() -> Input) {
        for (way, output, told) in OUTPUTS {
            self.tells(way, words, input(), output, told);
        }
    }

    fn deposit(&mut self) {
        let words = ["deposit"];
        let whole = || Input::AtOnce(SHEET.to_vec());
        for name in [WORKED, NINE, EMPTY, LONGEST, LONGER] {
            let sheet = bytes_of(name);
            let text = sheets::printed(&sheet);
            self.prints(name, &words, Input::AtOnce(sheet), text.as_bytes());
        }
        for sheet in [SHEET, BLINDED] {
            self.prints("a byte at a time", &words, Input::ByteByByte(sheet.to_vec()), sheets::printed(sheet).as_bytes());
        }
        self.no_output(&words, whole);
        let start = SHEET[..SHEET.len() - 8].to_vec();
        for (way, input, word) in [
            ("a folder as input", Input::Folder, "Is a directory"),
            ("an input that may not be read", Input::Unreadable, "Bad file descriptor"),
            ("a closed input", Input::Closed, "Bad file descriptor"),
            ("an input that breaks off before its last line", Input::BreaksOff(start), "Input/output error"),
            ("an input that breaks off where a line of nine may follow", Input::BreaksOff(SHEET.to_vec()), "Input/output error"),
        ] {
            self.tells(way, &words, input, Output::Taken, &format!("standard input: {word}\n"));
        }
    }

    fn join(&mut self) {
        for name in [WORKED, NINE, EMPTY, LONGEST, LONGER] {
            let sheet = bytes_of(name);
            self.prints("a first sheet", &["join", name, WORKED], Input::Nothing, &joined(&sheet, SHEET));
            self.prints("a second sheet", &["join", WORKED, name], Input::Nothing, &joined(SHEET, &sheet));
        }
        for words in [["join", INPUT, WORKED], ["join", WORKED, INPUT]] {
            self.prints("a byte at a time", &words, Input::ByteByByte(SHEET.to_vec()), &joined(SHEET, SHEET));
        }
        self.no_output(&["join", WORKED, WORKED], || Input::Nothing);
        for (name, word) in FAULTS {
            for words in [["join", name, WORKED], ["join", WORKED, name]] {
                self.tells("a file that cannot be read", &words, Input::Nothing, Output::Taken, &format!("{name}: {word}\n"));
            }
        }
        let usage = "join takes the names of two files, each with a sheet\n";
        for words in [&["join"][..], &["join", WORKED], &["join", WORKED, WORKED, WORKED]] {
            self.tells("another number of names", words, Input::Nothing, Output::Taken, usage);
        }
    }

    // The lines of a deposit as they are stored, with another name of its sheet.
    fn filed_lines(&self, name: &str) -> Vec<u8> {
        let stored = fs::read_to_string(root().join("crates/filed/stdout")).expect("the stored output of filed");
        let end = stored.find("\n002.sheet,").expect("a second deposit") + 1;
        stored[..end].replacen(FILED[0], name, 1).into_bytes()
    }

    fn filed(&mut self) {
        let [sheet, text] = FILED;
        let lines = self.filed_lines(sheet);
        self.prints("a deposit", &["filed", sheet, text], Input::Nothing, &lines);
        let bytes = fs::read(self.folder.join(sheet)).unwrap();
        self.prints("a byte at a time", &["filed", INPUT, text], Input::ByteByByte(bytes), &self.filed_lines(INPUT));
        let due = format!("{NINE},0,0,17,2,0,accept,as filed,17,of,17,pass\n");
        self.try_run("a blinded deposit", &["filed", NINE, NINE_TEXT], Input::Nothing, Output::Taken, false, due.as_bytes(), "");
        for name in [EMPTY, LONGEST, LONGER] {
            let mut own = lengths::READ.map(|length| vec![0; length]);
            let [number, detail, ..] = sheets::read(&bytes_of(name), &mut own.each_mut().map(|b| &mut b[..]));
            let due = format!("{name},{number},{detail},");
            self.try_run("a sheet", &["filed", name, text], Input::Nothing, Output::Taken, false, due.as_bytes(), "");
        }
        self.no_output(&["filed", sheet, text, sheet, text], || Input::Nothing);
        for (name, word) in FAULTS {
            let told = format!("{name}: {word}\n");
            for words in [["filed", name, text], ["filed", sheet, name]] {
                self.tells("a file that cannot be read", &words, Input::Nothing, Output::Taken, &told);
            }
            let words = ["filed", sheet, text, sheet, name, sheet, text];
            self.try_run("a file that cannot be read behind a deposit", &words, Input::Nothing, Output::Taken, true, &lines, &told);
        }
        let usage = "filed takes the names of two files for each deposit, its sheet and its text\n";
        for words in [&["filed"][..], &["filed", sheet], &["filed", sheet, text, sheet]] {
            self.tells("another number of names", words, Input::Nothing, Output::Taken, usage);
        }
    }
}

// A program that is not there. 1 if so.
fn missing(program: &Path) -> usize {
    if program.exists() {
        return 0;
    }
    println!("DIFFERENCE {} is missing: run `tools/build {}` first", program.display(), PROGRAMS.join(" "));
    1
}

// How many runs differ.
pub fn run() -> usize {
    println!("\nthe programs");
    let off = PROGRAMS.map(|program| missing(&root().join("target/bin").join(program))).iter().sum();
    if off > 0 {
        return off;
    }
    let mut bench = Bench::new().expect("a folder for the programs");
    bench.deposit();
    bench.join();
    bench.filed();
    fs::remove_dir_all(&bench.folder).expect("the folder can be removed");
    println!("{} runs of {}: {} differences", bench.runs, PROGRAMS.join(", "), bench.off);
    bench.off
}
