// include/guppyspoon.h held to the library: its declarations are those of the library's source, and the C programs that include it compile without
// a warning and print or answer what they should.
use crate::declarations::{of_c, of_rattle, of_rust, Declaration};
use std::path::{Path, PathBuf};
use std::process::{Command, Output};

pub const HEADER: &str = "include/guppyspoon.h";
const SOURCE: &str = "crates/exports_c/src/lib.rt";
const RUST: &str = "bench/src/calls.rs";

// The repository's folder.
pub fn root() -> PathBuf {
    Path::new(env!("CARGO_MANIFEST_DIR")).join("..")
}

// The text of a file of the repository.
pub fn text_of(file: &str) -> String {
    std::fs::read_to_string(root().join(file)).unwrap_or_else(|e| panic!("{file}: {e}"))
}

// The number that the header defines under a name.
pub fn constant(name: &str) -> Option<usize> {
    let text = text_of(HEADER);
    let define = format!("#define {name} ");
    text.lines().find_map(|line| line.strip_prefix(&define)?.split_whitespace().next()?.parse().ok())
}

// The calls that a file declares otherwise than the library, or not, or beyond it.
fn compare(file: &str, declared: &[Declaration], due: &[Declaration]) -> usize {
    let mut off = 0;
    for call in due.iter().filter(|call| !declared.contains(call)) {
        println!("DIFFERENCE {file} does not declare guppyspoon_{}({})", call.name, call.parameters.join(", "));
        off += 1;
    }
    for call in declared.iter().filter(|call| !due.contains(call)) {
        println!("DIFFERENCE {file} declares what {SOURCE} does not have: guppyspoon_{}({})", call.name, call.parameters.join(", "));
        off += 1;
    }
    if off == 0 && declared != due {
        println!("DIFFERENCE {file} declares the calls in another order, or one twice");
        off += 1;
    }
    off
}

fn compare_declarations() -> usize {
    let due = of_rattle(&text_of(SOURCE));
    if due.is_empty() {
        println!("DIFFERENCE {SOURCE} has no function that begins with guppyspoon_");
        return 1;
    }
    let off = compare(HEADER, &of_c(&text_of(HEADER)), &due) + compare(RUST, &of_rust(&text_of(RUST)), &due);
    println!("{HEADER} and {RUST}, {} calls: {off} differences from {SOURCE}", due.len());
    off
}

// What a command leaves behind, if it can be run and ends well; else its complaint is printed.
fn run_command(command: &mut Command) -> Option<Output> {
    match command.current_dir(root()).output() {
        Ok(output) if output.status.success() => Some(output),
        Ok(output) => {
            println!("DIFFERENCE {command:?} ends with {}", output.status);
            println!("{}{}", String::from_utf8_lossy(&output.stdout), String::from_utf8_lossy(&output.stderr));
            None
        }
        Err(e) => {
            println!("DIFFERENCE {command:?} cannot be run: {e}");
            None
        }
    }
}

// Compiles a C program with every warning an error, and runs it. 1 unless it prints what is due.
fn try_program(source: &str, program: &str, due: &str) -> usize {
    let mut cc = Command::new("cc");
    cc.args(["-std=c99", "-Wall", "-Wextra", "-pedantic", "-Werror", "-Iinclude", source, "target/staticlib/libexports.a", "-o", program]);
    let Some(output) = run_command(&mut cc).and_then(|_| run_command(&mut Command::new(root().join(program)))) else {
        return 1;
    };
    let printed = String::from_utf8_lossy(&output.stdout);
    if printed != due {
        println!("DIFFERENCE {source} prints\n{printed}where this is due\n{due}");
        return 1;
    }
    println!("{source}: compiles with {HEADER}, and does what it should");
    0
}

// How much is off.
pub fn run() -> usize {
    println!("\nthe header");
    let polynomials: String = text_of("examples/worked.out").split_inclusive('\n').take(5).collect();
    compare_declarations()
        + try_program("examples/prove.c", "target/prove", &polynomials)
        + try_program("bench/every_call.c", "target/every_call", "")
}
