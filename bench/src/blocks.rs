// Blocks of calls as docs/CALLS.md shows them, from files that end in .in, and what comes of them, from files that end in .out: both sides are held to
// it. Only the calls that are lent words are made.
use crate::kinds::{plainly, proved, Case, Role, KINDS};
use crate::sheet_compare::files;
use std::path::Path;

// What stands in a word that a call may write, before the call.
const MARK: u32 = 2863311530;

fn numbers(line: &str) -> Vec<u32> {
    match line {
        "-" => vec![],
        _ => line.split(',').map(|field| field.parse().expect("a number")).collect(),
    }
}

// A buffer: `?` with a count of words that may hold anything, or its words.
fn buffer(line: &str) -> Vec<u32> {
    match line.strip_prefix('?') {
        Some(count) => vec![MARK; count.parse().expect("a count")],
        None => numbers(line),
    }
}

// A block without its last line, the point.
fn case(lines: &[&str]) -> Case {
    let kind =
        KINDS.into_iter().find(|kind| kind.name() == lines[0]).unwrap_or_else(|| panic!("{} is no call that is lent words", lines[0]));
    let mut lent = numbers(lines[1]).into_iter();
    let p = if kind.has_p() { lent.next().expect("p") } else { 0 };
    let n = lent.next().expect("n, or the number to be inverted");
    let l = if kind.has_l() { lent.next().expect("l") } else { 0 };
    Case { kind, p, n, l, buffers: lines[2..].iter().map(|line| buffer(line)).collect() }
}

fn line(numbers: &[u32]) -> String {
    numbers.iter().map(|x| x.to_string()).collect::<Vec<_>>().join(",")
}

// What came of a call, a line for its answer and one for each buffer that it may write.
fn outcome(case: &Case, answer: &[u32], after: &[Vec<u32>]) -> Vec<String> {
    let mut lines = vec![format!("{},{}", case.kind.name(), line(answer))];
    for (k, _) in case.kind.roles().iter().enumerate().filter(|(_, role)| **role == Role::Written) {
        let zeros = !after[k].is_empty() && after[k].iter().all(|&x| x == 0);
        lines.push(match zeros {
            true => "zeros".to_string(),
            false if after[k] == case.buffers[k] => "kept".to_string(),
            false => line(&after[k]),
        });
    }
    lines
}

// Both sides on a case; how many give another outcome than the lines that are due.
fn try_case(file: &Path, case: &Case, due: &[&str]) -> usize {
    let mut off = 0;
    for side in ["plain", "proved"] {
        let mut own = case.buffers.clone();
        let mut lent: Vec<&mut [u32]> = own.iter_mut().map(|b| &mut b[..]).collect();
        let mut answer = vec![MARK; case.kind.words()];
        if side == "plain" {
            answer = plainly(case, &mut lent);
        } else {
            proved(case, &mut lent, &mut answer);
        }
        if outcome(case, &answer, &own) != due {
            println!("DIFFERENCE from {}, {side}: {} is due for {:?}, p = {}, n = {}", file.display(), due[0], case.kind, case.p, case.n);
            off += 1;
        }
    }
    off
}

// The blocks of a file against what is due.
fn run_file(file: &Path) -> [usize; 2] {
    let [blocks, stored] = [file, &file.with_extension("out")].map(|file| std::fs::read_to_string(file).expect("a file with text"));
    let lines: Vec<&str> = blocks.lines().filter(|line| !line.starts_with('#')).collect();
    let mut due = stored.lines().filter(|line| !line.starts_with('#'));
    let (mut tried, mut off) = (0, 0);
    for block in lines.split(|line| *line == ".").filter(|block| !block.is_empty()) {
        let case = case(block);
        let written = case.kind.roles().iter().filter(|role| **role == Role::Written).count();
        let due: Vec<&str> = due.by_ref().take(1 + written).collect();
        off += try_case(file, &case, &due);
        tried += 1;
    }
    [tried, off + due.count()]
}

// Every file of a folder that ends in .in, with the one of its name that ends in .out.
pub fn run_folder(folder: &Path) -> usize {
    let (mut tried, mut off) = (0, 0);
    for file in files(folder, "in") {
        let [blocks, others] = run_file(&file);
        tried += blocks;
        off += others;
    }
    println!("the blocks of {}, {tried} of them: {off} other outcomes", folder.display());
    off
}
