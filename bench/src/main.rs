// Compares the proved library with a plain implementation of document 01 and of the openings, joins, lost gammas, transfers of contents and blinded
// transcripts of document 02, holds the C header to the library and the documents to both, runs the programs, and measures stack and time. Run it from
// the repository's root:
//
//     tools/build deposit join filed exports && cargo run --release --manifest-path bench/Cargo.toml
//
// The parts, of which those named behind `--` are run, or all if none is:
//
//     compare   holds both to the sheet of document 01, their transforms of every size to the values at the points, and their provers of every size to one
//               whose products are made row by row, and the count of the gammas lost to the gammas that prove refuses with 11, and takes contents
//               from one layout to the other and back, and meets the reasons of the provers two by two; then lends the same inputs to both, many of
//               them, short and long, valid and damaged, and compares every word of every buffer afterwards, those that a call only reads and the
//               words around each lent part among them
//     header    compares include/guppyspoon.h with the library's source, and compiles and runs the C programs that include it
//     pages     looks up every link and path of the documents, and compares docs/CALLS.md with the header, and its examples with the cases
//     programs  runs deposit, join and filed on inputs and outputs of every kind, those that fail among them, and looks at what they print and tell
//     stack     prints the stack that each call takes at its largest size, beside what the header says
//     measure   prints the time of each call on both sides and the ratio, and that of prove_blinded to prove
//     growth    prints the same of prove, prove_blinded and lost_gammas at every number of rows, from 2 to 1,024, and of join, from 2 to 128 rows of
//               each sheet
//
// Behind `--` a number multiplies the number of cases, and a folder has its files that end in .sheet compared too, read and deposited, and the texts
// with its files that end in .out; its pairs of files that end in .one and .two, joined, and what they give with those that end in .out; and its files
// that end in .in, which have blocks as docs/CALLS.md shows them, of the calls that are lent words, and what comes of them with those that end in .out.
// The exit status is 1 if anything differs, or the header says too little of a call's stack.
use std::path::Path;

mod blinding;
mod blocks;
mod calls;
mod cases;
mod compare;
mod declarations;
mod document;
mod gammas;
mod header;
mod join_compare;
mod joins;
mod kinds;
mod length_cases;
mod lengths;
mod loss_cases;
mod losses;
mod measure;
mod numbers;
mod opening_cases;
mod openings;
mod orders;
mod pages;
mod plain;
mod polynomials;
mod products;
mod programs;
mod random;
mod rows;
mod running;
mod sheet_cases;
mod sheet_compare;
mod sheets;
mod stack;
mod transfer_cases;
mod transfer_compare;
mod transfers;
mod transforms;

const PARTS: [&str; 7] = ["compare", "header", "pages", "programs", "stack", "measure", "growth"];

// The sheets of a folder, its pairs of sheets and its blocks. How many differ; a folder that has none of them was meant to have some.
fn run_folder(folder: &Path) -> usize {
    let [sheets, pairs, blocks] = ["sheet", "one", "in"].map(|ending| !sheet_compare::files(folder, ending).is_empty());
    let mut differences = 0;
    if sheets {
        differences += sheet_compare::run_folder(folder);
    }
    if pairs {
        differences += join_compare::run_folder(folder);
    }
    if blocks {
        differences += blocks::run_folder(folder);
    }
    if !sheets && !pairs && !blocks {
        println!("DIFFERENCE {} has no file that ends in .sheet, .one or .in", folder.display());
        differences += 1;
    }
    differences
}

fn main() {
    let words: Vec<String> = std::env::args().skip(1).collect();
    let all = !words.iter().any(|w| PARTS.contains(&w.as_str()));
    let says = |part: &str| all || words.iter().any(|w| w == part);
    let times = words.iter().find_map(|w| w.parse().ok()).unwrap_or(1);
    let mut differences = 0;
    if says("compare") {
        differences += document::run();
        differences += transforms::run();
        differences += products::run();
        differences += gammas::run(times);
        differences += transfer_compare::run();
        differences += orders::run();
        differences += compare::run(times);
        differences += sheet_compare::run(times);
        differences += join_compare::run(times);
    }
    for folder in words.iter().map(Path::new).filter(|w| w.is_dir()) {
        differences += run_folder(folder);
    }
    if says("header") {
        differences += header::run();
    }
    if says("pages") {
        differences += pages::run();
    }
    if says("programs") {
        differences += programs::run();
    }
    if says("stack") {
        differences += stack::run();
    }
    if says("measure") {
        measure::run();
    }
    if says("growth") {
        measure::growth();
    }
    if differences > 0 {
        println!("{differences} differences");
        std::process::exit(1);
    }
}
