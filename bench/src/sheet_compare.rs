// Reading and deposits, proved against plain: every word and byte of every buffer.
use crate::calls;
use crate::cases::Circuit;
use crate::compare::over;
use crate::document::{BLINDED, SHEET};
use crate::lengths::{MOST_ROWS_SHEET, READ, TEXT};
use crate::numbers::{field, PRIMES};
use crate::random::Random;
use crate::sheet_cases::{change, noise, sheet_of};
use crate::sheets;
use std::collections::BTreeMap;
use std::hint::black_box;
use std::path::{Path, PathBuf};

// Words or bytes around each lent part, which no call may touch.
pub const AROUND: usize = 3;

// The cases tried, those that differ, and how often each number came.
#[derive(Default)]
pub struct Count {
    tried: usize,
    pub differences: usize,
    answers: BTreeMap<String, usize>,
}

impl Count {
    pub fn add(&mut self, name: &str, answer: String, sheets: &[&[u8]], difference: Option<String>) {
        self.tried += 1;
        *self.answers.entry(answer).or_insert(0) += 1;
        if let Some(place) = difference {
            self.differences += 1;
            println!("DIFFERENCE {name}: {place}");
            for sheet in sheets {
                println!("  sheet of {} bytes: \"{}\"", sheet.len(), sheet.escape_ascii());
            }
        }
    }

    pub fn show(&self, name: &str) {
        let answers: Vec<String> = self.answers.iter().map(|(answer, times)| format!("{answer}: {times}")).collect();
        println!("{name:<12} {:>6} cases, {} differences   by answer  {}", self.tried, self.differences, answers.join(", "));
    }
}

pub fn inner<T>(all: &mut [T]) -> &mut [T] {
    let end = all.len() - AROUND;
    &mut all[AROUND..end]
}

pub fn first_difference<T: PartialEq + std::fmt::Display>(name: &str, ours: &[T], theirs: &[T]) -> Option<String> {
    if ours == theirs {
        return None; // by far the most, and fast
    }
    let i = ours.iter().zip(theirs).position(|(x, y)| x != y)?;
    Some(format!("{name} of {}, place {}: proved {}, plain {}", ours.len() - 2 * AROUND, i as i64 - AROUND as i64, theirs[i], ours[i]))
}

// One reading on both sides, into buffers of the given lengths.
fn try_read(r: &mut Random, sheet: &[u8], lengths: [usize; READ.len()], count: &mut Count) {
    let room = r.below(9);
    let mut ours: Vec<Vec<u32>> = lengths.iter().chain([&room]).map(|length| r.words(length + 2 * AROUND)).collect();
    let mut theirs = ours.clone();
    let sheet_lent = sheet.to_vec();

    let [a, b, c, d, e, answer] = &mut ours[..] else { unreachable!() };
    let words = sheets::read(sheet, &mut [a, b, c, d, e].map(|b| inner(b)));
    over(&words, inner(answer));

    let [a, b, c, d, e, answer] = &mut theirs[..] else { unreachable!() };
    calls::read(black_box(&sheet_lent), inner(a), inner(b), inner(c), inner(d), inner(e), inner(answer));

    let names = ["selectors", "labels", "contents", "public numbers", "challenges and blinders", "the answer"];
    let difference = (0..names.len()).rev().find_map(|k| first_difference(names[k], &ours[k], &theirs[k]));
    let touched = (black_box(&sheet_lent) != sheet).then(|| "the sheet is changed".to_string());
    let kind = if words[5] == 1 { "blinded".to_string() } else { words[0].to_string() };
    count.add("Read", kind, &[sheet], difference.or(touched).map(|d| format!("plain answer {words:?}; {d}")));
}

// One deposit on both sides, into a buffer of the given length.
fn try_deposit(r: &mut Random, sheet: &[u8], length: usize, count: &mut Count) {
    let room = r.below(6) + 2 * AROUND;
    let mut ours: Vec<u8> = (0..length + 2 * AROUND).map(|_| r.word() as u8).collect();
    let mut answer = r.words(room);
    let mut theirs = ours.clone();
    let mut their_answer = answer.clone();
    let sheet_lent = sheet.to_vec();

    let words = sheets::deposit(sheet, inner(&mut ours));
    over(&words, inner(&mut answer));
    calls::deposit(black_box(&sheet_lent), inner(&mut theirs), inner(&mut their_answer));

    let difference = first_difference("the text", &ours, &theirs).or(first_difference("the answer", &answer, &their_answer));
    let touched = (black_box(&sheet_lent) != sheet).then(|| "the sheet is changed".to_string());
    let text = String::from_utf8_lossy(&ours[AROUND..AROUND + words[2] as usize]);
    let last = text.lines().last().unwrap_or("6");
    let kind = last.rsplit_once(',').map_or(last, |(front, _)| front).to_string();
    count.add("Deposit", kind, &[sheet], difference.or(touched).map(|d| format!("plain answer {words:?}; {d}")));
}

// A length that is not the due one.
pub fn wrong(r: &mut Random, length: usize) -> usize {
    r.pick(&[0, 1, length - 1, length + 1, 2 * length, length / 2])
}

// A sheet to both calls, now and then with buffers of other lengths.
fn try_sheet(r: &mut Random, sheet: &[u8], reads: &mut Count, deposits: &mut Count) {
    let mut lengths = READ;
    if r.once_in(8) {
        for _ in 0..1 + r.below(3) {
            let k = r.below(READ.len());
            lengths[k] = wrong(r, READ[k]);
        }
    }
    try_read(r, sheet, lengths, reads);
    let length = if r.once_in(12) { wrong(r, TEXT) } else { TEXT };
    try_deposit(r, sheet, length, deposits);
}

// A sheet of a circuit, half of them with the line of nine numbers, a third with a fault of the filling; if asked for, changed once or more.
pub fn one_sheet(r: &mut Random, p: u32, n: u32, changed: bool) -> Vec<u8> {
    let mut circuit = Circuit::new(r, p, n);
    if r.once_in(3) {
        circuit.damage(r);
    }
    let mut sheet = sheet_of(&circuit);
    if changed {
        for _ in 0..1 + r.below(2) {
            change(r, &mut sheet, &circuit);
        }
    }
    sheet
}

// The same, half of them changed.
pub fn make(r: &mut Random, p: u32, n: u32) -> Vec<u8> {
    let changed = r.once_in(2);
    one_sheet(r, p, n, changed)
}

// Every cut of a sheet, and every byte of it changed to each byte in turn.
pub fn all_small(sheet: &[u8], mut each: impl FnMut(&[u8])) {
    for end in 0..sheet.len() {
        each(&sheet[..end]);
    }
    for at in 0..sheet.len() {
        for b in 0..=255 {
            let mut changed = sheet.to_vec();
            changed[at] = b;
            each(&changed);
            changed.insert(at, sheet[at]);
            each(&changed);
        }
    }
}

// Every prime with every number of rows that its sheets may have.
pub fn sizes() -> Vec<(u32, u32)> {
    let rows = |p| (1..).map(|k| 1 << k).take_while(move |&n| n <= field(p).unwrap().1.min(MOST_ROWS_SHEET));
    PRIMES.into_iter().flat_map(|p| rows(p).map(move |n| (p, n))).collect()
}

// Generated sheets of all primes and numbers of rows, and noise. How many cases differ.
pub fn run(times: usize) -> usize {
    let mut r = Random::new(65536);
    let (mut reads, mut deposits) = (Count::default(), Count::default());
    for whole in [SHEET, BLINDED] {
        all_small(whole, |sheet| try_sheet(&mut r, sheet, &mut reads, &mut deposits));
    }
    for (p, n) in sizes() {
        for _ in 0..times * (400_000 / (n * n) as usize).clamp(150, 3000) {
            let sheet = make(&mut r, p, n);
            try_sheet(&mut r, &sheet, &mut reads, &mut deposits);
        }
    }
    for _ in 0..times * 3000 {
        let sheet = noise(&mut r);
        try_sheet(&mut r, &sheet, &mut reads, &mut deposits);
    }
    reads.show("Read");
    deposits.show("Deposit");
    reads.differences + deposits.differences
}

// The files of a folder that end so.
pub fn files(folder: &Path, ending: &str) -> Vec<PathBuf> {
    let all = std::fs::read_dir(folder).expect("a folder that can be read").map(|file| file.unwrap().path());
    let mut files: Vec<_> = all.filter(|file| file.extension().is_some_and(|e| e == ending)).collect();
    files.sort();
    files
}

// Every file of a folder that ends in .sheet; where a file of that name ends in .out, the text is what it holds.
pub fn run_folder(folder: &Path) -> usize {
    let mut r = Random::new(1);
    let (mut reads, mut deposits) = (Count::default(), Count::default());
    let mut off = 0;
    let mut outs = 0;
    for file in files(folder, "sheet") {
        let sheet = std::fs::read(&file).unwrap();
        try_read(&mut r, &sheet, READ, &mut reads);
        try_deposit(&mut r, &sheet, TEXT, &mut deposits);
        if let Ok(out) = std::fs::read(file.with_extension("out")) {
            outs += 1;
            if out != sheets::printed(&sheet).as_bytes() {
                println!("DIFFERENCE from {}: plain prints another text", file.with_extension("out").display());
                off += 1;
            }
        }
    }
    println!("the sheets of {}, {outs} of them with a text: {off} other texts", folder.display());
    reads.show("Read");
    deposits.show("Deposit");
    off + reads.differences + deposits.differences
}
