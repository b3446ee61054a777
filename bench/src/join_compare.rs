// Joins of sheets with the line of nine numbers and without, proved against plain: every byte of the written buffer, and the answer.
use crate::calls;
use crate::cases::Circuit;
use crate::compare::over;
use crate::document::{BLINDED, SHEET};
use crate::joins;
use crate::lengths::{positions, selectors, BLINDERS, CHALLENGES, JOINED, TEXT};
use crate::random::Random;
use crate::sheet_cases::{noise, sheet_of};
use crate::sheet_compare::{all_small, files, first_difference, inner, one_sheet, sizes, wrong, Count, AROUND};
use std::hint::black_box;
use std::path::Path;

// The first and the second sheet.
pub type Pair = [Vec<u8>; 2];

// The number that the library's `deposit` refuses a sheet with; 0 where it does not.
fn number_of(sheet: &[u8]) -> u32 {
    let mut text = vec![0; TEXT];
    let mut answer = [0; 3];
    calls::deposit(sheet, &mut text, &mut answer);
    let printed = String::from_utf8_lossy(&text[..answer[2] as usize]);
    let refusal = printed.strip_prefix("refused,").and_then(|rest| rest.split(',').next());
    refusal.map_or(0, |number| number.parse().unwrap())
}

// What is wrong with the deposit of a joined sheet. It must be one that can be read. A gate fails (9) where one of either sheet does, and contents of
// one label differ (10) where they do on either. Else only a zero denominator (11) may be in its way, with or without one in theirs.
fn misread(pair: &Pair, joined: &[u8]) -> Option<String> {
    let numbers = [number_of(&pair[0]), number_of(&pair[1])];
    let number = number_of(joined);
    let right = match () {
        _ if numbers.contains(&9) => number == 9,
        _ if numbers.contains(&10) => number == 10,
        _ => number == 0 || number == 11,
    };
    (!right).then(|| format!("the joined sheet's deposit has number {number}, those of the two have {numbers:?}"))
}

// One join on both sides, into a buffer of the given length. A sheet that is joined with itself is lent twice.
fn try_join(r: &mut Random, pair: &Pair, length: usize, count: &mut Count) {
    let room = r.below(6) + 2 * AROUND;
    let mut ours = r.bytes(length + 2 * AROUND);
    let mut answer = r.words(room);
    let mut theirs = ours.clone();
    let mut their_answer = answer.clone();
    let lent = pair.clone();

    let words = joins::join(&pair[0], &pair[1], inner(&mut ours));
    over(&words, inner(&mut answer));
    let second = if pair[0] == pair[1] { 0 } else { 1 };
    calls::join(black_box(&lent[0]), black_box(&lent[second]), inner(&mut theirs), inner(&mut their_answer));

    let difference = first_difference("the joined sheet", &ours, &theirs).or(first_difference("the answer", &answer, &their_answer));
    let touched = (black_box(&lent) != pair).then(|| "a sheet is changed".to_string());
    let misread = if words[0] == 0 { misread(pair, &ours[AROUND..AROUND + words[2] as usize]) } else { None };
    let off = difference.or(touched).or(misread).map(|d| format!("plain answer {words:?}; {d}"));
    count.add("Join", words[0].to_string(), &[&pair[0], &pair[1]], off);
}

// A pair, now and then with a buffer of another length.
fn try_pair(r: &mut Random, pair: &Pair, count: &mut Count) {
    let length = if r.once_in(8) { wrong(r, JOINED) } else { JOINED };
    try_join(r, pair, length, count);
}

// Two sheets of a size, now and then the second of another, or the first again. In a quarter of the pairs neither is changed, in the others the
// first, the second or both.
pub fn make(r: &mut Random, p: u32, n: u32) -> Pair {
    let changed = r.below(4);
    let one = one_sheet(r, p, n, changed & 1 > 0);
    if r.once_in(12) {
        return [one.clone(), one];
    }
    let (p, n) = if r.once_in(8) { r.pick(&sizes()) } else { (p, n) };
    let two = one_sheet(r, p, n, changed & 2 > 0);
    [one, two]
}

// Bytes that were never a sheet, first, second or both.
pub fn noisy(r: &mut Random) -> Pair {
    let (p, n) = r.pick(&sizes());
    let sheet = one_sheet(r, p, n, false);
    match r.below(3) {
        0 => [noise(r), sheet],
        1 => [sheet, noise(r)],
        _ => [noise(r), noise(r)],
    }
}

// A sheet that is filled rightly, with l public inputs.
fn with_publics(r: &mut Random, p: u32, n: u32, l: u32) -> Vec<u8> {
    let mut circuit = Circuit::new(r, p, n);
    circuit.l = l;
    circuit.publics = vec![0; l as usize];
    circuit.mend_gates();
    sheet_of(&circuit)
}

// Every number of public inputs of the first sheet, with every one of the second, or the edges and one more where there are many.
fn all_publics(r: &mut Random, p: u32, n: u32, count: &mut Count) {
    for l in 0..=n {
        let others = if n <= 16 { (0..=n).collect() } else { vec![0, n, r.below(n as usize) as u32] };
        for m in others {
            let pair = [with_publics(r, p, n, l), with_publics(r, p, n, m)];
            try_pair(r, &pair, count);
        }
    }
}

// A sheet of one element, but for its public rows, and one label; with the line of nine numbers where its element is odd.
fn uniform(p: u32, n: u32, l: u32, x: u32, label: u32) -> Vec<u8> {
    let m = n as usize;
    let is_public = |k: usize| k % m < l as usize;
    let selector = |k: usize| if is_public(k) { (k < m) as u32 } else { x };
    sheet_of(&Circuit {
        p,
        n,
        l,
        selectors: (0..selectors(m)).map(selector).collect(),
        labels: vec![label; positions(m)],
        contents: vec![x; positions(m)],
        publics: vec![x; l as usize],
        challenges: [x; CHALLENGES],
        blinders: (x % 2 == 1).then_some([x; BLINDERS]),
    })
}

// Pairs of these: the shortest sheets and the longest, and the least and the greatest number of every number of digits.
fn all_uniform(r: &mut Random, p: u32, n: u32, count: &mut Count) {
    let tens = (0..10).map(|k| 10u32.pow(k));
    let last = positions(n as usize) as u32 - 1;
    for x in tens.flat_map(|ten| [ten - 1, ten]).chain([p - 1]).filter(|&x| x < p) {
        for (l, m) in [(0, 0), (0, n), (n, 0), (n, n)] {
            for label in [0, last] {
                let pair = [uniform(p, n, l, x, label), uniform(p, n, m, p - 1 - x, last - label)];
                try_pair(r, &pair, count);
            }
        }
    }
}

// Every size of the first sheet with every size of the second: most are refused with 15.
fn all_sizes(r: &mut Random, count: &mut Count) {
    for (p, n) in sizes() {
        for (q, k) in sizes() {
            let pair = [one_sheet(r, p, n, false), one_sheet(r, q, k, false)];
            try_pair(r, &pair, count);
        }
    }
}

// Generated pairs of all primes and numbers of rows, and noise. How many cases differ.
pub fn run(times: usize) -> usize {
    let mut r = Random::new(131072);
    let mut count = Count::default();
    for (changed, other) in [(SHEET, SHEET), (BLINDED, SHEET)] {
        all_small(changed, |sheet| {
            try_pair(&mut r, &[sheet.to_vec(), other.to_vec()], &mut count);
            try_pair(&mut r, &[other.to_vec(), sheet.to_vec()], &mut count);
        });
    }
    for (p, n) in sizes() {
        all_publics(&mut r, p, n, &mut count);
        all_uniform(&mut r, p, n, &mut count);
        for _ in 0..times * (100_000 / (n * n) as usize).clamp(500, 2000) {
            let pair = make(&mut r, p, n);
            try_pair(&mut r, &pair, &mut count);
        }
    }
    for _ in 0..times {
        all_sizes(&mut r, &mut count);
    }
    for _ in 0..times * 1500 {
        let pair = noisy(&mut r);
        try_pair(&mut r, &pair, &mut count);
    }
    count.show("Join");
    count.differences
}

// Both sides held to what is due: a joined sheet, or the line `refused,` with number and detail, and then the buffer as it came. How many are off.
pub fn expect(name: &str, one: &[u8], two: &[u8], due: &[u8]) -> usize {
    let mut whole = vec![7; JOINED];
    let mut words = [0, 0, due.len() as u32];
    if let Some(refusal) = due.strip_prefix(b"refused,") {
        let numbers = std::str::from_utf8(refusal).unwrap().trim_end().split_once(',').expect("number and detail");
        words = [numbers.0.parse().unwrap(), numbers.1.parse().unwrap(), 0];
    } else {
        whole.fill(0);
        whole[..due.len()].copy_from_slice(due);
    }
    let mut off = 0;
    for side in ["plain", "proved"] {
        let mut joined = vec![7; JOINED];
        let mut answer = [7; 3];
        if side == "plain" {
            answer = joins::join(one, two, &mut joined);
        } else {
            calls::join(one, two, &mut joined, &mut answer);
        }
        if answer != words || joined != whole {
            println!("DIFFERENCE {name}, {side}: answer {answer:?} where {words:?} is due, or another joined sheet");
            off += 1;
        }
    }
    off
}

// Every pair of files of a folder that end in .one and .two; where a file of that name ends in .out, both sides are held to what it holds.
pub fn run_folder(folder: &Path) -> usize {
    let mut r = Random::new(2);
    let mut count = Count::default();
    let (mut off, mut outs) = (0, 0);
    for file in files(folder, "one") {
        let pair = ["one", "two"].map(|ending| std::fs::read(file.with_extension(ending)).expect("a file for each of a pair"));
        try_join(&mut r, &pair, JOINED, &mut count);
        if let Ok(out) = std::fs::read(file.with_extension("out")) {
            outs += 1;
            off += expect(&format!("from {}", file.with_extension("out").display()), &pair[0], &pair[1], &out);
        }
    }
    println!("the pairs of {}, {outs} of them with what is due: {off} other answers", folder.display());
    count.show("Join");
    off + count.differences
}
