// The proved library against the plain implementation: every word of every buffer.
use crate::cases::{at_a_row, damage, disturb, Circuit};
use crate::kinds::{plainly, proved, Case, Kind, KINDS};
use crate::length_cases;
use crate::loss_cases;
use crate::numbers::{field, LARGEST, PRIMES};
use crate::opening_cases::{self, mislead, Opening};
use crate::random::Random;
use crate::transfer_cases;
use std::collections::BTreeMap;

// Words around each lent part, which no call may touch.
const AROUND: usize = 3;

fn padded(r: &mut Random, words: &[u32]) -> Vec<u32> {
    let mut all = r.words(AROUND);
    all.extend_from_slice(words);
    all.extend(r.words(AROUND));
    all
}

fn inner(all: &mut Vec<u32>) -> &mut [u32] {
    let end = all.len() - AROUND;
    &mut all[AROUND..end]
}

// The words over the start of a buffer, as many as it has room for.
pub fn over(words: &[u32], buffer: &mut [u32]) {
    for (b, w) in buffer.iter_mut().zip(words) {
        *b = *w;
    }
}

// The first buffer and word that differ.
fn first_difference(ours: &[Vec<u32>], theirs: &[Vec<u32>]) -> Option<(usize, usize)> {
    ours.iter().zip(theirs).enumerate().find_map(|(k, (a, b))| a.iter().zip(b).position(|(x, y)| x != y).map(|i| (k, i)))
}

fn report(case: &Case, words: &[u32], place: (usize, usize), ours: &[Vec<u32>], theirs: &[Vec<u32>]) {
    let (k, i) = place;
    let buffer = if k < case.buffers.len() { format!("buffer {}", k + 1) } else { "the answer".to_string() };
    println!("DIFFERENCE {:?} p={} n={} l={}", case.kind, case.p, case.n, case.l);
    println!("  plain answer {words:?}; {buffer}, word {}: proved {}, plain {}", i as i64 - AROUND as i64, theirs[k][i], ours[k][i]);
    for (k, b) in case.buffers.iter().enumerate() {
        println!("  buffer {} of {} words: {:?}", k + 1, b.len(), &b[..b.len().min(64)]);
    }
}

// How often each answer came: number, and the word of the verdict of an accepted check, or of whether there is an inverse.
type Counts = BTreeMap<(u32, u32), usize>;

// One case on both sides. 1 if they differ.
fn try_case(r: &mut Random, case: &Case, counts: &mut Counts) -> usize {
    let room = r.below(7);
    let mut ours: Vec<Vec<u32>> = case.buffers.iter().map(|b| padded(r, b)).collect();
    let free = r.words(room);
    let answer = padded(r, &free);
    ours.push(answer);
    let mut theirs = ours.clone();

    let (last, rest) = ours.split_last_mut().unwrap();
    let mut lent: Vec<&mut [u32]> = rest.iter_mut().map(inner).collect();
    let words = plainly(case, &mut lent);
    over(&words, inner(last));

    let (last, rest) = theirs.split_last_mut().unwrap();
    let mut lent: Vec<&mut [u32]> = rest.iter_mut().map(inner).collect();
    proved(case, &mut lent, inner(last));

    let verdict = if case.kind.checks() || case.kind == Kind::Inverse { words[2] } else { 0 };
    *counts.entry((words[0], verdict)).or_insert(0) += 1;
    match first_difference(&ours, &theirs) {
        None => 0,
        Some(place) => {
            report(case, &words, place, &ours, &theirs);
            1
        }
    }
}

// A list of polynomials, contents with a beta, words in one of the layouts, or a circuit, a third of them with a fault of the filling, lent as it
// should be.
fn lent(r: &mut Random, kind: Kind, p: u32, n: u32) -> Case {
    if kind.has_list() {
        return Opening::new(r, p, n).case(r, kind);
    }
    if kind == Kind::LostGammas {
        return loss_cases::lent(r, p, n);
    }
    if !kind.has_p() {
        return transfer_cases::lent(r, kind, n);
    }
    let mut circuit = Circuit::new(r, p, n);
    if r.once_in(3) {
        circuit.damage(r);
    }
    circuit.case(r, kind)
}

// A case of a kind: half of them as they should be, the others damaged once or more.
pub fn make(r: &mut Random, kind: Kind, p: u32, n: u32) -> Case {
    let mut case = lent(r, kind, p, n);
    if r.once_in(5) {
        at_a_row(r, &mut case);
        mislead(r, &mut case);
    }
    if kind.checks() && r.once_in(3) {
        disturb(r, &mut case);
    }
    if r.once_in(2) {
        for _ in 0..1 + r.below(3) {
            damage(r, &mut case);
        }
    }
    case
}

// How many cases of a kind at n rows: the long ones are few.
fn how_many(kind: Kind, n: usize) -> usize {
    match kind {
        Kind::Inverse => 2000,
        Kind::Prove | Kind::ProveBlinded | Kind::CheckPoint => (1_200_000 / (n * n)).clamp(12, 4000),
        _ => (600_000 / n).clamp(60, 4000),
    }
}

// The inverse of every element of the small fields, and past them.
fn all_inverses() -> Vec<Case> {
    let primes = (0..120).chain([LARGEST - 1, LARGEST, LARGEST + 1, u32::MAX]);
    primes.flat_map(|p| (0..130).map(move |x| Case { kind: Kind::Inverse, p, n: x, l: 0, buffers: vec![] })).collect()
}

// The cases of a kind that are not left to chance.
fn all_small(r: &mut Random, kind: Kind) -> Vec<Case> {
    match kind {
        Kind::Inverse => all_inverses(),
        Kind::Open | Kind::CheckOpening => [opening_cases::all_small(r, kind), length_cases::all_small(r, kind)].concat(),
        Kind::CheckPoint | Kind::Prove | Kind::ProveBlinded => length_cases::all_small(r, kind),
        Kind::LostGammas => loss_cases::all_small(r),
        Kind::ToRows | Kind::ToColumns => transfer_cases::all_small(r, kind),
        _ => vec![],
    }
}

// The name of a check's verdict, or of an inverse; none where there is none.
fn verdict_name(kind: Kind, verdict: u32) -> Option<&'static str> {
    let names: &[&str] = match kind {
        Kind::Inverse => &["an inverse"],
        Kind::CheckRows => &["pass", "gate", "start", "step"],
        Kind::CheckPoint | Kind::CheckOpening => &["accept", "reject"],
        _ => &[],
    };
    names.get(verdict.checked_sub(1)? as usize).copied()
}

fn show(kind: Kind, tried: usize, differences: usize, counts: &Counts) {
    let answers: Vec<String> = counts
        .iter()
        .map(|(&(number, verdict), times)| {
            let name = verdict_name(kind, verdict).map_or(number.to_string(), str::to_string);
            format!("{name}: {times}")
        })
        .collect();
    println!("{:<12} {tried:>6} cases, {differences} differences   by answer  {}", format!("{kind:?}"), answers.join(", "));
}

// All kinds, primes and numbers of rows. How many cases differ.
pub fn run(times: usize) -> usize {
    let mut r = Random::new(20);
    let mut all = 0;
    println!("comparing (answers by their number; 0 is accepted)");
    for kind in KINDS {
        let mut counts = Counts::new();
        let (mut tried, mut differences) = (0, 0);
        for case in all_small(&mut r, kind) {
            differences += try_case(&mut r, &case, &mut counts);
            tried += 1;
        }
        for p in PRIMES {
            let (_, most) = field(p).unwrap();
            let mut n = 2;
            while n <= most {
                for _ in 0..times * how_many(kind, n as usize) {
                    let case = make(&mut r, kind, p, n);
                    differences += try_case(&mut r, &case, &mut counts);
                    tried += 1;
                }
                n *= 2;
            }
        }
        show(kind, tried, differences, &counts);
        all += differences;
    }
    all
}
