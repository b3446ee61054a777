// The calls that lay a transcript or are lent one, with buffers of every length near those that are due, for a transcript that is blinded and for one
// that is not: one off, the other's, and in between.
use crate::cases::Circuit;
use crate::kinds::{Case, Kind};
use crate::lengths::{opening, transcript, work, BLINDERS};
use crate::numbers::{CURRENT, LARGEST};
use crate::opening_cases::every_place;
use crate::random::Random;

type Length = fn(usize, usize) -> usize;

fn blinders(e: usize, _: usize) -> usize {
    BLINDERS * e
}

// The buffers whose lengths go by e: the place of each, and its length.
fn going_by(kind: Kind) -> Vec<(usize, Length)> {
    match kind {
        Kind::CheckPoint => vec![(2, transcript as Length), (4, work)],
        Kind::Open | Kind::CheckOpening => vec![(1, transcript as Length), (4, opening), (6, work)],
        Kind::Prove => vec![(4, transcript as Length), (6, work)],
        Kind::ProveBlinded => vec![(4, transcript as Length), (6, blinders), (7, work)],
        _ => vec![],
    }
}

// Lengths near those of either e, and in between.
fn near(length: Length, n: usize) -> Vec<usize> {
    let [short, long] = [0, 1].map(|e| length(e, n));
    let mut all = vec![short.saturating_sub(1), short, short + 1, (short + long) / 2, long - 1, long, long + 1];
    all.dedup();
    all
}

// A buffer of another length: cut, or with elements behind.
fn resized(r: &mut Random, case: &Case, place: usize, length: usize) -> Case {
    let mut changed = case.clone();
    changed.buffers[place].resize_with(length, || r.element(case.p));
    changed
}

// Every choice of such lengths.
fn every_length(r: &mut Random, case: &Case) -> Vec<Case> {
    let mut all = vec![case.clone()];
    for (place, length) in going_by(case.kind) {
        let lengths = near(length, case.n as usize);
        let mut more = Vec::with_capacity(all.len() * lengths.len());
        for case in &all {
            more.extend(lengths.iter().map(|&length| resized(r, case, place, length)));
        }
        all = more;
    }
    all
}

// Two rows with a transcript of every length up to past the longer, the other buffers as they are due for either e.
fn every_transcript(r: &mut Random, case: &Case) -> Vec<Case> {
    let n = case.n as usize;
    let mut out = Vec::new();
    for e in [0, 1] {
        let mut due = case.clone();
        for (place, length) in going_by(case.kind) {
            due = resized(r, &due, place, length(e, n));
        }
        let (place, _) = going_by(case.kind)[0];
        out.extend((0..=transcript(1, n) + 2).map(|length| resized(r, &due, place, length)));
    }
    out
}

// The call on a circuit that the prover takes, with and without nine numbers.
fn both(r: &mut Random, kind: Kind, p: u32, n: u32) -> [Case; 2] {
    let circuit = Circuit::proved(r, p, n);
    [circuit.unblinded().case(r, kind), circuit.blinded(r).case(r, kind)]
}

// Few rows and many; and over 17 with two rows every place of every buffer with each element and what is none.
pub fn all_small(r: &mut Random, kind: Kind) -> Vec<Case> {
    let mut out = Vec::new();
    for (p, n) in CURRENT.into_iter().flat_map(|p| [(p, 2), (p, 4)]).chain([(LARGEST, 64), (LARGEST, 1024)]) {
        for case in both(r, kind, p, n) {
            out.extend(every_length(r, &case));
        }
    }
    for case in both(r, kind, 17, 2) {
        out.extend(every_transcript(r, &case));
        out.extend(every_place(&case));
    }
    out
}
