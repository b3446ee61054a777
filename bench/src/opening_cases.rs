// Openings: lists of polynomials, of a transcript that is blinded or not, with a point and a mixing number, lent rightly and otherwise.
use crate::kinds::{Case, Kind};
use crate::lengths::{self, OPENING_CHALLENGES, POLYNOMIALS};
use crate::numbers::*;
use crate::openings;
use crate::random::Random;

// The places of three of the buffers of both calls.
const LIST: usize = 2;
const EVALUATIONS: usize = 3;
const CHALLENGES: usize = 5;

// What is opened, and the point and the mixing number.
pub struct Opening {
    pub p: u32,
    pub n: u32,
    pub prepared: Vec<u32>,
    pub transcript: Vec<u32>,
    pub list: Vec<u32>,
    pub challenges: [u32; OPENING_CHALLENGES],
}

fn coefficients(r: &mut Random, p: u32, count: usize) -> Vec<u32> {
    if r.once_in(4) {
        return (0..count).map(|_| r.pick(&[0, 0, 1, p - 1])).collect();
    }
    r.elements(p, count)
}

impl Opening {
    // Some list of any polynomials, which no circuit need have, of a transcript of either length. The point is often a row's, and m often 0 or 1.
    pub fn new(r: &mut Random, p: u32, n: u32) -> Opening {
        let m = n as usize;
        let length = 1 + r.below(POLYNOMIALS);
        let any = r.element(p);
        let row = r.pick(&points(p, m));
        let mixing = r.element(p);
        let e = r.below(2);
        Opening {
            p,
            n,
            prepared: coefficients(r, p, lengths::prepared(m)),
            transcript: coefficients(r, p, lengths::transcript(e, m)),
            list: r.elements(POLYNOMIALS as u32, length),
            challenges: [r.pick(&[any, any, row, 0]), r.pick(&[mixing, mixing, mixing, 0, 1, p - 1])],
        }
    }

    // The call of a kind. Buffers that are only written hold anything; the check is lent what the plain implementation writes.
    pub fn case(self, r: &mut Random, kind: Kind) -> Case {
        let Opening { p, n, prepared, transcript, list, challenges } = self;
        let mut evaluations = r.words(list.len());
        let e = lengths::blinded_by(n as usize, &transcript);
        let mut opening = r.words(lengths::opening(e, n as usize));
        let scratch = r.words(lengths::work(e, n as usize));
        if kind == Kind::CheckOpening {
            let spare = &mut scratch.clone();
            openings::open(p, n, &prepared, &transcript, &list, &mut evaluations, &mut opening, &challenges, spare);
        }
        Case { kind, p, n, l: 0, buffers: vec![prepared, transcript, list, evaluations, opening, challenges.to_vec(), scratch] }
    }
}

// Evaluations that are wrong together: two of them are moved so that the mixture, and with it the verdict, stays.
pub fn mislead(r: &mut Random, case: &mut Case) {
    if case.kind != Kind::CheckOpening {
        return;
    }
    let (p, m) = (case.p, case.buffers[CHALLENGES][1]);
    let s = &mut case.buffers[EVALUATIONS];
    let j = r.below(s.len());
    let i = r.below(j + 1);
    let by = r.element(p);
    s[i] = add(p, s[i], mul(p, by, pow(p, m, (j - i) as u32)));
    s[j] = sub(p, s[j], by);
}

// Another list, with as many evaluations: often of a length that is refused, often with numbers that are.
pub fn relist(r: &mut Random, case: &mut Case) {
    let p = case.p.max(1);
    let some = 1 + r.below(POLYNOMIALS);
    let length = r.pick(&[0, POLYNOMIALS + 1, POLYNOMIALS + 2, some, some]);
    let bound = r.pick(&[POLYNOMIALS, POLYNOMIALS + 2]) as u32;
    case.buffers[LIST] = r.elements(bound, length);
    case.buffers[EVALUATIONS].resize_with(length, || r.element(p));
}

// Every place of every buffer, with each element, what is none, and what no list may have.
pub fn every_place(case: &Case) -> Vec<Case> {
    let mut out = Vec::new();
    for k in 0..case.buffers.len() {
        for i in 0..case.buffers[k].len() {
            for x in (0..case.p + 2).chain([u32::MAX]) {
                let mut changed = case.clone();
                changed.buffers[k][i] = x;
                out.push(changed);
            }
        }
    }
    out
}

// Every buffer shorter and longer by one.
fn every_length(case: &Case) -> Vec<Case> {
    let mut out = Vec::new();
    for k in 0..case.buffers.len() {
        let mut shorter = case.clone();
        shorter.buffers[k].pop();
        let mut longer = case.clone();
        longer.buffers[k].push(0);
        out.extend([shorter, longer]);
    }
    out
}

// Lists of up to two numbers more than there may be, all of them polynomials' or some of them beyond.
fn every_list(r: &mut Random, kind: Kind, p: u32, n: u32) -> Vec<Case> {
    let mut out = Vec::new();
    for length in 0..=POLYNOMIALS + 2 {
        for bound in [POLYNOMIALS, POLYNOMIALS + 2] {
            let list = r.elements(bound as u32, length);
            let opening = Opening { list, ..Opening::new(r, p, n) };
            out.push(opening.case(r, kind));
        }
    }
    out
}

// Every point with every mixing number.
fn every_pair(r: &mut Random, kind: Kind, p: u32, n: u32) -> Vec<Case> {
    let mut out = Vec::new();
    for point in 0..p {
        for m in 0..p {
            let opening = Opening { challenges: [point, m], ..Opening::new(r, p, n) };
            out.push(opening.case(r, kind));
        }
    }
    out
}

// Small cases, none of the above left out.
pub fn all_small(r: &mut Random, kind: Kind) -> Vec<Case> {
    let (p, n) = (17, 2);
    let mut out = every_pair(r, kind, p, n);
    for _ in 0..10 {
        out.extend(every_list(r, kind, p, n));
        let case = Opening::new(r, p, n).case(r, kind);
        out.extend(every_place(&case));
        out.extend(every_length(&case));
    }
    out
}
