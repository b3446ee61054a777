// Contents with a beta: all different, few different, and those that give the library the most work, lent rightly and otherwise.
use crate::kinds::{Case, Kind};
use crate::lengths::{positions, LOST_GAMMAS_CHALLENGES};
use crate::numbers::*;
use crate::opening_cases::every_place;
use crate::random::Random;
use crate::rows::{marks, row_by_row};

// The contents drawn for each size where every beta is tried.
const FILLINGS: usize = 20;

fn case(p: u32, n: u32, contents: Vec<u32>, beta: u32) -> Case {
    Case { kind: Kind::LostGammas, p, n, l: 0, buffers: vec![contents, vec![beta]] }
}

// Any contents.
pub fn any(r: &mut Random, p: u32, n: u32) -> Case {
    let contents = r.elements(p, positions(n as usize));
    let beta = r.element(p);
    case(p, n, contents, beta)
}

// The worst case: the library parts the sums by their remainders modulo 3n, and here all remainders are 0. Over the largest prime all sums differ.
pub fn one_remainder(p: u32, n: u32) -> Case {
    let count = positions(n as usize) as u32;
    let many = (p - 1) / count + 1;
    case(p, n, (0..count).map(|k| k % many * count).collect(), 0)
}

// Numbers below p with one remainder modulo `step`, any of them or few: from the lowest up, or in any order.
fn alike(r: &mut Random, p: u32, step: u32, count: usize) -> Vec<u32> {
    let any = r.element(step.min(p));
    let start = r.pick(&[0, any]);
    let all = (p - 1 - start) / step + 1;
    let few = 1 + r.below(count) as u32;
    let many = r.pick(&[all, few.min(all)]);
    let upward = r.once_in(2);
    (0..count as u32).map(|k| start + step * if upward { k % many } else { r.element(many) }).collect()
}

// A number for every position: any, few different ones, one only, or with one remainder modulo 3n or modulo another number.
fn numbers(r: &mut Random, p: u32, n: u32) -> Vec<u32> {
    let count = positions(n as usize);
    match r.below(6) {
        0 | 1 => r.elements(p, count),
        2 => {
            let few = 1 + r.below(8);
            let from = r.elements(p, few);
            (0..count).map(|_| r.pick(&from)).collect()
        }
        3 => vec![r.pick(&[0, 0, 1, p - 1]); count],
        4 => alike(r, p, count as u32, count),
        _ => {
            let step = 1 + r.below(6 * count) as u32;
            alike(r, p, step, count)
        }
    }
}

// The contents with which the sums content + beta × mark are the given ones, position by position.
fn with_sums(p: u32, n: u32, sums: &[u32], beta: u32) -> Vec<u32> {
    let own = marks(p, &points(p, n as usize));
    let held: Vec<u32> = sums.iter().zip(own).map(|(&s, mark)| sub(p, s, mul(p, beta, mark))).collect();
    row_by_row(&held)
}

// Such numbers as contents, or as sums. Beta is often 0.
pub fn lent(r: &mut Random, p: u32, n: u32) -> Case {
    let any = r.element(p);
    let beta = r.pick(&[0, 0, 1, p - 1, any, any, any]);
    let numbers = numbers(r, p, n);
    if r.once_in(2) {
        return case(p, n, with_sums(p, n, &numbers, beta), beta);
    }
    case(p, n, numbers, beta)
}

// Every prime with every number of rows.
pub fn sizes() -> Vec<(u32, u32)> {
    let rows = |p| (1..).map(|k| 1 << k).take_while(move |&n| n <= field(p).unwrap().1);
    PRIMES.into_iter().flat_map(|p| rows(p).map(move |n| (p, n))).collect()
}

// Every beta of the small primes, with contents of all kinds.
fn every_beta(r: &mut Random) -> Vec<Case> {
    let mut out = Vec::new();
    for (p, n) in sizes().into_iter().filter(|&(p, _)| p < LARGEST) {
        for _ in 0..FILLINGS {
            let contents = numbers(r, p, n);
            out.extend((0..p).map(|beta| case(p, n, contents.clone(), beta)));
        }
    }
    out
}

// Two rows over 17 with every beta, and contents of 0, 1 and 2 in every way.
fn every_filling() -> Vec<Case> {
    let count = positions(2) as u32;
    let digits = move |x: u32| (0..count).map(|k| x / 3u32.pow(k) % 3).collect::<Vec<u32>>();
    (0..3u32.pow(count)).flat_map(|x| (0..17).map(move |beta| case(17, 2, digits(x), beta))).collect()
}

// Every size with all contents 0, or all p - 1, and beta 0, 1 or p - 1; and its worst case.
fn every_size() -> Vec<Case> {
    let mut out = Vec::new();
    for (p, n) in sizes() {
        out.push(one_remainder(p, n));
        for x in [0, p - 1] {
            out.extend([0, 1, p - 1].map(|beta| case(p, n, vec![x; positions(n as usize)], beta)));
        }
    }
    out
}

// Two rows over 17, with p or n or none of them wrong, buffers of every length up to one more than is due, and every word of theirs, one by one, set
// to each element and to what is none; with a beta that is no element, or with one. Mostly several reasons apply.
fn every_fault() -> Vec<Case> {
    let mut out = Vec::new();
    for (p, n) in [(17, 2), (18, 2), (17, 3), (18, 3), (17, 4), (17, 8)] {
        for length in 0..=positions(2) as u32 + 1 {
            for betas in 0..=LOST_GAMMAS_CHALLENGES + 1 {
                for beta in [1, 17] {
                    let buffers = vec![(0..length).collect(), vec![beta; betas]];
                    let lent = Case { kind: Kind::LostGammas, p, n, l: 0, buffers };
                    out.extend(every_place(&lent));
                    out.push(lent);
                }
            }
        }
    }
    out
}

// Small cases, none of the above left out.
pub fn all_small(r: &mut Random) -> Vec<Case> {
    [every_beta(r), every_filling(), every_size(), every_fault()].concat()
}
