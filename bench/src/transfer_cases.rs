// Words in either layout, of every number of rows that is taken or not, lent rightly and otherwise.
use crate::kinds::{Case, Kind};
use crate::lengths::{positions, COLUMNS, MOST_ROWS_LARGEST as MOST};
use crate::random::Random;

// Words to be read, and some to be written over.
fn case(r: &mut Random, kind: Kind, n: u32, from: Vec<u32>, to: usize) -> Case {
    Case { kind, p: 0, n, l: 0, buffers: vec![from, r.words(to)] }
}

// Any words, the least and the greatest, one only, or each its place.
fn words(r: &mut Random, count: usize) -> Vec<u32> {
    match r.below(5) {
        0 => (0..count).map(|_| r.pick(&[0, 1, u32::MAX - 1, u32::MAX])).collect(),
        1 => vec![r.pick(&[0, u32::MAX]); count],
        2 => (0..count as u32).collect(),
        _ => r.words(count),
    }
}

// Such words, as many as are due.
pub fn lent(r: &mut Random, kind: Kind, n: u32) -> Case {
    let count = positions(n as usize);
    let from = words(r, count);
    case(r, kind, n, from, count)
}

// Every number of rows up to past twice the most, with a word for each position.
fn every_size(r: &mut Random, kind: Kind) -> Vec<Case> {
    (0..=2 * MOST + 2).map(|n| lent(r, kind, n)).collect()
}

// Numbers of rows that are too many, those among them whose threefold is little more than 2^32 or 2^33: few words are lent.
fn every_excess(r: &mut Random, kind: Kind) -> Vec<Case> {
    let powers = (12..32).map(|k| 1u32 << k);
    let around = powers.flat_map(|x| [x - 1, x, x + 1]);
    let thirds = [u32::MAX / 3, u32::MAX / 3 * 2].into_iter().flat_map(|x| x - 1..=x + 5);
    let mut out = Vec::new();
    for n in around.chain(thirds).chain([u32::MAX - 1, u32::MAX]) {
        let wrapped = n.wrapping_mul(COLUMNS as u32).min(COLUMNS as u32 * MOST) as usize;
        for count in [0, 6, wrapped] {
            let from = words(r, count);
            out.push(case(r, kind, n, from, count));
        }
    }
    out
}

// Few rows, with buffers of every two lengths up to one row more than is due.
fn every_length(r: &mut Random, kind: Kind) -> Vec<Case> {
    let mut out = Vec::new();
    for n in 0..=8 {
        for one in 0..=positions(n + 1) {
            for other in 0..=positions(n + 1) {
                let from = words(r, one);
                out.push(case(r, kind, n as u32, from, other));
            }
        }
    }
    out
}

// Every number of rows that is taken, with one buffer or both shorter or longer by one word, a third or half as long, or twice.
fn every_near_length(r: &mut Random, kind: Kind) -> Vec<Case> {
    let mut out = Vec::new();
    for n in (1..).map(|k| 1 << k).take_while(|&n| n <= MOST) {
        let due = positions(n as usize);
        let lengths = [due, due - 1, due + 1, due / 3, due / 2, 2 * due];
        for one in lengths {
            for other in lengths {
                let from = words(r, one);
                out.push(case(r, kind, n, from, other));
            }
        }
    }
    out
}

// Cases that are not left to chance.
pub fn all_small(r: &mut Random, kind: Kind) -> Vec<Case> {
    [every_size(r, kind), every_excess(r, kind), every_length(r, kind), every_near_length(r, kind)].concat()
}
