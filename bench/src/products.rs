// Products by transforms against products row by row: by themselves, and inside `prove` and `prove_blinded`, of every size of every prime that may be
// proved with and on both sides.
use crate::cases::Circuit;
use crate::kinds::{plainly, proved, Case, Kind};
use crate::numbers::{field, CURRENT, LARGEST};
use crate::plain;
use crate::polynomials::{add_product, by_rows, by_transforms, AddProduct};
use crate::random::Random;

// Factors have up to three coefficients more than this.
const LONGEST: usize = 4096;

// The circuits of each size.
const CIRCUITS: usize = 8;

// The coefficients of a factor: any, or the same everywhere.
fn factor(r: &mut Random, length: usize) -> Vec<u32> {
    if r.once_in(8) {
        return vec![r.pick(&[0, 1, LARGEST - 1]); length];
    }
    r.elements(LARGEST, length)
}

// A product of factors of two lengths, added to as many words as it has, or a few more.
fn try_product(r: &mut Random, one: usize, other: usize) -> usize {
    let (f, g) = (factor(r, one), factor(r, other));
    let c = r.element(LARGEST);
    let room = one + other - 1 + r.below(3);
    let before = r.elements(LARGEST, room);
    let made = |add_product: AddProduct| {
        let mut out = before.clone();
        add_product(LARGEST, c, &f, &g, &mut out);
        out
    };
    let due = made(by_rows);
    if made(by_transforms) != due || made(add_product) != due {
        println!("DIFFERENCE from the product row by row, factors of {one} and {other} coefficients");
        return 1;
    }
    0
}

// All pairs of lengths that are a power of two, one less or up to three more, as those of blinded wires and z are.
fn try_products(r: &mut Random) -> usize {
    let lengths: Vec<usize> = (1..=LONGEST + 3).filter(|k| (k.saturating_sub(3)..=k + 1).any(usize::is_power_of_two)).collect();
    let (mut pairs, mut off) = (0, 0);
    for &one in &lengths {
        for &other in &lengths {
            off += try_product(r, one, other);
            pairs += 1;
        }
    }
    println!("plain products of {pairs} pairs of lengths, by transforms and row by row: {off} differences");
    off
}

type Prover = fn(&Case, &mut [&mut [u32]]) -> Vec<u32>;

fn proved_prove(case: &Case, buffers: &mut [&mut [u32]]) -> Vec<u32> {
    let mut answer = vec![7; 2];
    proved(case, buffers, &mut answer);
    answer
}

// The plain prover with every product row by row.
fn prove_by_rows(case: &Case, buffers: &mut [&mut [u32]]) -> Vec<u32> {
    let (p, n, l) = (case.p, case.n, case.l);
    match buffers {
        [selectors, labels, contents, publics, transcript, challenges, scratch] => {
            plain::prove_with(by_rows, p, n, l, selectors, labels, contents, publics, transcript, challenges, None, scratch).to_vec()
        }
        [selectors, labels, contents, publics, transcript, challenges, blinders, scratch] => {
            plain::prove_with(by_rows, p, n, l, selectors, labels, contents, publics, transcript, challenges, Some(blinders), scratch)
                .to_vec()
        }
        _ => unreachable!("a case has the buffers of its call"),
    }
}

// A prover's answer, and the buffers as it leaves them.
fn made(case: &Case, prover: Prover) -> (Vec<u32>, Vec<Vec<u32>>) {
    let mut buffers = case.buffers.clone();
    let mut lent: Vec<&mut [u32]> = buffers.iter_mut().map(|b| &mut b[..]).collect();
    let answer = prover(case, &mut lent);
    (answer, buffers)
}

// A circuit whose filling the provers take.
fn try_prove(r: &mut Random, kind: Kind, p: u32, n: u32) -> usize {
    let case = Circuit::proved(r, p, n).case(r, kind);
    let due = made(&case, prove_by_rows);
    let mut off = 0;
    for (side, prover) in [("plain", plainly as Prover), ("proved", proved_prove)] {
        let result = made(&case, prover);
        if result != due {
            println!("DIFFERENCE from products row by row, {kind:?}, {side}, p = {p}, n = {n}, l = {}: answer {:?}", case.l, result.0);
            off += 1;
        }
    }
    off
}

fn try_proves(r: &mut Random) -> usize {
    let (mut sizes, mut off) = (0, 0);
    for p in CURRENT {
        let (_, most) = field(p).unwrap();
        let mut n = 2;
        while n <= most {
            for _ in 0..CIRCUITS {
                off += try_prove(r, Kind::Prove, p, n) + try_prove(r, Kind::ProveBlinded, p, n);
            }
            sizes += 1;
            n *= 2;
        }
    }
    println!("prove and prove_blinded of {sizes} sizes, products row by row: {off} differences");
    off
}

pub fn run() -> usize {
    let mut r = Random::new(8192);
    try_products(&mut r) + try_proves(&mut r)
}
