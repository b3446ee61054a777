// The gammas of filled circuits, one by one: `prove` refuses as many with 11 as `lost_gammas` counts, and takes the others.
use crate::calls;
use crate::cases::Circuit;
use crate::kinds::{proved, Case, Kind};
use crate::lengths::LOST_GAMMAS_CHALLENGES;
use crate::loss_cases::sizes;
use crate::losses::{self, sums};
use crate::numbers::{add, sub, CURRENT, LARGEST};
use crate::random::Random;
use std::collections::BTreeSet;

// The circuits of each size of 17, and of the largest prime.
const CIRCUITS: usize = 200;
const LARGE_CIRCUITS: usize = 2;

// The gammas of a circuit over the largest prime that are tried besides those that are to be lost.
const OTHERS: usize = 10;

// The place of the challenges among the buffers of `prove`, and of gamma among them.
const CHALLENGES: usize = 5;
const GAMMA: usize = 1;

// The number that the library's prover answers with a gamma.
fn number_with(case: &mut Case, gamma: u32) -> u32 {
    case.buffers[CHALLENGES][GAMMA] = gamma;
    let mut buffers = case.buffers.clone();
    let mut lent: Vec<&mut [u32]> = buffers.iter_mut().map(|b| &mut b[..]).collect();
    let mut answer = [7; 2];
    proved(case, &mut lent, &mut answer);
    answer[0]
}

// The gammas that are tried, each once: all of a small prime; of the largest those that make a sum 0, and some that are next to these.
fn tried(circuit: &Circuit) -> BTreeSet<u32> {
    let p = circuit.p;
    if p < LARGEST {
        return (0..p).collect();
    }
    let lost = sums(p, circuit.n as usize, &circuit.contents, circuit.challenges[0]).into_iter().map(|s| sub(p, 0, s));
    let next: Vec<u32> = lost.clone().take(OTHERS).map(|gamma| add(p, gamma, 1)).collect();
    lost.chain(next).collect()
}

// How many gammas are lost, by both sides' counts.
fn counts(circuit: &Circuit) -> [[u32; 3]; 2] {
    let beta = &circuit.challenges[..LOST_GAMMAS_CHALLENGES];
    let mut answer = [7; 3];
    calls::lost_gammas(circuit.p, circuit.n, &circuit.contents, beta, &mut answer);
    [losses::lost_gammas(circuit.p, circuit.n, &circuit.contents, beta), answer]
}

// A circuit that is filled rightly. 1 if its gammas are not as counted.
pub fn try_circuit(r: &mut Random, circuit: &Circuit) -> usize {
    let mut case = circuit.case(r, Kind::Prove);
    let numbers: Vec<u32> = tried(circuit).into_iter().map(|gamma| number_with(&mut case, gamma)).collect();
    let refused = numbers.iter().filter(|&&number| number == 11).count();
    let other = numbers.iter().find(|&&number| number != 11 && number != 0);
    let counts = counts(circuit);
    if counts == [[0, 0, refused as u32]; 2] && other.is_none() {
        return 0;
    }
    println!("DIFFERENCE in the gammas lost, p = {}, n = {}, beta = {}", circuit.p, circuit.n, circuit.challenges[0]);
    println!("  prove refuses {refused} with 11, one with another number: {other:?}; counted, plain and proved: {counts:?}");
    println!("  contents: {:?}", &circuit.contents[..circuit.contents.len().min(96)]);
    1
}

// Circuits of all numbers of rows over the primes that may be proved with. How many differ.
pub fn run(times: usize) -> usize {
    let mut r = Random::new(11);
    let (mut circuits, mut off) = (0, 0);
    for (p, n) in sizes().into_iter().filter(|(p, _)| CURRENT.contains(p)) {
        for _ in 0..times * if p < LARGEST { CIRCUITS } else { LARGE_CIRCUITS } {
            let circuit = Circuit::new(&mut r, p, n);
            off += try_circuit(&mut r, &circuit);
            circuits += 1;
        }
    }
    println!("the gammas of {circuits} circuits, lost with 11 or taken by prove: {off} differences from the count");
    off
}
