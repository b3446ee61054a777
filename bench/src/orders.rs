// Every two reasons of the provers together: the one that documents 01 and 02 try first is given, on both sides.
use crate::cases::Circuit;
use crate::kinds::{plainly, proved, Case, Kind};
use crate::lengths::{positions, selectors};
use crate::numbers::{points, sub};
use crate::random::Random;
use crate::rows::{marks, wired_marks};

const P: u32 = 17;
const N: usize = 4;

// A fault and its reason.
type Fault = (u32, fn(&mut Case));

// A word more than is due in the last buffer, the scratch.
fn lengthen(case: &mut Case) {
    case.buffers.last_mut().unwrap().push(0);
}

// No element in the last place before it, which is that of b9, or of alpha.
fn spoil(case: &mut Case) {
    let k = case.buffers.len() - 2;
    *case.buffers[k].last_mut().unwrap() = u32::MAX;
}

// The gamma with which the factor of position 0 in D(0) is 0: with beta 1 and contents 0 the factors are the wired marks, and gamma.
fn lose(case: &mut Case) {
    let wired = wired_marks(&marks(P, &points(P, N)), &circuit().labels);
    case.buffers[5][1] = sub(P, 0, wired[0]);
}

// In the order in which they are tried.
const FAULTS: [Fault; 11] = [
    (2, |case| case.p = 18),
    (16, |case| case.p = 97),
    (3, |case| case.n = 3),
    (4, |case| case.l = 5),
    (6, lengthen),
    (7, spoil),
    (8, |case| case.buffers[1][positions(N) - 1] = u32::MAX),
    (14, |case| case.buffers[0][N] = 1),
    (9, |case| case.buffers[0][selectors(N) - 1] = 1),
    (10, |case| case.buffers[2][positions(N) - 1] = 1),
    (11, lose),
];

// Four rows, of which the first is public and the gates of the others hold whatever is in them; all positions have one label, and all contents are 0.
// With gamma 0 the factors of N and D are marks, of which none is 0.
fn circuit() -> Circuit {
    let mut selectors = vec![0; selectors(N)];
    selectors[0] = 1;
    Circuit {
        p: P,
        n: N as u32,
        l: 1,
        selectors,
        labels: vec![0; positions(N)],
        contents: vec![0; positions(N)],
        publics: vec![0],
        challenges: [1, 0, 2, 3],
        blinders: Some([1, 2, 3, 4, 5, 6, 7, 8, 9]),
    }
}

// The number that both sides give; 1 if it is not the one that is due.
fn expect(case: &Case, faults: &[u32], due: u32) -> usize {
    let mut own = case.buffers.clone();
    let mut lent: Vec<&mut [u32]> = own.iter_mut().map(|b| &mut b[..]).collect();
    let ours = plainly(case, &mut lent)[0];
    let mut answer = [77; 2];
    proved(case, &mut lent, &mut answer);
    if [ours, answer[0]] == [due; 2] {
        return 0;
    }
    println!("DIFFERENCE {:?} with the faults of {faults:?}: plain answers {ours}, proved {}", case.kind, answer[0]);
    1
}

// No fault, one, and two of them. Both 2 and 16 are faults of p, so they are not there together.
fn try_kind(r: &mut Random, kind: Kind) -> usize {
    let right = circuit().case(r, kind);
    let mut off = expect(&right, &[], 0);
    for (i, (first, break_first)) in FAULTS.into_iter().enumerate() {
        let mut once = right.clone();
        break_first(&mut once);
        off += expect(&once, &[first], first);
        for (second, break_second) in FAULTS.into_iter().skip(i + 1).filter(|&(second, _)| (first, second) != (2, 16)) {
            let mut twice = once.clone();
            break_second(&mut twice);
            off += expect(&twice, &[first, second], first);
        }
    }
    off
}

pub fn run() -> usize {
    let mut r = Random::new(16);
    let off = try_kind(&mut r, Kind::Prove) + try_kind(&mut r, Kind::ProveBlinded);
    println!("the reasons of prove and prove_blinded, two by two: {off} differences");
    off
}
