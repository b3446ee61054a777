// The time of each call on both sides, on the same valid input, and the ratio.
use crate::calls;
use crate::cases::Circuit;
use crate::joins;
use crate::kinds::{plainly, proved, Case, Kind};
use crate::lengths::{JOINED, MOST_ROWS_SHEET, READ, TEXT};
use crate::loss_cases;
use crate::numbers::{field, LARGEST};
use crate::random::Random;
use crate::sheet_cases::sheet_of;
use crate::sheets;
use std::hint::black_box;

#[repr(C)]
struct Moment {
    seconds: i64,
    nanoseconds: i64,
}

extern "C" {
    fn clock_gettime(clock: i32, moment: *mut Moment) -> i32;
}

// The processor time of this thread in microseconds (Linux): what other programs take of the machine is left out.
fn now() -> f64 {
    let mut moment = Moment { seconds: 0, nanoseconds: 0 };
    unsafe { clock_gettime(3, &mut moment) };
    moment.seconds as f64 * 1e6 + moment.nanoseconds as f64 / 1e3
}

// The microseconds of one call, over a batch of calls.
fn batch(call: &mut dyn FnMut(), calls: usize) -> f64 {
    let start = now();
    for _ in 0..calls {
        call();
    }
    (now() - start) / calls as f64
}

// The best of many short batches of each of two calls, in turn, so that both meet the same disturbances.
fn best(one: &mut dyn FnMut(), other: &mut dyn FnMut()) -> [f64; 2] {
    let first = batch(other, 2).max(batch(one, 2)).max(0.1);
    let calls = (2_000.0 / first).max(1.0) as usize;
    let batches = (2_000_000.0 / (first * calls as f64)).clamp(15.0, 300.0) as usize;
    let mut best = [f64::MAX; 2];
    for _ in 0..batches {
        best[0] = best[0].min(batch(one, calls));
        best[1] = best[1].min(batch(other, calls));
    }
    best
}

// A call on both sides.
fn measure(name: &str, n: u32, theirs: &mut dyn FnMut(), ours: &mut dyn FnMut()) {
    let [proved, plain] = best(theirs, ours);
    println!("{name:<24} {n:>6} {proved:>12.2} {plain:>12.2} {:>8.2}", proved / plain);
}

// A call on lent numbers, under its own name.
fn measure_case(case: &Case) {
    measure_named(&format!("{:?}", case.kind), case);
}

fn measure_named(name: &str, case: &Case) {
    let mut one = case.buffers.clone();
    let mut other = case.buffers.clone();
    let mut theirs: Vec<&mut [u32]> = one.iter_mut().map(|b| &mut b[..]).collect();
    let mut ours: Vec<&mut [u32]> = other.iter_mut().map(|b| &mut b[..]).collect();
    let mut answer = [0; 4];
    measure(name, case.n, &mut || proved(black_box(case), black_box(&mut theirs), black_box(&mut answer)), &mut || {
        black_box(plainly(black_box(case), black_box(&mut ours)));
    });
}

// The most that prove_blinded should take of the time of prove.
const AIM: f64 = 1.3;

// The proved `prove_blinded` against the proved `prove`, on the same circuit.
fn measure_blinding(r: &mut Random, circuit: &Circuit) {
    let [blinded, unblinded] = [Kind::ProveBlinded, Kind::Prove].map(|kind| circuit.case(r, kind));
    let (mut one, mut other) = (blinded.buffers.clone(), unblinded.buffers.clone());
    let mut lent: Vec<&mut [u32]> = one.iter_mut().map(|b| &mut b[..]).collect();
    let mut bare: Vec<&mut [u32]> = other.iter_mut().map(|b| &mut b[..]).collect();
    let mut answers = [[7; 2]; 2];
    let [first, second] = &mut answers;
    let [long, short] = best(&mut || proved(black_box(&blinded), black_box(&mut lent), black_box(first)), &mut || {
        proved(black_box(&unblinded), black_box(&mut bare), black_box(second))
    });
    assert!(answers == [[0; 2]; 2]);
    let over = if long / short > AIM { ", more than the aim of" } else { ", within the aim of" };
    println!("{:<24} {:>6} {long:>12.2} {short:>12.2} {:>8.2}{over} {AIM}", "- ProveBlinded : Prove", circuit.n, long / short);
}

// A call that is lent a transcript, unblinded and blinded.
fn measure_both(r: &mut Random, kind: Kind, circuit: &Circuit) {
    measure_case(&circuit.unblinded().case(r, kind));
    measure_named(&format!("- {kind:?}, blinded"), &circuit.blinded(r).case(r, kind));
}

// Counting the gammas lost, of any contents, and of those that give the library the most work.
fn measure_losses(r: &mut Random, n: u32) {
    measure_case(&loss_cases::any(r, LARGEST, n));
    measure_named("- the worst", &loss_cases::one_remainder(LARGEST, n));
}

// Reading a sheet.
fn measure_read(name: &str, n: u32, sheet: &[u8]) {
    let mut one = READ.map(|length| vec![0; length]);
    let mut other = one.clone();
    let mut answer = [0; 6];
    measure(
        name,
        n,
        &mut || {
            let [a, b, c, d, e] = black_box(&mut one);
            calls::read(black_box(sheet), a, b, c, d, e, black_box(&mut answer));
        },
        &mut || {
            let mut lent = other.each_mut().map(|b| &mut b[..]);
            black_box(sheets::read(black_box(sheet), black_box(&mut lent)));
        },
    );
    assert!(answer[0] == 0 && one == other);
}

// The text of a sheet.
fn measure_deposit(name: &str, n: u32, sheet: &[u8]) {
    let mut one = vec![0; TEXT];
    let mut other = one.clone();
    let mut answer = [0; 3];
    measure(name, n, &mut || calls::deposit(black_box(sheet), black_box(&mut one), black_box(&mut answer)), &mut || {
        black_box(sheets::deposit(black_box(sheet), black_box(&mut other)));
    });
    assert!(answer[0] == 0 && one == other);
}

// Joining two sheets of n rows each.
fn measure_join(r: &mut Random, n: u32) {
    let [first, second] = [0, 1].map(|_| sheet_of(&Circuit::new(r, LARGEST, n)));
    let mut one = vec![0; JOINED];
    let mut other = one.clone();
    let mut answer = [0; 3];
    measure(
        "Join",
        n,
        &mut || calls::join(black_box(&first), black_box(&second), black_box(&mut one), black_box(&mut answer)),
        &mut || {
            black_box(joins::join(black_box(&first), black_box(&second), black_box(&mut other)));
        },
    );
    assert!(answer[0] == 0 && one == other);
}

fn head(title: &str) {
    println!("\n{title}, p = {LARGEST}, microseconds for one call, best of 15 or more batches");
    println!("{:<24} {:>6} {:>12} {:>12} {:>8}", "call", "n", "proved", "plain", "ratio");
}

pub fn run() {
    let mut r = Random::new(64);
    head("measuring");
    for n in [64, 256, 1024] {
        let circuit = Circuit::proved(&mut r, LARGEST, n);
        for kind in [
            Kind::Evaluate,
            Kind::Interpolate,
            Kind::Prepare,
            Kind::CheckRows,
            Kind::Prove,
            Kind::ProveBlinded,
            Kind::ToRows,
            Kind::ToColumns,
        ] {
            measure_case(&circuit.case(&mut r, kind));
        }
        measure_blinding(&mut r, &circuit);
        for kind in [Kind::CheckPoint, Kind::Open, Kind::CheckOpening] {
            measure_both(&mut r, kind, &circuit);
        }
        if n <= MOST_ROWS_SHEET {
            let [sheet, blinded] = [circuit.unblinded(), circuit.blinded(&mut r)].map(|circuit| sheet_of(&circuit));
            measure_read("Read", n, &sheet);
            measure_read("- Read, blinded", n, &blinded);
            measure_deposit("Deposit", n, &sheet);
            measure_deposit("- Deposit, blinded", n, &blinded);
        }
    }
    for n in [16, 64, MOST_ROWS_SHEET / 2] {
        measure_join(&mut r, n);
    }
    for n in [64, 256, 1024] {
        measure_losses(&mut r, n);
    }
}

// How the time of `prove` and of `prove_blinded` grows with n, that of `join`, and that of `lost_gammas`.
pub fn growth() {
    let mut r = Random::new(1024);
    let (_, most) = field(LARGEST).unwrap();
    head("n against time");
    let mut n = 2;
    while n <= most {
        let circuit = Circuit::proved(&mut r, LARGEST, n);
        measure_case(&circuit.case(&mut r, Kind::Prove));
        measure_case(&circuit.case(&mut r, Kind::ProveBlinded));
        measure_blinding(&mut r, &circuit);
        n *= 2;
    }
    let mut n = 2;
    while 2 * n <= MOST_ROWS_SHEET {
        measure_join(&mut r, n);
        n *= 2;
    }
    let mut n = 2;
    while n <= most {
        measure_losses(&mut r, n);
        n *= 2;
    }
}
