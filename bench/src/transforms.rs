// Both transforms, of every size of every prime and on both sides, against the definition: the values at the points, one by one.
use crate::lengths;
use crate::numbers::{field, points, PRIMES};
use crate::polynomials::value;
use crate::random::Random;
use crate::{calls, plain};

type Call = fn(u32, u32, &[u32], &mut [u32], &mut [u32]) -> [u32; 2];

fn proved_evaluate(p: u32, n: u32, coefficients: &[u32], values: &mut [u32], scratch: &mut [u32]) -> [u32; 2] {
    let mut answer = [7; 2];
    calls::evaluate(p, n, coefficients, values, scratch, &mut answer);
    answer
}

fn proved_interpolate(p: u32, n: u32, values: &[u32], coefficients: &mut [u32], scratch: &mut [u32]) -> [u32; 2] {
    let mut answer = [7; 2];
    calls::interpolate(p, n, values, coefficients, scratch, &mut answer);
    answer
}

// The result of a call is the one due, and its scratch is zeros.
fn expect(name: &str, call: Call, p: u32, n: u32, input: &[u32], due: &[u32]) -> usize {
    let mut result = vec![7; input.len()];
    let mut scratch = vec![7; lengths::scratch(input.len())];
    let answer = call(p, n, input, &mut result, &mut scratch);
    if answer != [0, 0] || result != due || scratch.iter().any(|&x| x != 0) {
        println!("DIFFERENCE from the definition, {name}, p = {p}, n = {n}: answer {answer:?}, {input:?} gives {result:?}");
        return 1;
    }
    0
}

pub fn run() -> usize {
    let mut r = Random::new(4);
    let (mut sizes, mut off) = (0, 0);
    for p in PRIMES {
        let (_, most) = field(p).unwrap();
        let mut n = 2;
        while n <= most {
            let f = r.elements(p, n as usize);
            let values: Vec<u32> = points(p, n as usize).iter().map(|&x| value(p, &f, x)).collect();
            off += expect("evaluate, plain", plain::evaluate, p, n, &f, &values);
            off += expect("evaluate, proved", proved_evaluate, p, n, &f, &values);
            off += expect("interpolate, plain", plain::interpolate, p, n, &values, &f);
            off += expect("interpolate, proved", proved_interpolate, p, n, &values, &f);
            sizes += 1;
            n *= 2;
        }
    }
    println!("the transforms of {sizes} sizes, point by point: {off} differences");
    off
}
