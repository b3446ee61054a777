// Cases: circuits that are filled rightly, and damage of every kind that documents 01 and 02 have a reason for.
use crate::kinds::{plainly, Case, Kind, Role};
use crate::lengths::{self, BLINDERS, CHALLENGES, CHECK_ROWS_CHALLENGES, LOST_GAMMAS_CHALLENGES, POLYNOMIALS, PROVE_CHALLENGES, SELECTORS};
use crate::numbers::*;
use crate::opening_cases::{relist, Opening};
use crate::plain;
use crate::polynomials::add_product;
use crate::random::Random;
use crate::rows;

// A circuit with contents, public numbers and challenges, each as it is lent, and the nine numbers with which its transcript is blinded, if it is.
#[derive(Clone)]
pub struct Circuit {
    pub p: u32,
    pub n: u32,
    pub l: u32,
    pub selectors: Vec<u32>,
    pub labels: Vec<u32>,
    pub contents: Vec<u32>,
    pub publics: Vec<u32>,
    pub challenges: [u32; CHALLENGES],
    pub blinders: Option<[u32; BLINDERS]>,
}

// Labels: any, few different ones, one only, all different in any order.
fn labels(r: &mut Random, n: usize) -> Vec<u32> {
    let k = lengths::positions(n);
    let few = 1 + r.below(4);
    match r.below(4) {
        0 => (0..k).map(|_| r.below(k) as u32).collect(),
        1 => (0..k).map(|_| (k - 1 - r.below(few)) as u32).collect(),
        2 => (0..k).map(|i| if i < k / 2 { r.below(k) as u32 } else { i as u32 }).collect(),
        _ => {
            let mut all: Vec<u32> = (0..k as u32).collect();
            for i in (1..k).rev() {
                all.swap(i, r.below(i + 1));
            }
            all
        }
    }
}

// Nine numbers to blind with: any, few different ones, or all 0.
fn blinders(r: &mut Random, p: u32) -> [u32; BLINDERS] {
    let any = [0; BLINDERS].map(|_| r.element(p));
    match r.below(6) {
        0 => [0; BLINDERS],
        1 => any.map(|b| [0, 1, p - 1][b as usize % 3]),
        _ => any,
    }
}

impl Circuit {
    // 1 where the transcript is blinded, else 0.
    pub fn e(&self) -> usize {
        self.blinders.is_some() as usize
    }

    // The numbers that it is blinded with, or none.
    pub fn nine(&self) -> &[u32] {
        self.blinders.as_ref().map_or(&[], |nine| &nine[..])
    }

    // The same with a transcript that is not blinded, and with one that is.
    pub fn unblinded(&self) -> Circuit {
        Circuit { blinders: None, ..self.clone() }
    }

    pub fn blinded(&self, r: &mut Random) -> Circuit {
        Circuit { blinders: self.blinders.or(Some(blinders(r, self.p))), ..self.clone() }
    }

    // The rows below l as public rows, with the contents of a as public numbers, and the constants that make every other gate hold.
    pub fn mend_gates(&mut self) {
        let (p, n, l) = (self.p, self.n as usize, self.l as usize);
        for i in 0..l {
            for s in 0..SELECTORS {
                self.selectors[s * n + i] = (s == 0) as u32;
            }
            self.publics[i] = self.contents[rows::place(i, 0)];
        }
        for i in l..n {
            let off = rows::gate(p, n, &self.selectors, &self.contents, &self.publics, i);
            let q = self.selectors[4 * n + i];
            self.selectors[4 * n + i] = sub(p, q, off);
        }
    }

    // A circuit that is filled rightly, half of them to be blinded. A zero denominator may occur, and in small fields often does.
    pub fn new(r: &mut Random, p: u32, n: u32) -> Circuit {
        let m = n as usize;
        let labels = labels(r, m);
        let values = r.elements(p, lengths::positions(m));
        let held: Vec<u32> = labels.iter().map(|&v| values[v as usize]).collect();
        let l = match r.below(4) {
            0 => 0,
            1 => n,
            _ => r.below(m + 1) as u32,
        };
        let mut circuit = Circuit {
            p,
            n,
            l,
            selectors: r.elements(p, lengths::selectors(m)),
            contents: rows::row_by_row(&held),
            labels,
            publics: vec![0; l as usize],
            challenges: [0; CHALLENGES].map(|_| r.element(p)),
            blinders: None,
        };
        if r.once_in(2) {
            circuit.blinders = Some(blinders(r, p));
        }
        if r.once_in(3) {
            for q in circuit.selectors.iter_mut() {
                *q = r.pick(&[0, 0, 1, p - 1]);
            }
        }
        if r.once_in(6) {
            circuit.challenges = [0; CHALLENGES].map(|_| r.pick(&[0, 0, 1, p - 1, 2]));
        }
        circuit.mend_gates();
        circuit
    }

    // The same over a prime that may be proved with, but the filling has no zero denominator: the prover takes it.
    pub fn proved(r: &mut Random, p: u32, n: u32) -> Circuit {
        loop {
            let circuit = Circuit::new(r, p, n);
            let case = circuit.case(r, Kind::Prove);
            let mut buffers = case.buffers.clone();
            let mut lent: Vec<&mut [u32]> = buffers.iter_mut().map(|b| &mut b[..]).collect();
            if plainly(&case, &mut lent)[0] == 0 {
                return circuit;
            }
        }
    }

    // A fault of the circuit or of its filling: a row below l that is no public row, a gate that fails, a content unlike its label's others, a zero
    // denominator.
    pub fn damage(&mut self, r: &mut Random) {
        let (p, n, l) = (self.p, self.n as usize, self.l as usize);
        let k = r.below(lengths::positions(n));
        let at = rows::place(k % n, k / n);
        match r.below(5) {
            0 => {
                let q = r.below(lengths::selectors(n));
                self.selectors[q] = r.element(p);
            }
            1 => self.contents[at] = r.element(p),
            2 => {
                self.contents[at] = r.element(p);
                self.mend_gates();
            }
            3 if l > 0 => {
                let any = r.element(p);
                self.selectors[r.below(SELECTORS) * n + r.below(l)] = r.pick(&[0, 1, 2, p - 1, any]);
            }
            _ => {
                let own = rows::marks(p, &points(p, n));
                let wired = rows::wired_marks(&own, &self.labels);
                let part = add(p, self.contents[at], mul(p, self.challenges[0], wired[k]));
                self.challenges[1] = sub(p, 0, part);
            }
        }
    }

    // z at the rows; ones where there is none.
    fn z(&self) -> Vec<u32> {
        let (p, n) = (self.p, self.n as usize);
        let own = rows::marks(p, &points(p, n));
        let wired = rows::wired_marks(&own, &self.labels);
        rows::grand(p, n, &self.contents, &own, &wired, self.challenges[0], self.challenges[1]).unwrap_or(vec![1; n])
    }

    fn prepared(&self) -> Vec<u32> {
        let n = self.n as usize;
        let mut written = vec![0; lengths::prepared(n)];
        plain::prepare(self.p, self.n, self.l, &self.selectors, &self.labels, &mut written, &mut vec![0; lengths::scratch(n)]);
        written
    }

    // The transcript of the plain implementation, blinded or not, over a retired prime too; zeros where it refuses.
    fn transcript(&self) -> Vec<u32> {
        let n = self.n as usize;
        let mut transcript = vec![0; lengths::transcript(self.e(), n)];
        let scratch = &mut vec![0; lengths::work(self.e(), n)];
        let (s, k, c, x) = (&self.selectors, &self.labels, &self.contents, &self.publics);
        let challenges = &self.challenges[..PROVE_CHALLENGES];
        let blinders = self.blinders.as_ref().map(|nine| &nine[..]);
        plain::prove_filed(add_product, self.p, self.n, self.l, s, k, c, x, &mut transcript, challenges, blinders, scratch);
        transcript
    }

    // All polynomials of the prepared circuit and the transcript, at zeta, mixed with alpha.
    fn opening(&self) -> Opening {
        Opening {
            p: self.p,
            n: self.n,
            prepared: self.prepared(),
            transcript: self.transcript(),
            list: (0..POLYNOMIALS as u32).collect(),
            challenges: [self.challenges[3], self.challenges[2]],
        }
    }

    // The call of a kind on this circuit. A call that is lent a transcript is lent that of this circuit, blinded or not; one that blinds is lent nine
    // numbers that are drawn, where this circuit has none. Buffers that are only written hold anything.
    pub fn case(&self, r: &mut Random, kind: Kind) -> Case {
        let (p, n) = (self.p, self.n as usize);
        let selectors = self.selectors.clone();
        let labels = self.labels.clone();
        let contents = self.contents.clone();
        let publics = self.publics.clone();
        let scratch = r.words(lengths::scratch(n));
        let work = |r: &mut Random, e: usize| r.words(lengths::work(e, n));
        let laid = |r: &mut Random, e: usize| r.words(lengths::transcript(e, n));
        let first = |count: usize| self.challenges[..count].to_vec();
        let buffers = match kind {
            Kind::Inverse => vec![],
            Kind::Evaluate | Kind::Interpolate => vec![r.elements(p, n), r.words(n), scratch],
            Kind::Permutation => vec![labels, r.words(lengths::positions(n))],
            Kind::Prepare => vec![selectors, labels, r.words(lengths::prepared(n)), scratch],
            Kind::CheckRows => vec![selectors, labels, contents, publics, self.z(), first(CHECK_ROWS_CHALLENGES)],
            Kind::CheckPoint => vec![publics, self.prepared(), self.transcript(), self.challenges.to_vec(), work(r, self.e())],
            Kind::Open | Kind::CheckOpening => return self.opening().case(r, kind),
            Kind::Prove => vec![selectors, labels, contents, publics, laid(r, 0), first(PROVE_CHALLENGES), work(r, 0)],
            Kind::ProveBlinded => {
                let nine = self.blinded(r).nine().to_vec();
                vec![selectors, labels, contents, publics, laid(r, 1), first(PROVE_CHALLENGES), nine, work(r, 1)]
            }
            Kind::LostGammas => vec![contents, first(LOST_GAMMAS_CHALLENGES)],
            Kind::ToRows => vec![rows::by_position(&contents), r.words(lengths::positions(n))],
            Kind::ToColumns => vec![contents, r.words(lengths::positions(n))],
        };
        let n = if kind == Kind::Inverse { r.element(p) } else { self.n };
        Case { kind, p, n, l: self.l, buffers }
    }
}

// Another element or polynomial somewhere in what a check reads: an honest input that is honest no longer.
pub fn disturb(r: &mut Random, case: &mut Case) {
    let p = case.p;
    let k = r.below(case.buffers.len());
    let length = case.buffers[k].len();
    let bound = match case.kind.roles()[k] {
        Role::Elements => p,
        Role::Polynomials => POLYNOMIALS as u32,
        Role::Labels | Role::Words | Role::Written => return,
    };
    if length > 0 {
        case.buffers[k][r.below(length)] = r.element(bound);
    }
}

// A point that is a row's, in the place of zeta.
pub fn at_a_row(r: &mut Random, case: &mut Case) {
    if case.kind == Kind::CheckPoint {
        case.buffers[3][3] = r.pick(&points(case.p, case.n as usize));
    }
}

// By how much an opening, a transcript and a scratch are longer where the transcript is blinded, whatever the number of rows.
fn steps() -> [usize; 3] {
    [lengths::opening, lengths::transcript, lengths::work].map(|length| length(1, 2) - length(0, 2))
}

// Another length: one off, none, twice as many, as many as a blinded transcript has more, or fewer of these.
fn resize(r: &mut Random, buffer: &mut Vec<u32>, p: u32) {
    let length = buffer.len();
    let step = r.pick(&steps());
    let fewer = r.below(step);
    let new = match r.below(8) {
        0 | 1 => length + 1,
        2 | 3 => length.saturating_sub(1),
        4 => 0,
        5 => 2 * length + 2,
        6 => r.pick(&[length + step, length.saturating_sub(step)]),
        _ => r.pick(&[length + fewer, length.saturating_sub(fewer)]),
    };
    buffer.resize_with(new, || r.element(p.max(1)));
}

// One change that the documents have a reason for, or nearly have.
pub fn damage(r: &mut Random, case: &mut Case) {
    let (p, n, l) = (case.p, case.n, case.l);
    let kind = case.kind;
    if kind == Kind::Inverse {
        if r.once_in(2) {
            case.p = r.pick(&[0, 1, 2, 16, 18, 17, 96, 98, 97, LARGEST - 1, LARGEST, LARGEST + 1, u32::MAX]);
        } else {
            case.n = r.pick(&[0, 1, p.wrapping_sub(1), p, p.wrapping_add(1), u32::MAX]);
        }
        return;
    }
    let k = r.below(case.buffers.len());
    match r.below(9) {
        0 if kind.has_p() => case.p = r.pick(&[0, 1, 2, 3, 16, 18, 17, 96, 98, 97, LARGEST - 1, LARGEST, LARGEST + 1, u32::MAX]),
        1 => {
            case.n = r.pick(&[
                0,
                1,
                2,
                3,
                4,
                6,
                8,
                32,
                64,
                1024,
                2048,
                1 << 31,
                u32::MAX,
                n.wrapping_add(1),
                n.wrapping_sub(1),
                n.wrapping_mul(2),
            ])
        }
        2 if kind.has_l() => case.l = r.pick(&[0, n, n.wrapping_add(1), l.wrapping_add(1), l.wrapping_sub(1), u32::MAX]),
        2 if kind.has_list() => relist(r, case),
        3 | 4 => resize(r, &mut case.buffers[k], p),
        _ if case.buffers[k].is_empty() => {}
        _ => {
            let length = case.buffers[k].len();
            let at = match r.below(4) {
                0 => 0,
                1 => length - 1,
                _ => r.below(length),
            };
            let bound = match kind.roles()[k] {
                Role::Elements => p,
                Role::Labels => n.wrapping_mul(lengths::COLUMNS as u32),
                Role::Polynomials => POLYNOMIALS as u32,
                Role::Words => u32::MAX,
                Role::Written => return,
            };
            case.buffers[k][at] = r.pick(&[bound, bound, bound.wrapping_add(1), u32::MAX, bound.wrapping_sub(1)]);
        }
    }
}
