// The calls by name, the buffers of each in document 01's order, and how a case is lent to either side.
use crate::{calls, losses, openings, plain, transfers};

#[derive(Clone, Copy, PartialEq, Debug)]
pub enum Kind {
    Inverse,
    Evaluate,
    Interpolate,
    Permutation,
    Prepare,
    CheckRows,
    CheckPoint,
    Open,
    CheckOpening,
    Prove,
    ProveBlinded,
    LostGammas,
    ToRows,
    ToColumns,
}

pub const KINDS: [Kind; 14] = [
    Kind::Inverse,
    Kind::Evaluate,
    Kind::Interpolate,
    Kind::Permutation,
    Kind::Prepare,
    Kind::CheckRows,
    Kind::CheckPoint,
    Kind::Open,
    Kind::CheckOpening,
    Kind::Prove,
    Kind::ProveBlinded,
    Kind::LostGammas,
    Kind::ToRows,
    Kind::ToColumns,
];

// What a buffer holds: elements, labels, the numbers of polynomials or any words that are read, or numbers that are only written.
#[derive(Clone, Copy, PartialEq, Debug)]
pub enum Role {
    Elements,
    Labels,
    Polynomials,
    Words,
    Written,
}

impl Kind {
    pub fn roles(self) -> &'static [Role] {
        use Role::*;
        match self {
            Kind::Inverse => &[],
            Kind::Evaluate | Kind::Interpolate => &[Elements, Written, Written],
            Kind::Permutation => &[Labels, Written],
            Kind::Prepare => &[Elements, Labels, Written, Written],
            Kind::CheckRows => &[Elements, Labels, Elements, Elements, Elements, Elements],
            Kind::CheckPoint => &[Elements, Elements, Elements, Elements, Written],
            Kind::Open => &[Elements, Elements, Polynomials, Written, Written, Elements, Written],
            Kind::CheckOpening => &[Elements, Elements, Polynomials, Elements, Elements, Elements, Written],
            Kind::Prove => &[Elements, Labels, Elements, Elements, Written, Elements, Written],
            Kind::ProveBlinded => &[Elements, Labels, Elements, Elements, Written, Elements, Elements, Written],
            Kind::LostGammas => &[Elements, Elements],
            Kind::ToRows | Kind::ToColumns => &[Words, Written],
        }
    }

    // The call's name without the prefix.
    pub fn name(self) -> &'static str {
        match self {
            Kind::Inverse => "inverse",
            Kind::Evaluate => "evaluate",
            Kind::Interpolate => "interpolate",
            Kind::Permutation => "permutation",
            Kind::Prepare => "prepare",
            Kind::CheckRows => "check_rows",
            Kind::CheckPoint => "check_point",
            Kind::Open => "open",
            Kind::CheckOpening => "check_opening",
            Kind::Prove => "prove",
            Kind::ProveBlinded => "prove_blinded",
            Kind::LostGammas => "lost_gammas",
            Kind::ToRows => "to_rows",
            Kind::ToColumns => "to_columns",
        }
    }

    // The words of its answer.
    pub fn words(self) -> usize {
        match self {
            Kind::Inverse | Kind::CheckRows => 4,
            Kind::CheckPoint | Kind::CheckOpening | Kind::LostGammas => 3,
            _ => 2,
        }
    }

    // Whether the call is lent p: all but those that take contents from one layout to the other.
    pub fn has_p(self) -> bool {
        !matches!(self, Kind::ToRows | Kind::ToColumns)
    }

    // Whether the call is lent l.
    pub fn has_l(self) -> bool {
        matches!(self, Kind::Prepare | Kind::CheckRows | Kind::CheckPoint | Kind::Prove | Kind::ProveBlinded)
    }

    // Whether the call is lent a list of polynomials.
    pub fn has_list(self) -> bool {
        matches!(self, Kind::Open | Kind::CheckOpening)
    }

    // Whether the call answers a verdict on what it is lent.
    pub fn checks(self) -> bool {
        matches!(self, Kind::CheckRows | Kind::CheckPoint | Kind::CheckOpening)
    }
}

// A call with what is lent to it. The number to be inverted stands in the place of n.
#[derive(Clone, Debug)]
pub struct Case {
    pub kind: Kind,
    pub p: u32,
    pub n: u32,
    pub l: u32,
    pub buffers: Vec<Vec<u32>>,
}

// The plain implementation's answer; the buffers are written as it writes them.
pub fn plainly(case: &Case, buffers: &mut [&mut [u32]]) -> Vec<u32> {
    let (p, n, l) = (case.p, case.n, case.l);
    match (case.kind, buffers) {
        (Kind::Inverse, []) => plain::inverse(p, n).to_vec(),
        (Kind::Evaluate, [input, result, scratch]) => plain::evaluate(p, n, input, result, scratch).to_vec(),
        (Kind::Interpolate, [input, result, scratch]) => plain::interpolate(p, n, input, result, scratch).to_vec(),
        (Kind::Permutation, [labels, positions]) => plain::permutation(p, n, labels, positions).to_vec(),
        (Kind::Prepare, [selectors, labels, written, scratch]) => plain::prepare(p, n, l, selectors, labels, written, scratch).to_vec(),
        (Kind::CheckRows, [selectors, labels, contents, publics, z, challenges]) => {
            plain::check_rows(p, n, l, selectors, labels, contents, publics, z, challenges).to_vec()
        }
        (Kind::CheckPoint, [publics, prepared, transcript, challenges, scratch]) => {
            plain::check_point(p, n, l, publics, prepared, transcript, challenges, scratch).to_vec()
        }
        (Kind::Open, [prepared, transcript, list, evaluations, opening, challenges, scratch]) => {
            openings::open(p, n, prepared, transcript, list, evaluations, opening, challenges, scratch).to_vec()
        }
        (Kind::CheckOpening, [prepared, transcript, list, evaluations, opening, challenges, scratch]) => {
            openings::check_opening(p, n, prepared, transcript, list, evaluations, opening, challenges, scratch).to_vec()
        }
        (Kind::Prove, [selectors, labels, contents, publics, transcript, challenges, scratch]) => {
            plain::prove(p, n, l, selectors, labels, contents, publics, transcript, challenges, scratch).to_vec()
        }
        (Kind::ProveBlinded, [selectors, labels, contents, publics, transcript, challenges, blinders, scratch]) => {
            plain::prove_blinded(p, n, l, selectors, labels, contents, publics, transcript, challenges, blinders, scratch).to_vec()
        }
        (Kind::LostGammas, [contents, challenges]) => losses::lost_gammas(p, n, contents, challenges).to_vec(),
        (Kind::ToRows, [columns, rows]) => transfers::to_rows(n, columns, rows).to_vec(),
        (Kind::ToColumns, [rows, columns]) => transfers::to_columns(n, rows, columns).to_vec(),
        _ => unreachable!("a case has the buffers of its call"),
    }
}

// The proved library on the same case; its answer's words go to the lent answer.
pub fn proved(case: &Case, buffers: &mut [&mut [u32]], answer: &mut [u32]) {
    let (p, n, l) = (case.p, case.n, case.l);
    match (case.kind, buffers) {
        (Kind::Inverse, []) => calls::inverse(p, n, answer),
        (Kind::Evaluate, [input, result, scratch]) => calls::evaluate(p, n, input, result, scratch, answer),
        (Kind::Interpolate, [input, result, scratch]) => calls::interpolate(p, n, input, result, scratch, answer),
        (Kind::Permutation, [labels, positions]) => calls::permutation(p, n, labels, positions, answer),
        (Kind::Prepare, [selectors, labels, written, scratch]) => calls::prepare(p, n, l, selectors, labels, written, scratch, answer),
        (Kind::CheckRows, [selectors, labels, contents, publics, z, challenges]) => {
            calls::check_rows(p, n, l, selectors, labels, contents, publics, z, challenges, answer)
        }
        (Kind::CheckPoint, [publics, prepared, transcript, challenges, scratch]) => {
            calls::check_point(p, n, l, publics, prepared, transcript, challenges, scratch, answer)
        }
        (Kind::Open, [prepared, transcript, list, evaluations, opening, challenges, scratch]) => {
            calls::open(p, n, prepared, transcript, list, evaluations, opening, challenges, scratch, answer)
        }
        (Kind::CheckOpening, [prepared, transcript, list, evaluations, opening, challenges, scratch]) => {
            calls::check_opening(p, n, prepared, transcript, list, evaluations, opening, challenges, scratch, answer)
        }
        (Kind::Prove, [selectors, labels, contents, publics, transcript, challenges, scratch]) => {
            calls::prove(p, n, l, selectors, labels, contents, publics, transcript, challenges, scratch, answer)
        }
        (Kind::ProveBlinded, [selectors, labels, contents, publics, transcript, challenges, blinders, scratch]) => {
            calls::prove_blinded(p, n, l, selectors, labels, contents, publics, transcript, challenges, blinders, scratch, answer)
        }
        (Kind::LostGammas, [contents, challenges]) => calls::lost_gammas(p, n, contents, challenges, answer),
        (Kind::ToRows, [columns, rows]) => calls::to_rows(n, columns, rows, answer),
        (Kind::ToColumns, [rows, columns]) => calls::to_columns(n, rows, columns, answer),
        _ => unreachable!("a case has the buffers of its call"),
    }
}
