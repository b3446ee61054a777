// Every length and count that the other files go by, worked out from documents 01 and 02 and apart from the library, so that a wrong length there
// shows.
use std::ops::Range;

// The greatest number of rows of each prime, and on a sheet.
pub const MOST_ROWS_17: u32 = 4;
pub const MOST_ROWS_97: u32 = 32;
pub const MOST_ROWS_LARGEST: u32 = 1024;
pub const MOST_ROWS_SHEET: u32 = 256;

// The columns of a circuit, a, b and c, and the selectors of a row: qL, qR, qO, qM and qC.
pub const COLUMNS: usize = 3;
pub const SELECTORS: usize = 5;

// The polynomials of a prepared circuit, those of the selectors and of the columns' wired marks; with the wires, z and t, the polynomials by
// number. A list has as many numbers or fewer.
pub const PREPARED: usize = SELECTORS + COLUMNS;
pub const POLYNOMIALS: usize = PREPARED + COLUMNS + 2;

// The challenges: of lost_gammas beta, of check_rows gamma too, of prove alpha too, of check_point and on a sheet zeta too; of an opening the point
// and the mixing number.
pub const LOST_GAMMAS_CHALLENGES: usize = 1;
pub const CHECK_ROWS_CHALLENGES: usize = 2;
pub const PROVE_CHALLENGES: usize = 3;
pub const CHALLENGES: usize = 4;
pub const OPENING_CHALLENGES: usize = 2;

// The numbers that a transcript is blinded with: two for each wire, and three for z.
pub const WIRE_BLINDERS: usize = 2;
pub const Z_BLINDERS: usize = 3;
pub const BLINDERS: usize = COLUMNS * WIRE_BLINDERS + Z_BLINDERS;

// The words of the selectors of n rows, of what stands for every position (labels, contents, positions), of a prepared circuit, and of the scratch
// of a call that has no transcript.
pub const fn selectors(n: usize) -> usize {
    SELECTORS * n
}

pub const fn positions(n: usize) -> usize {
    COLUMNS * n
}

pub const fn prepared(n: usize) -> usize {
    PREPARED * n
}

pub const fn scratch(n: usize) -> usize {
    16 * n
}

// From here on e is 1 where the transcript is blinded, and 0 where it is not.

// The words of the scratch of a call that lays a transcript or is lent one.
pub const fn work(e: usize, n: usize) -> usize {
    scratch(n) + 64 * e
}

// The coefficients of a wire and of z: (b1 X + b2)(X^n - 1) has two more than there are rows, (b7 X^2 + b8 X + b9)(X^n - 1) three more.
pub const fn wire(e: usize, n: usize) -> usize {
    n + WIRE_BLINDERS * e
}

pub const fn z(e: usize, n: usize) -> usize {
    n + Z_BLINDERS * e
}

// Those of F, whose longest term is z times a factor of each column, and of its quotient by X^n - 1.
pub const fn whole(e: usize, n: usize) -> usize {
    z(e, n) + COLUMNS * (wire(e, n) - 1)
}

pub const fn quotient(e: usize, n: usize) -> usize {
    whole(e, n) - n
}

// The words of a transcript, and of an opening: t is the longest polynomial, and its quotient by X - x has one coefficient less.
pub const fn transcript(e: usize, n: usize) -> usize {
    COLUMNS * wire(e, n) + z(e, n) + quotient(e, n)
}

pub const fn opening(e: usize, n: usize) -> usize {
    quotient(e, n) - 1
}

// The e of a transcript that is lent: its length alone decides. One of neither length is taken for the shorter, which it is not.
pub fn blinded_by(n: usize, lent: &[u32]) -> usize {
    (lent.len() == transcript(1, n)) as usize
}

// Where polynomial k of a prepared circuit stands.
pub fn prepared_part(n: usize, k: usize) -> Range<usize> {
    k * n..(k + 1) * n
}

// Where wire k, z and t stand in a transcript.
pub fn wire_part(e: usize, n: usize, k: usize) -> Range<usize> {
    k * wire(e, n)..(k + 1) * wire(e, n)
}

pub fn z_part(e: usize, n: usize) -> Range<usize> {
    COLUMNS * wire(e, n)..COLUMNS * wire(e, n) + z(e, n)
}

pub fn t_part(e: usize, n: usize) -> Range<usize> {
    COLUMNS * wire(e, n) + z(e, n)..transcript(e, n)
}

// A sheet: its most bytes, the numbers of a gate's line, and the words of the five buffers that it is read into, of which the last has room for the
// challenges and the nine numbers behind them.
pub const SHEET: usize = 65536;
pub const GATE_LINE: usize = SELECTORS + COLUMNS;
pub const READ: [usize; 5] = {
    let n = MOST_ROWS_SHEET as usize;
    [selectors(n), positions(n), positions(n), n, CHALLENGES + BLINDERS]
};

// The bytes of the buffers for a deposit's text and for a joined sheet.
pub const TEXT: usize = 20480;
pub const JOINED: usize = 65536;
