// Contents taken from one layout to the other (document 02, request 8), written plainly from its text.
use crate::lengths::positions;
use crate::numbers::PRIMES;
use crate::plain::{admitted, answer, lent, Refusal};
use crate::rows::{lay_columns, lay_rows};

// 3, where no prime has so many rows, and 6.
fn decide(n: u32, from: &[u32], to: &[u32]) -> Result<(), Refusal> {
    let m = PRIMES.into_iter().find_map(|p| admitted(p, n).ok()).ok_or([3, 0])?;
    lent(&[(from, positions(m)), (to, positions(m))])
}

pub fn to_rows(n: u32, columns: &[u32], rows: &mut [u32]) -> [u32; 2] {
    let r = decide(n, columns, rows);
    if r.is_ok() {
        lay_rows(columns, rows);
    }
    answer(r)
}

pub fn to_columns(n: u32, rows: &[u32], columns: &mut [u32]) -> [u32; 2] {
    let r = decide(n, rows, columns);
    if r.is_ok() {
        lay_columns(rows, columns);
    }
    answer(r)
}
