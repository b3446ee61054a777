// The joining of two sheets of document 02, written plainly from its text.
use crate::cases::Circuit;
use crate::lengths::{positions, GATE_LINE, JOINED, MOST_ROWS_SHEET, SELECTORS};
use crate::plain::{admitted, Refusal};
use crate::rows::row_of;
use crate::sheets::{judge, parse};

// The reasons in their order: those of the first sheet, with 6 between 5 and 7; those of the second, which has no 6; those of the pair.
fn decide(one: &[u8], two: &[u8], room: usize) -> Result<[Circuit; 2], Refusal> {
    let first = parse(one, true)?;
    if room != JOINED {
        return Err([6, 3]);
    }
    judge(&first)?;
    let second = parse(two, true)?;
    judge(&second)?;
    if (first.p, first.n) != (second.p, second.n) {
        return Err([15, 0]);
    }
    admitted(first.p, 2 * first.n)?;
    if 2 * first.n > MOST_ROWS_SHEET {
        return Err([3, 0]);
    }
    Ok([first, second])
}

// The rows of the joined sheet, each as the sheet that it stands on, 0 or 1, and its row there.
fn rows(pair: &[Circuit; 2]) -> Vec<(usize, usize)> {
    let [n, l, m] = [pair[0].n, pair[0].l, pair[1].l].map(|x| x as usize);
    let mut rows = Vec::with_capacity(2 * n);
    rows.extend((0..l).map(|i| (0, i)));
    rows.extend((0..m).map(|i| (1, i)));
    rows.extend((l..n).map(|i| (0, i)));
    rows.extend((m..n).map(|i| (1, i)));
    rows
}

// A number in decimal digits. It is put there from its last digit on.
fn put_number(out: &mut Vec<u8>, mut x: u32) {
    let mut digits = [0; 10];
    let mut at = digits.len();
    loop {
        at -= 1;
        digits[at] = b'0' + (x % 10) as u8;
        x /= 10;
        if x == 0 {
            break;
        }
    }
    out.extend_from_slice(&digits[at..]);
}

// Numbers with commas between them, and byte 10.
fn put_line(out: &mut Vec<u8>, numbers: &[u32]) {
    for (k, &x) in numbers.iter().enumerate() {
        if k > 0 {
            out.push(b',');
        }
        put_number(out, x);
    }
    out.push(10);
}

// The joined sheet: the labels of the second are raised by 3n, the challenges are those of the first. Where a sheet has the line of nine numbers, it is
// dropped.
fn write(pair: &[Circuit; 2]) -> Vec<u8> {
    let [one, two] = pair;
    let n = one.n as usize;
    let rows = rows(pair);
    let mut out = Vec::with_capacity(JOINED);
    put_line(&mut out, &[one.p, 2 * one.n, one.l + two.l]);
    for &(k, i) in &rows {
        let mut line = [0; GATE_LINE];
        for (column, number) in line.iter_mut().enumerate() {
            *number = match column.checked_sub(SELECTORS) {
                None => pair[k].selectors[column * n + i],
                Some(column) => pair[k].labels[column * n + i] + [0, positions(n) as u32][k],
            };
        }
        put_line(&mut out, &line);
    }
    for &(k, i) in &rows {
        put_line(&mut out, &row_of(&pair[k].contents, i));
    }
    for &x in one.publics.iter().chain(&two.publics) {
        put_line(&mut out, &[x]);
    }
    put_line(&mut out, &one.challenges);
    out
}

// The joined sheet at the start of a buffer of its length, zeros behind.
pub fn join(one: &[u8], two: &[u8], joined: &mut [u8]) -> [u32; 3] {
    match decide(one, two, joined.len()) {
        Ok(pair) => {
            let out = write(&pair);
            joined[..out.len()].copy_from_slice(&out);
            joined[out.len()..].fill(0);
            [0, 0, out.len() as u32]
        }
        Err([number, detail]) => [number, detail, 0],
    }
}
