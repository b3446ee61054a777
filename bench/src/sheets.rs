// The sheet of document 01, with the line of nine numbers that it may end with (document 02, request 9): reading one, and the text of a deposit,
// written plainly from the documents.
use crate::cases::Circuit;
use crate::lengths::{self, COLUMNS, GATE_LINE, MOST_ROWS_SHEET, PROVE_CHALLENGES};
use crate::plain::{self, admitted, bound, current, elements, few, labelled, Refusal};
use crate::polynomials::add_product;
use crate::rows::place;
use std::fmt::Write;

// A number: digits, no leading zero, below 2^32 and so of at most 10 digits.
fn number(field: &[u8]) -> Option<u32> {
    if field.is_empty() || field.len() > 10 || field.len() > 1 && field[0] == b'0' {
        return None;
    }
    let mut x = 0;
    for &b in field {
        if !b.is_ascii_digit() {
            return None;
        }
        x = 10 * x + (b - b'0') as u64;
    }
    u32::try_from(x).ok()
}

// A line of K numbers that ends in byte 10.
fn line<const K: usize>(line: Option<&[u8]>) -> Option<[u32; K]> {
    let mut fields = line?.strip_suffix(b"\n")?.split(|&b| b == b',');
    let mut out = [0; K];
    for x in &mut out {
        *x = number(fields.next()?)?;
    }
    fields.next().is_none().then_some(out)
}

// Lines of K numbers, the first of them line `from`, each number laid at the place of its row and column.
fn block<'a, const K: usize>(
    lines: &mut impl Iterator<Item = &'a [u8]>, from: u32, count: u32, place: impl Fn(usize, usize) -> usize,
) -> Result<Vec<u32>, Refusal> {
    let n = count as usize;
    let mut out = vec![0; K * n];
    for i in 0..n {
        let numbers = line::<K>(lines.next()).ok_or([5, from + i as u32])?;
        for (k, x) in numbers.into_iter().enumerate() {
            out[place(i, k)] = x;
        }
    }
    Ok(out)
}

// 1 to 5, and for a new sheet 16 straight after 2.
pub fn parse(sheet: &[u8], new: bool) -> Result<Circuit, Refusal> {
    if sheet.len() > lengths::SHEET {
        return Err([1, 0]);
    }
    let mut lines = sheet.split_inclusive(|&b| b == 10);
    let [p, n, l] = line(lines.next()).ok_or([1, 0])?;
    if new {
        current(p)?;
    }
    admitted(p, n)?;
    if n > MOST_ROWS_SHEET {
        return Err([3, 0]);
    }
    few(l, n)?;
    let by_columns = |i: usize, k: usize| k * n as usize + i;
    let mut selectors = block::<GATE_LINE>(&mut lines, 2, n, by_columns)?;
    let labels = selectors.split_off(lengths::selectors(n as usize));
    let contents = block::<COLUMNS>(&mut lines, 2 + n, n, place)?;
    let publics = block::<1>(&mut lines, 2 + 2 * n, l, |i, _| i)?;
    let challenges = line(lines.next()).ok_or([5, 2 + 2 * n + l])?;
    let blinders = match lines.next() {
        None => None,
        last => Some(line(last).ok_or([5, 3 + 2 * n + l])?),
    };
    match lines.next() {
        Some(_) => Err([5, 4 + 2 * n + l]),
        None => Ok(Circuit { p, n, l, selectors, labels, contents, publics, challenges, blinders }),
    }
}

// 7, 8 and 14.
pub fn judge(s: &Circuit) -> Result<(), Refusal> {
    elements(s.p, &[&s.selectors, &s.contents, &s.publics, &s.challenges, s.nine()])?;
    labelled(&s.labels)?;
    bound(s.n as usize, s.l, &s.selectors)
}

// 1 to 8 and 14, the buffers in their order.
fn decide(sheet: &[u8], new: bool, lent: &[&mut [u32]; 5]) -> Result<Circuit, Refusal> {
    let s = parse(sheet, new)?;
    let due = [0, 1, 2, 3, 4].map(|k| (&*lent[k], lengths::READ[k]));
    plain::lent(&due).map_err(|[number, place]| [number, place + 1])?; // the sheet is the first buffer
    judge(&s)?;
    Ok(s)
}

// The numbers at the start of a buffer, zeros behind.
fn lay(numbers: &[u32], buffer: &mut [u32]) {
    buffer[..numbers.len()].copy_from_slice(numbers);
    buffer[numbers.len()..].fill(0);
}

// Selectors, labels, contents, public numbers, and challenges with the nine numbers behind them.
pub fn read(sheet: &[u8], lent: &mut [&mut [u32]; 5]) -> [u32; 6] {
    match decide(sheet, false, lent) {
        Ok(s) => {
            lay(&s.selectors, lent[0]);
            lay(&s.labels, lent[1]);
            lay(&s.contents, lent[2]);
            lay(&s.publics, lent[3]);
            lay(&[&s.challenges, s.nine()].concat(), lent[4]);
            [0, 0, s.p, s.n, s.l, s.e() as u32]
        }
        Err([number, detail]) => [number, detail, 0, 0, 0, 0],
    }
}

fn print_line(out: &mut String, word: &str, numbers: &[u32]) {
    out.push_str(word);
    for x in numbers {
        write!(out, ",{x}").unwrap();
    }
    out.push('\n');
}

// The five polynomials, blinded where the line of nine numbers is there, and the point verdict.
fn print_work(s: &Circuit) -> Result<String, Refusal> {
    let (e, n) = (s.e(), s.n as usize);
    let mut transcript = vec![0; lengths::transcript(e, n)];
    let mut prepared = vec![0; lengths::prepared(n)];
    let scratch = &mut vec![0; lengths::scratch(n)];
    let work = &mut vec![0; lengths::work(e, n)];
    let challenges = &s.challenges[..PROVE_CHALLENGES];
    let blinders = s.blinders.as_ref().map(|nine| &nine[..]);
    let (q, k, c, x) = (&s.selectors, &s.labels, &s.contents, &s.publics);
    let made = plain::prove_with(add_product, s.p, s.n, s.l, q, k, c, x, &mut transcript, challenges, blinders, work);
    if made[0] != 0 {
        return Err(made);
    }
    plain::prepare(s.p, s.n, s.l, q, k, &mut prepared, scratch);
    let verdict = plain::check_point(s.p, s.n, s.l, x, &prepared, &transcript, &s.challenges, work);
    let mut out = String::new();
    for (k, letter) in ["a", "b", "c"].into_iter().enumerate() {
        print_line(&mut out, letter, &transcript[lengths::wire_part(e, n, k)]);
    }
    print_line(&mut out, "z", &transcript[lengths::z_part(e, n)]);
    print_line(&mut out, "t", &transcript[lengths::t_part(e, n)]);
    print_line(&mut out, ["none", "accept", "reject"][verdict[2] as usize], &[]);
    Ok(out)
}

// What `deposit` prints.
pub fn printed(sheet: &[u8]) -> String {
    let mut own = lengths::READ.map(|length| vec![0; length]);
    let lent = own.each_mut().map(|b| &mut b[..]);
    match decide(sheet, true, &lent).and_then(|s| print_work(&s)) {
        Ok(out) => out,
        Err(refusal) => {
            let mut out = String::new();
            print_line(&mut out, "refused", &refusal);
            out
        }
    }
}

// That text at the start of a buffer of its length, zeros behind.
pub fn deposit(sheet: &[u8], text: &mut [u8]) -> [u32; 3] {
    if text.len() != lengths::TEXT {
        return [6, 2, 0];
    }
    let out = printed(sheet);
    text[..out.len()].copy_from_slice(out.as_bytes());
    text[out.len()..].fill(0);
    [0, 0, out.len() as u32]
}
