// Sheets: those of generated circuits, with the line of nine numbers or without, and changes of their bytes and lines.
use crate::cases::Circuit;
use crate::lengths::{positions, BLINDERS, CHALLENGES, COLUMNS, SELECTORS, SHEET};
use crate::numbers::LARGEST;
use crate::random::Random;
use crate::rows::row_of;

fn push_line(out: &mut Vec<u8>, numbers: impl Iterator<Item = u32>) {
    let fields: Vec<String> = numbers.map(|x| x.to_string()).collect();
    out.extend_from_slice(fields.join(",").as_bytes());
    out.push(10);
}

// The sheet of a circuit, which ends with the nine numbers where its transcript is to be blinded.
pub fn sheet_of(c: &Circuit) -> Vec<u8> {
    let n = c.n as usize;
    let mut out = Vec::new();
    push_line(&mut out, [c.p, c.n, c.l].into_iter());
    for i in 0..n {
        let selectors = (0..SELECTORS).map(|k| c.selectors[k * n + i]);
        push_line(&mut out, selectors.chain((0..COLUMNS).map(|k| c.labels[k * n + i])));
    }
    for i in 0..n {
        push_line(&mut out, row_of(&c.contents, i).into_iter());
    }
    for &x in &c.publics {
        push_line(&mut out, [x].into_iter());
    }
    push_line(&mut out, c.challenges.into_iter());
    if let Some(nine) = c.blinders {
        push_line(&mut out, nine.into_iter());
    }
    out
}

// Nine numbers, or nearly nine, and now and then one that is no element; mostly with byte 10.
fn nearly_nine(r: &mut Random, p: u32) -> Vec<u8> {
    let count = r.pick(&[BLINDERS, BLINDERS, BLINDERS, BLINDERS - 1, BLINDERS + 1, CHALLENGES]);
    let wrong = r.once_in(4).then(|| r.below(count));
    let numbers: Vec<u32> = (0..count).map(|k| if wrong == Some(k) { p } else { r.element(p.max(1)) }).collect();
    let mut line = Vec::new();
    push_line(&mut line, numbers.into_iter());
    if r.once_in(6) {
        line.pop();
    }
    line
}

// A byte that often stands on sheets, or nearly does; now and then any byte.
fn byte(r: &mut Random) -> u8 {
    match r.below(8) {
        0 => r.word() as u8,
        1 => r.pick(b" -+.x\r\0/:\t\"\xff\x80\x0b"),
        2 => 10,
        3 => b',',
        4 => b'0',
        _ => b'0' + r.below(10) as u8,
    }
}

// A number as it may stand on a sheet, or may not.
fn field(r: &mut Random, p: u32, n: u32) -> Vec<u8> {
    let any = r.word();
    let count = positions(n as usize) as u32;
    let near = r.pick(&[0, 1, p, p.wrapping_sub(1), p.wrapping_add(1), count, count - 1, n, n + 1, u32::MAX]);
    match r.below(8) {
        0 => any.to_string().into_bytes(),
        1 => (u32::MAX as u64 + r.below(3) as u64).to_string().into_bytes(),
        2 => format!("0{near}").into_bytes(),
        3 => r
            .pick(&[&b""[..], b"00", b"-1", b"+1", b" 1", b"1 ", b"0x1", b"1.0", b"4294967296", b"42949672950", b"18446744073709551616"])
            .to_vec(),
        4 => {
            let length = r.pick(&[9, 10, 11, 19, 20, 21, 40, 300]);
            digits(r, length)
        }
        _ => near.to_string().into_bytes(),
    }
}

// A run of digits; half of them of one digit.
fn digits(r: &mut Random, length: usize) -> Vec<u8> {
    let one = b'0' + r.below(10) as u8;
    let same = r.once_in(2);
    (0..length).map(|_| if same { one } else { b'0' + r.below(10) as u8 }).collect()
}

fn lines(sheet: &[u8]) -> Vec<Vec<u8>> {
    sheet.split_inclusive(|&b| b == 10).map(|line| line.to_vec()).collect()
}

// Another number in the place of one that stands on the sheet.
fn change_field(r: &mut Random, sheet: &mut Vec<u8>, p: u32, n: u32) {
    let mut all = lines(sheet);
    if all.is_empty() {
        return;
    }
    let i = match r.below(4) {
        0 => all.len() - 1,
        1 => 0,
        _ => r.below(all.len()),
    };
    let mut fields: Vec<Vec<u8>> = all[i].split(|&b| b == b',').map(|f| f.to_vec()).collect();
    let k = r.below(fields.len());
    let end = fields[k].ends_with(b"\n");
    fields[k] = field(r, p, n);
    if end {
        fields[k].push(10);
    }
    all[i] = fields.join(&b',');
    *sheet = all.concat();
}

// Other numbers on line 1.
fn change_first(r: &mut Random, sheet: &mut Vec<u8>, c: &Circuit) {
    let (mut p, mut n, mut l) = (c.p, c.n, c.l);
    match r.below(3) {
        0 => p = r.pick(&[0, 1, 16, 17, 18, 96, 97, 98, LARGEST - 1, LARGEST, LARGEST + 1, u32::MAX]),
        1 => n = r.pick(&[0, 1, 2, 3, 4, 8, 32, 64, 128, 256, 257, 512, 1024, 2048, 1 << 31, u32::MAX, n + 1, n - 1]),
        _ => l = r.pick(&[0, n, n + 1, l + 1, l.wrapping_sub(1), u32::MAX]),
    }
    let mut all = lines(sheet);
    if !all.is_empty() {
        all[0] = format!("{p},{n},{l}\n").into_bytes();
    }
    *sheet = all.concat();
}

// A line more, a line less, or two lines in each other's place.
fn change_lines(r: &mut Random, sheet: &mut Vec<u8>) {
    let mut all = lines(sheet);
    if all.is_empty() {
        return;
    }
    let (i, j) = (r.below(all.len()), r.below(all.len()));
    match r.below(5) {
        0 => {
            all.remove(i);
        }
        1 => all.insert(i, all[j].clone()),
        2 => all.insert(i, vec![10]),
        3 => all.insert(i, r.pick(&[&b"0\n"[..], b"0,0,0\n", b"1,1,1,1\n", b"0,0,0,0,0,0,0,0\n", b",\n", b"\r\n"]).to_vec()),
        _ => all.swap(i, j),
    }
    *sheet = all.concat();
}

// Something behind the last line: a line of nine numbers, or nearly, behind such a line or the challenges; or what is no such line.
fn append(r: &mut Random, sheet: &mut Vec<u8>, p: u32) {
    let more = match r.below(8) {
        0 => vec![10],
        1 => vec![byte(r)],
        2 => b"0\n".to_vec(),
        3 => sheet.clone(),
        _ => nearly_nine(r, p),
    };
    sheet.extend(more);
}

// Another last line in the place of the one that is there, or none.
fn change_last(r: &mut Random, sheet: &mut Vec<u8>, p: u32) {
    let mut all = lines(sheet);
    all.pop();
    *sheet = all.concat();
    if !r.once_in(4) {
        sheet.extend(nearly_nine(r, p));
    }
}

// More bytes, up to about the greatest length.
fn lengthen(r: &mut Random, sheet: &mut Vec<u8>) {
    let length = SHEET - 1 + r.below(4);
    let fill = r.pick(b"0\n,\x001");
    if r.once_in(2) {
        sheet.resize(length.max(sheet.len()), fill);
    } else {
        let first = sheet.iter().position(|&b| b == 10).unwrap_or(0);
        let fields = vec![fill; length.saturating_sub(sheet.len())];
        let at = r.pick(&[0, first, first + 1]).min(sheet.len());
        sheet.splice(at..at, fields);
    }
}

// One change.
pub fn change(r: &mut Random, sheet: &mut Vec<u8>, c: &Circuit) {
    let length = sheet.len();
    let at = match r.below(6) {
        0 => length.saturating_sub(1),
        1 => r.below(length.min(12)),
        _ => r.below(length),
    };
    match r.below(13) {
        0 | 1 if length > 0 => sheet[at] = byte(r),
        2 => sheet.insert(at, byte(r)),
        3 if length > 0 => {
            sheet.remove(at);
        }
        4 => sheet.truncate(at),
        5 => change_lines(r, sheet),
        6 | 11 => append(r, sheet, c.p),
        12 => change_last(r, sheet, c.p),
        7 => change_first(r, sheet, c),
        8 if r.once_in(4) => lengthen(r, sheet),
        _ => change_field(r, sheet, c.p, c.n),
    }
}

// Bytes that were never a sheet: any, those of sheets in any order, digits, or nearly line 1.
pub fn noise(r: &mut Random) -> Vec<u8> {
    let length = match r.below(5) {
        0 => r.below(4),
        1 => r.below(20),
        2 => r.below(300),
        3 => r.below(5000),
        _ => r.pick(&[SHEET - 1, SHEET, SHEET + 1]),
    };
    match r.below(4) {
        0 => (0..length).map(|_| r.word() as u8).collect(),
        1 => (0..length).map(|_| byte(r)).collect(),
        2 => digits(r, length),
        _ => {
            let mut out = b"17,2,".to_vec();
            out.extend(digits(r, 1));
            out.push(10);
            out.extend((0..length).map(|_| byte(r)));
            out
        }
    }
}
