// The sheet of document 01 with the answers that it gives, and openings of its polynomials, joins of it, counts of the gammas that are lost with it and
// its contents in both layouts, with answers worked out by hand, on both sides.
use crate::kinds::{plainly, proved, Case, Kind};
use crate::lengths::{blinded_by, opening as opening_length, positions, prepared, scratch, selectors, transcript, work, READ, TEXT};
use crate::random::Random;
use crate::{blinding, calls, gammas, join_compare, plain, sheets};

pub const SHEET: &[u8] = b"17,2,0\n0,0,16,1,0,0,1,2\n1,1,16,0,0,2,2,3\n2,3,6\n6,6,12\n1,1,2,2\n";
// The same with the line of nine numbers, with which its transcript is blinded.
pub const BLINDED: &[u8] = b"17,2,0\n0,0,16,1,0,0,1,2\n1,1,16,0,0,2,2,3\n2,3,6\n6,6,12\n1,1,2,2\n1,2,3,4,5,6,7,8,9\n";
// The sheet with row 0 made a public row, and the content of its a as public number.
const PUBLIC: &str = "17,2,1\n1,0,0,0,0,0,1,2\n1,1,16,0,0,2,2,3\n2,3,6\n6,6,12\n2\n1,1,2,2\n";
// Joined sheets: the sheet with itself, with the one that has a public row, that one with it, and that one with itself.
const TWICE: &str =
    "17,4,0\n0,0,16,1,0,0,1,2\n1,1,16,0,0,2,2,3\n0,0,16,1,0,6,7,8\n1,1,16,0,0,8,8,9\n2,3,6\n6,6,12\n2,3,6\n6,6,12\n1,1,2,2\n";
const PUBLIC_SECOND: &str =
    "17,4,1\n1,0,0,0,0,6,7,8\n0,0,16,1,0,0,1,2\n1,1,16,0,0,2,2,3\n1,1,16,0,0,8,8,9\n2,3,6\n2,3,6\n6,6,12\n6,6,12\n2\n1,1,2,2\n";
const PUBLIC_FIRST: &str =
    "17,4,1\n1,0,0,0,0,0,1,2\n1,1,16,0,0,2,2,3\n0,0,16,1,0,6,7,8\n1,1,16,0,0,8,8,9\n2,3,6\n6,6,12\n2,3,6\n6,6,12\n2\n1,1,2,2\n";
const PUBLIC_TWICE: &str =
    "17,4,2\n1,0,0,0,0,0,1,2\n1,0,0,0,0,6,7,8\n1,1,16,0,0,2,2,3\n1,1,16,0,0,8,8,9\n2,3,6\n2,3,6\n6,6,12\n6,6,12\n2\n2\n1,1,2,2\n";
const PRINTED: &str = "a,4,15\nb,13,7\nc,9,14\nz,16,2\nt,9,12,15\naccept\n";

// The rows of the sheet, and its numbers as they are lent.
pub const N: usize = 2;
pub const SELECTORS: [u32; selectors(N)] = [0, 1, 0, 1, 16, 16, 1, 0, 0, 0];
pub const LABELS: [u32; positions(N)] = [0, 2, 1, 2, 2, 3];
// Row by row, and as they were lent before, column after column.
pub const CONTENTS: [u32; positions(N)] = [2, 3, 6, 6, 6, 12];
const COLUMNS: [u32; positions(N)] = [2, 6, 3, 6, 6, 12];
const TRANSCRIPT: [u32; transcript(0, N)] = [4, 15, 13, 7, 9, 14, 16, 2, 9, 12, 15];
// How many gammas are lost with each beta: 91 of the 289 pairs together.
const LOST: [u32; 17] = [4, 4, 5, 6, 6, 4, 5, 6, 4, 5, 6, 6, 6, 6, 6, 6, 6];

// A call on both sides: the answer's words, then the numbers of the buffer that is looked at.
pub fn expect(name: &str, kind: Kind, l: u32, buffers: &[&[u32]], words: &[u32], at: usize, due: &[u32]) -> usize {
    let buffers: Vec<Vec<u32>> = buffers.iter().map(|b| b.to_vec()).collect();
    let case = Case { kind, p: 17, n: N as u32, l, buffers };
    let mut off = 0;
    for side in ["plain", "proved"] {
        let mut own = case.buffers.clone();
        let mut lent: Vec<&mut [u32]> = own.iter_mut().map(|b| &mut b[..]).collect();
        let mut answer = vec![0; words.len()];
        if side == "plain" {
            answer = plainly(&case, &mut lent);
        } else {
            proved(&case, &mut lent, &mut answer);
        }
        if answer != words || own[at] != due {
            println!("DIFFERENCE from document 01, {side}, {name}: answer {answer:?}, numbers {:?}", own[at]);
            off += 1;
        }
    }
    off
}

fn prove(name: &str, contents: &[u32], challenges: &[u32], words: &[u32], due: &[u32]) -> usize {
    expect(name, Kind::Prove, 0, &[&SELECTORS, &LABELS, contents, &[], &[7; transcript(0, N)], challenges, &[7; work(0, N)]], words, 4, due)
}

fn rows(name: &str, contents: &[u32], z: &[u32], challenges: &[u32], words: &[u32]) -> usize {
    expect(name, Kind::CheckRows, 0, &[&SELECTORS, &LABELS, contents, &[], z, challenges], words, 4, z)
}

// An opening of the sheet's polynomials, of a transcript of either length: both results, and the check accepts them.
pub fn opening(name: &str, lent: [&[u32]; 2], list: &[u32], challenges: &[u32], evaluations: &[u32], due: &[u32]) -> usize {
    let [prepared, transcript] = lent;
    let e = blinded_by(N, transcript);
    let (blank, area) = (vec![7; opening_length(e, N)], vec![7; work(e, N)]);
    let untouched = vec![7; list.len()];
    let open: [&[u32]; 7] = [prepared, transcript, list, &untouched, &blank, challenges, &area];
    let right: [&[u32]; 7] = [prepared, transcript, list, evaluations, due, challenges, &area];
    expect(name, Kind::Open, 0, &open, &[0, 0], 3, evaluations)
        + expect(name, Kind::Open, 0, &open, &[0, 0], 4, due)
        + expect(name, Kind::CheckOpening, 0, &right, &[0, 0, 1], 6, &vec![0; area.len()])
}

// The sheet's prepared circuit.
pub fn prepared_circuit() -> [u32; prepared(N)] {
    let mut made = [7; prepared(N)];
    plain::prepare(17, 2, 0, &SELECTORS, &LABELS, &mut made, &mut [7; scratch(N)]);
    made
}

// With row 1 as 5,7,12, beta 1 and gamma 1, no z passes.
fn no_pass(contents: &[u32], z: &[u32]) -> usize {
    let (s, k) = (&SELECTORS, &LABELS);
    let ours = plain::check_rows(17, 2, 0, s, k, contents, &[], z, &[1, 1]);
    let mut theirs = [0; 4];
    calls::check_rows(17, 2, 0, s, k, contents, &[], z, &[1, 1], &mut theirs);
    if ours[2] == 1 || theirs != ours {
        println!("DIFFERENCE from document 01, row 1 as 5,7,12, z = {z:?}: plain {ours:?}, proved {theirs:?}");
        return 1;
    }
    0
}

// What `deposit` prints of the sheet with a part of it changed, on both sides.
pub fn deposit(name: &str, from: &str, to: &str, due: &str) -> usize {
    let sheet = std::str::from_utf8(SHEET).unwrap().replacen(from, to, 1);
    let mut text = vec![7; TEXT];
    let mut answer = [7; 3];
    calls::deposit(sheet.as_bytes(), &mut text, &mut answer);
    let mut whole = due.as_bytes().to_vec();
    whole.resize(TEXT, 0);
    if sheets::printed(sheet.as_bytes()) != due || text != whole || answer != [0, 0, due.len() as u32] {
        println!("DIFFERENCE from document 01, {name}: plain prints {:?}", sheets::printed(sheet.as_bytes()));
        println!("  proved answers {answer:?}: {}", text.escape_ascii().to_string().split("\\x00").next().unwrap());
        return 1;
    }
    0
}

// The texts that document 01 gives, and its edges.
fn deposits() -> usize {
    let mut off = deposit("the sheet", "", "", PRINTED);
    off += deposit("last content 11", "6,6,12", "6,6,11", "refused,9,1\n");
    off += deposit("row 1 as 5,7,12", "6,6,12", "5,7,12", "refused,10,3\n");
    off += deposit("gamma 14", "1,1,2,2", "1,14,2,2", "refused,11,0\n");
    off += deposit("gamma 2", "1,1,2,2", "1,2,2,2", "refused,11,1\n");
    off += deposit("4 rows", "17,2,0", "17,4,0", "refused,5,4\n");
    off += deposit("8 rows", "17,2,0", "17,8,0", "refused,3,0\n");
    off += deposit("97", "17,2,0", "97,2,0", "refused,16,0\n");
    off += deposit("97 with 64 rows", "17,2,0", "97,64,0", "refused,16,0\n");
    off += deposit("97, l = 3", "17,2,0", "97,2,3", "refused,16,0\n");
    off += deposit("97, a first line of four numbers", "17,2,0", "97,2,0,0", "refused,1,0\n");
    off += deposit("256 rows", "17,2,0", "2013265921,256,0", "refused,5,4\n");
    off += deposit("512 rows", "17,2,0", "2013265921,512,0", "refused,3,0\n");
    off += deposit("1 row", "17,2,0", "17,1,0", "refused,3,0\n");
    off += deposit("3 rows", "17,2,0", "17,3,0", "refused,3,0\n");
    off += deposit("p = 18, n = 3", "17,2,0", "18,3,0", "refused,2,0\n");
    off += deposit("l = 2", "17,2,0", "17,2,2", "refused,5,6\n");
    off += deposit("l = 3", "17,2,0", "17,2,3", "refused,4,0\n");
    off += deposit("content 16", "6,6,12", "6,6,16", "refused,9,1\n");
    off += deposit("content 17", "6,6,12", "6,6,17", "refused,7,15\n");
    off += deposit("b of row 0 17", "2,3,6\n", "2,17,6\n", "refused,7,11\n");
    off += deposit("c of row 0 and a of row 1 17", "2,3,6\n6,", "2,3,17\n17,", "refused,7,12\n");
    off += deposit("label 5", "2,2,3", "2,2,5", PRINTED);
    off += deposit("label 6", "2,2,3", "2,2,6", "refused,8,5\n");
    off
}

// The texts of the sheet with a public row, and with one selector of it wrong.
fn public_rows() -> usize {
    let sheet = std::str::from_utf8(SHEET).unwrap();
    let mut off = deposit("row 0 public", sheet, PUBLIC, "a,4,15\nb,13,7\nc,9,14\nz,16,2\nt,4,2,15\naccept\n");
    for wrong in ["0,0,0,0,0", "2,0,0,0,0", "1,1,0,0,0", "1,0,16,0,0", "1,0,0,1,0", "1,0,0,0,1"] {
        off += deposit(wrong, sheet, &PUBLIC.replacen("1,0,0,0,0", wrong, 1), "refused,14,0\n");
    }
    off += deposit("public number 3", sheet, &PUBLIC.replacen("\n2\n", "\n3\n", 1), "refused,9,0\n");
    off
}

pub fn join(name: &str, one: &str, two: &str, due: &str) -> usize {
    join_compare::expect(&format!("from document 02, joining {name}"), one.as_bytes(), two.as_bytes(), due.as_bytes())
}

// The sheet and the one with a public row, joined with themselves and with each other.
fn joins() -> usize {
    let sheet = std::str::from_utf8(SHEET).unwrap();
    let other = PUBLIC.replacen("1,1,2,2\n", "3,4,5,6\n", 1);
    let mut off = join("the sheet with itself", sheet, sheet, TWICE);
    off += join("the sheet with a public one", sheet, &other, PUBLIC_SECOND);
    off += join("a public one with the sheet", PUBLIC, sheet, PUBLIC_FIRST);
    off += join("two public ones", PUBLIC, &other, PUBLIC_TWICE);
    off += join("8 rows over 17", TWICE, PUBLIC_FIRST, "refused,3,0\n");
    off += join("4 rows and 2", TWICE, sheet, "refused,15,0\n");
    off += join("2 rows and 4", sheet, TWICE, "refused,15,0\n");
    off += join("primes 17 and 2013265921", sheet, &sheet.replacen("17,", "2013265921,", 1), "refused,15,0\n");
    off += join("a second over 97", sheet, &sheet.replacen("17,", "97,", 1), "refused,16,0\n");
    off += join("a first over 97 with 64 rows", "97,64,0\n", "", "refused,16,0\n");
    off += join("label 6 before a second over 97", &sheet.replacen("2,2,3", "2,2,6", 1), "97,2,0\n", "refused,8,5\n");
    off += join("a first that ends early", &sheet[..sheet.len() - 8], "", "refused,5,6\n");
    off += join("an empty second", sheet, "", "refused,1,0\n");
    off += join("a second with content 17", sheet, &sheet.replacen("6,6,12", "6,6,17", 1), "refused,7,15\n");
    off += join("a second with label 6", sheet, &sheet.replacen("2,2,3", "2,2,6", 1), "refused,8,5\n");
    off += join("a second with a wrong public row", sheet, &PUBLIC.replacen("1,0,0,0,0", "1,0,16,0,0", 1), "refused,14,0\n");
    off += join("label 6 before the second's prime", &sheet.replacen("2,2,3", "2,2,6", 1), "18,2,0\n", "refused,8,5\n");
    off
}

fn lost(name: &str, contents: &[u32], challenges: &[u32], words: &[u32]) -> usize {
    expect(&format!("lost gammas, {name}"), Kind::LostGammas, 0, &[contents, challenges], words, 0, contents)
}

// The gammas that are lost with each beta, counted and tried with `prove`, and the count's refusals.
fn losses() -> usize {
    let mut r = Random::new(91);
    let mut circuit = sheets::parse(SHEET, true).expect("a sheet that can be read");
    let mut off = 0;
    for (beta, due) in (0..).zip(LOST) {
        off += lost(&format!("beta {beta}"), &CONTENTS, &[beta], &[0, 0, due]);
        circuit.challenges[0] = beta;
        off += gammas::try_circuit(&mut r, &circuit);
    }
    off += lost("beta 17", &CONTENTS, &[17], &[7, 6, 0]);
    off += lost("content 17", &[2, 3, 6, 6, 6, 17], &[17], &[7, 5, 0]);
    off += lost("c of row 0 and a of row 1 17", &[2, 3, 17, 17, 6, 12], &[1], &[7, 2, 0]);
    off += lost("no beta", &CONTENTS, &[], &[6, 2, 0]);
    off += lost("two betas", &CONTENTS, &[1, 1], &[6, 2, 0]);
    off += lost("five contents and no beta", &CONTENTS[..5], &[], &[6, 1, 0]);
    off
}

// What `read` answers of a sheet, and what it lays in one of its buffers.
pub fn reading(name: &str, sheet: &[u8], words: [u32; 6], at: usize, numbers: &[u32]) -> usize {
    let mut due = numbers.to_vec();
    due.resize(READ[at], if words[0] == 0 { 0 } else { 7 });
    let mut off = 0;
    for side in ["plain", "proved"] {
        let mut own = READ.map(|length| vec![7; length]);
        let [a, b, c, d, e] = &mut own;
        let mut answer = [7; 6];
        if side == "plain" {
            answer = sheets::read(sheet, &mut [a, b, c, d, e].map(|b| &mut b[..]));
        } else {
            calls::read(sheet, a, b, c, d, e, &mut answer);
        }
        if answer != words || own[at] != due {
            println!("DIFFERENCE from document 02, reading {name}, {side}: answer {answer:?}, numbers {:?}", &own[at][..12]);
            off += 1;
        }
    }
    off
}

// The contents as they are read, taken from one layout to the other, and lengths that are refused.
fn layouts() -> usize {
    let untouched = [7; positions(N)];
    let mut off = reading("the sheet", SHEET, [0, 0, 17, 2, 0, 0], 2, &CONTENTS);
    off += expect("to rows", Kind::ToRows, 0, &[&COLUMNS, &untouched], &[0, 0], 1, &CONTENTS);
    off += expect("to columns", Kind::ToColumns, 0, &[&CONTENTS, &untouched], &[0, 0], 1, &COLUMNS);
    for kind in [Kind::ToRows, Kind::ToColumns] {
        off += expect("five contents", kind, 0, &[&COLUMNS[..5], &untouched[..5]], &[6, 1], 1, &untouched[..5]);
        off += expect("room for five", kind, 0, &[&COLUMNS, &untouched[..5]], &[6, 2], 1, &untouched[..5]);
    }
    off
}

pub fn run() -> usize {
    let untouched = [7; transcript(0, N)];
    let mut off = 0;
    off += expect("wiring", Kind::Permutation, 0, &[&LABELS, &[7; positions(N)]], &[0, 0], 1, &[0, 3, 2, 4, 1, 5]);
    off += prove("the transcript", &CONTENTS, &[1, 1, 2], &[0, 0], &TRANSCRIPT);
    off += prove("last content 11", &[2, 3, 6, 6, 6, 11], &[1, 1, 2], &[9, 1], &untouched);
    off += prove("row 1 as 5,7,12", &[2, 3, 6, 5, 7, 12], &[1, 1, 2], &[10, 3], &untouched);
    off += prove("b of row 0 17", &[2, 17, 6, 6, 6, 12], &[1, 1, 2], &[7, 11], &untouched);
    off += prove("gamma 14", &CONTENTS, &[1, 14, 2], &[11, 0], &untouched);
    off += prove("gamma 2", &CONTENTS, &[1, 2, 2], &[11, 1], &untouched);
    off += rows("z on the rows", &CONTENTS, &[1, 14], &[1, 1], &[0, 0, 1, 0]);
    off += rows("beta 0, gamma 1, z = 1", &[2, 3, 6, 5, 7, 12], &[1, 1], &[0, 1], &[0, 0, 1, 0]);
    for z0 in 0..17 {
        for z1 in 0..17 {
            off += no_pass(&[2, 3, 6, 5, 7, 12], &[z0, z1]);
        }
    }
    let made = prepared_circuit();
    off += expect("prepared", Kind::Prepare, 0, &[&SELECTORS, &LABELS, &[7; prepared(N)], &[7; scratch(N)]], &[0, 0], 2, &made);
    let lent: [&[u32]; 5] = [&[], &made, &TRANSCRIPT, &[1, 1, 2, 2], &[7; work(0, N)]];
    off += expect("accept", Kind::CheckPoint, 0, &lent, &[0, 0, 1], 4, &[0; work(0, N)]);
    off += opening("a, b, c, z and t at 2, m 3", [&made, &TRANSCRIPT], &[8, 9, 10, 11, 12], &[2, 3], &[0, 10, 3, 3, 8], &[14, 8]);
    off += opening("z twice at row 1's point, m 1", [&made, &TRANSCRIPT], &[11, 11], &[16, 1], &[14, 14], &[4, 0]);
    off += deposits();
    off += public_rows();
    off += joins();
    off += losses();
    off += layouts();
    off += blinding::run();
    println!("the sheet of document 01: {off} differences");
    off
}
