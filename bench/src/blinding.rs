// The sheet of document 01 blinded with the nine numbers 1 to 9 (document 02, request 9), with answers worked out by hand, on both sides.
use crate::document::{deposit, expect, join, opening, prepared_circuit, reading, BLINDED, CONTENTS, LABELS, N, SELECTORS, SHEET};
use crate::kinds::Kind;
use crate::lengths::{opening as opening_length, transcript, work, BLINDERS};

const NINE: [u32; BLINDERS] = [1, 2, 3, 4, 5, 6, 7, 8, 9];
const TRANSCRIPT: [u32; transcript(1, N)] = [2, 14, 2, 1, 9, 4, 4, 3, 3, 9, 6, 5, 7, 11, 2, 8, 7, 16, 10, 5, 0, 13, 15, 12, 1, 1, 12, 4, 0];
// With nine zeros each polynomial has the coefficients of the unblinded one, and zeros behind.
const UNMOVED: [u32; transcript(1, N)] = [4, 15, 0, 0, 13, 7, 0, 0, 9, 14, 0, 0, 16, 2, 0, 0, 0, 9, 12, 15, 0, 0, 0, 0, 0, 0, 0, 0, 0];
const PRINTED: &str = "a,2,14,2,1\nb,9,4,4,3\nc,3,9,6,5\nz,7,11,2,8,7\nt,16,10,5,0,13,15,12,1,1,12,4,0\naccept\n";
const UNMOVED_PRINTED: &str = "a,4,15,0,0\nb,13,7,0,0\nc,9,14,0,0\nz,16,2,0,0,0\nt,9,12,15,0,0,0,0,0,0,0,0,0\naccept\n";
// The sheet joined with itself: the line of nine numbers is dropped.
const TWICE: &str =
    "17,4,0\n0,0,16,1,0,0,1,2\n1,1,16,0,0,2,2,3\n0,0,16,1,0,6,7,8\n1,1,16,0,0,8,8,9\n2,3,6\n6,6,12\n2,3,6\n6,6,12\n1,1,2,2\n";

// The prover, with a transcript of the given length to be written.
fn prove(name: &str, contents: &[u32], challenges: &[u32], nine: &[u32], room: usize, words: &[u32], due: &[u32]) -> usize {
    let blank = vec![7; room];
    let buffers: [&[u32]; 8] = [&SELECTORS, &LABELS, contents, &[], &blank, challenges, nine, &[7; work(1, N)]];
    expect(&format!("blinding, {name}"), Kind::ProveBlinded, 0, &buffers, words, 4, due)
}

// A refusal, which leaves the transcript.
fn refuse(name: &str, contents: &[u32], challenges: &[u32], nine: &[u32], words: &[u32]) -> usize {
    prove(name, contents, challenges, nine, transcript(1, N), words, &[7; transcript(1, N)])
}

fn proving() -> usize {
    let right = [1, 1, 2];
    let mut off = prove("1 to 9", &CONTENTS, &right, &NINE, transcript(1, N), &[0, 0], &TRANSCRIPT);
    off += prove("nine zeros", &CONTENTS, &right, &[0; BLINDERS], transcript(1, N), &[0, 0], &UNMOVED);
    for length in [transcript(0, N), transcript(0, N) + 1, transcript(1, N) - 1, transcript(1, N) + 1] {
        off += prove("another length", &CONTENTS, &right, &NINE, length, &[6, 5], &vec![7; length]);
    }
    off += refuse("eight numbers", &CONTENTS, &right, &NINE[..8], &[6, 7]);
    off += refuse("alpha and b1 17", &CONTENTS, &[1, 1, 17], &[17, 2, 3, 4, 5, 6, 7, 8, 9], &[7, 18]);
    off += refuse("b1 17", &CONTENTS, &right, &[17, 2, 3, 4, 5, 6, 7, 8, 9], &[7, 19]);
    off += refuse("b9 17", &CONTENTS, &right, &[1, 2, 3, 4, 5, 6, 7, 8, 17], &[7, 27]);
    off += refuse("last content 11", &[2, 3, 6, 6, 6, 11], &right, &NINE, &[9, 1]);
    off += refuse("row 1 as 5,7,12", &[2, 3, 6, 5, 7, 12], &right, &NINE, &[10, 3]);
    off += refuse("gamma 14", &CONTENTS, &[1, 14, 2], &NINE, &[11, 0]);
    off + refuse("gamma 2", &CONTENTS, &[1, 2, 2], &NINE, &[11, 1])
}

// The point check of a transcript, with a scratch of the given length.
fn point(name: &str, laid: &[u32], zeta: u32, room: usize, words: &[u32]) -> usize {
    let left = if words[0] == 0 { 0 } else { 7 };
    let buffers: [&[u32]; 5] = [&[], &prepared_circuit(), laid, &[1, 1, 2, zeta], &vec![7; room]];
    expect(&format!("blinding, point check, {name}"), Kind::CheckPoint, 0, &buffers, words, 4, &vec![left; room])
}

// Accepted at every zeta, and with the last coefficient of t changed at the row points alone; lengths that do not go together.
fn checking() -> usize {
    let mut changed = TRANSCRIPT;
    changed[28] = 1;
    let mut off = 0;
    for zeta in 0..17 {
        off += point("1 to 9", &TRANSCRIPT, zeta, work(1, N), &[0, 0, 1]);
        off += point("nine zeros", &UNMOVED, zeta, work(1, N), &[0, 0, 1]);
        let verdict = if [0, 1, 16].contains(&zeta) { 1 } else { 2 };
        off += point("last coefficient 1", &changed, zeta, work(1, N), &[0, 0, verdict]);
    }
    off += point("the shorter scratch", &TRANSCRIPT, 2, work(0, N), &[6, 5, 0]);
    off += point("the longer scratch", &TRANSCRIPT[..11], 2, work(1, N), &[6, 5, 0]);
    for length in [10, 12, 28] {
        off += point("neither length", &TRANSCRIPT[..length], 2, work(1, N), &[6, 3, 0]);
        off += point("neither length, the shorter scratch", &TRANSCRIPT[..length], 2, work(0, N), &[6, 3, 0]);
    }
    off
}

fn opening_them() -> usize {
    let made = prepared_circuit();
    let list = [8, 9, 10, 11, 12];
    let due = [16, 13, 15, 8, 12, 2, 8, 6, 5, 1, 0];
    let lent: [&[u32]; 2] = [&made, &TRANSCRIPT];
    let mut off = opening("blinded, a, b, c, z and t at 2, m 3", lent, &list, &[2, 3], &[12, 6, 0, 9, 15], &due);
    off += opening("blinded, qL and z at row 1's point, m 1", lent, &[0, 11], &[16, 1], &[1, 14], &[1, 1, 1, 7, 0, 0, 0, 0, 0, 0, 0]);
    for length in [opening_length(0, N), opening_length(1, N) - 1, opening_length(1, N) + 1] {
        let room = vec![7; length];
        let buffers: [&[u32]; 7] = [&made, &TRANSCRIPT, &list, &[7; 5], &room, &[2, 3], &[7; work(1, N)]];
        off += expect("blinded, an opening of another length", Kind::Open, 0, &buffers, &[6, 5], 4, &room);
    }
    off
}

// The sheet with something in the place of its last line.
fn ending(end: &str) -> String {
    std::str::from_utf8(SHEET).unwrap().replacen("1,1,2,2\n", end, 1)
}

fn depositing() -> usize {
    let mut off = 0;
    for (name, end, due) in [
        ("1 to 9", "1,1,2,2\n1,2,3,4,5,6,7,8,9\n", PRINTED),
        ("nine zeros", "1,1,2,2\n0,0,0,0,0,0,0,0,0\n", UNMOVED_PRINTED),
        ("without byte 10", "1,1,2,2\n1,2,3,4,5,6,7,8,9", "refused,5,7\n"),
        ("eight numbers", "1,1,2,2\n1,2,3,4,5,6,7,8\n", "refused,5,7\n"),
        ("ten numbers", "1,1,2,2\n1,2,3,4,5,6,7,8,9,10\n", "refused,5,7\n"),
        ("an empty line", "1,1,2,2\n\n", "refused,5,7\n"),
        ("an empty line more", "1,1,2,2\n1,2,3,4,5,6,7,8,9\n\n", "refused,5,8\n"),
        ("twice", "1,1,2,2\n1,2,3,4,5,6,7,8,9\n1,2,3,4,5,6,7,8,9\n", "refused,5,8\n"),
        ("a tail", "1,1,2,2\n1,2,3,4,5,6,7,8,9\n1", "refused,5,8\n"),
        ("no challenges", "1,2,3,4,5,6,7,8,9\n", "refused,5,6\n"),
        ("b1 17", "1,1,2,2\n17,2,3,4,5,6,7,8,9\n", "refused,7,20\n"),
        ("zeta and b1 17", "1,1,2,17\n17,2,3,4,5,6,7,8,9\n", "refused,7,19\n"),
        ("b9 17", "1,1,2,2\n1,2,3,4,5,6,7,8,17\n", "refused,7,28\n"),
        ("gamma 14", "1,14,2,2\n1,2,3,4,5,6,7,8,9\n", "refused,11,0\n"),
    ] {
        off += deposit(&format!("blinded, {name}"), "1,1,2,2\n", end, due);
    }
    off
}

fn reading_them() -> usize {
    let laid = [1, 1, 2, 2, 1, 2, 3, 4, 5, 6, 7, 8, 9];
    let mut off = reading("the line of nine", BLINDED, [0, 0, 17, 2, 0, 1], 4, &laid);
    off += reading("no line of nine", SHEET, [0, 0, 17, 2, 0, 0], 4, &[1, 1, 2, 2]);
    off += reading("nine zeros", ending("1,1,2,2\n0,0,0,0,0,0,0,0,0\n").as_bytes(), [0, 0, 17, 2, 0, 1], 4, &[1, 1, 2, 2]);
    off += reading("b9 17", ending("1,1,2,2\n1,2,3,4,5,6,7,8,17\n").as_bytes(), [7, 28, 0, 0, 0, 0], 4, &[]);
    off + reading("eight numbers", ending("1,1,2,2\n1,2,3,4,5,6,7,8\n").as_bytes(), [5, 7, 0, 0, 0, 0], 4, &[])
}

fn joining() -> usize {
    let (sheet, blinded) = (std::str::from_utf8(SHEET).unwrap(), std::str::from_utf8(BLINDED).unwrap());
    let mut off = 0;
    for (one, two) in [(sheet, blinded), (blinded, sheet), (blinded, blinded)] {
        off += join("with the line of nine", one, two, TWICE);
    }
    for (wrong, due) in [
        ("1,1,2,2\n1,2,3,4,5,6,7,8\n", "refused,5,7\n"),
        ("1,1,2,2\n1,2,3,4,5,6,7,8,9\n0\n", "refused,5,8\n"),
        ("1,1,2,2\n1,2,3,4,5,6,7,8,17\n", "refused,7,28\n"),
    ] {
        off += join("a first with a wrong line of nine", &ending(wrong), blinded, due);
        off += join("a second with a wrong line of nine", blinded, &ending(wrong), due);
    }
    off
}

pub fn run() -> usize {
    proving() + checking() + opening_them() + depositing() + reading_them() + joining()
}
