// Both ways from one layout to the other, of every size and on both sides: each number against the definition, and there and back.
use crate::lengths::{positions, COLUMNS, MOST_ROWS_LARGEST};
use crate::random::Random;
use crate::{calls, transfers};

// The buffers drawn for each size.
const TIMES: usize = 20;

type Call = fn(u32, &[u32], &mut [u32]) -> [u32; 2];

fn proved_to_rows(n: u32, columns: &[u32], rows: &mut [u32]) -> [u32; 2] {
    let mut answer = [7; 2];
    calls::to_rows(n, columns, rows, &mut answer);
    answer
}

fn proved_to_columns(n: u32, rows: &[u32], columns: &mut [u32]) -> [u32; 2] {
    let mut answer = [7; 2];
    calls::to_columns(n, rows, columns, &mut answer);
    answer
}

// What a call writes, if it takes what it is lent.
fn made(call: Call, n: u32, from: &[u32]) -> Option<Vec<u32>> {
    let mut to = vec![7; from.len()];
    (call(n, from, &mut to) == [0, 0]).then_some(to)
}

// The same words taken either way, and back again. How much is off.
fn try_words(side: &str, to_rows: Call, to_columns: Call, n: u32, words: &[u32]) -> usize {
    let m = n as usize;
    let rows: Vec<u32> = (0..positions(m)).map(|j| words[j % COLUMNS * m + j / COLUMNS]).collect();
    let columns: Vec<u32> = (0..positions(m)).map(|k| words[COLUMNS * (k % m) + k / m]).collect();
    let mut off = 0;
    for (name, there, back, due) in [("to_rows", to_rows, to_columns, rows), ("to_columns", to_columns, to_rows, columns)] {
        let result = made(there, n, words);
        let again = result.as_ref().and_then(|result| made(back, n, result));
        if result != Some(due) || again.as_deref() != Some(words) {
            println!("DIFFERENCE from the definition, or from what was there, {name} and back, {side}, n = {n}: {words:?}");
            off += 1;
        }
    }
    off
}

pub fn run() -> usize {
    let mut r = Random::new(3);
    let (mut sizes, mut off) = (0, 0);
    for n in (1..).map(|k| 1 << k).take_while(|&n| n <= MOST_ROWS_LARGEST) {
        for _ in 0..TIMES {
            let words = r.words(positions(n as usize));
            off += try_words("plain", transfers::to_rows, transfers::to_columns, n, &words);
            off += try_words("proved", proved_to_rows, proved_to_columns, n, &words);
        }
        sizes += 1;
    }
    println!("contents of {sizes} sizes, from one layout to the other and back: {off} differences");
    off
}
