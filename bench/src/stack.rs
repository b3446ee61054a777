// How much stack each call takes, against what the header says. Each call runs on memory of its own that is filled with one word; the lowest word that
// is another afterwards is as deep as the call went. The library's frames write to every page that they take, so nothing deeper is missed that
// a call could die of.
use crate::calls;
use crate::cases::Circuit;
use crate::compare;
use crate::header::constant;
use crate::join_compare::{self, Pair};
use crate::kinds::{Case, Kind, KINDS};
use crate::lengths::{JOINED, MOST_ROWS_SHEET, READ, TEXT};
use crate::numbers::{field, LARGEST, PRIMES};
use crate::random::Random;
use crate::sheet_cases::{noise, sheet_of};
use crate::sheet_compare;
use std::arch::asm;

// The words of that memory, 2 MB: many times what any call takes.
const ROOM: usize = 1 << 18;
const FILL: u64 = 0x5ca1_ab1e_0ddb_a115;

// The bytes by which the header must say more than is measured: at a program's first call the loader may look up memcpy and memset on the caller's
// stack, which takes some 3,200, and another C library's may take more than this one's.
const SPARE: usize = 4096;

// Inputs of each call besides the largest.
const FURTHER: usize = 40;

// A function of the library on another stack. The first six arguments are in registers, the others at the stack's top, where `stack` points.
unsafe fn call_on(stack: *mut u64, function: *const (), registers: [u64; 6]) {
    let [a, b, c, d, e, f] = registers;
    asm!(
        "mov r12, rsp",
        "mov rsp, r13",
        "call r14",
        "mov rsp, r12",
        in("r13") stack,
        in("r14") function,
        in("rdi") a,
        in("rsi") b,
        in("rdx") c,
        in("rcx") d,
        in("r8") e,
        in("r9") f,
        out("r12") _,
        clobber_abi("C"),
    );
}

// The arguments of a call: numbers, and slices as pointer and length.
#[derive(Default)]
struct Arguments(Vec<u64>);

impl Arguments {
    fn number(&mut self, x: u32) {
        self.0.push(x as u64);
    }

    fn slice<T>(&mut self, slice: &mut [T]) {
        self.0.push(slice.as_mut_ptr() as u64);
        self.0.push(slice.len() as u64);
    }
}

struct Meter {
    memory: Vec<u64>,
}

impl Meter {
    // The bytes of stack that a call takes: its arguments there, the return address and all below. The slices of the arguments must be alive.
    unsafe fn depth(&mut self, name: &str, arguments: &Arguments) -> usize {
        let mut words = arguments.0.clone();
        words.resize(words.len().max(6), 0);
        let (registers, rest) = words.split_at(6);
        // at a call the stack pointer is a multiple of 16
        let mut top = ROOM - rest.len();
        if (self.memory.as_ptr() as usize + 8 * top) % 16 != 0 {
            top -= 1;
        }
        self.memory.fill(FILL);
        self.memory[top..top + rest.len()].copy_from_slice(rest);
        call_on(self.memory.as_mut_ptr().add(top), calls::address(name), registers.try_into().unwrap());
        let deepest = self.memory.iter().position(|&w| w != FILL).expect("a call leaves its return address");
        assert!(deepest > ROOM / 2, "{name} takes more than half of the memory that it is measured on");
        8 * (top + rest.len() - deepest)
    }

    // A call on lent numbers: the bytes, and the answer's number.
    fn case(&mut self, case: &Case) -> (usize, u32) {
        let mut buffers = case.buffers.clone();
        let mut answer = [0; 4];
        let mut arguments = Arguments::default();
        if case.kind.has_p() {
            arguments.number(case.p);
        }
        arguments.number(case.n);
        if case.kind.has_l() {
            arguments.number(case.l);
        }
        buffers.iter_mut().for_each(|b| arguments.slice(b));
        arguments.slice(&mut answer);
        (unsafe { self.depth(case.kind.name(), &arguments) }, answer[0])
    }

    // Reading a sheet.
    fn read(&mut self, sheet: &[u8]) -> (usize, u32) {
        let mut sheet = sheet.to_vec();
        let mut buffers = READ.map(|length| vec![0u32; length]);
        let mut answer = [0; 6];
        let mut arguments = Arguments::default();
        arguments.slice(&mut sheet);
        buffers.iter_mut().for_each(|b| arguments.slice(b));
        arguments.slice(&mut answer);
        (unsafe { self.depth("read", &arguments) }, answer[0])
    }

    // The text of a sheet; a refusal stands in the text.
    fn deposit(&mut self, sheet: &[u8]) -> (usize, u32) {
        let mut sheet = sheet.to_vec();
        let mut text = vec![0u8; TEXT];
        let mut answer = [0; 3];
        let mut arguments = Arguments::default();
        arguments.slice(&mut sheet);
        arguments.slice(&mut text);
        arguments.slice(&mut answer);
        let bytes = unsafe { self.depth("deposit", &arguments) };
        (bytes, (answer[0] != 0 || text.starts_with(b"refused")) as u32)
    }

    // Joining two sheets.
    fn join(&mut self, pair: &Pair) -> (usize, u32) {
        let mut pair = pair.clone();
        let mut joined = vec![0u8; JOINED];
        let mut answer = [0; 3];
        let mut arguments = Arguments::default();
        pair.iter_mut().for_each(|sheet| arguments.slice(sheet));
        arguments.slice(&mut joined);
        arguments.slice(&mut answer);
        (unsafe { self.depth("join", &arguments) }, answer[0])
    }
}

// A circuit with as many public inputs as rows, whose filling the prover takes.
fn largest(r: &mut Random, n: u32) -> Circuit {
    loop {
        let circuit = Circuit::proved(r, LARGEST, n);
        if circuit.l == n {
            return circuit;
        }
    }
}

// The largest input, and then the others: the most bytes of all.
fn most<T>(name: &str, first: &T, others: &[T], mut measure: impl FnMut(&T) -> (usize, u32)) -> usize {
    let (bytes, number) = measure(first);
    assert!(number == 0, "{name} refuses the largest input");
    others.iter().map(|other| measure(other).0).fold(bytes, usize::max)
}

// A line of the table. 1 if the header says less than the call takes and SPARE, or nothing.
fn show(name: &str, rows: &str, bytes: usize) -> usize {
    let stack = format!("GUPPYSPOON_{}_STACK", name.to_uppercase());
    let said = constant(&stack);
    println!("{name:<13} {rows:>6} {bytes:>9} {:>9}", said.map_or("nothing".to_string(), |bytes| bytes.to_string()));
    if said.is_some_and(|said| bytes + SPARE <= said) {
        return 0;
    }
    println!("DIFFERENCE {name} takes {bytes} bytes of stack: {stack} must say {} or more", bytes + SPARE);
    1
}

// A kind at 1,024 rows, with a blinded transcript and with an unblinded one, and further inputs, good and damaged, at the greatest rows of each prime.
fn try_kind(r: &mut Random, meter: &mut Meter, kind: Kind, circuit: &Circuit) -> usize {
    let first = circuit.blinded(r).case(r, kind);
    let mut others = vec![circuit.unblinded().case(r, kind)];
    for k in 0..FURTHER {
        let p = if k % 4 < 2 { LARGEST } else { PRIMES[k % 2] };
        let (_, rows) = field(p).unwrap();
        others.push(compare::make(r, kind, p, rows));
    }
    let bytes = most(kind.name(), &first, &others, |case| meter.case(case));
    let rows = if kind == Kind::Inverse { "-".to_string() } else { circuit.n.to_string() };
    show(kind.name(), &rows, bytes)
}

// Reading and depositing at 256 rows, blinded and not, and further sheets, good and damaged, and noise.
fn try_sheets(r: &mut Random, meter: &mut Meter) -> usize {
    let circuit = largest(r, MOST_ROWS_SHEET);
    let first = sheet_of(&circuit.blinded(r));
    let mut others: Vec<Vec<u8>> = (0..FURTHER).map(|_| sheet_compare::make(r, LARGEST, MOST_ROWS_SHEET)).collect();
    others.push(sheet_of(&circuit.unblinded()));
    others.extend((0..FURTHER).map(|_| noise(r)));
    let read = most("read", &first, &others, |sheet| meter.read(sheet));
    let deposit = most("deposit", &first, &others, |sheet| meter.deposit(sheet));
    let rows = MOST_ROWS_SHEET.to_string();
    show("read", &rows, read) + show("deposit", &rows, deposit)
}

// Joining two sheets of 128 rows, and further pairs, good and damaged, of 256 rows too, and noise.
fn try_joins(r: &mut Random, meter: &mut Meter) -> usize {
    let half = MOST_ROWS_SHEET / 2;
    let first = [0, 1].map(|_| sheet_of(&largest(r, half).blinded(r)));
    let mut others: Vec<Pair> = (0..FURTHER).map(|k| join_compare::make(r, LARGEST, [half, MOST_ROWS_SHEET][k % 2])).collect();
    others.extend((0..FURTHER).map(|_| join_compare::noisy(r)));
    let bytes = most("join", &first, &others, |pair| meter.join(pair));
    show("join", &half.to_string(), bytes)
}

// How many calls the header says too little of.
pub fn run() -> usize {
    let mut r = Random::new(512);
    let mut meter = Meter { memory: vec![0; ROOM] };
    println!("\nstack, p = {LARGEST}, bytes: the most of the largest input and {FURTHER} or more others, and what the header says");
    println!("{:<13} {:>6} {:>9} {:>9}", "call", "rows", "measured", "header");
    let (_, rows) = field(LARGEST).unwrap();
    let circuit = largest(&mut r, rows);
    let mut off = 0;
    for kind in KINDS {
        off += try_kind(&mut r, &mut meter, kind, &circuit);
    }
    off + try_sheets(&mut r, &mut meter) + try_joins(&mut r, &mut meter)
}
