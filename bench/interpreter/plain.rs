//! A plain interpreter of RV64IM, which nothing is proved of: the other side of the bench. It decodes each
//! word as it comes to it, and looks each access up in its list of segments.
//!
//!     plain OBJECT ARGUMENT CALLS
//!
//! calls the text of an object so many times with one argument, and prints the last reply and the steps of all.

use std::process::ExitCode;
use std::{env, fs};

const GATE: u64 = 0x40000;
const PAGE: u64 = 4096;
const STACK_BASE: u64 = 47222 * 0x40000 + 24 * PAGE;
const FIXED_BASE: u64 = 29432 * 0x40000 + PAGE;
const CODE_BASE: u64 = 13105 * 0x40000 + 43 * PAGE;
const STACK_PAGES: u64 = 4;

/// How a call ends.
#[derive(Debug)]
enum End {
    Returned(u64),
    Misaligned,
    Fault,
    Denied,
    Illegal,
    Ecall,
    Ebreak,
    Fuel,
}

#[derive(Clone, Copy)]
enum Access {
    Fetch,
    Load,
    Store,
}

/// A part of memory, with what may be done with it.
struct Segment {
    base: u64,
    fetch: bool,
    load: bool,
    store: bool,
    bytes: Vec<u8>,
}

impl Segment {
    fn new(base: u64, rights: &str, pages: u64) -> Segment {
        Segment {
            base,
            fetch: rights.contains('f'),
            load: rights.contains('l'),
            store: rights.contains('s'),
            bytes: vec![0; (pages * PAGE) as usize],
        }
    }

    fn allows(&self, access: Access) -> bool {
        match access {
            Access::Fetch => self.fetch,
            Access::Load => self.load,
            Access::Store => self.store,
        }
    }
}

struct Machine {
    segments: Vec<Segment>,
    registers: [u64; 32],
    pc: u64,
}

/// The bits of a word from one to another, the lowest at bit 0.
fn bits(word: u32, from: u32, to: u32) -> u32 {
    word << (31 - to) >> (31 - to + from)
}

/// The bits of a word from one on, with the sign of bit 31.
fn signed_bits(word: u32, from: u32) -> i64 {
    i64::from(word as i32 >> from)
}

fn s_immediate(word: u32) -> i64 {
    signed_bits(word, 25) << 5 | i64::from(bits(word, 7, 11))
}

fn b_immediate(word: u32) -> i64 {
    signed_bits(word, 31) << 12
        | i64::from(bits(word, 7, 7)) << 11
        | i64::from(bits(word, 25, 30)) << 5
        | i64::from(bits(word, 8, 11)) << 1
}

fn j_immediate(word: u32) -> i64 {
    signed_bits(word, 31) << 20
        | i64::from(bits(word, 12, 19)) << 12
        | i64::from(bits(word, 20, 20)) << 11
        | i64::from(bits(word, 21, 30)) << 1
}

impl Machine {
    fn new(text: &[u8]) -> Machine {
        let mut code = Segment::new(CODE_BASE, "fl", 2);
        code.bytes[..text.len()].copy_from_slice(text);
        Machine {
            segments: vec![
                Segment::new(STACK_BASE, "ls", STACK_PAGES),
                Segment::new(FIXED_BASE, "fl", 1),
                Segment::new(FIXED_BASE + PAGE, "l", 1),
                code,
                Segment::new(CODE_BASE + 2 * PAGE, "l", 1),
                Segment::new(CODE_BASE + 3 * PAGE, "l", 1),
            ],
            registers: [0; 32],
            pc: 0,
        }
    }

    /// The bytes of an access: those of the first segment that holds its address, if that has the right.
    fn bytes<const SIZE: usize>(&mut self, at: u64, access: Access) -> Result<&mut [u8; SIZE], End> {
        if at % SIZE as u64 != 0 {
            return Err(End::Misaligned);
        }
        for segment in &mut self.segments {
            if at >= segment.base && at - segment.base < segment.bytes.len() as u64 {
                if !segment.allows(access) {
                    return Err(End::Denied);
                }
                let offset = (at - segment.base) as usize;
                let bytes = segment.bytes.get_mut(offset..offset + SIZE);
                return Ok(bytes.ok_or(End::Fault)?.try_into().unwrap());
            }
        }
        Err(End::Fault)
    }

    fn load<const SIZE: usize>(&mut self, at: u64) -> Result<[u8; SIZE], End> {
        Ok(*self.bytes(at, Access::Load)?)
    }

    fn store<const SIZE: usize>(&mut self, at: u64, bytes: [u8; SIZE]) -> Result<(), End> {
        *self.bytes(at, Access::Store)? = bytes;
        Ok(())
    }

    fn get(&self, number: u32) -> u64 {
        self.registers[number as usize & 31]
    }

    fn set(&mut self, number: u32, value: u64) {
        if number != 0 {
            self.registers[number as usize & 31] = value;
        }
    }

    fn step(&mut self) -> Result<(), End> {
        let word = u32::from_le_bytes(*self.bytes(self.pc, Access::Fetch)?);
        let mut next = self.pc.wrapping_add(4);
        let rd = bits(word, 7, 11);
        let a = self.get(bits(word, 15, 19));
        let b = self.get(bits(word, 20, 24));
        let funct3 = bits(word, 12, 14);
        let funct7 = bits(word, 25, 31);
        let immediate = signed_bits(word, 20) as u64;
        match word & 0x7f {
            0x03 => {
                let at = a.wrapping_add(immediate);
                let value = match funct3 {
                    0 => i8::from_le_bytes(self.load(at)?) as u64,
                    1 => i16::from_le_bytes(self.load(at)?) as u64,
                    2 => i32::from_le_bytes(self.load(at)?) as u64,
                    3 => u64::from_le_bytes(self.load(at)?),
                    4 => u64::from(u8::from_le_bytes(self.load(at)?)),
                    5 => u64::from(u16::from_le_bytes(self.load(at)?)),
                    6 => u64::from(u32::from_le_bytes(self.load(at)?)),
                    _ => return Err(End::Illegal),
                };
                self.set(rd, value);
            }
            0x0f if funct3 == 0 => {}
            0x13 => {
                let amount = bits(word, 20, 25);
                let value = match (funct3, word >> 26) {
                    (0, _) => a.wrapping_add(immediate),
                    (1, 0x00) => a << amount,
                    (2, _) => u64::from((a as i64) < immediate as i64),
                    (3, _) => u64::from(a < immediate),
                    (4, _) => a ^ immediate,
                    (5, 0x00) => a >> amount,
                    (5, 0x10) => (a as i64 >> amount) as u64,
                    (6, _) => a | immediate,
                    (7, _) => a & immediate,
                    _ => return Err(End::Illegal),
                };
                self.set(rd, value);
            }
            0x17 => self.set(rd, self.pc.wrapping_add(signed_bits(word & !0xfff, 0) as u64)),
            0x1b => {
                let amount = bits(word, 20, 24);
                let value = match (funct3, funct7) {
                    (0, _) => a.wrapping_add(immediate) as i32,
                    (1, 0x00) => (a as i32) << amount,
                    (5, 0x00) => (a as u32 >> amount) as i32,
                    (5, 0x20) => a as i32 >> amount,
                    _ => return Err(End::Illegal),
                };
                self.set(rd, value as u64);
            }
            0x23 => {
                let at = a.wrapping_add(s_immediate(word) as u64);
                match funct3 {
                    0 => self.store(at, (b as u8).to_le_bytes())?,
                    1 => self.store(at, (b as u16).to_le_bytes())?,
                    2 => self.store(at, (b as u32).to_le_bytes())?,
                    3 => self.store(at, b.to_le_bytes())?,
                    _ => return Err(End::Illegal),
                }
            }
            0x33 => {
                let (x, y) = (a as i64, b as i64);
                let value = match (funct7, funct3) {
                    (0x00, 0) => a.wrapping_add(b),
                    (0x00, 1) => a << (b & 63),
                    (0x00, 2) => u64::from(x < y),
                    (0x00, 3) => u64::from(a < b),
                    (0x00, 4) => a ^ b,
                    (0x00, 5) => a >> (b & 63),
                    (0x00, 6) => a | b,
                    (0x00, 7) => a & b,
                    (0x20, 0) => a.wrapping_sub(b),
                    (0x20, 5) => (x >> (b & 63)) as u64,
                    (0x01, 0) => a.wrapping_mul(b),
                    (0x01, 1) => (i128::from(x) * i128::from(y) >> 64) as u64,
                    (0x01, 2) => (i128::from(x) * i128::from(b) >> 64) as u64,
                    (0x01, 3) => (u128::from(a) * u128::from(b) >> 64) as u64,
                    (0x01, 4) if b == 0 => u64::MAX,
                    (0x01, 4) => x.wrapping_div(y) as u64,
                    (0x01, 5) => a.checked_div(b).unwrap_or(u64::MAX),
                    (0x01, 6) if b == 0 => a,
                    (0x01, 6) => x.wrapping_rem(y) as u64,
                    (0x01, 7) => a.checked_rem(b).unwrap_or(a),
                    _ => return Err(End::Illegal),
                };
                self.set(rd, value);
            }
            0x37 => self.set(rd, signed_bits(word & !0xfff, 0) as u64),
            0x3b => {
                let (x, y, u, v) = (a as i32, b as i32, a as u32, b as u32);
                let value = match (funct7, funct3) {
                    (0x00, 0) => x.wrapping_add(y),
                    (0x00, 1) => x << (v & 31),
                    (0x00, 5) => (u >> (v & 31)) as i32,
                    (0x20, 0) => x.wrapping_sub(y),
                    (0x20, 5) => x >> (v & 31),
                    (0x01, 0) => x.wrapping_mul(y),
                    (0x01, 4) if y == 0 => -1,
                    (0x01, 4) => x.wrapping_div(y),
                    (0x01, 5) => u.checked_div(v).map_or(-1, |n| n as i32),
                    (0x01, 6) if y == 0 => x,
                    (0x01, 6) => x.wrapping_rem(y),
                    (0x01, 7) => u.checked_rem(v).unwrap_or(u) as i32,
                    _ => return Err(End::Illegal),
                };
                self.set(rd, value as u64);
            }
            0x63 => {
                let taken = match funct3 {
                    0 => a == b,
                    1 => a != b,
                    4 => (a as i64) < b as i64,
                    5 => a as i64 >= b as i64,
                    6 => a < b,
                    7 => a >= b,
                    _ => return Err(End::Illegal),
                };
                if taken {
                    next = self.pc.wrapping_add(b_immediate(word) as u64);
                }
            }
            0x67 if funct3 == 0 => {
                self.set(rd, next);
                next = a.wrapping_add(immediate) & !1;
            }
            0x6f => {
                self.set(rd, next);
                next = self.pc.wrapping_add(j_immediate(word) as u64);
            }
            0x73 if word == 0x0000_0073 => return Err(End::Ecall),
            0x73 if word == 0x0010_0073 => return Err(End::Ebreak),
            _ => return Err(End::Illegal),
        }
        self.pc = next;
        Ok(())
    }

    /// Calls the start of the text with an argument and a fresh stack. It gives the end, and counts the steps.
    fn call(&mut self, argument: u64, fuel: u64, steps: &mut u64) -> End {
        self.segments[0].bytes.fill(0);
        self.registers = [0; 32];
        self.registers[1] = GATE;
        self.registers[2] = STACK_BASE + STACK_PAGES * PAGE;
        self.registers[10] = argument;
        self.pc = CODE_BASE;
        for step in 0..fuel {
            if self.pc == GATE {
                *steps += step;
                return End::Returned(self.registers[10]);
            }
            if let Err(end) = self.step() {
                *steps += step;
                return end;
            }
        }
        *steps += fuel;
        if self.pc == GATE {
            End::Returned(self.registers[10])
        } else {
            End::Fuel
        }
    }
}

/// The text of an object whose section 1 is its text, as GNU's assembler writes it: from byte 64 on, as long as that
/// section's header says.
fn text_of(object: &[u8]) -> Option<&[u8]> {
    let number = |at: usize| {
        let bytes = object.get(at..at + 8)?;
        Some(u64::from_le_bytes(bytes.try_into().ok()?) as usize)
    };
    let size = number(number(40)? + 64 + 32)?;
    object.get(64..64 + size).filter(|text| text.len() <= PAGE as usize)
}

fn main() -> ExitCode {
    let words: Vec<String> = env::args().collect();
    let [_, path, argument, calls] = words.as_slice() else {
        eprintln!("usage: plain OBJECT ARGUMENT CALLS");
        return ExitCode::FAILURE;
    };
    let object = fs::read(path).expect("the object can't be read");
    let text = text_of(&object).expect("the object's text isn't its section 1, or is longer than a page");
    let argument = argument.parse().expect("ARGUMENT is a number");
    let calls = calls.parse().expect("CALLS is a number");
    let mut machine = Machine::new(text);
    let mut steps = 0;
    let mut end = End::Fuel;
    for _ in 0..calls {
        end = machine.call(argument, u64::MAX, &mut steps);
    }
    match end {
        End::Returned(value) => println!("returned {value} steps {steps}"),
        other => println!("{other:?} steps {steps}"),
    }
    ExitCode::SUCCESS
}
