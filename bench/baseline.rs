// An emulator of the same core in plain Rust, for comparing speed: with marks and without, by a type parameter.
// baseline plain|marked PROGRAM.hex RUNS: makes RUNS runs of a million steps each, and prints what the last one told.
use std::{env, fs, process};

// A byte of the machine, with or without its mark.
trait Data: Copy + Default {
    fn plain(byte: u8) -> Self;
    fn byte(self) -> u8;
    fn held(self) -> bool;
    fn with(self, byte: u8) -> Self;
    fn joined(self, other: Self, byte: u8) -> Self;
}

impl Data for u8 {
    fn plain(byte: u8) -> u8 {
        byte
    }
    fn byte(self) -> u8 {
        self
    }
    fn held(self) -> bool {
        false
    }
    fn with(self, byte: u8) -> u8 {
        byte
    }
    fn joined(self, _other: u8, byte: u8) -> u8 {
        byte
    }
}

#[derive(Clone, Copy, Default)]
struct Marked {
    byte: u8,
    held: bool,
}

impl Data for Marked {
    fn plain(byte: u8) -> Marked {
        Marked { byte, held: false }
    }
    fn byte(self) -> u8 {
        self.byte
    }
    fn held(self) -> bool {
        self.held
    }
    fn with(self, byte: u8) -> Marked {
        Marked { byte, ..self }
    }
    fn joined(self, other: Marked, byte: u8) -> Marked {
        Marked {
            byte,
            held: self.held || other.held,
        }
    }
}

#[derive(Clone, Copy, PartialEq)]
enum Mode {
    Going,
    Waiting,
    Ended,
    Faulted,
}

enum Fault {
    MissingByte,
    ReservedWord,
    NoHandler,
    HeldBranch,
    HeldPair,
    HeldReturn,
    Absent(u16),
    LackingCode(u8),
}

enum Ending {
    Said(u8),
    Ended,
    Spent,
    Waiting,
    Fault(Fault, u16),
}

impl Ending {
    // As the player writes it.
    fn text(&self) -> String {
        match self {
            Ending::Said(byte) => format!("said 0x{byte:02x}"),
            Ending::Ended => "ended".into(),
            Ending::Spent => "spent".into(),
            Ending::Waiting => "waiting".into(),
            Ending::Fault(fault, pc) => match fault {
                Fault::MissingByte => format!("fault 30 core at 0x{pc:03x}"),
                Fault::ReservedWord => format!("fault 31 core at 0x{pc:03x}"),
                Fault::NoHandler => format!("fault 32 core at 0x{pc:03x}"),
                Fault::HeldBranch => format!("fault 33 core at 0x{pc:03x}"),
                Fault::HeldPair => format!("fault 34 core at 0x{pc:03x}"),
                Fault::HeldReturn => format!("fault 35 core at 0x{pc:03x}"),
                Fault::Absent(address) => format!("fault 20 bus at 0x{pc:03x} address 0x{address:04x}"),
                Fault::LackingCode(code) => format!("fault 26 unit at 0x{pc:03x} code {code}"),
            },
        }
    }
}

// The AES unit: the box, and one column on its way for each direction.
struct Aes<D> {
    sbox: [u8; 256],
    inverse: [u8; 256],
    columns: [(u8, [D; 4]); 2],
}

fn times(mut a: u8, mut b: u8) -> u8 {
    let mut product = 0;
    while b != 0 {
        if b & 1 == 1 {
            product ^= a;
        }
        a = (a << 1) ^ if a & 0x80 != 0 { 0x1B } else { 0 };
        b >>= 1;
    }
    product
}

impl<D: Data> Aes<D> {
    fn new() -> Self {
        let mut sbox = [0; 256];
        let mut inverse = [0; 256];
        for x in 0..=255u8 {
            let i = (1..=255u8).find(|y| times(x, *y) == 1).unwrap_or(0);
            let y = i ^ i.rotate_left(1) ^ i.rotate_left(2) ^ i.rotate_left(3) ^ i.rotate_left(4) ^ 0x63;
            sbox[x as usize] = y;
            inverse[y as usize] = x;
        }
        Aes {
            sbox,
            inverse,
            columns: [(0, [D::default(); 4]); 2],
        }
    }

    // The answer and the wait.
    fn operate(&mut self, code: u8, a: D, b: D) -> Result<(D, u64), Fault> {
        let (which, factors, wait) = match code {
            0 => return Ok((a.with(self.sbox[a.byte() as usize]), 0)),
            1 => return Ok((a.with(self.inverse[a.byte() as usize]), 0)),
            2 => (0, [2, 3, 1, 1], 3),
            3 => (1, [14, 11, 13, 9], 23),
            _ => return Err(Fault::LackingCode(code)),
        };
        let (stage, s) = &mut self.columns[which];
        let answer = match *stage {
            0 => {
                s[0] = a;
                s[1] = b;
                (b, 0)
            }
            1 => {
                s[2] = a;
                s[3] = b;
                let all = s[0].joined(s[1], 0).joined(s[2], 0).joined(s[3], 0);
                let old = *s;
                for row in 0..4 {
                    let byte = (0..4).fold(0, |sum, i| sum ^ times(old[(row + i) % 4].byte(), factors[i]));
                    s[row] = all.with(byte);
                }
                (s[3], wait)
            }
            2 => (s[2], 0),
            3 => (s[1], 0),
            _ => (s[0], 0),
        };
        *stage = (*stage + 1) % 5;
        Ok(answer)
    }
}

struct Machine<D> {
    registers: [D; 16],
    low: D,
    high: D,
    pc: u16,
    sp: u16,
    enabled: u16,
    vectors: [u8; 16],
    latched: u16,
    saved: (u16, D, D, [D; 16]),
    pairs: usize,
    mode: Mode,
    handling: bool,
    program: Vec<u8>,
    cells: Vec<D>,
    unit: Aes<D>,
}

// The flags X, C, N and Z of a result.
fn flags(x: bool, c: bool, byte: u8) -> u8 {
    (x as u8) << 3 | (c as u8) << 2 | (byte >> 7) << 1 | (byte == 0) as u8
}

impl<D: Data> Machine<D> {
    fn read(&self, address: u16) -> Result<D, Fault> {
        self.cells.get(address as usize).copied().ok_or(Fault::Absent(address))
    }

    fn write(&mut self, address: u16, value: D) -> Result<(), Fault> {
        *self.cells.get_mut(address as usize).ok_or(Fault::Absent(address))? = value;
        Ok(())
    }

    fn number_in(&self, pair: usize) -> Result<u16, Fault> {
        let (low, high) = (self.registers[pair], self.registers[pair + 8]);
        if low.held() || high.held() {
            return Err(Fault::HeldPair);
        }
        Ok((high.byte() as u16) << 8 | low.byte() as u16)
    }

    fn advance(&mut self, pair: usize) {
        let r = self.registers[pair];
        self.registers[pair] = r.with(r.byte().wrapping_add(1));
    }

    fn sum(&mut self, dst: usize, of: D, byte: u8, flags: u8) {
        self.registers[dst] = of.with(byte);
        self.low = of.with(flags);
    }

    fn push(&mut self, value: D) -> Result<(), Fault> {
        self.write(self.sp, value)?;
        self.sp = self.sp.wrapping_sub(1);
        Ok(())
    }

    fn alu(&mut self, op: u8, src: usize, dst: usize) {
        let (s, d) = (self.registers[src], self.registers[dst]);
        let (a, b) = (s.byte(), d.byte());
        let both = s.joined(d, 0);
        let carry = self.low.byte() >> 2 & 1;
        match op {
            0 | 12 => {
                let (c, of) = if op == 12 { (carry, both.joined(self.low, 0)) } else { (0, both) };
                let exact = a as u16 + b as u16 + c as u16;
                let byte = exact as u8;
                self.sum(dst, of, byte, flags((a ^ byte) & (b ^ byte) & 0x80 != 0, exact > 255, byte));
            }
            1 | 13 => {
                let (c, of) = if op == 13 { (carry, both.joined(self.low, 0)) } else { (0, both) };
                let byte = a.wrapping_sub(b).wrapping_sub(c);
                let borrow = (a as u16) < b as u16 + c as u16;
                self.sum(dst, of, byte, flags((a ^ b) & (a ^ byte) & 0x80 != 0, borrow, byte));
            }
            10 => self.registers[dst] = s.with(!a),
            _ => {
                let byte = match op {
                    2 => a & b,
                    3 => a | b,
                    4 => if a >= 8 { 0 } else { b << a },
                    5 => b.rotate_left(a as u32),
                    6 => if a >= 8 { 0 } else { b >> a },
                    7 => b.rotate_right(a as u32),
                    _ => a ^ b,
                };
                self.registers[dst] = both.with(byte);
            }
        }
    }

    // The instruction at pc: its cycles, and the byte that it says.
    fn instruction(&mut self) -> Result<(u64, Option<u8>), Fault> {
        let first = *self.program.get(self.pc as usize).ok_or(Fault::MissingByte)?;
        let (high, low) = (first >> 4, (first & 15) as usize);
        let one = high >= 13 || high == 12 && matches!(low, 3 | 4 | 5 | 8 | 9);
        if matches!(high, 11 | 15) || high == 9 && matches!(low, 8 | 9) || high == 12 && (10..=14).contains(&low) {
            return Err(Fault::ReservedWord);
        }
        let here = self.pc;
        let second = if one {
            0
        } else {
            *self.program.get((self.pc as usize + 1) % 4096).ok_or(Fault::MissingByte)?
        };
        let next = (here + 2 - one as u16) % 4096;
        let (src, dst) = ((second >> 4) as usize, (second & 15) as usize);
        let target = (low as u16) << 8 | second as u16;
        let mut cycles = 2 - one as u64;
        let mut said = None;
        let mut to = next;
        match high {
            0 => self.sp = (target << 4).wrapping_sub(1),
            1 => self.vectors[low] = second,
            2 => to = target,
            3 => {
                let (first, second) = (self.sp, self.sp.wrapping_sub(1));
                self.read(first)?;
                self.read(second)?;
                self.push(D::plain((next >> 8) as u8))?;
                self.push(D::plain(next as u8))?;
                to = target;
            }
            4..=7 => {
                if self.low.held() {
                    return Err(Fault::HeldBranch);
                }
                if self.low.byte() >> (high - 4) & 1 == 1 {
                    to = target;
                }
            }
            8 => self.registers[low] = D::plain(second),
            9 if low == 14 => {
                let d = self.registers[dst];
                let exact = d.byte() as u16 + src as u16 + 1;
                let byte = exact as u8;
                self.sum(dst, d, byte, flags(!d.byte() & byte & 0x80 != 0, exact > 255, byte));
            }
            9 if low == 15 => {
                let d = self.registers[dst];
                let amount = src as u8 + 1;
                let byte = d.byte().wrapping_sub(amount);
                self.sum(dst, d, byte, flags(d.byte() & !byte & 0x80 != 0, d.byte() < amount, byte));
            }
            9 => self.alu(low as u8, src, dst),
            10 => {
                let (answer, wait) = self.unit.operate(low as u8, self.registers[src], self.registers[dst])?;
                self.registers[dst] = answer;
                cycles += wait;
            }
            13 => self.push(self.registers[low])?,
            14 => {
                self.registers[low] = self.read(self.sp.wrapping_add(1))?;
                self.sp = self.sp.wrapping_add(1);
            }
            _ => match low {
                0 => self.registers[dst] = self.registers[src],
                1 => {
                    self.registers[dst] = self.read(self.number_in(src & 7)?)?;
                    if src >= 8 {
                        self.advance(src & 7);
                    }
                }
                2 => {
                    let address = self.number_in(dst & 7)?;
                    self.write(address, self.registers[src])?;
                    if dst >= 8 {
                        self.advance(dst & 7);
                    }
                }
                3 => {
                    let l = self.read(self.sp.wrapping_add(1))?;
                    if l.held() {
                        return Err(Fault::HeldReturn);
                    }
                    let h = self.read(self.sp.wrapping_add(2))?;
                    if h.held() {
                        return Err(Fault::HeldReturn);
                    }
                    self.sp = self.sp.wrapping_add(2);
                    to = ((h.byte() & 15) as u16) << 8 | l.byte() as u16;
                    cycles = 2;
                }
                4 => self.push(self.high.joined(self.low, self.high.byte() << 4 | self.low.byte()))?,
                5 => {
                    let sr = self.read(self.sp.wrapping_add(1))?;
                    self.sp = self.sp.wrapping_add(1);
                    self.high = sr.with(sr.byte() >> 4);
                    self.low = sr.with(sr.byte() & 15);
                }
                6 => {
                    self.registers[src & 7] = D::plain(self.enabled as u8);
                    self.registers[(src & 7) + 8] = D::plain((self.enabled >> 8) as u8);
                }
                7 => self.enabled = self.number_in(src & 7)?,
                8 => self.mode = Mode::Waiting,
                9 => {
                    if !self.handling {
                        return Err(Fault::NoHandler);
                    }
                    for pair in 0..self.pairs {
                        self.registers[pair] = self.saved.3[pair];
                        self.registers[pair + 8] = self.saved.3[pair + 8];
                    }
                    self.high = self.saved.1;
                    self.low = self.saved.2;
                    self.handling = false;
                    to = self.saved.0;
                }
                _ => match second {
                    0x10..=0x1F => self.latched &= !(1 << (second - 0x10)),
                    0xFF => self.mode = Mode::Ended,
                    _ => said = Some(second),
                },
            },
        }
        self.pc = to;
        Ok((cycles, said))
    }

    fn take(&mut self, line: usize) {
        self.saved.0 = self.pc;
        self.saved.1 = self.high;
        self.saved.2 = self.low;
        for pair in 0..self.pairs {
            self.saved.3[pair] = self.registers[pair];
            self.saved.3[pair + 8] = self.registers[pair + 8];
        }
        self.pc = self.vectors[line] as u16 * 16;
        self.mode = Mode::Going;
        self.handling = true;
    }

    fn run(&mut self, budget: u32) -> (u32, u64, Ending) {
        let (mut steps, mut cycles) = (0, 0);
        while steps < budget {
            let pending = self.latched & self.enabled;
            if !self.handling && pending != 0 {
                self.take(pending.trailing_zeros() as usize);
                steps += 1;
                continue;
            }
            if self.mode == Mode::Waiting {
                return (steps, cycles, Ending::Waiting);
            }
            match self.instruction() {
                Ok((spent, said)) => {
                    steps += 1;
                    cycles += spent;
                    if let Some(byte) = said {
                        return (steps, cycles, Ending::Said(byte));
                    }
                    if self.mode == Mode::Ended {
                        return (steps, cycles, Ending::Ended);
                    }
                }
                Err(fault) => {
                    self.mode = Mode::Faulted;
                    return (steps, cycles, Ending::Fault(fault, self.pc));
                }
            }
        }
        (steps, cycles, Ending::Spent)
    }
}

// The bytes of a program: hex digits, comments from `#` on.
fn program(path: &str) -> Vec<u8> {
    let text = fs::read_to_string(path).expect("a readable program");
    let digits: Vec<u8> = text
        .lines()
        .flat_map(|line| line.split('#').next().unwrap_or("").chars())
        .filter_map(|c| c.to_digit(16).map(|d| d as u8))
        .collect();
    digits.chunks(2).map(|pair| pair[0] * 16 + pair[1]).collect()
}

fn runs<D: Data>(program: Vec<u8>, count: u32) {
    let zero = D::plain(0);
    let mut machine = Machine {
        registers: [zero; 16],
        low: zero,
        high: zero,
        pc: 0,
        sp: 0,
        enabled: 0,
        vectors: [0; 16],
        latched: 0,
        saved: (0, zero, zero, [zero; 16]),
        pairs: 1,
        mode: Mode::Going,
        handling: false,
        program,
        cells: vec![zero; 65536],
        unit: Aes::new(),
    };
    for _ in 0..count {
        let (steps, cycles, ending) = machine.run(1_000_000);
        println!("run: {steps} steps, {cycles} cycles, {}", ending.text());
    }
}

fn main() {
    let words: Vec<String> = env::args().collect();
    match words.as_slice() {
        [_, kind, path, count] if kind == "plain" => runs::<u8>(program(path), count.parse().expect("a count")),
        [_, kind, path, count] if kind == "marked" => runs::<Marked>(program(path), count.parse().expect("a count")),
        _ => {
            eprintln!("use: baseline plain|marked PROGRAM.hex RUNS");
            process::exit(1);
        }
    }
}
