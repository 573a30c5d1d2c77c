//! Random traces with fixed seeds, two boards compared on them, and the shortest trace that shows a difference.

use crate::board::{hex, Board, Memory, ADDRESS, EIGHT, MAILBOX};
use crate::plain::{self, bits_of, bytes_of, lines, Line, Plain};
use crate::random::Random;
use std::collections::{BTreeMap, VecDeque};
use std::fmt;
use std::sync::OnceLock;

/// A part of the memory that is lent.
#[derive(Clone, Copy, Debug, PartialEq, Eq)]
pub enum Part {
    Values,
    Block,
    State,
}

/// One step of a trace.
#[derive(Clone, Debug)]
pub enum Op {
    PowerUp {
        form: u32,
    },
    Message {
        line: u32,
        message: [u8; 8],
        room: usize,
    },
    /// On line 0.
    Mailbox {
        mailbox: Vec<u8>,
        room: usize,
    },
    Sample {
        pressure: u32,
        valid: u8,
        faults: u32,
        seconds: u32,
    },
    Image {
        room: usize,
    },
    /// Somebody else writes into the lent memory.
    Lend {
        part: Part,
        at: usize,
        bytes: Vec<u8>,
    },
    /// A call with lengths that may be wrong; `sizes` are those of values, block and state. The line is a power-up's form and a
    /// sample's faults, the message may be a mailbox.
    Odd {
        call: u8,
        line: u32,
        message: Vec<u8>,
        sizes: [usize; 3],
        room: usize,
    },
}

impl Op {
    /// Whether it counts as a message or sample.
    pub fn is_counted(&self) -> bool {
        matches!(self, Op::Message { .. } | Op::Mailbox { .. } | Op::Sample { .. })
    }
}

#[derive(Clone)]
pub struct Trace {
    pub seed: u64,
    pub memory: Memory,
    pub ops: Vec<Op>,
}

/// What a trace may contain.
#[derive(Clone, Copy, PartialEq, Eq)]
pub enum Style {
    /// Anything, lent memory among it.
    Any,
    /// From power-up, and only the board writes its memory.
    FromPowerUp,
}

const ROOM: u8 = 0xC3;
/// The state's byte with the form of line 0.
const FORM: usize = 196;
/// The client's abort.
const ABORT: [u8; 8] = [0x80, 0, 0, 0, 0, 0, 0, 0];

/// A room for answers and images, filled before each call.
fn room(size: usize) -> Vec<u8> {
    vec![ROOM; size]
}

/// Makes one call; gives back the number and the whole room.
pub fn apply(op: &Op, board: &mut dyn Board, memory: &mut Memory) -> (u32, Vec<u8>) {
    let m = memory;
    match op {
        Op::PowerUp { form } => (board.power_up(*form, &mut m.values, &m.block, &mut m.state), Vec::new()),
        Op::Message { line, message, room: size } => {
            let mut answer = room(*size);
            let number = board.message(*line, message, &mut m.values, &mut m.block, &mut m.state, &mut answer);
            (number, answer)
        }
        Op::Mailbox { mailbox, room: size } => {
            let mut answer = room(*size);
            let number = board.mailbox(mailbox, &mut m.values, &mut m.block, &mut m.state, &mut answer);
            (number, answer)
        }
        Op::Sample { pressure, valid, faults, seconds } => {
            (board.sample(f32::from_bits(*pressure), *valid, *faults, *seconds, &mut m.values, &mut m.state), Vec::new())
        }
        Op::Image { room: size } => {
            let mut image = room(*size);
            (board.image(&m.values, &mut image), image)
        }
        Op::Lend { part, at, bytes } => {
            let to = match part {
                Part::Values => &mut m.values,
                Part::Block => &mut m.block,
                Part::State => &mut m.state,
            };
            to[*at..*at + bytes.len()].copy_from_slice(bytes);
            (0, Vec::new())
        }
        Op::Odd { call, line, message, sizes, room: size } => {
            let sized = |from: &Vec<u8>, size: usize| {
                let mut bytes = from.clone();
                bytes.resize(size, 0x3C);
                bytes
            };
            let (mut values, mut block, mut state) =
                (sized(&m.values, sizes[0]), sized(&m.block, sizes[1]), sized(&m.state, sizes[2]));
            let mut answer = room(*size);
            let number = match call {
                0 => board.power_up(*line, &mut values, &block, &mut state),
                1 => board.message(*line, message, &mut values, &mut block, &mut state, &mut answer),
                2 => board.sample(0.5, 1, *line, 7, &mut values, &mut state),
                4 => board.mailbox(message, &mut values, &mut block, &mut state, &mut answer),
                _ => board.image(&values, &mut answer),
            };
            // what lies behind the memory's own size is looked at as well
            for (from, to) in [(&values, &mut m.values), (&block, &mut m.block), (&state, &mut m.state)] {
                let both = from.len().min(to.len());
                to[..both].copy_from_slice(&from[..both]);
                answer.extend(from.iter().skip(both));
            }
            (number, answer)
        }
    }
}

/// The first step at which two boards differ, and in what.
pub fn difference(trace: &Trace, a: &mut dyn Board, b: &mut dyn Board) -> Option<(usize, String)> {
    let (mut mine, mut theirs) = (trace.memory.clone(), trace.memory.clone());
    for (n, op) in trace.ops.iter().enumerate() {
        let (number_a, room_a) = apply(op, a, &mut mine);
        let (number_b, room_b) = apply(op, b, &mut theirs);
        if number_a != number_b {
            return Some((n, format!("number {number_a} against {number_b}")));
        }
        if room_a != room_b {
            return Some((n, format!("room {} against {}", hex(&room_a), hex(&room_b))));
        }
        for (name, x, y) in [
            ("values", &mine.values, &theirs.values),
            ("block", &mine.block, &theirs.block),
            ("state", &mine.state, &theirs.state),
        ] {
            if x != y {
                let at = (0..x.len()).find(|&i| x[i] != y[i]).unwrap();
                return Some((n, format!("{name} byte {at}: {:02X} against {:02X}", x[at], y[at])));
            }
        }
    }
    None
}

/// Leaves out what the difference does not need. `differs` gives the step of a difference.
pub fn shrink(trace: &Trace, mut differs: impl FnMut(&Trace) -> Option<usize>) -> Trace {
    let mut best = trace.clone();
    if let Some(n) = differs(&best) {
        best.ops.truncate(n + 1);
    }
    let zero = Memory::zero();
    for part in 0..3 {
        let mut less = best.clone();
        match part {
            0 => less.memory.values = zero.values.clone(),
            1 => less.memory.block = zero.block.clone(),
            _ => less.memory.state = zero.state.clone(),
        }
        if let Some(n) = differs(&less) {
            less.ops.truncate(n + 1);
            best = less;
        }
    }
    let mut size = best.ops.len().div_ceil(2).max(1);
    loop {
        let mut at = 0;
        let mut smaller = false;
        while at < best.ops.len() {
            let mut less = best.clone();
            less.ops.drain(at..(at + size).min(best.ops.len()));
            match differs(&less) {
                Some(n) => {
                    less.ops.truncate(n + 1);
                    best = less;
                    smaller = true;
                }
                None => at += size,
            }
        }
        if size == 1 && !smaller {
            return best;
        }
        size = size.div_ceil(2).max(1);
    }
}

/// The calls by the numbers that `Op::Odd` has.
const CALLS: [&str; 5] = ["power-up", "message", "sample", "image", "mailbox"];

impl fmt::Display for Op {
    fn fmt(&self, f: &mut fmt::Formatter) -> fmt::Result {
        match self {
            Op::PowerUp { form } => write!(f, "power-up in form {form}"),
            Op::Message { line, message, room } => write!(f, "message on line {line}: {} (room {room})", hex(message)),
            Op::Mailbox { mailbox, room } => write!(f, "mailbox of {} bytes: {} (room {room})", mailbox.len(), hex(mailbox)),
            Op::Sample { pressure, valid, faults, seconds } => {
                let p = f32::from_bits(*pressure);
                write!(f, "sample: pressure {pressure:08X} ({p:e}), valid {valid}, faults {faults:08X}, seconds {seconds}")
            }
            Op::Image { room } => write!(f, "image (room {room})"),
            Op::Lend { part, at, bytes } => write!(f, "lent: {part:?} from byte {at} on: {}", hex(bytes)),
            Op::Odd { call, line, message, sizes, room } => write!(
                f,
                "call of {}: line {line}, message {}, values, block, state of {sizes:?} bytes, room {room}",
                CALLS[*call as usize],
                hex(message)
            ),
        }
    }
}

impl fmt::Display for Trace {
    fn fmt(&self, f: &mut fmt::Formatter) -> fmt::Result {
        writeln!(f, "seed {}, {} steps", self.seed, self.ops.len())?;
        for (name, bytes) in [("values", &self.memory.values), ("block", &self.memory.block), ("state", &self.memory.state)] {
            if bytes.iter().any(|&b| b != 0) {
                writeln!(f, "  at the start, {name}: {}", hex(bytes))?;
            }
        }
        for (n, op) in self.ops.iter().enumerate() {
            writeln!(f, "  {n}: {op}")?;
        }
        Ok(())
    }
}

fn table() -> &'static [Line] {
    static TABLE: OnceLock<Vec<Line>> = OnceLock::new();
    TABLE.get_or_init(lines)
}

fn defaults() -> &'static [u8] {
    static DEFAULTS: OnceLock<Vec<u8>> = OnceLock::new();
    DEFAULTS.get_or_init(|| Plain::new(&[0; 512]).values())
}

const SPECIAL: [u32; 18] = [
    0x0000_0000, // zero
    0x8000_0000, // minus zero
    0x0000_0001, // smallest
    0x8000_0001, // smallest, negative
    0x44BB_8000, // 1500
    0x44BB_8001, // above 1500
    0x44BB_7FFF, // below 1500
    0x7F7F_FFFF, // greatest
    0xFF7F_FFFF, // least
    0x7F80_0000, // infinity
    0xFF80_0000, // minus infinity
    0x7FC0_0000, // not a number
    0x7F80_0001, // not a number, signalling
    0xFFFF_FFFF, // not a number
    0xBF80_0000, // -1
    0x3F80_0000, // 1
    0xC4BB_8000, // -1500
    0x0080_0000, // smallest normal
];

const NICE: [f32; 14] = [0.5, 0.125, 0.25, 0.75, 1.0, 0.0, 2.0, 1500.0, 0.1, 0.3, 1e-7, 3.5e-10, 1499.9999, 16.0];

/// Levels by which a trip point is straight or crossed: some are equal, some stand next to each other.
const EDGE: [u32; 7] = [
    0x0000_0000, // zero
    0x8000_0000, // minus zero
    0x3F00_0000, // 0.5
    0x3F80_0000, // 1
    0x3F80_0001, // above 1
    0x4120_0000, // 10
    0x44BB_8000, // 1500
];

/// The bits of a fault word that a sample keeps.
const KEPT: u32 = 1 << 0 | 1 << 1 | 1 << 9 | 1 << 10;

/// A message: eight bytes, or up to 120 that go into a mailbox.
type Sdo = Vec<u8>;

/// Makes the steps of one trace.
struct Maker {
    r: Random,
    style: Style,
    /// The form of line 0 at this step, as the state's byte has it.
    form: u8,
    /// Whether the messages that are made go into mailboxes.
    long: bool,
    /// The counter of the last mailbox.
    counter: u8,
    /// Messages that each line is about to send.
    queues: [VecDeque<Sdo>; 2],
    reals: [u32; 4],
    ops: Vec<Op>,
    seconds: u32,
    /// What the last sample kept of its faults.
    active: u32,
}

impl Maker {
    fn real(&mut self) -> u32 {
        match self.r.below(20) {
            0 => self.r.pick(&SPECIAL),
            1 => self.r.word(),
            2 => self.r.pick(&NICE).to_bits(),
            _ => self.r.pick(&self.reals.clone()),
        }
    }

    /// A value for an entry: most of them good, many at a limit, some outside.
    fn value(&mut self, line: &Line) -> Vec<u8> {
        let width = 8 * line.length as u32;
        match line.kind.as_str() {
            "BOOL" => vec![self.r.pick(&[0, 1, 0, 1, 0, 1, 0, 1, 1, 1, 2, 0xFF])],
            "REAL" => match self.r.below(10) {
                0 | 1 => self.r.pick(&SPECIAL).to_le_bytes().to_vec(),
                _ => self.real().to_le_bytes().to_vec(),
            },
            "CARD" => self.card(),
            "COMMAND" => self.command(line),
            "UDINT" if (0xF3A1..=0xF3A8).contains(&line.index) => self.detail().to_le_bytes().to_vec(),
            "STRING" => match self.r.below(4) {
                0 => vec![self.r.byte(); line.length],
                1 => line.default(),
                _ => self.r.bytes(line.length),
            },
            _ => {
                let (low, high) = (line.minimum(), line.maximum());
                let span = high.wrapping_sub(low).wrapping_add(1);
                let inside = if span == 0 { self.r.number() } else { low.wrapping_add(self.r.number() % span) };
                let mut near = vec![low, high, inside, inside, inside, low, high];
                near.extend([low.wrapping_sub(1), high.wrapping_add(1)]);
                if self.r.chance(30) {
                    near = vec![self.r.number()];
                }
                let value = self.r.pick(&near);
                value.to_le_bytes()[..width as usize / 8].to_vec()
            }
        }
    }

    /// A mask or faults: most of them of bits that a sample keeps, often of those that the last one had.
    fn detail(&mut self) -> u32 {
        match self.r.below(10) {
            0..=2 => self.active,
            3 => !self.active,
            4 | 5 => self.r.pick(&[1 << 0, 1 << 1, 1 << 9, 1 << 10]),
            6 => self.r.word() & KEPT,
            7 => self.r.pick(&[0, u32::MAX]),
            8 => self.r.pick(&[1 << 10, KEPT]),
            _ => self.r.word(),
        }
    }

    fn level(&mut self) -> u32 {
        if self.r.chance(300) {
            self.r.pick(&EDGE)
        } else {
            self.r.pick(&self.reals.clone())
        }
    }

    /// Enable and level of a trip point's high and low side: mostly both enabled, mostly the greater level high.
    fn sides(&mut self) -> [(bool, u32); 2] {
        let mut levels = [self.level(), self.level(), self.level()].map(f32::from_bits);
        if self.r.chance(750) {
            levels.sort_by(|a, b| b.total_cmp(a));
        }
        [levels[0], levels[2]].map(|level| (self.r.chance(850), level.to_bits()))
    }

    /// A trip point as a card has it; a spoilt field may be anything.
    fn card_point(&mut self, spoilt: [bool; 4]) -> Vec<bool> {
        let [(high_on, high), (low_on, low)] = self.sides();
        let mut bits = vec![high_on, low_on];
        let pool = self.reals;
        let fields = [high, self.r.pick(&pool), low, self.r.pick(&pool)];
        for (value, spoilt) in fields.into_iter().zip(spoilt) {
            bits.extend(bits_of(if spoilt { self.r.pick(&SPECIAL) } else { value } as u64, 32));
        }
        bits
    }

    fn card(&mut self) -> Vec<u8> {
        let layout = if self.r.chance(40) { self.r.below(16) as u64 } else { 1 };
        let mut bits = bits_of(layout, 4);
        let mut spoilt = [[false; 4]; 2];
        if self.r.chance(250) {
            for _ in 0..1 + self.r.chance(300) as usize {
                spoilt[self.r.below(2)][self.r.below(4)] = true;
            }
        }
        for point in spoilt {
            bits.extend(self.card_point(point));
        }
        bytes_of(&bits)
    }

    fn command(&mut self, line: &Line) -> Vec<u8> {
        let mut word = match line.index {
            0xFBF0 => b"teser\0".to_vec(),
            0xFBF1 => b"teser".to_vec(),
            0xFBF2 => b"save".to_vec(),
            _ => b"load".to_vec(),
        };
        word.resize(line.length, 0);
        if self.r.chance(120) {
            match self.r.below(3) {
                0 => word[self.r.below(line.length)] ^= 1 << self.r.below(8),
                1 => word.reverse(),
                _ => word = self.r.bytes(line.length),
            }
        } else if line.index == 0xFBF0 && line.length == 6 && self.r.chance(300) {
            word[5] = 0x66;
        }
        word
    }

    fn opening(first: u8, line: &Line, rest: [u8; 4]) -> Sdo {
        let [low, high] = line.index.to_le_bytes();
        vec![first, low, high, line.sub, rest[0], rest[1], rest[2], rest[3]]
    }

    /// Bits and bytes without meaning, now and then.
    fn junk4(&mut self) -> [u8; 4] {
        if self.r.chance(150) {
            self.r.word().to_le_bytes()
        } else {
            [0; 4]
        }
    }

    /// Bytes behind a message that no rule names, now and then.
    fn junk_behind(&mut self, sdo: &mut Sdo) {
        if self.r.chance(100) {
            let count = self.r.below(113);
            sdo.extend(self.r.bytes(count));
        }
    }

    fn read(&mut self, line: &Line) -> Vec<Sdo> {
        let rest = self.junk4();
        let low = if self.r.chance(50) { self.r.below(32) as u8 } else { 0 };
        let mut script = vec![Maker::opening(0x40 | low, line, rest)];
        if self.long {
            self.junk_behind(&mut script[0]);
            if self.r.chance(60) {
                self.read_parts(1, 0, &mut script);
            }
        } else if line.length > 4 {
            let parts = line.length.div_ceil(7) + self.r.chance(40) as usize;
            self.read_parts(parts, 0, &mut script);
        }
        script
    }

    fn read_parts(&mut self, count: usize, toggle: usize, script: &mut Vec<Sdo>) {
        for n in 0..count {
            let mut part = vec![0; 8];
            part[0] = 0x60 | (((toggle + n) % 2) as u8) << 4;
            if self.r.chance(60) {
                part[0] |= self.r.below(16) as u8;
                part[1..8].copy_from_slice(&self.r.bytes(7));
            }
            script.push(part);
        }
    }

    /// How many bytes a part brings, if so many are left: in a mailbox any number.
    fn part_size(&mut self, odd: bool) -> usize {
        match (self.long, odd) {
            (true, true) => self.r.below(30),
            (true, false) => self.r.pick(&[7, 8, 119, 119]),
            (false, true) => self.r.below(8),
            (false, false) => 7,
        }
    }

    fn write_parts(&mut self, bytes: &[u8], toggle: usize, script: &mut Vec<Sdo>) {
        let odd = self.r.chance(200);
        let mut at = 0;
        let mut n = toggle;
        let late = self.r.chance(40);
        loop {
            let count = self.part_size(odd).min(bytes.len() - at);
            let last = at + count == bytes.len() && !(late && n < toggle + 8);
            let mut part = vec![0; 1 + count.max(7)];
            if self.r.chance(100) {
                part = self.r.bytes(part.len());
            }
            // of more than seven bytes none can be unused, and the bits are not looked at
            let unused = if count > 7 { self.r.pick(&[0, 0, 1, 7]) } else { 7 - count as u8 };
            part[0] = ((n % 2) as u8) << 4 | unused << 1 | last as u8;
            part[1..1 + count].copy_from_slice(&bytes[at..at + count]);
            script.push(part);
            at += count;
            n += 1;
            if last || n > toggle + 24 {
                return;
            }
            if late && at == bytes.len() && self.r.chance(700) {
                script.push(vec![((n % 2) as u8) << 4 | 7 << 1 | 1, 0, 0, 0, 0, 0, 0, 0]);
                return;
            }
        }
    }

    /// The length that an opening announces: mostly the entry's.
    fn announced(&mut self, line: &Line, bytes: &[u8]) -> u32 {
        match self.r.below(40) {
            0 => 0,
            1 => self.r.word(),
            2 => line.length as u32 + 0x1_0000,
            3 => line.length as u32 + 1,
            4 => line.length as u32 - 1,
            5 | 6 => bytes.len() as u32,
            _ => line.length as u32,
        }
    }

    /// A write by mailbox: the opening may carry all of it, some or more.
    fn write_long(&mut self, line: &Line, bytes: &[u8]) -> Vec<Sdo> {
        let sized = self.r.chance(750);
        let mut sdo = if sized {
            let announced = self.announced(line, bytes);
            Maker::opening(0x21 | self.r.pick(&[0, 0, 0, 4, 8, 12, 16]), line, announced.to_le_bytes())
        } else {
            let rest = self.junk4();
            Maker::opening(0x20 | self.r.pick(&[0, 0, 0, 4, 8, 12, 16]), line, rest)
        };
        let count = match self.r.below(10) {
            0..=5 => bytes.len(),
            6 => 0,
            7 => bytes.len().saturating_sub(1),
            _ => self.r.below(bytes.len() + 1),
        };
        sdo.extend(&bytes[..count]);
        if self.r.chance(60) {
            let surplus = self.r.pick(&[1, 1, 7, 60, 112]).min(120 - sdo.len());
            sdo.extend(self.r.bytes(surplus));
        }
        let mut script = vec![sdo];
        if !sized || count < bytes.len() || self.r.chance(40) {
            self.write_parts(&bytes[count..], 0, &mut script);
        }
        script
    }

    fn write(&mut self, line: &Line, bytes: Vec<u8>) -> Vec<Sdo> {
        let mut bytes = bytes;
        if self.r.chance(60) {
            let wrong = match self.r.below(4) {
                0 => bytes.len().saturating_sub(1),
                1 => bytes.len() + 1,
                2 => self.r.below(12),
                _ => bytes.len() + self.r.below(40),
            };
            bytes.resize(wrong, 0x77);
        }
        let mut rest = self.junk4();
        let form = self.r.below(100);
        if (bytes.len() <= 4 && form < 60) || form < 3 {
            let count = bytes.len().clamp(1, 4);
            bytes.resize(count.max(bytes.len()), 0);
            rest[..count].copy_from_slice(&bytes[..count]);
            let first = if self.r.chance(250) { 0x22 | self.r.pick(&[0, 0, 4, 12]) } else { 0x23 | (4 - count as u8) << 2 };
            let mut sdo = Maker::opening(first, line, rest);
            if self.long {
                self.junk_behind(&mut sdo);
            }
            return vec![sdo];
        }
        if self.long {
            return self.write_long(line, &bytes);
        }
        let mut script = Vec::new();
        if form < 80 {
            let announced = self.announced(line, &bytes);
            script.push(Maker::opening(0x21, line, announced.to_le_bytes()));
        } else {
            script.push(Maker::opening(0x20 | self.r.pick(&[0, 0, 0, 4, 8, 12, 16]), line, rest));
        }
        self.write_parts(&bytes, 0, &mut script);
        script
    }

    fn find(index: u16, sub: u8) -> &'static Line {
        table().iter().find(|l| l.index == index && l.sub == sub).unwrap()
    }

    fn any_line(&mut self) -> &'static Line {
        &table()[self.r.below(table().len())]
    }

    fn long_line(&mut self) -> &'static Line {
        loop {
            let line = self.any_line();
            if line.length > 4 {
                return line;
            }
        }
    }

    fn writable_line(&mut self) -> &'static Line {
        loop {
            let line = self.any_line();
            if line.access == "RW" {
                return line;
            }
        }
    }

    fn trip_line(&mut self) -> &'static Line {
        let (index, enable, level, hysteresis) = self.r.pick(&plain::SIDES);
        Maker::find(index, self.r.pick(&[enable, level, hysteresis]))
    }

    /// A mask, mostly the one that counts.
    fn mask_line(&mut self) -> &'static Line {
        Maker::find(if self.r.chance(600) { 0xF3A3 } else { 0xF3A1 + self.r.below(8) as u16 }, 1)
    }

    /// A write of some value for an entry.
    fn write_some(&mut self, line: &Line) -> Vec<Sdo> {
        let value = self.value(line);
        self.write(line, value)
    }

    /// Levels and enables of one trip point, in any order.
    fn write_point(&mut self) -> Vec<Sdo> {
        let index = self.r.pick(&[0x800E, 0x800F]);
        let [(high_on, high), (low_on, low)] = self.sides();
        let mut entries = vec![
            (0x01, vec![high_on as u8]),
            (0x02, vec![low_on as u8]),
            (0x11, high.to_le_bytes().to_vec()),
            (0x14, low.to_le_bytes().to_vec()),
        ];
        let mut script = Vec::new();
        while !entries.is_empty() {
            let (sub, bytes) = entries.swap_remove(self.r.below(entries.len()));
            script.extend(self.write(Maker::find(index, sub), bytes));
        }
        script
    }

    /// A read of the summary byte or of a word beside it.
    fn read_exceptions(&mut self) -> Vec<Sdo> {
        let (index, sub) = self.r.pick(&[(0xF380, 0), (0xF380, 0), (0xF383, 1), (0xF393, 1), (0xF3A3, 1), (0x9005, 2)]);
        self.read(Maker::find(index, sub))
    }

    /// A write that may work the summary byte out, and often a look at what it did.
    fn write_and_look(&mut self, line: &Line) -> Vec<Sdo> {
        let mut script = self.write_some(line);
        if self.r.chance(400) {
            script.extend(self.read_exceptions());
        }
        script
    }

    /// What a line will say next.
    fn script(&mut self) -> Vec<Sdo> {
        let card = Maker::find(0x2010, 0);
        let label = Maker::find(0x2001, 0);
        match self.r.below(116) {
            0..=11 => {
                let line = self.any_line();
                self.read(line)
            }
            12..=17 => {
                let line = self.long_line();
                self.read(line)
            }
            18..=27 => self.read(card),
            28..=31 => self.read(label),
            32..=41 => {
                let line = self.writable_line();
                self.write_some(line)
            }
            42..=51 => self.write_some(card),
            52..=57 => self.write_some(label),
            58..=65 => {
                let line = self.trip_line();
                self.write_some(line)
            }
            66..=73 => {
                let lock = Maker::find(0x2003, 0);
                let value = vec![self.r.pick(&[0, 0, 0, 0, 0, 1, 1, 1, 2, 0xFF])];
                self.write(lock, value)
            }
            74..=84 => {
                let index = self.r.pick(&[0xFBF1, 0xFBF2, 0xFBF2, 0xFBF4, 0xFBF4, 0xFBF0]);
                // a device reset ends most of what is going on, so it is rare
                let index = if index == 0xFBF0 && self.r.chance(400) { 0xFBF1 } else { index };
                let line = Maker::find(index, 1);
                if self.r.chance(100) {
                    self.read(line)
                } else {
                    self.write_and_look(line)
                }
            }
            85..=87 => {
                let line = self.any_line();
                self.write_some(line)
            }
            88..=91 => {
                let mut line = self.any_line().clone();
                match self.r.below(4) {
                    0 => line.sub = self.r.byte(),
                    1 => line.sub = line.sub.wrapping_add(1),
                    2 => line.index = line.index.wrapping_add(self.r.pick(&[1, 0xFFFF])),
                    _ => line.index = self.r.word() as u16,
                }
                if self.r.chance(500) {
                    self.read(&line)
                } else {
                    self.write_some(&line)
                }
            }
            92..=93 => vec![ABORT.to_vec()],
            94 => vec![vec![self.r.byte() | 0xA0, 1, 2, 3, 4, 5, 6, 7]],
            95..=96 => {
                let mut script = Vec::new();
                self.read_parts(1, self.r.clone().below(2), &mut script);
                script
            }
            97 => {
                let bytes = self.r.bytes(7);
                let mut script = Vec::new();
                self.write_parts(&bytes, 0, &mut script);
                script
            }
            98 => {
                let status = Maker::find(self.r.pick(&[0xFBF0, 0xFBF1, 0xFBF2, 0xFBF4]), self.r.pick(&[2, 3]));
                self.read(status)
            }
            99..=104 => {
                let line = self.mask_line();
                let mut script = self.write_and_look(line);
                // another mask may come back
                if self.r.chance(250) {
                    script.extend(self.write_and_look(Maker::find(0xFBF4, 1)));
                }
                script
            }
            105 | 106 => self.read_exceptions(),
            107..=114 => self.write_point(),
            _ => {
                let mut sdo = self.r.bytes(8);
                if self.long {
                    self.junk_behind(&mut sdo);
                }
                vec![sdo]
            }
        }
    }

    /// Whether a line speaks in mailboxes.
    fn is_long(&self, line: usize) -> bool {
        line == 0 && self.form != 0
    }

    fn room(&mut self, least: usize) -> usize {
        if self.r.chance(100) {
            least + self.r.below(12)
        } else {
            least
        }
    }

    fn message(&mut self) {
        let mut line = self.r.below(2);
        if self.queues[line].is_empty() {
            self.long = self.is_long(line);
            let script = self.script();
            self.queues[line].extend(script);
        }
        // often several in a row
        let burst = if self.r.chance(300) { 1 + self.r.below(4) } else { 1 };
        for _ in 0..burst {
            let Some(mut sdo) = self.queues[line].pop_front() else {
                return;
            };
            if self.r.chance(25) {
                match self.r.below(8) {
                    0 | 1 => sdo[0] ^= 0x10,
                    2 => sdo[self.r.below(8)] ^= 1 << self.r.below(8),
                    3 => continue,
                    4 => self.queues[line].push_front(sdo.clone()),
                    5 => sdo[0] = self.r.byte(),
                    6 => line = 1 - line,
                    _ => sdo = ABORT.to_vec(),
                }
            }
            if self.is_long(line) {
                self.post(sdo);
            } else {
                self.say(line, &sdo);
            }
        }
    }

    fn say(&mut self, line: usize, sdo: &Sdo) {
        let room = self.room(8);
        // what was meant for a mailbox is cut
        let message = *sdo.first_chunk().unwrap();
        self.ops.push(Op::Message { line: line as u32, message, room });
    }

    /// Sends a mailbox. One that the board refuses by number is mostly sent again.
    fn post(&mut self, sdo: Sdo) {
        let mut mailbox = self.mailbox(&sdo);
        if self.r.chance(40) {
            self.spoil(&mut mailbox);
            if self.r.chance(700) {
                self.queues[0].push_front(sdo);
            }
        }
        let room = self.room(128);
        self.ops.push(Op::Mailbox { mailbox, room });
    }

    /// A mailbox with an SDO request; what is not looked at may be anything.
    fn mailbox(&mut self, sdo: &Sdo) -> Vec<u8> {
        let mut mailbox = if self.r.chance(300) { self.r.bytes(128) } else { vec![0; 128] };
        mailbox[..2].copy_from_slice(&(2 + sdo.len() as u16).to_le_bytes());
        mailbox[2..4].copy_from_slice(&if self.r.chance(500) { ADDRESS } else { [self.r.byte(), self.r.byte()] });
        mailbox[4] = if self.r.chance(100) { self.r.byte() } else { 0 };
        // a counter may be repeated, and may be 0
        if self.r.chance(900) {
            self.counter = if self.r.chance(100) { self.r.below(8) as u8 } else { self.counter % 7 + 1 };
        }
        mailbox[5] = 3 | self.counter << 4 | (self.r.chance(80) as u8) << 7;
        let number = if self.r.chance(100) { self.r.word() as u16 & 0x0FFF } else { 0 };
        mailbox[6..8].copy_from_slice(&(0x2000 | number).to_le_bytes());
        mailbox[8..8 + sdo.len()].copy_from_slice(sdo);
        mailbox
    }

    /// A wrong length field, type, service or size; or a length field that only counts other bytes.
    fn spoil(&mut self, mailbox: &mut Vec<u8>) {
        match self.r.below(14) {
            0..=2 => {
                let length: u16 = self.r.pick(&[0, 8, 9, 9, 9, 123, 123, 123, 124, 0x010A, 0x0A00, 0xFFFF]);
                mailbox[..2].copy_from_slice(&length.to_le_bytes());
            }
            3 | 4 => mailbox[0] = self.r.pick(&[10, 11, 12, 121, 122]),
            5 | 6 => mailbox[5] = mailbox[5] & 0xF0 | self.r.below(16) as u8,
            7 => mailbox[7] = mailbox[7] & 0x0F | (self.r.below(16) as u8) << 4,
            8 => mailbox[7] = self.r.pick(&[0x10, 0x30]),
            9 | 10 => mailbox.resize(self.r.pick(&[127, 129, 127, 129, 0, 7, 64, 256]), 0),
            11 => {
                mailbox[5] ^= 1 << self.r.below(4);
                mailbox[0] = self.r.pick(&[9, 123]);
            }
            12 => mailbox[self.r.below(8)] ^= 1 << self.r.below(8),
            _ => {
                let size = if self.r.chance(500) { 128 } else { self.r.below(301) };
                *mailbox = self.r.bytes(size);
            }
        }
    }

    /// Line 0 speaks in the form that is not chosen.
    fn stray(&mut self) {
        self.long = self.form == 0;
        let sdo = self.script().swap_remove(0);
        if self.long {
            self.post(sdo);
        } else {
            self.say(0, &sdo);
        }
    }

    fn sample(&mut self) {
        let (a, b) = (f32::from_bits(self.real()), f32::from_bits(self.real()));
        let near = self.r.pick(&[a, a, a + b, a - b, a + b, a - b, b - a, (a + b) / 2.0]);
        let bits = near.to_bits();
        let pressure = match self.r.below(16) {
            0 => self.r.pick(&SPECIAL),
            1 => self.r.word(),
            2 | 3 => bits.wrapping_add(1),
            4 | 5 => bits.wrapping_sub(1),
            _ => bits,
        };
        let valid = self.r.pick(&[1, 1, 1, 1, 1, 1, 1, 1, 0, 2, 0xFF]);
        let faults = match self.r.below(6) {
            0..=2 => self.detail(),
            3 => self.r.pick(&[4, 1 << 8, 1 << 11, 1 << 31, 1 << 16]),
            _ => 0,
        };
        self.active = faults & KEPT;
        self.seconds = if self.r.chance(50) { self.r.word() } else { self.seconds.wrapping_add(1) };
        self.ops.push(Op::Sample { pressure, valid, faults, seconds: self.seconds });
    }

    fn odd(&mut self) {
        let call = self.r.below(10).min(3) as u8;
        let call = if call == 3 && self.r.chance(600) { 1 } else { call };
        let posts = self.form != 0 || self.style == Style::Any;
        let call = if call == 1 && posts && self.r.chance(600) { 4 } else { call };
        let mut size = |right: usize| match self.r.below(24) {
            0 => 0,
            1 => right - 1,
            2 => right + 1,
            3 => 2 * right,
            _ => right,
        };
        let sizes = [size(1024), size(512), size(256)];
        let line = self.r.pick(&[0, 1, 0, 1, 2, 3, 256, 0x8000_0000, u32::MAX]);
        if call == 4 {
            return self.odd_mailbox(sizes);
        }
        self.long = false;
        let message = match self.r.below(6) {
            0 => self.r.bytes(7),
            1 => self.r.bytes(9),
            2 => Vec::new(),
            3 => vec![0x80; 8],
            _ => self.script().swap_remove(0),
        };
        let room = self.r.pick(&[8, 8, 10, 10, 12, 7, 9, 0, 1, 20]);
        // a run from power-up keeps its form
        let line = if call == 0 && self.style == Style::FromPowerUp { self.form as u32 } else { line };
        if call == 0 && sizes == [1024, 512, 256] {
            self.form = (line != 0) as u8;
        }
        self.ops.push(Op::Odd { call, line, message, sizes, room });
    }

    fn odd_mailbox(&mut self, sizes: [usize; 3]) {
        self.long = true;
        let sdo = if self.r.chance(200) { ABORT.to_vec() } else { self.script().swap_remove(0) };
        let mut message = self.mailbox(&sdo);
        if self.r.chance(400) {
            self.spoil(&mut message);
        }
        let room = self.r.pick(&[128, 128, 130, 127, 127, 0, 8, 200]);
        self.ops.push(Op::Odd { call: 4, line: 0, message, sizes, room });
    }

    /// A record as it may be lent: most of them fit the table.
    fn record(&mut self, line: usize) -> Vec<u8> {
        let n = match self.r.below(10) {
            0..=3 => self.r.below(table().len()),
            4 | 5 => table().iter().position(|l| l.index == 0x2010).unwrap(),
            6 => table().iter().position(|l| l.index == 0x2001).unwrap(),
            _ => {
                let line = self.long_line();
                table().iter().position(|l| std::ptr::eq(l, line)).unwrap()
            }
        };
        let row = &table()[n];
        let direction = if row.access == "RW" { self.r.pick(&[1, 2, 2]) } else { self.r.pick(&[1, 1, 1, 1, 2]) };
        let left = self.r.pick(&[0, 1, 6, 7, 8, 13, 14, 15, row.length]).min(row.length);
        let place = row.length - left;
        let mut held = if self.r.chance(500) { self.value(row) } else { self.r.bytes(64) };
        held.resize(64, if self.r.chance(300) { 0xEE } else { 0 });
        let mut record = held;
        record.extend((n as u16).to_le_bytes());
        record.extend([direction, row.length as u8, place as u8, self.r.pick(&[0, 1, 0, 1, 2, 0xFF])]);
        match self.r.below(30) {
            0 => record[64..66].copy_from_slice(&(table().len() as u16 + self.r.below(3) as u16).to_le_bytes()),
            1 => record[65] = self.r.byte(),
            2 => record[66] = self.r.byte(),
            3 => record[67] = record[67].wrapping_add(self.r.pick(&[1, 0xFF])),
            4 => record[68] = record[67] + 1,
            5 => record[68] = self.r.byte(),
            6 => record[67] = self.r.byte(),
            _ => (),
        }
        // the line goes on with it
        let toggle = (record[69] != 0) as usize;
        self.queues[line].clear();
        self.long = self.is_long(line);
        let mut script = Vec::new();
        if record[66] == 1 {
            let parts = if self.long { 1 } else { left.div_ceil(7).max(1) };
            self.read_parts(parts, toggle, &mut script);
        } else {
            let bytes = self.r.bytes(left);
            self.write_parts(&bytes, toggle, &mut script);
        }
        self.queues[line].extend(script);
        record
    }

    /// A value for an NV entry: within its limits, or any. Enables and levels are those of the four sides.
    fn nv_value(&mut self, line: &Line, any: bool, sides: &[(bool, u32)]) -> Vec<u8> {
        let side = plain::SIDES.iter().zip(sides).find(|(side, _)| side.0 == line.index && [side.1, side.2].contains(&line.sub));
        match (line.kind.as_str(), side) {
            ("REAL", _) if any => self.r.pick(&SPECIAL).to_le_bytes().to_vec(),
            ("BOOL", Some((_, (enabled, _)))) => vec![*enabled as u8],
            (_, Some((_, (_, level)))) => level.to_le_bytes().to_vec(),
            _ if any => self.value(line),
            _ => (0..20).map(|_| self.value(line)).find(|value| plain::judge(line, value).is_ok()).unwrap_or(line.default()),
        }
    }

    /// A saved block: zero, good, crossed in a trip point, damaged or anything.
    fn block(&mut self) -> Vec<u8> {
        let kind = self.r.below(12);
        if kind == 0 {
            return vec![0; 512];
        }
        if kind == 1 {
            return self.r.bytes(512);
        }
        let bad = if kind == 2 { self.r.below(table().len()) } else { usize::MAX };
        let sides = [self.sides(), self.sides()].concat();
        let mut values = BTreeMap::new();
        for (n, line) in table().iter().enumerate().filter(|(_, line)| line.nv) {
            values.insert((line.index, line.sub), self.nv_value(line, n >= bad, &sides));
        }
        let mut block = Plain::pack(table(), |line| values[&(line.index, line.sub)].clone());
        if kind == 3 {
            let at = match self.r.below(6) {
                0 => self.r.below(8),
                1 => 4095 - self.r.below(16),
                2 => 1214 + self.r.below(16),
                3 => 1213 - self.r.below(8),
                _ => self.r.below(4096),
            };
            block[at / 8] ^= 0x80 >> (at % 8);
        }
        block
    }

    fn lend_entry(&mut self, index: u16, sub: u8, bytes: Vec<u8>) {
        let at = Maker::find(index, sub).place.unwrap();
        self.ops.push(Op::Lend { part: Part::Values, at, bytes });
    }

    /// A summary byte that is not worked out of the words beside it, and then a write that works it out or leaves it.
    fn stale(&mut self) {
        let summary = self.r.pick(&[0, 4, 0, 4, 0xFF]);
        self.lend_entry(0xF380, 0, vec![summary]);
        if self.r.chance(600) {
            let word = self.detail();
            self.lend_entry(0xF383, 1, word.to_le_bytes().to_vec());
        }
        if self.r.chance(300) {
            self.lend_entry(0x2003, 0, vec![1]);
        }
        let line = match self.r.below(10) {
            0..=4 => self.mask_line(),
            5..=7 => Maker::find(0xFBF4, 1),
            8 => Maker::find(0xFBF1, 1),
            _ => self.writable_line(),
        };
        self.say_next(|maker| maker.write_some(line));
    }

    /// A line says this instead of what it was about to say.
    fn say_next(&mut self, script: impl Fn(&mut Maker) -> Vec<Sdo>) {
        let line = self.r.below(2);
        self.long = self.is_long(line);
        self.queues[line] = script(self).into();
    }

    /// A trip point that is crossed, as only lent bytes can be, and then a write that may be refused for it.
    fn cross(&mut self) {
        let index = self.r.pick(&[0x800E, 0x800F]);
        let (high, low) = match self.r.below(10) {
            0 => (0x7FC0_0000, self.level()),
            1 => (self.level(), 0x7FC0_0000),
            2 => (0, 0x8000_0000),
            3 => (0x8000_0000, 0),
            4 => (0x3F80_0000, 0x4120_0000),
            5..=7 => (0x3F80_0000, 0x3F80_0000),
            _ => (self.level(), self.level()),
        };
        for (sub, level) in [(0x11, high), (0x14, low)] {
            self.lend_entry(index, sub, level.to_le_bytes().to_vec());
        }
        for sub in [0x01, 0x02] {
            let enable = self.r.pick(&[1, 1, 1, 1, 1, 2, 0xFF]);
            self.lend_entry(index, sub, vec![enable]);
        }
        self.say_next(|maker| maker.write_beside_crossed(index));
    }

    /// A write while a trip point may be crossed: to its object, to the other, a command or any other.
    fn write_beside_crossed(&mut self, index: u16) -> Vec<Sdo> {
        let line = match self.r.below(14) {
            0..=3 => {
                let object: Vec<&Line> = table().iter().filter(|line| line.index == index).collect();
                self.r.pick(&object)
            }
            4 => Maker::find(index ^ 1, self.r.pick(&[0x01, 0x02, 0x11, 0x14, 0x17])),
            5 | 6 => {
                let enable = Maker::find(index, self.r.pick(&[0x01, 0x02]));
                return self.write(enable, vec![0]);
            }
            7 => Maker::find(index, self.r.pick(&[0x11, 0x14])),
            8 => Maker::find(0x2010, 0),
            9 | 10 => Maker::find(0xFBF2, 1),
            11 => Maker::find(self.r.pick(&[0xFBF0, 0xFBF1, 0xFBF4]), 1),
            12 => self.mask_line(),
            _ => self.writable_line(),
        };
        self.write_some(line)
    }

    fn lend(&mut self) {
        let (part, at, bytes) = match self.r.below(16) {
            0..=3 => {
                let line = if self.r.chance(400) { self.trip_line() } else { self.any_line() };
                let Some(place) = line.place else {
                    return;
                };
                let bytes = match line.kind.as_str() {
                    "REAL" => self.r.pick(&SPECIAL).to_le_bytes().to_vec(),
                    "BOOL" => vec![self.r.pick(&[0, 1, 2, 3, 0x80, 0xFF])],
                    _ if self.r.chance(500) => self.value(line),
                    _ => self.r.bytes(line.length),
                };
                (Part::Values, place, bytes)
            }
            4 => {
                let at = self.r.below(1024);
                (Part::Values, at, vec![self.r.byte()])
            }
            5 => (Part::Block, 0, self.block()),
            6 => {
                let at = self.r.pick(&[0, 1, 150, 151, 152, 153, 510, 511]);
                (Part::Block, at, vec![self.r.byte()])
            }
            7 | 8 => {
                let line = self.r.below(2);
                (Part::State, [0, 96][line], self.record(line))
            }
            9 | 10 => return self.stale(),
            11..=13 => return self.cross(),
            14 if self.form != 0 || self.r.chance(100) => {
                self.form = self.r.pick(&[0, 1, 2, 3, 0x80, 0xFF, 2, 4, 0xFE]);
                (Part::State, FORM, vec![self.form])
            }
            _ => {
                let at = self.r.pick(&[192, 193, 194, 195, 192, 193, 194, 195, 70, 95, 166, 191, 197, 255, 64, 66, 160, 162]);
                (Part::State, at, vec![self.r.pick(&[0, 1, 2, 0x80, 0xFF])])
            }
        };
        self.ops.push(Op::Lend { part, at, bytes });
    }

    fn memory(&mut self) -> Memory {
        let mut memory = Memory::zero();
        memory.block = self.block();
        if self.style == Style::FromPowerUp || self.r.chance(500) {
            memory.values = self.r.bytes(1024);
            if self.r.chance(500) {
                memory.state = self.r.bytes(256);
            }
            let form = self.form != 0;
            self.power_up(form);
            return memory;
        }
        match self.r.below(5) {
            0 => memory.values = self.r.bytes(1024),
            _ => {
                memory.values = defaults().to_vec();
                for _ in 0..self.r.below(12) {
                    self.lend();
                }
            }
        }
        if self.r.chance(200) {
            memory.state = self.r.bytes(256);
        }
        for (line, at) in [0, 96].into_iter().enumerate() {
            if self.r.chance(400) {
                let record = self.record(line);
                memory.state[at..at + 70].copy_from_slice(&record);
            }
        }
        for at in 192..196 {
            memory.state[at] = self.r.pick(&[0, 0, 1, 5]);
        }
        memory.state[FORM] = self.form;
        memory
    }

    /// A power-up; any number but 0 chooses the mailbox.
    fn power_up(&mut self, mailbox: bool) {
        let form = if mailbox { self.r.pick(&[MAILBOX, MAILBOX, 2, 256, 0x8000_0000, u32::MAX]) } else { EIGHT };
        self.form = mailbox as u8;
        self.ops.push(Op::PowerUp { form });
    }

    fn step(&mut self) {
        let lends = self.style == Style::Any;
        match self.r.below(1000) {
            0..=779 => self.message(),
            780..=929 => self.sample(),
            930..=949 => {
                let room = self.room(10);
                self.ops.push(Op::Image { room });
            }
            950..=969 => self.odd(),
            970..=995 if lends => self.lend(),
            996 if lends => {
                let other = self.r.chance(300);
                self.power_up((self.form != 0) != other);
            }
            997..=999 if lends || self.form != 0 => self.stray(),
            _ => self.message(),
        }
    }
}

impl Trace {
    /// The trace of a number, as the comparison and the mutants have it: every second with line 0 in the mailbox form, and of each
    /// form every fourth from power-up.
    pub fn numbered(n: u64) -> Trace {
        let style = if matches!(n % 8, 0 | 1) { Style::FromPowerUp } else { Style::Any };
        Trace::random(n, style, if n % 2 == 1 { MAILBOX } else { EIGHT })
    }

    /// The trace of a seed, style and form of line 0. What lends memory may change the form on its way.
    pub fn random(seed: u64, style: Style, form: u32) -> Trace {
        let mut r = Random::new(seed);
        let mut reals = [0; 4];
        let near = r.chance(300);
        for real in &mut reals {
            *real = match r.below(8) {
                _ if near => r.pick(&EDGE),
                0 => f32::from_bits(0x3F00_0000 + r.below(0x100_0000) as u32).to_bits(),
                1 => r.pick(&[0x8000_0000, 0x44BB_8000, 0, 1]),
                _ => r.pick(&NICE).to_bits(),
            };
        }
        let (form, long, counter) = (form as u8, false, 0);
        let mut maker =
            Maker { r, style, form, long, counter, queues: Default::default(), reals, ops: Vec::new(), seconds: 0, active: 0 };
        let memory = maker.memory();
        let length = maker.r.pick(&[20, 60, 150, 300, 500]);
        while maker.ops.len() < length {
            maker.step();
        }
        Trace { seed, memory, ops: maker.ops }
    }
}
