//! The kinds of call that are measured. A kind may occur several times, for each row that it can be tried on; the greatest counts.

use board_tests::board::{mailbox_with, Memory, EIGHT, MAILBOX};
use board_tests::independent::Model;
use board_tests::model::{self, fault::Sound};
use board_tests::plain::{bits_of, bytes_of, lines, Line, Plain};
use board_tests::trace::{apply, Op, Style, Trace};

#[derive(Clone)]
pub enum Call {
    PowerUp(u32),
    Message(u32, [u8; 8]),
    Mailbox([u8; 128]),
    Sample(f32, u8, u32, u32),
    Image,
}

pub struct Kind {
    pub name: String,
    /// "message" and "mailbox" for one that is no command, "command", "sample", "image", "power-up", "sequence" for several messages,
    /// "trace" for many calls of all sorts.
    pub family: &'static str,
    pub memory: Memory,
    pub calls: Vec<Call>,
    /// Whether the calls can be made again and again with the same effect, so that their time can be taken.
    pub repeats: bool,
}

/// Serves messages on a memory by the independent board, uncounted.
fn prepare(memory: &mut Memory, messages: &[[u8; 8]]) {
    for message in messages {
        let mut answer = [0; 8];
        model::message(0, message, &mut memory.values, &mut memory.block, &mut memory.state, &mut answer);
    }
}

fn fresh() -> Memory {
    let mut memory = Memory::zero();
    model::power_up(EIGHT, &mut memory.values, &memory.block, &mut memory.state);
    memory
}

/// The same memory with line 0 in the mailbox form.
fn by_mailbox(memory: &Memory) -> Memory {
    let mut memory = memory.clone();
    memory.state[196] = 1;
    memory
}

/// Serves SDOs by mailbox on a memory, uncounted.
fn prepare_mailbox(memory: &mut Memory, sdo: &[u8]) {
    model::mailbox(&mailbox_with(sdo), &mut memory.values, &mut memory.block, &mut memory.state, &mut [0; 128]);
}

fn opening(first: u8, line: &Line, rest: [u8; 4]) -> [u8; 8] {
    let [low, high] = line.index.to_le_bytes();
    [first, low, high, line.sub, rest[0], rest[1], rest[2], rest[3]]
}

fn read(line: &Line) -> Vec<[u8; 8]> {
    let mut messages = vec![opening(0x40, line, [0; 4])];
    if line.length > 4 {
        messages.extend((0..line.length.div_ceil(7)).map(|n| [0x60 | (n as u8 % 2) << 4, 0, 0, 0, 0, 0, 0, 0]));
    }
    messages
}

fn write(line: &Line, bytes: &[u8]) -> Vec<[u8; 8]> {
    if bytes.len() <= 4 {
        let mut rest = [0; 4];
        rest[..bytes.len()].copy_from_slice(bytes);
        return vec![opening(0x23 | (4 - bytes.len() as u8) << 2, line, rest)];
    }
    let mut messages = vec![opening(0x21, line, (bytes.len() as u32).to_le_bytes())];
    let count = bytes.chunks(7).len();
    for (n, chunk) in bytes.chunks(7).enumerate() {
        let mut part = [0; 8];
        part[0] = (n as u8 % 2) << 4 | (7 - chunk.len() as u8) << 1 | (n + 1 == count) as u8;
        part[1..1 + chunk.len()].copy_from_slice(chunk);
        messages.push(part);
    }
    messages
}

fn card(levels: [f32; 8]) -> Vec<u8> {
    let mut bits = bits_of(1, 4);
    for point in levels.chunks(4) {
        bits.extend([true, true]);
        for level in point {
            bits.extend(bits_of(level.to_bits() as u64, 32));
        }
    }
    bytes_of(&bits)
}

/// The opening of a write by mailbox that announces a length and carries bytes.
fn carrying(line: &Line, length: usize, bytes: &[u8]) -> Vec<u8> {
    let mut sdo = opening(0x21, line, (length as u32).to_le_bytes()).to_vec();
    sdo.extend(bytes);
    sdo
}

/// A write by one mailbox.
fn whole(line: &Line, bytes: &[u8]) -> Vec<u8> {
    carrying(line, bytes.len(), bytes)
}

struct List(Vec<Kind>);

impl List {
    fn add(&mut self, name: &str, family: &'static str, memory: &Memory, calls: Vec<Call>, repeats: bool) {
        self.0.push(Kind { name: name.to_string(), family, memory: memory.clone(), calls, repeats });
    }

    fn one(&mut self, name: &str, family: &'static str, memory: &Memory, message: [u8; 8], repeats: bool) {
        self.add(name, family, memory, vec![Call::Message(0, message)], repeats);
    }

    fn post(&mut self, name: &str, family: &'static str, memory: &Memory, sdo: &[u8], repeats: bool) {
        self.add(name, family, memory, vec![Call::Mailbox(mailbox_with(sdo))], repeats);
    }

    /// Each message of a dialogue by itself: the opening, the parts between, the last.
    fn each(&mut self, name: &str, family: &'static str, memory: &Memory, messages: &[[u8; 8]]) {
        let mut memory = memory.clone();
        for (n, message) in messages.iter().enumerate() {
            let which = match n {
                0 => "opening",
                _ if n + 1 == messages.len() => "last part",
                _ => "part",
            };
            self.one(&format!("{name}, {which}"), family, &memory, *message, false);
            prepare(&mut memory, &[*message]);
        }
    }

    fn all(&mut self, name: &str, memory: &Memory, messages: &[[u8; 8]]) {
        let calls = messages.iter().map(|message| Call::Message(0, *message)).collect();
        self.add(name, "sequence", memory, calls, true);
    }
}

pub fn kinds() -> Vec<Kind> {
    let table = lines();
    let find = |index: u16, sub: u8| table.iter().find(|l| l.index == index && l.sub == sub).unwrap();
    let the_card = find(0x2010, 0);
    let label = find(0x2001, 0);
    let good_card = card([2.0, 0.5, 0.25, 0.125, 20.0, 5.0, 0.5, 0.0625]);
    let fresh = fresh();
    let mut list = List(Vec::new());

    for line in &table {
        if line.length <= 4 {
            list.one("short read", "message", &fresh, opening(0x40, line, [0; 4]), true);
        } else {
            list.each("long read", "message", &fresh, &read(line));
        }
        list.one("absent subindex", "message", &fresh, opening(0x40, &Line { sub: 0xFE, ..line.clone() }, [0; 4]), true);
        let absent = Line { index: line.index + 1, ..line.clone() };
        if !table.iter().any(|l| l.index == absent.index) {
            list.one("absent index", "message", &fresh, opening(0x40, &absent, [0; 4]), true);
            list.one("absent index, written", "message", &fresh, opening(0x2F, &absent, [0; 4]), true);
        }
        if line.access == "RO" {
            list.one("write of a read-only entry", "message", &fresh, opening(0x2F, line, [0; 4]), true);
            continue;
        }
        if line.length < 4 {
            list.one("expedited write too long", "message", &fresh, opening(0x23, line, [0; 4]), true);
        }
        list.one("announced write too long", "message", &fresh, opening(0x21, line, [0xFF; 4]), true);
        if line.kind == "COMMAND" {
            continue;
        }
        let value = if line.kind == "CARD" { good_card.clone() } else { line.default() };
        if line.length <= 4 {
            list.one("expedited write", "message", &fresh, write(line, &value)[0], true);
            let mut parts = vec![opening(0x21, line, (line.length as u32).to_le_bytes())];
            let mut part = [0; 8];
            part[0] = (7 - line.length as u8) << 1 | 1;
            part[1..1 + line.length].copy_from_slice(&value);
            parts.push(part);
            list.each("short entry written in parts", "message", &fresh, &parts);
            let mut rest = [0xFF; 4];
            rest[line.length..].fill(0);
            list.one(
                "expedited write of FF bytes",
                "message",
                &fresh,
                opening(0x23 | (4 - line.length as u8) << 2, line, rest),
                false,
            );
        } else {
            list.each("long write", "message", &fresh, &write(line, &value));
        }
    }

    // the card: worst in its last part
    list.all("card read, six messages", &fresh, &read(the_card));
    list.all("card write, six messages", &fresh, &write(the_card, &good_card));
    list.each("card read", "message", &fresh, &read(the_card));
    list.each("card write", "message", &fresh, &write(the_card, &good_card));
    let refused = card([2.0, 0.5, 0.25, 0.125, 20.0, 5.0, 0.5, -1.0]);
    list.each("card write, last field bad", "message", &fresh, &write(the_card, &refused));
    let equal = card([2.0, 0.5, 0.25, 0.125, 20.0, 5.0, 20.0, 0.0625]);
    list.each("card write, crossed", "message", &fresh, &write(the_card, &equal));
    list.all("label read, six messages", &fresh, &read(label));
    list.all("label write, six messages", &fresh, &write(label, &[0x41; 32]));
    let mut locked = fresh.clone();
    prepare(&mut locked, &write(find(0x2003, 0), &[1]));
    list.each("card write under lock", "message", &locked, &write(the_card, &good_card));
    list.each("label write under lock", "message", &locked, &write(label, &[0x41; 32]));

    list.one("part with no transfer", "message", &fresh, [0x60, 0, 0, 0, 0, 0, 0, 0], true);
    list.one("write part with no transfer", "message", &fresh, [0, 0, 0, 0, 0, 0, 0, 0], true);
    list.one("unknown specifier", "message", &fresh, [0xE0, 0, 0, 0, 0, 0, 0, 0], true);
    list.one("client's abort", "message", &fresh, [0x80, 0, 0, 0, 0, 0, 0, 0], true);
    let mut open = fresh.clone();
    prepare(&mut open, &[opening(0x40, the_card, [0; 4])]);
    list.one("wrong toggle", "message", &open, [0x70, 0, 0, 0, 0, 0, 0, 0], false);
    let mut written = fresh.clone();
    prepare(&mut written, &[opening(0x20, label, [0; 4])]);
    list.one("last part that ends short", "message", &written, [0x0D, 0, 0, 0, 0, 0, 0, 0], false);

    // commands, on blocks that are zero, good, and faulty at the very end
    let (store, load, exceptions, reset) = (find(0xFBF2, 1), find(0xFBF4, 1), find(0xFBF1, 1), find(0xFBF0, 1));
    let mut stored = fresh.clone();
    prepare(&mut stored, &write(the_card, &good_card));
    prepare(&mut stored, &write(store, b"save"));
    let mut damaged = stored.clone();
    damaged.block[511] = 1;
    // a fault is hidden and another is not, in the values and by the block
    let mask = find(0xF3A3, 1);
    let mut masked = stored.clone();
    prepare(&mut masked, &write(mask, &[0, 4, 0, 0]));
    prepare(&mut masked, &write(store, b"save"));
    model::sample(0.5, 1, 0x401, 1, &mut masked.values, &mut masked.state);
    // trip point 2 is crossed, in the values and by the block
    let mut crossed = stored.clone();
    crossed.values[find(0x800F, 0x14).place.unwrap()..][..4].copy_from_slice(&1500f32.to_le_bytes());
    crossed.block = Plain::pack(&table, |line| crossed.values[line.place.unwrap()..][..line.length].to_vec());
    let mut outside = fresh.clone();
    let total = find(0xF840, 3);
    outside.values[total.place.unwrap()] = 0;
    list.one("store", "command", &fresh, write(store, b"save")[0], true);
    list.one("store, refused at the last limit", "command", &outside, write(store, b"save")[0], true);
    list.one("store, crossed", "command", &crossed, write(store, b"save")[0], true);
    list.one("store, wrong word", "command", &fresh, write(store, b"SAVE")[0], true);
    for memory in [&stored, &masked] {
        list.one("load", "command", memory, write(load, b"load")[0], true);
    }
    list.one("load, block faulty at its end", "command", &damaged, write(load, b"load")[0], true);
    list.one("load, crossed block", "command", &crossed, write(load, b"load")[0], true);
    list.one("load, zero block", "command", &fresh, write(load, b"load")[0], true);
    for (name, memory) in [("good", &stored), ("faulty", &damaged)] {
        let messages = write(reset, b"teser\0");
        let mut last = memory.clone();
        prepare(&mut last, &messages[..1]);
        list.one(&format!("device reset, last part, block {name}"), "command", &last, messages[1], false);
    }
    let messages = write(exceptions, b"teser");
    for memory in [&fresh, &masked] {
        let mut last = memory.clone();
        prepare(&mut last, &messages[..1]);
        list.one("exception reset, last part", "command", &last, messages[1], false);
    }
    for memory in [&fresh, &masked] {
        list.one("mask write", "message", memory, write(mask, &[0, 4, 0, 0])[0], true);
    }

    // all sides are enabled: each setting is written as it stands, then levels that cross
    for line in table.iter().filter(|line| matches!(line.index, 0x800E | 0x800F)) {
        let value = &stored.values[line.place.unwrap()..][..line.length];
        list.one("trip entry write", "message", &stored, write(line, value)[0], true);
    }
    for (index, sub, level) in [(0x800E, 0x11, 0.25f32), (0x800E, 0x14, 2.0), (0x800F, 0x11, 0.5), (0x800F, 0x14, 20.0)] {
        let message = write(find(index, sub), &level.to_le_bytes())[0];
        list.one("trip entry write, crossed", "message", &stored, message, true);
    }

    let blocks =
        [("zero block", &fresh), ("good block", &stored), ("block faulty at its end", &damaged), ("crossed block", &crossed)];
    for (name, memory) in blocks {
        list.add(&format!("power-up, {name}"), "power-up", memory, vec![Call::PowerUp(EIGHT)], true);
    }

    for pressure in [0.0, 0.1, 0.25, 1.0, 3.0, 1e-9] {
        list.add("valid sample, all sides enabled", "sample", &stored, vec![Call::Sample(pressure, 1, 0, 1)], true);
        list.add("valid sample, no side enabled", "sample", &fresh, vec![Call::Sample(pressure, 1, 0, 1)], true);
    }
    for memory in [&stored, &masked] {
        list.add("sample with faults", "sample", memory, vec![Call::Sample(0.5, 1, 0xFFFF_FFFF, 1)], true);
    }
    list.add("sample that is not valid", "sample", &stored, vec![Call::Sample(f32::NAN, 1, 0, 1)], true);
    list.add("image", "image", &stored, vec![Call::Image], true);

    // each step of some random traces, so that nothing dear is overlooked
    for seed in 1..=4 {
        let trace = Trace::random(1000 + seed, Style::FromPowerUp, EIGHT);
        let mut memory = trace.memory.clone();
        model::power_up(EIGHT, &mut memory.values, &memory.block, &mut memory.state);
        for op in trace.ops {
            match op {
                Op::Message { line, message, .. } => {
                    let before = memory.clone();
                    let mut answer = [0; 8];
                    model::message(line, &message, &mut memory.values, &mut memory.block, &mut memory.state, &mut answer);
                    if !may_command(&message, &before.state[96 * line as usize..][..70], &table) {
                        list.add("any message of a random trace", "message", &before, vec![Call::Message(line, message)], false);
                    }
                }
                Op::Sample { pressure, valid, faults, seconds } => {
                    let p = f32::from_bits(pressure);
                    list.add(
                        "any sample of a random trace",
                        "sample",
                        &memory,
                        vec![Call::Sample(p, valid, faults, seconds)],
                        false,
                    );
                    model::sample(p, valid, faults, seconds, &mut memory.values, &mut memory.state);
                }
                _ => (),
            }
        }
    }

    mailboxes(&mut list, &table, &fresh, &stored, &good_card);

    // whole traces in a row, for the time of an average call
    for (form, name) in [(EIGHT, "random traces"), (MAILBOX, "mailbox traces")] {
        let calls: Vec<Call> =
            (1..=40).flat_map(|seed| Trace::random(seed, Style::FromPowerUp, form).ops).filter_map(call_of).collect();
        list.add(&format!("{} calls of {name}", calls.len()), "trace", &fresh, calls, true);
    }
    list.0
}

/// A step of a trace as a call, if it is one with right lengths.
fn call_of(op: Op) -> Option<Call> {
    Some(match op {
        Op::PowerUp { form } => Call::PowerUp(form),
        Op::Message { line, message, .. } => Call::Message(line, message),
        Op::Mailbox { mailbox, .. } => Call::Mailbox(mailbox.try_into().ok()?),
        Op::Sample { pressure, valid, faults, seconds } => Call::Sample(f32::from_bits(pressure), valid, faults, seconds),
        Op::Image { .. } => Call::Image,
        _ => return None,
    })
}

/// The kinds of mailbox. `stored` has all sides enabled.
fn mailboxes(list: &mut List, table: &[Line], fresh: &Memory, stored: &Memory, good_card: &[u8]) {
    let find = |index: u16, sub: u8| table.iter().find(|l| l.index == index && l.sub == sub).unwrap();
    let (the_card, label, lock) = (find(0x2010, 0), find(0x2001, 0), find(0x2003, 0));
    let (fresh, stored) = (by_mailbox(fresh), by_mailbox(stored));
    for memory in [&fresh, &stored] {
        list.post("card read by one mailbox", "mailbox", memory, &opening(0x40, the_card, [0; 4]), true);
    }
    list.post("label read by one mailbox", "mailbox", &fresh, &opening(0x40, label, [0; 4]), true);
    list.post("label write by one mailbox", "mailbox", &fresh, &whole(label, &[0x41; 32]), true);
    list.post("card write by one mailbox", "mailbox", &fresh, &whole(the_card, good_card), true);
    let crossed = card([2.0, 0.5, 0.25, 0.125, 20.0, 5.0, 20.0, 0.0625]);
    list.post("card write by one mailbox, crossed", "mailbox", &fresh, &whole(the_card, &crossed), true);

    for line in table {
        let name = if line.length <= 4 { "short read by mailbox" } else { "long read by mailbox" };
        list.post(name, "mailbox", &fresh, &opening(0x40, line, [0; 4]), true);
        list.post(
            "refused read by mailbox",
            "mailbox",
            &fresh,
            &opening(0x40, &Line { sub: 0xFE, ..line.clone() }, [0; 4]),
            true,
        );
        if line.access == "RO" || line.kind == "COMMAND" {
            continue;
        }
        let value = if line.kind == "CARD" { good_card.to_vec() } else { line.default() };
        list.post("whole write by mailbox", "mailbox", &fresh, &whole(line, &value), true);
        if line.length <= 4 {
            list.post("expedited write by mailbox", "mailbox", &fresh, &write(line, &value)[0], true);
        }
        let half = line.length / 2;
        let first = carrying(line, line.length, &value[..half]);
        list.post("write by opening and part, opening", "mailbox", &fresh, &first, true);
        let mut opened = fresh.clone();
        prepare_mailbox(&mut opened, &first);
        let mut part = vec![(7 - (line.length - half).min(7) as u8) << 1 | 1];
        part.extend(&value[half..]);
        part.resize(part.len().max(8), 0);
        list.post("write by opening and part, last part", "mailbox", &opened, &part, false);
    }
    for line in table.iter().filter(|line| matches!(line.index, 0x800E | 0x800F)) {
        let value = &stored.values[line.place.unwrap()..][..line.length];
        list.post("trip entry write by mailbox", "mailbox", &stored, &write(line, value)[0], true);
    }

    let mut locked = fresh.clone();
    prepare_mailbox(&mut locked, &write(lock, &[1])[0]);
    list.post("card write by one mailbox under lock", "mailbox", &locked, &whole(the_card, good_card), true);
    list.post("client's abort by mailbox", "mailbox", &fresh, &[0x80, 0, 0, 0, 0, 0, 0, 0], true);
    list.post("part by mailbox with no transfer", "mailbox", &fresh, &[0x60, 0, 0, 0, 0, 0, 0, 0], true);
    list.post("device reset by one mailbox", "command", &stored, &whole(find(0xFBF0, 1), b"teser\0"), true);
    list.post("exception reset by one mailbox", "command", &stored, &whole(find(0xFBF1, 1), b"teser"), true);
    list.post("load by one mailbox", "command", &stored, &whole(find(0xFBF4, 1), b"load"), true);
    list.post("store by one mailbox", "command", &stored, &whole(find(0xFBF2, 1), b"save"), true);

    for seed in 1..=4 {
        let trace = Trace::random(1000 + seed, Style::FromPowerUp, MAILBOX);
        let mut memory = trace.memory.clone();
        for op in trace.ops {
            let before = memory.clone();
            apply(&op, &mut Model(Sound), &mut memory);
            let Op::Mailbox { mailbox, .. } = op else {
                continue;
            };
            let Ok(mailbox) = <[u8; 128]>::try_from(mailbox) else {
                continue;
            };
            if !may_command(&mailbox[8..16], &before.state[..70], table) {
                list.add("any mailbox of a random trace", "mailbox", &before, vec![Call::Mailbox(mailbox)], false);
            }
        }
    }
}

/// Whether a message may be the last of a command.
fn may_command(message: &[u8], record: &[u8], table: &[Line]) -> bool {
    let row = u16::from_le_bytes([record[64], record[65]]) as usize;
    match message[0] >> 5 {
        0 => table.get(row).is_some_and(|line| line.kind == "COMMAND"),
        1 => message[2] == 0xFB,
        _ => false,
    }
}
