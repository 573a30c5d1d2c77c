//! The exported calls against the independent board, on random traces with fixed seeds: every returned number, every answer,
//! values, block and state, byte for byte.

use board_tests::board::{code, mailbox_with, Memory, EIGHT, MAILBOX};
use board_tests::independent::Model;
use board_tests::model::code::LOCKED;
use board_tests::model::fault::{Broken, Mutant, Mutant::*, Sound, OF_THE_MAILBOX};
use board_tests::model::table::{place, Row, ROWS};
use board_tests::plain::Line;
use board_tests::random::Random;
use board_tests::subject;
use board_tests::trace::{apply, difference, shrink, Op, Trace};
use std::panic::{catch_unwind, AssertUnwindSafe};

const TRACES: u64 = 12_000;

/// The state's byte with the form of line 0.
const FORM: usize = 196;
const SUMMARY: usize = place(0xF380, 0);
const ACTIVE: usize = place(0xF383, 1);
const MASK: usize = place(0xF3A3, 1);
const EXCEPTION_RESET_STATUS: usize = place(0xFBF1, 2);
const LOAD_STATUS: usize = place(0xFBF4, 2);
const ENABLES: [usize; 4] = [place(0x800E, 1), place(0x800E, 2), place(0x800F, 1), place(0x800F, 2)];

fn row_of(index: u32, sub: u32) -> usize {
    ROWS.iter().position(|row| row.key == 256 * index + sub).unwrap()
}

/// A difference, or a guard byte that was written.
fn differs(trace: &Trace) -> Option<(usize, String)> {
    match catch_unwind(AssertUnwindSafe(|| difference(trace, &mut subject(), &mut Model(Sound)))) {
        Ok(found) => found,
        Err(panic) => {
            let text = panic.downcast_ref::<String>().cloned().unwrap_or_else(|| "a call panicked".to_string());
            Some((trace.ops.len() - 1, text))
        }
    }
}

#[test]
fn on_random_traces() {
    let (mut counted, mut steps) = (0, 0);
    for seed in 1..=TRACES {
        let trace = Trace::numbered(seed);
        if differs(&trace).is_some() {
            let short = shrink(&trace, |trace| differs(trace).map(|(n, _)| n));
            let (n, what) = differs(&short).unwrap();
            panic!("the board (first) and the independent board (second) differ at step {n} in {what}\nshortest trace: {short}");
        }
        counted += trace.ops.iter().filter(|op| op.is_counted()).count();
        steps += trace.ops.len();
    }
    println!("{TRACES} traces, {steps} steps, {counted} messages and samples, no difference");
    assert!(counted >= 1_000_000, "only {counted} messages and samples");
}

/// The row of the write that an SDO ends, if it ends one on the record of its line.
fn ended_write(sdo: &[u8], record: &[u8]) -> Option<&'static Row> {
    let announced = u32::from_le_bytes(*sdo[4..].first_chunk().unwrap());
    match (sdo[0] >> 5, sdo[0] & 2, sdo[0] & 1) {
        (0, _, 1) => ROWS.get(usize::from(u16::from_le_bytes([record[64], record[65]]))),
        (1, 0, 0) => None,
        (1, 0, _) if sdo.len() - 8 < announced as usize => None,
        (1, ..) => {
            let key = u32::from_be_bytes([0, sdo[2], sdo[1], sdo[3]]);
            ROWS.iter().find(|row| row.key == key)
        }
        _ => None,
    }
}

/// The summary byte with the words that it is worked out of.
struct Summary {
    byte: u8,
    active: u32,
    mask: u32,
}

impl Summary {
    fn of(values: &[u8]) -> Summary {
        let word = |at: usize| u32::from_le_bytes(*values[at..].first_chunk().unwrap());
        Summary { byte: values[SUMMARY], active: word(ACTIVE), mask: word(MASK) }
    }

    /// Lent, and not what the words give.
    fn is_stale(&self) -> bool {
        self.byte != if self.active & !self.mask != 0 { 4 } else { 0 }
    }

    /// There are faults, and the mask hides them all.
    fn is_hidden(&self) -> bool {
        self.active != 0 && self.byte == 0 && !self.is_stale()
    }
}

/// What the end of a write shows of the masks.
fn mask_effects(row: &Row, answer: &[u8; 8], before: &[u8], after: &[u8]) -> [(&'static str, bool); 7] {
    let (was, is) = (Summary::of(before), Summary::of(after));
    let accepted = answer[0] != 0x80;
    let locked = !accepted && code(answer) == LOCKED;
    let is_load = row.index() == 0xFBF4;
    let is_reset = row.index() == 0xFBF1 && accepted && after[EXCEPTION_RESET_STATUS] == 0;
    // of a byte that was lent the mask need not be the reason
    let change = if was.is_stale() { (0, 0) } else { (was.byte, is.byte) };
    [
        ("summary cleared by a mask write", row.mask && change == (4, 0)),
        ("summary set by a mask write", row.mask && change == (0, 4)),
        ("summary stale, mask refused by the lock", row.mask && locked && was.is_stale()),
        ("summary stale, another mask written", row.mask && row.key != 0xF3_A301 && accepted && was.is_stale()),
        ("summary changed by a load", is_load && change.0 != change.1),
        ("summary stale, load not done", is_load && accepted && after[LOAD_STATUS] == 2 && was.is_stale()),
        ("summary 0 under a mask, exception reset", is_reset && is.is_hidden()),
    ]
}

/// What an answered SDO does.
fn effects(sdo: &[u8], answer: &[u8; 8], record: &[u8], before: &Memory, after: &Memory) -> Vec<String> {
    let mut met = Vec::new();
    if let Some(row) = ended_write(sdo, record) {
        let enabled = |side: usize| after.values[ENABLES[side]] != 0;
        let accepted = answer[0] != 0x80;
        let card = accepted && row.key == 0x20_1000;
        let point = row.point.map(usize::from).filter(|_| accepted);
        let written = [
            ("card written", card),
            ("card written, all sides enabled", card && (0..4).all(enabled)),
            ("trip entry written, both sides enabled", point.is_some_and(|n| enabled(2 * n) && enabled(2 * n + 1))),
        ];
        let masked = mask_effects(row, answer, &before.values, &after.values);
        met.extend(written.into_iter().chain(masked).filter(|(_, met)| *met).map(|(what, _)| what.to_string()));
    }
    for (name, index) in [("exception reset", 0xFBF1), ("store", 0xFBF2), ("load", 0xFBF4)] {
        let status = usize::from(ROWS[row_of(index, 0x02)].place);
        if before.values[status] != after.values[status] {
            met.push(format!("{name} status becomes {}", after.values[status]));
        }
    }
    if before.block != after.block {
        met.push("block written".to_string());
    }
    if before.state[192..196] != [0; 4] && after.state[192..196] == [0; 4] {
        met.push("device reset with a trip on".to_string());
    }
    met
}

/// Which way a mailbox goes that is answered and not aborted; the record is the one that it leaves.
fn mailbox_way(mailbox: &[u8], answer: &[u8], record: &[u8]) -> Option<&'static str> {
    let first = mailbox[8];
    let carries = mailbox[0] > 10;
    let opened = record[66] != 0;
    Some(match (first >> 5, first & 2, first & 1) {
        (1, 0, 1) if answer[8] == 0x80 && carries => "opening with bytes, refused",
        _ if answer[8] == 0x80 => return None,
        (0, _, 0) if carries => "write part of more than seven",
        (0, _, 0) => "write part",
        (0, ..) if carries => "last write part of more than seven",
        (0, ..) => "last write part",
        (1, 0, 1) if !opened => "write ended by its opening",
        (1, 0, 1) if carries => "opening with a size that carries some",
        (1, 0, 0) if record[68] == record[67] => "opening without a size that carries all",
        (1, 0, 0) if carries => "opening without a size that carries some",
        (1, 0, _) => "opening that carries nothing",
        (1, ..) => "expedited write",
        (2, ..) if answer[8] == 0x41 => "long read",
        (2, ..) => "short read",
        _ => "read part",
    })
}

/// The traces go deep: every kind of answer, command, trip and refusal occurs in them often.
#[test]
fn traces_meet_everything() {
    use std::collections::BTreeMap;
    let mut met: BTreeMap<String, usize> = BTreeMap::new();
    for seed in 1..=2000 {
        let trace = Trace::numbered(seed);
        let mut memory = trace.memory.clone();
        for op in &trace.ops {
            let before = memory.clone();
            let (number, room) = apply(op, &mut Model(Sound), &mut memory);
            let mut meet = |what: String| *met.entry(what).or_default() += 1;
            match op {
                Op::Message { line, message, .. } if number == 0 => {
                    let answer: &[u8; 8] = room.first_chunk().unwrap();
                    let record = &before.state[96 * *line as usize..][..70];
                    match answer[0] {
                        0x80 => meet(format!("abort {:08X}", code(answer))),
                        first if message[0] >> 5 == 3 => meet(format!("read part, last {}", first & 1)),
                        _ if message[0] >> 5 == 0 => meet(format!("write part, last {}", message[0] & 1)),
                        first => meet(format!("answer {first:02X}")),
                    }
                    effects(message, answer, record, &before, &memory).into_iter().for_each(meet);
                }
                Op::Message { .. } => meet(format!("message, number {number}")),
                Op::Mailbox { mailbox, .. } if number == 0 => {
                    if room[8] == 0x80 {
                        meet(format!("mailbox: abort {:08X}", code(room[8..].first_chunk().unwrap())));
                    }
                    if let Some(way) = mailbox_way(mailbox, &room, &memory.state[..70]) {
                        meet(format!("mailbox: {way}"));
                    }
                    let sdo = &mailbox[8..6 + mailbox[0] as usize];
                    let answer = room[8..].first_chunk().unwrap();
                    effects(sdo, answer, &before.state[..70], &before, &memory).into_iter().for_each(meet);
                }
                Op::Mailbox { .. } => meet(format!("mailbox, number {number}")),
                Op::Sample { .. } => {
                    for side in 0..4 {
                        let (was, is) = (before.state[192 + side] != 0, memory.state[192 + side] != 0);
                        meet(format!("side {side} {} to {}", was as u8, is as u8));
                    }
                    if Summary::of(&memory.values).is_hidden() {
                        meet("summary 0 under a mask, sample".to_string());
                    }
                }
                Op::Odd { .. } => meet(format!("call of odd lengths, number {number}")),
                _ => (),
            }
        }
    }
    for (what, times) in &met {
        println!("{times:7}  {what}");
    }
    let wanted = [
        "abort 05030000",
        "abort 05040001",
        "abort 06010002",
        "abort 06020000",
        "abort 06070012",
        "abort 06070013",
        "abort 06090011",
        "abort 06090030",
        "abort 06090031",
        "abort 06090032",
        "abort 06090036",
        "abort 08000022",
        "answer 41",
        "answer 43",
        "answer 4B",
        "answer 4F",
        "answer 60",
        "block written",
        "card written",
        "card written, all sides enabled",
        "device reset with a trip on",
        "load status becomes 0",
        "load status becomes 2",
        "store status becomes 0",
        "store status becomes 2",
        "exception reset status becomes 2",
        "message, number 5",
        "side 0 0 to 1",
        "side 0 1 to 0",
        "side 0 1 to 1",
        "side 1 0 to 1",
        "side 1 1 to 0",
        "side 2 0 to 1",
        "side 3 0 to 1",
        "side 3 1 to 1",
        "summary 0 under a mask, exception reset",
        "summary 0 under a mask, sample",
        "summary changed by a load",
        "summary cleared by a mask write",
        "summary set by a mask write",
        "summary stale, another mask written",
        "summary stale, load not done",
        "summary stale, mask refused by the lock",
        "trip entry written, both sides enabled",
        "read part, last 1",
        "write part, last 1",
        "call of odd lengths, number 1",
        "call of odd lengths, number 2",
        "call of odd lengths, number 3",
        "call of odd lengths, number 4",
        "call of odd lengths, number 5",
        "call of odd lengths, number 6",
        "call of odd lengths, number 7",
        "message, number 3",
        "mailbox, number 3",
        "mailbox, number 5",
        "mailbox, number 6",
        "mailbox, number 7",
        "mailbox: abort 05030000",
        "mailbox: abort 05040001",
        "mailbox: abort 06010002",
        "mailbox: abort 06020000",
        "mailbox: abort 06070012",
        "mailbox: abort 06070013",
        "mailbox: abort 06090011",
        "mailbox: abort 06090030",
        "mailbox: abort 06090031",
        "mailbox: abort 06090032",
        "mailbox: abort 06090036",
        "mailbox: abort 08000022",
        "mailbox: expedited write",
        "mailbox: last write part",
        "mailbox: last write part of more than seven",
        "mailbox: long read",
        "mailbox: opening that carries nothing",
        "mailbox: opening with a size that carries some",
        "mailbox: opening with bytes, refused",
        "mailbox: opening without a size that carries all",
        "mailbox: opening without a size that carries some",
        "mailbox: read part",
        "mailbox: short read",
        "mailbox: write ended by its opening",
        "mailbox: write part",
        "mailbox: write part of more than seven",
    ];
    for what in wanted {
        assert!(met.get(what).copied().unwrap_or(0) >= 20, "{what} is met too rarely");
    }
}

/// What a step meets of crossed trip points, told by a wrong variant of the independent board that shows itself there.
const MET_BY: [(&str, Mutant); 29] = [
    ("crossed by equal levels", EqualLevelsPass),
    ("crossed by zeros of two signs", MinusZeroBelowZero),
    ("crossed by a level that is not a number", NanLevelPasses),
    ("crossed by a lent enable byte", EnableMustBeOne),
    ("straight with no REAL between the levels", NextLevelsCross),
    ("straight with one side enabled", OneEnableCrosses),
    ("straight with hystereses that overlap", HysteresesCounted),
    ("refused by an enable", EnablesUnjudged),
    ("refused by a level", LevelsUnjudged),
    ("refused by an entry that decides nothing", FourFieldsJudged),
    ("refused at the last part of an entry", PartsUnjudged),
    ("refused under the lock", CrossedBeforeLock),
    ("refused by an entry outside its limits", CrossedBeforeLimits),
    ("side of a crossed trip point disabled", DisablingRefused),
    ("level of a crossed trip point set straight", UncrossingRefused),
    ("entry of the other trip point written", BothPointsJudged),
    ("other entry written", OtherEntriesJudged),
    ("command written", CommandsJudged),
    ("card crossed in trip point 1 alone", CardFirstUnjudged),
    ("card crossed in trip point 2 alone", CardSecondUnjudged),
    ("card crossed and of another layout", CardCrossedBeforeLayout),
    ("card crossed and outside its limits", CardCrossedBeforeLimits),
    ("card crossed in trip point 1, outside its limits in trip point 2", CardCrossedByPoint),
    ("store refused for it", StoreTakesCrossed),
    ("store refused for trip point 2 alone", StoreSecondUnjudged),
    ("load refused for it", LoadTakesCrossed),
    ("power-up or device reset on a crossed block", PowerUpTakesCrossed),
    ("block crossed in trip point 2 alone", BlockSecondUnjudged),
    ("sample with a side on", CrossedSidesOff),
];

/// The number of steps of the first traces at which each wrong variant shows itself.
fn times_shown(traces: u64, mutants: &[Mutant]) -> Vec<usize> {
    let mut shown = vec![0; mutants.len()];
    for trace in (1..=traces).map(Trace::numbered) {
        let mut memory = trace.memory.clone();
        for op in &trace.ops {
            let before = memory.clone();
            let sound = apply(op, &mut Model(Sound), &mut memory);
            for (mutant, times) in mutants.iter().zip(&mut shown) {
                let mut wrong = before.clone();
                *times += (apply(op, &mut Model(Broken(*mutant)), &mut wrong) != sound || wrong != memory) as usize;
            }
        }
    }
    shown
}

/// The traces meet crossed trip points often, in every way in which a board may take them wrongly.
#[test]
fn traces_meet_crossed_trip_points() {
    let met = times_shown(2000, &MET_BY.map(|(_, mutant)| mutant));
    for ((what, _), times) in MET_BY.iter().zip(met) {
        println!("{times:7}  crossed: {what}");
        assert!(times >= 20, "{what} is met too rarely: {times}");
    }
}

/// The traces meet mailboxes and forms often, in every way in which a board may take them wrongly.
#[test]
fn traces_meet_mailboxes() {
    for (mutant, times) in OF_THE_MAILBOX.iter().zip(times_shown(500, OF_THE_MAILBOX)) {
        println!("{times:7}  mailbox: {mutant:?}");
        assert!(times >= 5, "{mutant:?} shows itself too rarely: {times}");
    }
}

/// Memory with each shape of record on a line, and the row that it is of.
fn lent_records(line: usize) -> Vec<(Line, Memory)> {
    let mut found = Vec::new();
    for (n, row) in board_tests::plain::lines().into_iter().enumerate() {
        if !matches!((row.index, row.sub), (0x2001, 0) | (0x2003, 0) | (0x2010, 0) | (0x1000, 0) | (0xFBF0, 1) | (0xFBF4, 1)) {
            continue;
        }
        for left in [0, 1, 6, 7, 8, row.length].into_iter().filter(|left| *left <= row.length) {
            for (direction, toggle) in (0..4).flat_map(|direction| [0, 1, 0x80].map(|toggle| (direction, toggle))) {
                let mut memory = Memory::zero();
                let record = &mut memory.state[96 * line..96 * line + 70];
                record[..64].fill(0x21);
                record[0] = 0x10;
                record[64..66].copy_from_slice(&(n as u16).to_le_bytes());
                record[66..].copy_from_slice(&[direction, row.length as u8, (row.length - left) as u8, toggle]);
                found.push((row.clone(), memory));
            }
        }
    }
    found
}

/// One step on a memory.
fn try_step(memory: &Memory, op: Op) {
    let trace = Trace { seed: 0, memory: memory.clone(), ops: vec![op] };
    if let Some((_, what)) = differs(&trace) {
        panic!("difference in {what}\n{trace}");
    }
}

/// Every first byte on every shape of record, on both lines.
#[test]
fn every_first_byte_on_every_record() {
    let records: Vec<_> = lent_records(0).into_iter().zip(lent_records(1)).map(|(tool, service)| [tool, service]).collect();
    let mut tried = 0;
    for first in 0..=255u8 {
        for (n, lines) in records.iter().enumerate() {
            let line = (first as usize + n) % 2;
            let (row, memory) = &lines[line];
            let [low, high] = row.index.to_le_bytes();
            let message = [first, low, high, row.sub, row.length as u8, 0, 0, 0];
            try_step(memory, Op::Message { line: line as u32, message, room: 8 });
            tried += 1;
        }
    }
    println!("{tried} messages on lent records, no difference");
}

/// Every first byte by mailbox on every shape of record; length fields of 10 and more.
#[test]
fn every_first_byte_by_mailbox() {
    let mut records = lent_records(0);
    records.iter_mut().for_each(|(_, memory)| memory.state[FORM] = MAILBOX as u8);
    let mut tried = 0;
    for first in 0..=255u8 {
        for (n, (row, memory)) in records.iter().enumerate() {
            let [low, high] = row.index.to_le_bytes();
            let mut sdo = vec![first, low, high, row.sub, row.length as u8, 0, 0, 0];
            sdo.resize(8 + [0, 1, row.length, row.length - 1, row.length + 1, 112][(first as usize + n) % 6], 0x21);
            try_step(memory, Op::Mailbox { mailbox: mailbox_with(&sdo).to_vec(), room: 128 });
            tried += 1;
        }
    }
    println!("{tried} mailboxes on lent records, no difference");
}

/// Bytes as a mailbox: most are 128 and have headers that pass.
fn any_mailbox(r: &mut Random) -> Vec<u8> {
    let size = if r.chance(800) { 128 } else { r.below(301) };
    let mut mailbox = r.bytes(size);
    if size == 128 && r.chance(900) {
        let carried = r.below(113) as u8;
        mailbox[..2].copy_from_slice(&[10 + carried, 0]);
        mailbox[5] = mailbox[5] & 0xF0 | 3;
        mailbox[7] = mailbox[7] & 0x0F | 0x20;
        // often for an entry that there is
        if r.chance(700) {
            let key = ROWS[r.below(ROWS.len())].key;
            mailbox[8] = r.pick(&[0x20, 0x21, 0x21, 0x22, 0x23, 0x40, mailbox[8]]);
            mailbox[9..12].copy_from_slice(&[(key >> 8) as u8, (key >> 16) as u8, key as u8]);
        }
        if r.chance(500) {
            mailbox[12..16].copy_from_slice(&[carried, 0, 0, 0]);
        }
    }
    mailbox
}

/// Any bytes of any length as a mailbox, in any form, on any memory.
#[test]
fn any_bytes_as_a_mailbox() {
    let mut r = Random::new(77);
    let mut tried = 0;
    for seed in 0..400 {
        let mut memory = Memory { values: r.bytes(1024), block: r.bytes(512), state: r.bytes(256) };
        memory.state[FORM] = r.pick(&[0, 1, 1, 1, 2, 0xFF]);
        let ops =
            (0..150).map(|_| Op::Mailbox { mailbox: any_mailbox(&mut r), room: r.pick(&[128, 128, 128, 129, 300, 127, 0]) });
        let trace = Trace { seed, memory, ops: ops.collect() };
        tried += trace.ops.len();
        if let Some((n, what)) = differs(&trace) {
            panic!("difference at step {n} in {what}\n{trace}");
        }
    }
    println!("{tried} mailboxes of any bytes, no difference");
}

/// Every index and subindex near a row is read and written, so that every absent key beside a present one is met.
#[test]
fn every_key_near_a_row() {
    let mut tried = 0;
    for row in board_tests::plain::lines() {
        for index in [row.index.wrapping_sub(1), row.index, row.index.wrapping_add(1)] {
            for sub in 0..=255u8 {
                for first in [0x40, 0x2F, 0x2B, 0x23, 0x22, 0x20] {
                    let [low, high] = index.to_le_bytes();
                    let message = [first, low, high, sub, 1, 0, 0, 0];
                    let ops = vec![Op::PowerUp { form: EIGHT }, Op::Message { line: 0, message, room: 8 }];
                    let trace = Trace { seed: 0, memory: Memory::zero(), ops };
                    // the power-up is only needed once in a while; the zeros of the memory are values too
                    let trace = if sub % 16 == 0 { trace } else { Trace { ops: trace.ops[1..].to_vec(), ..trace } };
                    if let Some((_, what)) = differs(&trace) {
                        panic!("difference in {what}\n{trace}");
                    }
                    tried += 1;
                }
            }
        }
    }
    println!("{tried} openings, no difference");
}
