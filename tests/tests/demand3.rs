//! Demand 3 on traces: an observer who sees messages and answers alone, and a plain gauge that does whole reads and writes one
//! at a time.

use board_tests::board::{Board, Desk, Memory, EIGHT, MAILBOX};
use board_tests::independent::Model;
use board_tests::model::fault::{Broken, Mutant, Sound, MUTANTS};
use board_tests::plain::{follow, lines, Event, Observer, Plain};
use board_tests::random::Random;
use board_tests::subject;
use board_tests::trace::{apply, shrink, Op, Style, Trace};

#[derive(Default)]
struct Counts {
    steps: usize,
    reads: usize,
    writes: usize,
    refused: usize,
    samples: usize,
}

/// A call that is refused by number is no event and changes nothing.
fn refused(number: u32, before: &Memory, after: &Memory) -> Result<(), String> {
    if before == after {
        Ok(())
    } else {
        Err(format!("a call refused with {number} changed the memory"))
    }
}

/// Runs a trace from power-up and holds it to demand 3.
fn holds(trace: &Trace, board: &mut dyn Board, counts: &mut Counts) -> Result<(), String> {
    let mut memory = trace.memory.clone();
    let form = if let Some(Op::PowerUp { form }) = trace.ops.first() { *form } else { EIGHT };
    board.power_up(form, &mut memory.values, &memory.block, &mut memory.state);
    let mut gauge = Plain::new(&trace.memory.block);
    let mut observer = Observer::new();
    for op in &trace.ops {
        counts.steps += 1;
        match op {
            Op::Message { line, message, .. } => {
                let before = memory.clone();
                let (number, room) = apply(op, board, &mut memory);
                match number {
                    0 | 5 => observer.message(*line as usize, message, room.first_chunk().filter(|_| number == 0))?,
                    _ => refused(number, &before, &memory)?,
                }
            }
            Op::Mailbox { mailbox, .. } => {
                let before = memory.clone();
                let (number, room) = apply(op, board, &mut memory);
                match number {
                    0 | 5 => observer.mailbox(mailbox, room.get(..128).filter(|_| number == 0))?,
                    _ => refused(number, &before, &memory)?,
                }
            }
            Op::Sample { pressure, valid, faults, seconds } => {
                apply(op, board, &mut memory);
                observer.sample(f32::from_bits(*pressure), *valid, *faults, *seconds);
            }
            Op::Odd { call, line, message, sizes, .. } => {
                if *call == 0 && *sizes == [1024, 512, 256] {
                    continue;
                }
                let before = memory.clone();
                let (number, room) = apply(op, board, &mut memory);
                match (call, number) {
                    (_, 1..=4 | 6 | 7) => refused(number, &before, &memory)?,
                    (1, _) => {
                        let answer = room.first_chunk().filter(|_| number == 0);
                        observer.message(*line as usize, message.first_chunk().unwrap(), answer)?;
                    }
                    (2, _) => observer.sample(0.5, 1, *line, 7),
                    (4, _) => observer.mailbox(message, room.get(..128).filter(|_| number == 0))?,
                    _ => (),
                }
            }
            Op::Image { .. } => drop(apply(op, board, &mut memory)),
            // the first power-up is made above
            _ => (),
        }
    }
    let events = observer.events();
    for event in &events {
        match event {
            Event::Read { outcome: Ok(_), .. } => counts.reads += 1,
            Event::Write { outcome: Ok(_), .. } => counts.writes += 1,
            Event::Sample { .. } => counts.samples += 1,
            _ => counts.refused += 1,
        }
    }
    follow(&mut gauge, &events)?;
    let trips: Vec<bool> = memory.state[192..196].iter().map(|&b| b != 0).collect();
    if gauge.values() != memory.values {
        let at = (0..1024).find(|&i| gauge.values()[i] != memory.values[i]).unwrap();
        return Err(format!("values differ at the end, from byte {at} on"));
    }
    if gauge.block != memory.block {
        return Err("blocks differ at the end".to_string());
    }
    if gauge.trips[..] != trips[..] {
        return Err("trip states differ at the end".to_string());
    }
    let mut image = [0; 10];
    board.image(&memory.values, &mut image);
    if gauge.image() != image {
        return Err("images differ at the end".to_string());
    }
    Ok(())
}

fn explain(trace: &Trace, mut check: impl FnMut(&Trace) -> Result<(), String>) -> String {
    let short = shrink(trace, |trace| check(trace).err().map(|_| trace.ops.len().saturating_sub(1)));
    format!("{}\nshortest trace: {short}", check(&short).unwrap_err())
}

const TRACES: u64 = 4000;

/// The trace of a number, from power-up; every second with line 0 in the mailbox form.
fn numbered(n: u64) -> Trace {
    Trace::random(n, Style::FromPowerUp, if n % 2 == 1 { MAILBOX } else { EIGHT })
}

#[test]
fn on_random_traces() {
    let mut counts = Counts::default();
    for trace in (1..=TRACES).map(numbered) {
        if holds(&trace, &mut subject(), &mut counts).is_err() {
            panic!("demand 3 is broken: {}", explain(&trace, |trace| holds(trace, &mut subject(), &mut Counts::default())));
        }
    }
    println!(
        "{TRACES} traces, {} steps: {} finished reads, {} finished writes, {} refused, {} samples",
        counts.steps, counts.reads, counts.writes, counts.refused, counts.samples
    );
    assert!(counts.reads > 50_000 && counts.writes > 20_000 && counts.refused > 20_000 && counts.samples > 50_000);
}

/// The test of demand 3 can fail: boards that break it are found by it.
#[test]
fn finds_boards_that_break_it() {
    use Mutant::*;
    let breaking = [
        LiveParts,
        LockAtOpening,
        GoodEntriesOfFaultyBlock,
        LowTripAtLevel,
        SameEightBytes,
        StoresNothing,
        FakedParts,
        AbortsAll,
        HeldAtFirstPart,
        WriteLiveAtParts,
        LinesShareRecord,
        ShortEndPadded,
        OverrunCut,
        FullEndsWrite,
        AnnouncedTrusted,
        LimitsBeforeLock,
        ResetIgnoresBlock,
        ResetKeepsTrips,
        CardHalfStored,
        StoreLeavesRest,
        ReadUnusedBits,
        ExceptionResetOneWord,
        NewSettingsAtOnce,
        RestNotTested,
        MasksIgnored,
        MaskTurned,
        MaskOfOtherWord,
        MaskHidesWord,
        OneHiddenHidesAll,
        SampleUnmasked,
        ExceptionResetUnmasked,
        ActiveMasked,
        SensorErrorMasked,
        LatchedMasked,
        MaskWaitsForSample,
        LoadKeepsSummary,
        LoadActsFirst,
        EqualLevelsPass,
        MinusZeroBelowZero,
        OneEnableCrosses,
        HysteresesCounted,
        JudgedBeforeWrite,
        OtherPointJudged,
        LevelsUnjudged,
        PartsUnjudged,
        CrossedBeforeLock,
        CrossedBeforeLimits,
        CrossedStored,
        CrossedCardHalfStored,
        CardCrossedByPoint,
        CardSecondUnjudged,
        LoadTakesCrossed,
        CrossedLoadTaken,
        PowerUpTakesCrossed,
        PowerUpTakesGood,
        RefusedMailboxDrops,
        AddressCut,
        CounterCut,
        AbortByResponse,
        AnswersByRequest,
        OnlyUsedWritten,
        MailboxOnLineOne,
        CompleteAccessRefused,
        SurplusIgnored,
        SurplusFirst,
        UnsizedSurplusCut,
        WholeLengthUnjudged,
        WholeOpeningWaits,
        UnsizedOpeningEnds,
        WholeUnlocked,
        WholeUncrossed,
        WholeResetForgotten,
        BytesBehindTaken,
        PartBytesBehindTaken,
        CarriedForgotten,
        PartOneShort,
        WritePartsOfSeven,
        UnusedBitsInLongPart,
        EmptyPartFull,
    ];
    for mutant in breaking {
        let check = |trace: &Trace| holds(trace, &mut Model(Broken(mutant)), &mut Counts::default());
        let found = (1..=1000).find(|&n| check(&numbered(n)).is_err());
        let text = MUTANTS.iter().find(|(m, _)| *m == mutant).unwrap().1;
        match found {
            Some(seed) => println!("found in trace {seed:4}  {mutant:?}: {text}"),
            None => {
                // what lent memory alone can show is no part of demand 3
                let only_lent = matches!(mutant, StoreLeavesRest | ExceptionResetOneWord);
                assert!(only_lent, "demand 3 does not find {mutant:?}: {text}");
                println!("needs lent memory     {mutant:?}: {text}");
            }
        }
    }
}

/// The independent board holds demand 3 as well.
#[test]
fn holds_of_the_independent_board() {
    for trace in (5000..5300).map(numbered) {
        if holds(&trace, &mut Model(Sound), &mut Counts::default()).is_err() {
            panic!("{}", explain(&trace, |trace| holds(trace, &mut Model(Sound), &mut Counts::default())));
        }
    }
}

/// A transfer that is dropped before its end changes no value.
#[test]
fn dropped_writes_change_nothing() {
    let drops: [[u8; 8]; 5] = [
        [0x80, 0, 0, 0, 0, 0, 0, 0],       // the client gives up
        [0x40, 0x03, 0x20, 0, 0, 0, 0, 0], // opening anew
        [0x00, 1, 2, 3, 4, 5, 6, 7],       // wrong toggle after one part
        [0x60, 0, 0, 0, 0, 0, 0, 0],       // part of the other direction
        [0xA0, 0, 0, 0, 0, 0, 0, 0],       // unknown
    ];
    for line in lines().iter().filter(|l| l.access == "RW" && l.length > 7) {
        for drop in drops {
            let mut memory = Memory::zero();
            let mut board = subject();
            board.power_up(EIGHT, &mut memory.values, &memory.block, &mut memory.state);
            let before = memory.clone();
            let [low, high] = line.index.to_le_bytes();
            for message in [[0x20, low, high, line.sub, 0, 0, 0, 0], [0x00, 0x1F, 9, 9, 9, 9, 9, 9], drop] {
                let mut answer = [0; 8];
                let m = &mut memory;
                board.message(1, &message, &mut m.values, &mut m.block, &mut m.state, &mut answer);
            }
            assert!(memory == before, "{:04X}:{:02X} dropped by {drop:02X?}", line.index, line.sub);
        }
    }
}

/// Eight-byte messages of a random trace, but no opening of a write to the device reset.
fn chatter(seed: u64) -> Vec<[u8; 8]> {
    let said = |op: &Op| match op {
        Op::Message { message, .. } if !(message[0] >> 5 == 1 && message[1..4] == [0xF0, 0xFB, 1]) => Some(*message),
        _ => None,
    };
    Trace::random(9000 + seed, Style::FromPowerUp, EIGHT).ops.iter().filter_map(said).collect()
}

/// With right toggles a read of L > 4 bytes ends after exactly L/7 parts, rounded up, with the other line free to do anything
/// but a device reset.
#[test]
fn reads_end_after_their_count_of_parts() {
    let mut reads = 0;
    for line in lines().iter().filter(|l| l.length > 4) {
        for seed in 0..60 {
            for own in 0..2u32 {
                let mut desk = Desk::new(subject());
                let mut other = chatter(seed).into_iter().cycle();
                let mut r = Random::new(seed);
                let [low, high] = line.index.to_le_bytes();
                let first = desk.say(own, [0x40, low, high, line.sub, 0, 0, 0, 0]).unwrap();
                assert_eq!((first[0], first[4]), (0x41, line.length as u8));
                let parts = line.length.div_ceil(7);
                for part in 0..parts {
                    for message in other.by_ref().take(r.below(9)) {
                        desk.say(1 - own, message);
                    }
                    let toggle = (part as u8 % 2) << 4;
                    let answer = desk.say(own, [0x60 | toggle, 0, 0, 0, 0, 0, 0, 0]).unwrap();
                    let last = part + 1 == parts;
                    let unused = if last { 7 * parts - line.length } else { 0 };
                    assert_eq!(answer[0], toggle | (unused as u8) << 1 | last as u8);
                }
                reads += 1;
            }
        }
    }
    println!("{reads} long reads");
}

/// By mailbox a read of each long entry ends with its opening: the answer has the bytes of that moment, and a part is refused.
#[test]
fn reads_by_mailbox_need_no_part() {
    for line in lines().iter().filter(|l| l.length > 4) {
        for seed in 0..60 {
            let mut desk = Desk::in_form(MAILBOX, subject());
            let mut other = chatter(seed).into_iter().cycle();
            let mut r = Random::new(seed);
            for message in other.by_ref().take(20 + r.below(9)) {
                desk.say(1, message);
            }
            let mut twin = Desk::new(subject());
            twin.memory = desk.memory.clone();
            assert_eq!(desk.read_by_mailbox(line.index, line.sub), twin.read(1, line.index, line.sub));
            assert!(desk.memory.state[..70].iter().all(|&byte| byte == 0), "a transfer stays");
            for message in other.by_ref().take(r.below(9)) {
                desk.say(1, message);
            }
            assert_eq!(desk.post(&[0x60, 0, 0, 0, 0, 0, 0, 0]), Some(vec![0x80, 0, 0, 0, 1, 0, 4, 5]));
        }
    }
}

/// A write by mailbox that is dropped before its end changes no value, whatever its opening carried.
#[test]
fn dropped_mailbox_writes_change_nothing() {
    let drops: [&[u8]; 5] = [
        &[0x80, 0, 0, 0, 0, 0, 0, 0],                // the client gives up
        &[0x40, 0x03, 0x20, 0, 0, 0, 0, 0],          // opening anew
        &[0x10, 1, 2, 3, 4, 5, 6, 7],                // wrong toggle: the opening does not turn it
        &[0x60, 0, 0, 0, 0, 0, 0, 0],                // part of the other direction
        &[0xA0, 0, 0, 0, 0, 0, 0, 0, 1, 2, 3, 4, 5], // unknown
    ];
    for line in lines().iter().filter(|l| l.access == "RW" && l.length > 7) {
        for carried in [0, 1, line.length - 1] {
            for drop in drops {
                let mut desk = Desk::in_form(MAILBOX, subject());
                let before = desk.memory.clone();
                let [low, high] = line.index.to_le_bytes();
                let mut opening = vec![0x21, low, high, line.sub, line.length as u8, 0, 0, 0];
                opening.extend(vec![0x1F; carried]);
                assert_eq!(desk.post(&opening), Some(vec![0x60, low, high, line.sub, 0, 0, 0, 0]));
                desk.post(drop);
                assert!(desk.memory == before, "{:04X}:{:02X} dropped by {drop:02X?}", line.index, line.sub);
            }
        }
    }
}
