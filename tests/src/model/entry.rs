//! Whole reads and whole writes of entries, and the commands.

use super::card;
use super::code;
use super::crossed;
use super::exception;
use super::fault::{Fault, Mutant::*};
use super::limits;
use super::saved;
use super::table::{place, Kind, Row};
use super::{Block, Values};

const LOCK: usize = place(0x2003, 0);

const RESET: u16 = 0xFBF0;
const EXCEPTION_RESET: u16 = 0xFBF1;
const STORE: u16 = 0xFBF2;
const LOAD: u16 = 0xFBF4;

/// What a finished write asks for besides what it changed.
#[derive(Clone, Copy, PartialEq, Eq)]
pub enum After {
    Nothing,
    Reset,
}

/// The first byte of a command word that is read.
#[inline]
fn word_read<F: Fault>(f: F, row: &Row) -> u8 {
    let printed = row.index() == LOAD || row.index() == STORE && !f.on(StoreWordReadsZero);
    (printed || f.on(CommandWordKept)) as u8
}

/// An entry of up to four bytes, with zeros behind it.
#[inline]
pub fn read_short<F: Fault>(f: F, row: &Row, values: &Values) -> u32 {
    if row.kind == Kind::Command {
        return word_read(f, row) as u32;
    }
    // entries lie before the values' last bytes, so four can be taken
    let at = row.place as usize;
    card::bits32(values, at) & u32::MAX >> (32 - 8 * row.len as u32)
}

const _: () = assert!(place(0xFBF4, 3) + 4 <= 1024);

/// Copies an entry; `to` has the row's length.
#[inline]
pub fn read<F: Fault>(f: F, row: &Row, values: &Values, to: &mut [u8]) {
    match row.kind {
        Kind::Card => to.copy_from_slice(&card::pack(f, values)),
        Kind::Command => {
            to.fill(0);
            to[0] = word_read(f, row);
        }
        _ => to.copy_from_slice(&values[row.place as usize..row.place as usize + to.len()]),
    }
}

/// The lock's check.
#[inline]
pub fn judge_lock<F: Fault>(f: F, row: &Row, values: &Values) -> Result<(), u32> {
    let on = if f.on(LentLockOn) { values[LOCK] != 0 } else { values[LOCK] == 1 };
    let locked = row.nv
        || row.kind == Kind::Card && !f.on(CardNotLocked)
        || row.kind == Kind::Command && row.index() == LOAD && !f.on(LoadNotLocked)
        || f.on(StoreLocked) && row.kind == Kind::Command && row.index() == STORE
        || f.on(LockLocksItself) && row.index() == 0x2003;
    if on && locked {
        Err(code::LOCKED)
    } else {
        Ok(())
    }
}

fn judge<F: Fault>(f: F, row: &Row, bytes: &[u8]) -> Result<(), u32> {
    match <&[u8; card::LENGTH]>::try_from(bytes) {
        Ok(bytes) if row.kind == Kind::Card => card::judge(f, bytes),
        _ => limits::judge(f, row, bytes),
    }
}

/// Lock, limits, then crossed trip points.
fn judge_all<F: Fault>(f: F, row: &Row, bytes: &[u8], values: &Values, unlocked: bool) -> Result<(), u32> {
    if f.on(CrossedBeforeLock) && judge(f, row, bytes).is_ok() {
        crossed::judge(f, row, bytes, values)?;
    }
    if f.on(LimitsBeforeLock) {
        judge(f, row, bytes)?;
    }
    if !unlocked {
        judge_lock(f, row, values)?;
    }
    if f.on(CrossedBeforeLimits) && row.kind != Kind::Card {
        crossed::judge(f, row, bytes, values)?;
    }
    judge(f, row, bytes)?;
    crossed::judge(f, row, bytes, values)
}

/// What wrong variants leave behind of a write that is refused.
fn leave_behind<F: Fault>(f: F, row: &Row, bytes: &[u8], values: &mut Values, code: u32) {
    let card = <&[u8; card::LENGTH]>::try_from(bytes).ok().filter(|_| row.kind == Kind::Card);
    match (code, card) {
        (code::CROSSED, _) if f.on(CrossedStored) => put(f, row, bytes, values),
        (code::CROSSED, Some(card)) if f.on(CrossedCardHalfStored) => {
            let before = *values;
            card::unpack(f, card, values);
            for (n, point) in card::points(card).iter().enumerate() {
                if crossed::is_crossed(f, point) {
                    values[crossed::span(n)].copy_from_slice(&before[crossed::span(n)]);
                }
            }
        }
        (code::OUT_OF_RANGE | code::ABOVE | code::BELOW, Some(card)) if f.on(CardHalfStored) && card[0] >> 4 == 1 => {
            values[card::SIDES[0].enable] = card[0] >> 3 & 1;
        }
        _ => (),
    }
}

/// Stores a card or an entry that has a place.
fn put<F: Fault>(f: F, row: &Row, bytes: &[u8], values: &mut Values) {
    if row.kind == Kind::Card {
        if let Ok(bytes) = bytes.try_into() {
            card::unpack(f, bytes, values);
        }
        return;
    }
    values[row.place as usize..row.place as usize + bytes.len()].copy_from_slice(bytes);
    if exception::acts(f, row) {
        exception::summarize(f, values);
    }
}

/// Lock, limits and crossed trip points, then the write; `bytes` has the row's length.
pub fn write<F: Fault>(
    f: F,
    row: &Row,
    bytes: &[u8],
    values: &mut Values,
    block: &mut Block,
    unlocked: bool,
) -> Result<After, u32> {
    if let Err(code) = judge_all(f, row, bytes, values, unlocked) {
        leave_behind(f, row, bytes, values, code);
        return Err(code);
    }
    if f.on(StoresNothing) {
        return Ok(After::Nothing);
    }
    if row.kind == Kind::Command {
        return if refuses_crossed(f, row, bytes, values, block) {
            Err(code::CROSSED)
        } else {
            command(f, row, bytes, values, block)
        };
    }
    put(f, row, bytes, values);
    Ok(After::Nothing)
}

/// The commands that wrong variants refuse for crossed trip points.
fn refuses_crossed<F: Fault>(f: F, row: &Row, word: &[u8], values: &Values, block: &Block) -> bool {
    match row.index() {
        STORE => f.on(CrossedStoreAborted) && word == b"save" && crossed::any(f, values),
        LOAD => f.on(CrossedLoadAborted) && word == b"load" && saved::is_only_crossed(f, block),
        _ => false,
    }
}

fn command<F: Fault>(f: F, row: &Row, word: &[u8], values: &mut Values, block: &mut Block) -> Result<After, u32> {
    const WRONG: Option<bool> = None;
    let (done, status) = match row.index() {
        RESET if word == b"teser\0" || f.on(FactoryWordResets) && word == b"teserf" => return Ok(After::Reset),
        RESET => (WRONG, place(RESET, 2)),
        EXCEPTION_RESET if word == b"teser" => {
            exception::reset(f, values);
            (Some(true), place(EXCEPTION_RESET, 2))
        }
        EXCEPTION_RESET => (WRONG, place(EXCEPTION_RESET, 2)),
        STORE if word == b"save" => (Some(saved::store(f, values, block)), place(STORE, 2)),
        STORE => (WRONG, place(STORE, 2)),
        _ if word == b"load" => (Some(load(f, block, values)), place(LOAD, 2)),
        _ => (WRONG, place(LOAD, 2)),
    };
    if done == WRONG && f.on(WrongWordRefused) {
        return Err(code::OUT_OF_RANGE);
    }
    if done == WRONG && f.on(WrongWordSilent) {
        return Ok(After::Nothing);
    }
    if done == WRONG && f.on(WrongWordActs) {
        exception::summarize(f, values);
    }
    let number = if done == Some(true) { 0 } else { 2 };
    // the response stands behind the status
    values[status] = number;
    if !f.on(StatusWithoutResponse) {
        values[status + 1] = number;
    }
    if f.on(ResponseByteOneCleared) {
        values[status + 2] = 0;
    }
    Ok(After::Nothing)
}

const _: () = {
    assert!(place(RESET, 3) == place(RESET, 2) + 1);
    assert!(place(EXCEPTION_RESET, 3) == place(EXCEPTION_RESET, 2) + 1);
    assert!(place(STORE, 3) == place(STORE, 2) + 1);
    assert!(place(LOAD, 3) == place(LOAD, 2) + 1);
};

/// Takes the block as a load does: sound, as power-up takes it.
fn take<F: Fault>(f: F, block: &Block, values: &mut Values) -> bool {
    if f.on(LoadJudgedBefore) && crossed::any(f, values) {
        return false;
    }
    let passes = f.on(LoadTakesCrossed) || f.on(CrossedLoadTaken) || f.on(LoadJudgedBefore);
    if passes && saved::is_only_crossed(f, block) {
        saved::take(f, block, values);
        return !f.on(CrossedLoadTaken);
    }
    saved::load(f, block, values)
}

/// A load that takes the block takes its masks, so it works the summary byte out. Power-up need not: its active word is zero.
fn load<F: Fault>(f: F, block: &Block, values: &mut Values) -> bool {
    if f.on(LoadActsFirst) && !saved::is_faulty(f, block) {
        exception::summarize(f, values);
    }
    let taken = take(f, block, values);
    let acts = taken && !f.on(LoadKeepsSummary) && !f.on(LoadActsFirst);
    if acts || f.on(FaultyLoadActs) {
        exception::summarize(f, values);
    }
    taken
}
