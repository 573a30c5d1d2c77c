//! Eight bytes in, eight bytes out, over a line's transfer record. The mailbox shares what does not go by the length of a message.

use super::code;
use super::entry::{self, After};
use super::exception;
use super::fault::{Fault, Mutant::*};
use super::table::{self, Kind, Row, COUNT, ROWS};
use super::{Block, Record, Values};

const ROW: usize = 64;
const DIRECTION: usize = 66;
const LENGTH: usize = 67;
const PLACE: usize = 68;
const TOGGLE: usize = 69;
const READ: u8 = 1;
const WRITE: u8 = 2;

/// An abort: the code, and the key that the answer shows.
pub struct Abort {
    pub key: u32,
    pub code: u32,
}

pub const NO_TRANSFER: Abort = Abort { key: 0, code: code::NO_TRANSFER };

impl Abort {
    fn answer(self) -> [u8; 8] {
        let mut answer = [0; 8];
        head(&mut answer, 0x80, self.key);
        answer[4..].copy_from_slice(&self.code.to_le_bytes());
        answer
    }
}

#[inline]
fn head(answer: &mut [u8; 8], first: u8, key: u32) {
    answer[0] = first;
    answer[1] = (key >> 8) as u8;
    answer[2] = (key >> 16) as u8;
    answer[3] = key as u8;
}

#[inline]
pub fn key_of(message: &[u8; 8]) -> u32 {
    (message[2] as u32) << 16 | (message[1] as u32) << 8 | message[3] as u32
}

/// A record that is served.
pub struct Transfer {
    row: &'static Row,
    length: usize,
    pub place: usize,
    toggle: u8,
}

impl Transfer {
    pub fn left(&self) -> usize {
        self.length - self.place
    }
}

/// The record as an open transfer of a direction.
#[inline]
fn open<F: Fault>(f: F, record: &Record, direction: u8) -> Option<Transfer> {
    let lent =
        if f.on(RecordDirectionFree) && record[DIRECTION] != READ && record[DIRECTION] != 0 { WRITE } else { record[DIRECTION] };
    if lent != direction {
        return None;
    }
    let mut n = u16::from_le_bytes([record[ROW], record[ROW + 1]]) as usize;
    if f.on(RecordRowFree) {
        n = n.min(COUNT - 1);
    }
    let row = ROWS.get(n)?;
    let allowed = if direction == READ { row.readable } else { row.writable || f.on(RecordAccessFree) };
    let (length, place) = (record[LENGTH] as usize, record[PLACE] as usize);
    let length_fits = length == row.len as usize || f.on(RecordLengthFree) && length <= 64;
    if !allowed || !length_fits || place > length || f.on(RecordPlaceAtEnd) && place == length {
        return None;
    }
    let toggle = if f.on(RecordToggleBit) { record[TOGGLE] & 1 } else { (record[TOGGLE] != 0) as u8 };
    Some(Transfer { row, length: if f.on(RecordLengthFree) { row.len as usize } else { length }, place, toggle })
}

#[inline]
fn set_open(record: &mut Record, n: usize, direction: u8, length: u8) {
    let [low, high] = (n as u16).to_le_bytes();
    record[ROW] = low;
    record[ROW + 1] = high;
    record[DIRECTION] = direction;
    record[LENGTH] = length;
    record[PLACE] = 0;
    record[TOGGLE] = 0;
}

/// Keeps the bytes that a write's opening carries.
#[inline]
pub fn carry(record: &mut Record, bytes: &[u8]) {
    record[..bytes.len()].copy_from_slice(bytes);
    record[PLACE] = bytes.len() as u8;
}

/// Turns the toggle that is expected.
#[inline]
pub fn turn(record: &mut Record) {
    record[TOGGLE] ^= 1;
}

#[inline]
pub fn go_on(record: &mut Record, transfer: &Transfer, place: usize) {
    record[PLACE] = place as u8;
    record[TOGGLE] = transfer.toggle ^ 1;
}

/// The client's abort drops the transfer and has no answer.
#[inline(always)]
pub fn give_up<F: Fault, T>(f: F, record: &mut Record) -> Option<T> {
    if !f.on(AbortKeepsTransfer) {
        record.fill(0);
    }
    None
}

/// The answer to a message and what is left to do; `None` for the client's abort.
pub fn step<F: Fault>(
    f: F,
    message: &[u8; 8],
    record: &mut Record,
    values: &mut Values,
    block: &mut Block,
) -> Option<([u8; 8], After)> {
    let specifier = message[0] >> 5;
    let had = *record;
    let replied = match specifier {
        4 => return give_up(f, record),
        7 if f.on(SpecifierSevenIgnored) => return give_up(f, record),
        _ if f.on(AbortsAll) => Err(Abort { key: key_of(message), code: code::NO_INDEX }),
        0 => next_write(f, message, record, values, block),
        1 => open_write(f, message, record, values, block),
        2 => open_read(f, message, record, values),
        3 => next_read(f, message, record, values),
        _ => Err(NO_TRANSFER),
    };
    Some(match replied {
        Ok(_) if f.on(SameEightBytes) => (SAME, After::Nothing),
        Ok(answered) => answered,
        Err(abort) => (refuse(f, message, abort, &had, record, values), After::Nothing),
    })
}

/// What a wrong variant sends always.
pub const SAME: [u8; 8] = [0x60, 0, 0, 0, 0, 0, 0, 0];

/// The answer of an abort, which drops the transfer. `had` is the record before the message.
#[inline(always)]
pub fn refuse<F: Fault>(
    f: F,
    message: &[u8; 8],
    mut abort: Abort,
    had: &Record,
    record: &mut Record,
    values: &mut Values,
) -> [u8; 8] {
    let specifier = message[0] >> 5;
    let keeps = f.on(WrongToggleKeeps) && abort.code == code::TOGGLE
        || f.on(OtherDirectionDrops) && (specifier == 0 || specifier == 3) && abort.code == code::NO_TRANSFER
        || f.on(RefusedOpeningKeeps) && (specifier == 1 || specifier == 2)
        || f.on(UnknownSpecifierKeeps) && specifier > 4
        || f.on(NoneRecordKept) && open(f, had, READ).is_none() && open(f, had, WRITE).is_none();
    if keeps {
        *record = *had;
    } else {
        record.fill(0);
    }
    if exception::acts_refused(f, abort.key, abort.code) {
        exception::summarize(f, values);
    }
    if f.on(NoTransferWithIndex) && abort.code == code::NO_TRANSFER {
        abort.key = key_of(message);
    }
    if f.on(ToggleWithoutIndex) && abort.code == code::TOGGLE {
        abort.key = 0;
    }
    if f.on(ToggleBeforeMatch) && abort.code == code::NO_TRANSFER && (specifier == 0 || specifier == 3) && message[0] & 0x10 != 0
    {
        abort.code = code::TOGGLE;
    }
    if f.on(NoSubindexIsNoIndex) && abort.code == code::NO_SUBINDEX {
        abort.code = code::NO_INDEX;
    }
    if f.on(SameEightBytes) {
        return SAME;
    }
    abort.answer()
}

pub type Replied = Result<([u8; 8], After), Abort>;

/// An opening starts from zeros.
#[inline(always)]
fn clear<F: Fault>(f: F, record: &mut Record) {
    if f.on(OpeningKeepsBytes) {
        record[64..].fill(0);
    } else {
        record.fill(0);
    }
}

/// The row that an opening asks for, and its number.
#[inline(always)]
pub fn asked<F: Fault>(f: F, message: &[u8; 8], record: &mut Record) -> Result<(usize, &'static Row), Abort> {
    let key = key_of(message);
    clear(f, record);
    let n = table::find(f, key).map_err(|code| Abort { key, code })?;
    let row = &ROWS[n];
    if !row.readable {
        return Err(Abort { key, code: code::WRITE_ONLY });
    }
    Ok((n, row))
}

/// A value of up to four bytes in the answer to its opening.
#[inline(always)]
pub fn short_answer<F: Fault>(f: F, row: &Row, values: &Values) -> [u8; 8] {
    let mut answer = [0; 8];
    head(&mut answer, 0x43 | (4 - row.len) << 2, row.key);
    answer[4..].copy_from_slice(&entry::read_short(f, row, values).to_le_bytes());
    answer
}

/// The length of a longer value in the answer to its opening.
#[inline(always)]
pub fn long_answer(row: &Row) -> [u8; 8] {
    let mut answer = [0; 8];
    head(&mut answer, 0x41, row.key);
    answer[4] = row.len;
    answer
}

/// Holds a value of which nothing has gone yet.
#[inline(always)]
pub fn hold<F: Fault>(f: F, n: usize, row: &Row, record: &mut Record, values: &Values) {
    entry::read(f, row, values, &mut record[..row.len as usize]);
    set_open(record, n, READ, row.len);
}

#[inline(always)]
fn open_read<F: Fault>(f: F, message: &[u8; 8], record: &mut Record, values: &Values) -> Replied {
    let (n, row) = asked(f, message, record)?;
    let answer = if row.len <= 4 {
        record.fill(0);
        short_answer(f, row, values)
    } else {
        hold(f, n, row, record, values);
        long_answer(row)
    };
    Ok((answer, After::Nothing))
}

/// The transfer whose next part is asked for, with the toggle that is expected.
#[inline(always)]
pub fn next_asked<F: Fault>(f: F, first: u8, record: &mut Record, values: &Values) -> Result<Transfer, Abort> {
    let transfer = open(f, record, READ).ok_or(NO_TRANSFER)?;
    if first >> 4 & 1 != transfer.toggle && !f.on(WrongToggleServed) {
        return Err(Abort { key: transfer.row.key, code: code::TOGGLE });
    }
    if f.on(LiveParts) || f.on(HeldAtFirstPart) && transfer.place == 0 {
        let len = transfer.row.len as usize;
        entry::read(f, transfer.row, values, &mut record[..len]);
    }
    Ok(transfer)
}

/// The record of a read that ended.
#[inline(always)]
pub fn end_read<F: Fault>(f: F, record: &mut Record) {
    if f.on(EndedReadKeepsBytes) {
        record[64..].fill(0);
    } else {
        record.fill(0);
    }
}

#[inline(always)]
fn next_read<F: Fault>(f: F, message: &[u8; 8], record: &mut Record, values: &Values) -> Replied {
    let transfer = next_asked(f, message[0], record, values)?;
    let left = transfer.left();
    let (count, last) = if left > 7 { (7, false) } else { (left, !(f.on(NotLastAtSeven) && left == 7)) };
    let mut answer = [0; 8];
    let unused = if f.on(ReadUnusedBits) && last { (8 - count).min(7) } else { 7 - count };
    answer[0] = message[0] & 0x10 | (unused as u8) << 1 | last as u8;
    answer[1..1 + count].copy_from_slice(&record[transfer.place..transfer.place + count]);
    if f.on(FakedParts) {
        answer[1..].fill(0);
    }
    if last {
        end_read(f, record);
    } else {
        go_on(record, &transfer, transfer.place + count);
    }
    Ok((answer, After::Nothing))
}

/// Too long or too short against the row's length.
#[inline]
fn judge_length<F: Fault>(f: F, length: u32, row: &Row) -> Result<(), u32> {
    let (long, short) = if f.on(ShortBeforeLong) { (code::TOO_SHORT, code::TOO_LONG) } else { (code::TOO_LONG, code::TOO_SHORT) };
    match length.cmp(&(row.len as u32)) {
        core::cmp::Ordering::Greater => Err(long),
        core::cmp::Ordering::Less => Err(short),
        core::cmp::Ordering::Equal => Ok(()),
    }
}

/// The length that an opening announces or means, if it is known.
#[inline(always)]
fn length_of<F: Fault>(f: F, message: &[u8; 8], row: &Row) -> Option<u32> {
    let (expedited, sized) = (message[0] & 2 != 0, message[0] & 1 != 0);
    match (expedited, sized) {
        (true, true) => Some(4 - (message[0] >> 2 & 3) as u32),
        (true, false) if row.len > 4 || f.on(NoSizeMeansFour) => Some(4),
        (false, true) => {
            let announced = u32::from_le_bytes([message[4], message[5], message[6], message[7]]);
            match announced {
                0 if f.on(AnnouncedZeroUnknown) => None,
                _ if f.on(AnnouncedTrusted) => None,
                _ if f.on(AnnouncedLowBytes) => Some(announced & 0xFFFF),
                _ => Some(announced),
            }
        }
        (_, false) => None,
    }
}

/// The row that an opening writes to, and its number: access and length are judged. `carried` is what a mailbox brings of the value.
#[inline(always)]
pub fn written<F: Fault>(f: F, message: &[u8; 8], carried: usize, record: &mut Record) -> Result<(usize, &'static Row), Abort> {
    let key = key_of(message);
    let abort = |code| Abort { key, code };
    clear(f, record);
    let n = table::find(f, key).map_err(abort)?;
    let row = &ROWS[n];
    let length = length_of(f, message, row).filter(|_| !(f.on(WholeLengthUnjudged) && carried == row.len as usize));
    if f.on(LengthBeforeAccess) {
        if let Some(length) = length {
            judge_length(f, length, row).map_err(abort)?;
        }
    }
    if !row.writable {
        return Err(abort(code::READ_ONLY));
    }
    if let Some(length) = length {
        if f.on(SurplusFirst) && carried > length as usize {
            return Err(abort(code::TOO_LONG));
        }
        judge_length(f, length, row).map_err(abort)?;
    }
    Ok((n, row))
}

/// The yes to an opening.
#[inline(always)]
pub fn yes(key: u32) -> [u8; 8] {
    let mut answer = [0; 8];
    head(&mut answer, 0x60, key);
    answer
}

/// Opens a write whose later bytes come in parts.
#[inline(always)]
pub fn await_parts<F: Fault>(f: F, n: usize, row: &Row, record: &mut Record, values: &Values) -> Replied {
    if f.on(LockAtOpening) {
        entry::judge_lock(f, row, values).map_err(|code| Abort { key: row.key, code })?;
    }
    set_open(record, n, WRITE, row.len);
    Ok((yes(row.key), After::Nothing))
}

#[inline(always)]
pub fn open_write<F: Fault>(f: F, message: &[u8; 8], record: &mut Record, values: &mut Values, block: &mut Block) -> Replied {
    let (n, row) = written(f, message, 0, record)?;
    if message[0] & 2 == 0 {
        return await_parts(f, n, row, record, values);
    }
    record.fill(0);
    let after = entry::write(f, row, &message[4..4 + row.len as usize], values, block, false)
        .map_err(|code| Abort { key: row.key, code })?;
    Ok((yes(row.key), after))
}

#[inline(always)]
fn next_write<F: Fault>(f: F, message: &[u8; 8], record: &mut Record, values: &mut Values, block: &mut Block) -> Replied {
    let mut count = 7 - (message[0] >> 1 & 7) as usize;
    if f.on(UnusedBitsOnlyLast) && message[0] & 1 == 0 {
        count = 7;
    }
    take_part(f, message[0], &message[1..1 + count], record, values, block)
}

/// The next part of a write: its first byte and the bytes of the value that it brings.
#[inline(always)]
pub fn take_part<F: Fault>(
    f: F,
    first: u8,
    bytes: &[u8],
    record: &mut Record,
    values: &mut Values,
    block: &mut Block,
) -> Replied {
    let transfer = open(f, record, WRITE).ok_or(NO_TRANSFER)?;
    let row = transfer.row;
    let abort = |code| Abort { key: row.key, code };
    let toggle = first >> 4 & 1;
    if toggle != transfer.toggle && !f.on(WrongToggleServed) {
        return Err(abort(code::TOGGLE));
    }
    let mut last = first & 1 != 0;
    let mut count = bytes.len();
    if f.on(EmptyPartRefused) && count == 0 {
        return Err(abort(code::TOO_SHORT));
    }
    let mut place = transfer.place + count;
    if place > transfer.length {
        if f.on(OverrunCut) || f.on(OverrunAtEnd) && !last {
            count = transfer.left();
            place = transfer.length;
        } else {
            return Err(abort(if f.on(ShortBeforeLong) { code::TOO_SHORT } else { code::TOO_LONG }));
        }
    }
    record[transfer.place..place].copy_from_slice(&bytes[..count]);
    if f.on(WriteLiveAtParts) && row.kind == Kind::Str {
        let at = row.place as usize + transfer.place;
        values[at..at + count].copy_from_slice(&bytes[..count]);
    }
    let mut answer = [0; 8];
    answer[0] = 0x20 | toggle << 4;
    if f.on(FullEndsWrite) && place == transfer.length {
        last = true;
    }
    if !last {
        go_on(record, &transfer, place);
        return Ok((answer, After::Nothing));
    }
    if f.on(LockBeforeLength) {
        entry::judge_lock(f, row, values).map_err(abort)?;
    }
    if place < transfer.length && !f.on(ShortEndPadded) {
        return Err(abort(if f.on(ShortBeforeLong) { code::TOO_LONG } else { code::TOO_SHORT }));
    }
    let unjudged = Row { point: None, ..*row };
    let row = if f.on(PartsUnjudged) { &unjudged } else { row };
    let after = entry::write(f, row, &record[..transfer.length], values, block, f.on(LockAtOpening)).map_err(abort)?;
    record.fill(0);
    if f.on(EndedWriteKeepsRow) {
        record[ROW] = 1;
    }
    Ok((answer, after))
}
