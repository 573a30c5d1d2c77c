//! A mailbox of 128 bytes in, one out: line 0 in the mailbox form. The eight bytes of an SDO are those of `wire`; a mailbox adds its
//! headers, and bytes of the value behind the eight.

use super::code::*;
use super::entry::{self, After};
use super::fault::{Fault, Mutant::*};
use super::table::Row;
use super::wire::{self, Abort, Replied};
use super::{finish, given_up, lent, speaks_mailboxes, Block, Record, State, Values, FORM, RECORD, RECORDS};

const SIZE: usize = 128;
/// The length field counts from here on.
const COUNTED: usize = 6;
/// The SDO stands behind the mailbox header and the CoE header; behind its eight bytes are bytes of the value.
const SDO: usize = 8;
const MORE: usize = SDO + 8;
const TYPE_COE: u8 = 3;
const REQUEST: u8 = 2;
const RESPONSE: u8 = 3;

type Mailbox = [u8; SIZE];

pub fn mailbox_with<F: Fault>(
    f: F,
    mailbox: &[u8],
    values: &mut [u8],
    block: &mut [u8],
    state: &mut [u8],
    answer: &mut [u8],
) -> u32 {
    if f.on(FormBeforeMemory) && state.get(FORM) == Some(&0) {
        return BAD_LINE;
    }
    let Some((values, block, state)) = lent(values, block, state) else {
        return BAD_MEMORY;
    };
    if let Err(number) = judge(f, mailbox, answer.len(), state) {
        if f.on(RefusedMailboxDrops) {
            state[..RECORD].fill(0);
        }
        return number;
    }
    let mut cut = [0; SIZE];
    let mailbox = sized(mailbox, &mut cut);
    let start = if f.on(MailboxOnLineOne) { RECORDS[1] } else { RECORDS[0] };
    let Some(record) = state[start..].first_chunk_mut::<RECORD>() else {
        return BAD_MEMORY;
    };
    let mut reply = [0; SIZE];
    let Some((length, after)) = step(f, &Request::of(f, mailbox), &mut reply, record, values, block) else {
        if f.on(MailboxAbortWrites) {
            answer[..SIZE].fill(0);
        }
        return given_up(f, state);
    };
    finish(f, 0, after, values, block, state);
    if f.on(CounterKept) {
        state[FORM + 1] = mailbox[5] >> 4;
    }
    if f.on(LentFormSetRight) {
        state[FORM] = 1;
    }
    head(f, mailbox, length, &mut reply);
    put(f, &reply, answer);
    DONE
}

/// The refusals in their order: the form, the mailbox, what is in it, the room.
#[inline]
fn judge<F: Fault>(f: F, mailbox: &[u8], room: usize, state: &State) -> Result<(), u32> {
    let held = |holds: bool, number: u32| if holds { Ok(()) } else { Err(number) };
    let chosen = held(speaks_mailboxes(f, state) || f.on(MailboxThoughEight), BAD_LINE);
    let whole = held(is_whole(f, mailbox), BAD_MAILBOX);
    let sdo = held(is_sdo_request(f, mailbox), NOT_SDO);
    let fits = held(room >= SIZE || takes_short_room(f, mailbox, room), SHORT_ROOM);
    if f.on(MailboxBeforeForm) {
        whole?;
    }
    chosen?;
    if f.on(TypeBeforeMailbox) {
        sdo?;
    }
    if f.on(RoomBeforeMailbox) {
        fits?;
    }
    whole?;
    if f.on(RoomBeforeType) {
        fits?;
    }
    sdo?;
    fits
}

#[inline]
fn length_field<F: Fault>(f: F, mailbox: &[u8]) -> Option<usize> {
    let [low, high, ..] = *mailbox else {
        return None;
    };
    Some(if f.on(LengthLowByte) { low as usize } else { u16::from_le_bytes([low, high]) as usize })
}

#[inline]
fn is_whole<F: Fault>(f: F, mailbox: &[u8]) -> bool {
    let size = mailbox.len();
    let fits = size == SIZE || f.on(ShortMailboxTaken) && size == SIZE - 1 || f.on(LongMailboxTaken) && size == SIZE + 1;
    let least = if f.on(LengthNineTaken) { 9 } else { 10 };
    let most = if f.on(Length123Taken) { 123 } else { 122 };
    fits && length_field(f, mailbox).is_some_and(|length| (least..=most).contains(&length))
}

/// An SDO request of CoE. Channel, priority, number and reserved bits are not looked at.
#[inline]
fn is_sdo_request<F: Fault>(f: F, mailbox: &[u8]) -> bool {
    let [_, _, _, _, channel, kind, number, service, ..] = *mailbox else {
        return false;
    };
    let is_coe = kind & 0x0F == TYPE_COE || f.on(TypeUnheeded);
    let is_request = service >> 4 == REQUEST || f.on(ServiceUnheeded) || f.on(ResponseTaken) && service >> 4 == RESPONSE;
    let is_strange = f.on(ReservedBitHeeded) && kind & 0x80 != 0
        || f.on(ChannelHeeded) && channel != 0
        || f.on(CoeNumberHeeded) && (number != 0 || service & 0x0F != 0);
    is_coe && is_request && !is_strange
}

/// The short rooms that wrong variants take.
#[inline]
fn takes_short_room<F: Fault>(f: F, mailbox: &[u8], room: usize) -> bool {
    f.on(Room127Taken) && room == SIZE - 1
        || f.on(MailboxAbortNeedsNoRoom) && mailbox.get(SDO).is_some_and(|first| first >> 5 == 4)
}

/// A mailbox as 128 bytes, which it has but for wrong variants.
#[inline]
fn sized<'a>(mailbox: &'a [u8], cut: &'a mut Mailbox) -> &'a Mailbox {
    match mailbox.try_into() {
        Ok(mailbox) => mailbox,
        Err(_) => {
            let count = mailbox.len().min(SIZE);
            cut[..count].copy_from_slice(&mailbox[..count]);
            cut
        }
    }
}

/// An SDO request: the bytes of its mailbox that count.
struct Request<'a> {
    mailbox: &'a Mailbox,
    message: &'a [u8; 8],
    end: usize,
}

impl Request<'_> {
    #[inline]
    fn of<F: Fault>(f: F, mailbox: &Mailbox) -> Request<'_> {
        let message = mailbox[SDO..].first_chunk().expect("a mailbox has room for an SDO");
        let length = length_field(f, mailbox).unwrap_or(0);
        // it is within these bounds, but for wrong variants
        Request { mailbox, message, end: (COUNTED + length).clamp(MORE, SIZE) }
    }

    /// The bytes of the value that an opening carries.
    #[inline]
    fn carried<F: Fault>(&self, f: F) -> &[u8] {
        &self.mailbox[MORE..if f.on(BytesBehindTaken) { SIZE } else { self.end }]
    }

    /// The bytes of the value that a part brings: of up to seven it says how many are unused.
    #[inline]
    fn part<F: Fault>(&self, f: F) -> &[u8] {
        let unused = (self.mailbox[SDO] >> 1 & 7) as usize;
        let end = match unused {
            _ if f.on(PartBytesBehindTaken) => SIZE,
            7 if f.on(EmptyPartFull) && self.end == MORE => MORE,
            _ if self.end == MORE || f.on(UnusedBitsInLongPart) => self.end - unused,
            _ if f.on(PartOneShort) => self.end - 1,
            _ if f.on(WritePartsOfSeven) => MORE,
            _ => self.end,
        };
        &self.mailbox[SDO + 1..end]
    }
}

/// The answer's SDO is written behind the headers; its length and what is left to do, or `None` for the client's abort.
fn step<F: Fault>(
    f: F,
    request: &Request,
    reply: &mut Mailbox,
    record: &mut Record,
    values: &mut Values,
    block: &mut Block,
) -> Option<(usize, After)> {
    let message = request.message;
    let had = *record;
    let replied = match message[0] >> 5 {
        4 => return wire::give_up(f, record),
        7 if f.on(SpecifierSevenIgnored) => return wire::give_up(f, record),
        _ if f.on(AbortsAll) => Err(Abort { key: wire::key_of(message), code: NO_INDEX }),
        1 | 2 if f.on(CompleteAccessRefused) && message[0] & 0x10 != 0 => {
            Err(Abort { key: wire::key_of(message), code: NO_SUBINDEX })
        }
        0 => eight(reply, wire::take_part(f, message[0], request.part(f), record, values, block)),
        1 => eight(reply, open_write(f, request, record, values, block)),
        2 => open_read(f, request, reply, record, values),
        3 => next_read(f, message[0], reply, record, values),
        _ => Err(wire::NO_TRANSFER),
    };
    Some(match replied {
        Ok(_) if f.on(SameEightBytes) => {
            reply[SDO..MORE].copy_from_slice(&wire::SAME);
            (8, After::Nothing)
        }
        Ok(answered) => answered,
        Err(abort) => {
            reply[SDO..MORE].copy_from_slice(&wire::refuse(f, message, abort, &had, record, values));
            (8, After::Nothing)
        }
    })
}

type Answered = Result<(usize, After), Abort>;

/// An answer of eight bytes.
#[inline]
fn eight(reply: &mut Mailbox, replied: Replied) -> Answered {
    let (answer, after) = replied?;
    reply[SDO..MORE].copy_from_slice(&answer);
    Ok((8, after))
}

/// An entry has 64 bytes at most, so the answer carries every longer value whole, and no transfer stays.
fn open_read<F: Fault>(f: F, request: &Request, reply: &mut Mailbox, record: &mut Record, values: &Values) -> Answered {
    let (n, row) = wire::asked(f, request.message, record)?;
    if f.on(ReadSurplusRefused) && !request.carried(f).is_empty() {
        return Err(Abort { key: row.key, code: TOO_LONG });
    }
    let length = row.len as usize;
    if length <= 4 {
        return eight(reply, Ok((wire::short_answer(f, row, values), After::Nothing)));
    }
    reply[SDO..MORE].copy_from_slice(&wire::long_answer(row));
    if f.on(ReadOpeningLeftOpen) || f.on(ReadOpeningBare) {
        wire::hold(f, n, row, record, values);
    }
    if f.on(ReadOpeningBare) {
        return Ok((8, After::Nothing));
    }
    entry::read(f, row, values, &mut reply[MORE..MORE + length]);
    Ok((8 + length, After::Nothing))
}

/// Only a lent record is met here. It has 64 bytes at most, so this part is the last.
fn next_read<F: Fault>(f: F, first: u8, reply: &mut Mailbox, record: &mut Record, values: &Values) -> Answered {
    let transfer = wire::next_asked(f, first, record, values)?;
    let left = transfer.left();
    let count = if f.on(ReadPartsOfSeven) { left.min(7) } else { left };
    let last = count == left;
    let unused = if f.on(UnusedBitsWrapped) { 7usize.wrapping_sub(count) & 7 } else { 7usize.saturating_sub(count) };
    reply[SDO] = first & 0x10 | (unused as u8) << 1 | last as u8;
    reply[SDO + 1..SDO + 1 + count].copy_from_slice(&record[transfer.place..transfer.place + count]);
    if f.on(FakedParts) {
        reply[SDO + 1..].fill(0);
    }
    if last {
        wire::end_read(f, record);
    } else {
        wire::go_on(record, &transfer, transfer.place + count);
    }
    Ok((1 + if f.on(ShortPartNotFilled) { count } else { count.max(7) }, After::Nothing))
}

/// An opening that announces its length and brings all of it is the whole write.
fn open_write<F: Fault>(f: F, request: &Request, record: &mut Record, values: &mut Values, block: &mut Block) -> Replied {
    let message = request.message;
    let mut bytes = request.carried(f);
    if message[0] & 2 != 0 {
        if f.on(ExpeditedSurplusRefused) && !bytes.is_empty() {
            return Err(Abort { key: wire::key_of(message), code: TOO_LONG });
        }
        return wire::open_write(f, message, record, values, block);
    }
    let (n, row) = wire::written(f, message, bytes.len(), record)?;
    let length = row.len as usize;
    let sized = message[0] & 1 != 0;
    if bytes.len() > length {
        let cuts = if sized { f.on(SurplusIgnored) } else { f.on(UnsizedSurplusCut) };
        if !cuts {
            return Err(Abort { key: row.key, code: TOO_LONG });
        }
        bytes = &bytes[..length];
    }
    let whole = bytes.len() == length && !f.on(WholeOpeningWaits);
    if whole && (sized || f.on(UnsizedOpeningEnds)) {
        return write_whole(f, row, bytes, record, values, block);
    }
    let answer = wire::await_parts(f, n, row, record, values)?;
    if !f.on(CarriedForgotten) {
        wire::carry(record, bytes);
    }
    if f.on(OpeningTurnsToggle) && !bytes.is_empty() {
        wire::turn(record);
    }
    Ok(answer)
}

fn write_whole<F: Fault>(f: F, row: &Row, bytes: &[u8], record: &mut Record, values: &mut Values, block: &mut Block) -> Replied {
    record.fill(0);
    let unjudged = Row { point: None, ..*row };
    let judged = if f.on(WholeUncrossed) { &unjudged } else { row };
    let after =
        entry::write(f, judged, bytes, values, block, f.on(WholeUnlocked)).map_err(|code| Abort { key: row.key, code })?;
    Ok((wire::yes(row.key), if f.on(WholeResetForgotten) { After::Nothing } else { after }))
}

/// The answer's headers: address and counter are the request's. CoE sends an abort by the service of a request.
#[inline]
fn head<F: Fault>(f: F, mailbox: &Mailbox, length: usize, reply: &mut Mailbox) {
    let counted = length + if f.on(LengthWithHeader) { SDO } else { SDO - COUNTED };
    let is_abort = reply[SDO] == 0x80;
    let service = if is_abort && !f.on(AbortByResponse) || f.on(AnswersByRequest) { REQUEST } else { RESPONSE };
    let counter = match mailbox[5] {
        _ if f.on(CounterCut) => 0,
        kind if f.on(ReservedBitCopied) => kind & 0xF0,
        kind => kind & 0x70,
    };
    reply[..2].copy_from_slice(&(counted as u16).to_le_bytes());
    reply[2] = mailbox[2];
    reply[3] = if f.on(AddressCut) { 0 } else { mailbox[3] };
    reply[4] = if f.on(ChannelCopied) { mailbox[4] } else { 0 };
    reply[5] = TYPE_COE | counter;
    let number = if f.on(CoeNumberCopied) { [mailbox[6], mailbox[7] & 0x0F] } else { [0, 0] };
    reply[6] = number[0];
    reply[7] = service << 4 | number[1];
    if f.on(RequestBehindAnswer) {
        let end = SDO + length;
        reply[end..].copy_from_slice(&mailbox[end..]);
    }
}

/// Lays the answer into the room.
#[inline]
fn put<F: Fault>(f: F, reply: &Mailbox, room: &mut [u8]) {
    if f.on(MailboxRoomFilled) {
        room.fill(0);
    }
    let used = COUNTED + reply[0] as usize;
    let count = if f.on(OnlyUsedWritten) { used } else { SIZE };
    let count = if f.on(Room127Taken) { count.min(room.len()) } else { count };
    room[..count].copy_from_slice(&reply[..count]);
}
