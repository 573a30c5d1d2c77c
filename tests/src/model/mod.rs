//! The independent board: written from the documents, not from the proved code. It serves as what the exported calls are
//! compared with, and as their rival in the benchmark.

mod card;
pub mod code;
mod crossed;
mod entry;
mod exception;
pub mod fault;
mod limits;
mod mailbox;
mod sample;
mod saved;
pub mod table;
mod wire;

use code::*;
use entry::After;
use fault::{Fault, Mutant::*, Sound};
pub use mailbox::mailbox_with;

type Values = [u8; 1024];
type Block = [u8; 512];
type State = [u8; 256];
type Record = [u8; 70];

/// First byte of each line's record in the state.
const RECORDS: [usize; 2] = [0, 96];
const RECORD: usize = 70;
/// First of the four trip bytes in the state.
const TRIPS: usize = 192;
/// The form of line 0 in the state: 0 is eight bytes, any other value is the mailbox.
const FORM: usize = 196;

/// What is lent, if its lengths are right.
#[inline(always)]
fn lent<'a>(
    values: &'a mut [u8],
    block: &'a mut [u8],
    state: &'a mut [u8],
) -> Option<(&'a mut Values, &'a mut Block, &'a mut State)> {
    Some((values.try_into().ok()?, block.try_into().ok()?, state.try_into().ok()?))
}

#[inline(always)]
fn speaks_mailboxes<F: Fault>(f: F, state: &State) -> bool {
    if f.on(LentFormMustBeOne) {
        state[FORM] == 1
    } else {
        state[FORM] != 0
    }
}

fn restart<F: Fault>(f: F, values: &mut Values, block: &Block, state: &mut State) {
    let tail = table::place(0xFBF4, 3) + 2;
    if f.on(PowerUpKeepsTail) {
        values[..tail].copy_from_slice(&table::DEFAULTS[..tail]);
    } else {
        values.copy_from_slice(&table::DEFAULTS);
    }
    saved::load(f, block, values);
    saved::take_crossed(f, block, values);
    if f.on(PowerUpClearsSpare) {
        state.fill(0);
    }
    state[RECORDS[0]..RECORDS[0] + RECORD].fill(0);
    if !f.on(PowerUpKeepsRecords) {
        state[RECORDS[1]..RECORDS[1] + RECORD].fill(0);
    }
    state[TRIPS..TRIPS + 4].fill(0);
}

/// The state's byte for a form that power-up is given.
fn form_byte<F: Fault>(f: F, form: u32) -> u8 {
    match form {
        _ if f.on(FormLowBit) => (form & 1) as u8,
        _ if f.on(FormLowByte) => (form as u8 != 0) as u8,
        _ if f.on(FormNumberKept) => form.min(255) as u8,
        _ => (form != 0) as u8,
    }
}

pub fn power_up_with<F: Fault>(f: F, form: u32, values: &mut [u8], block: &[u8], state: &mut [u8]) -> u32 {
    if f.on(RefusedPowerUpWritesForm) {
        if let Some(byte) = state.get_mut(FORM) {
            *byte = form_byte(f, form);
        }
    }
    let (Ok(values), Ok(block), Ok(state)) = (values.try_into(), block.try_into(), <&mut State>::try_from(state)) else {
        return BAD_MEMORY;
    };
    restart(f, values, block, state);
    if !f.on(PowerUpKeepsForm) {
        state[FORM] = form_byte(f, form);
    }
    DONE
}

/// What is left to do when a message on a line was served.
#[inline(always)]
fn finish<F: Fault>(f: F, line: usize, after: After, values: &mut Values, block: &Block, state: &mut State) {
    let other = RECORDS[1 - line];
    if f.on(ToggleResetByOtherLine) {
        state[other + 69] = 0;
    }
    if f.on(NewSettingsAtOnce) {
        for (n, side) in card::SIDES.iter().enumerate() {
            if values[side.enable] == 0 && state[TRIPS + n] == 1 {
                state[TRIPS + n] = 0;
            }
        }
    }
    if after == After::Nothing {
        return;
    }
    let had = *state;
    if f.on(ResetIgnoresBlock) {
        restart(f, values, &[0; 512], state);
    } else {
        restart(f, values, block, state);
    }
    if f.on(ResetKeepsOtherLine) {
        state[other..other + RECORD].copy_from_slice(&had[other..other + RECORD]);
    }
    if f.on(ResetKeepsTrips) {
        state[TRIPS..TRIPS + 4].copy_from_slice(&had[TRIPS..TRIPS + 4]);
    }
    if f.on(ResetLosesForm) {
        state[FORM] = 0;
    }
}

/// The number for a client's abort.
#[inline(always)]
fn given_up<F: Fault>(f: F, state: &mut State) -> u32 {
    if f.on(AbortDropsBoth) {
        state[RECORDS[0]..RECORDS[0] + RECORD].fill(0);
        state[RECORDS[1]..RECORDS[1] + RECORD].fill(0);
    }
    if f.on(AbortAnswered) {
        DONE
    } else {
        CLIENT_ABORT
    }
}

#[allow(clippy::too_many_arguments)]
pub fn message_with<F: Fault>(
    f: F,
    line: u32,
    message: &[u8],
    values: &mut [u8],
    block: &mut [u8],
    state: &mut [u8],
    answer: &mut [u8],
) -> u32 {
    let line = if f.on(LineMasked) { line & 1 } else { line };
    if f.on(LineBeforeMemory) && line > 1 {
        return BAD_LINE;
    }
    let Some((values, block, state)) = lent(values, block, state) else {
        return BAD_MEMORY;
    };
    if f.on(RoomBeforeLine) && answer.len() < 8 {
        return SHORT_ROOM;
    }
    let Some(&start) = RECORDS.get(line as usize) else {
        return BAD_LINE;
    };
    let refuses = line == 0 && !f.on(EightBesideMailbox) || line == 1 && f.on(LineOneRefused);
    if refuses && speaks_mailboxes(f, state) {
        return BAD_LINE;
    }
    if f.on(MessageBeforeRoom) && message.len() != 8 {
        return BAD_MESSAGE;
    }
    if f.on(AbortNeedsNoRoom) && message.len() == 8 && message[0] >> 5 == 4 {
        state[start..start + RECORD].fill(0);
        return CLIENT_ABORT;
    }
    if answer.len() < 8 || f.on(RoomMustFit) && answer.len() != 8 {
        if f.on(RefusedCallDrops) {
            state[start..start + RECORD].fill(0);
        }
        return SHORT_ROOM;
    }
    let message = if f.on(LongMessageCut) && message.len() > 8 { &message[..8] } else { message };
    let Ok(message) = <&[u8; 8]>::try_from(message) else {
        return BAD_MESSAGE;
    };

    let start = if f.on(LinesShareRecord) { 0 } else { start };
    let Some(record) = state[start..].first_chunk_mut::<RECORD>() else {
        return BAD_MEMORY;
    };
    let Some((bytes, after)) = wire::step(f, message, record, values, block) else {
        return given_up(f, state);
    };
    finish(f, line as usize, after, values, block, state);
    if f.on(AnswerRoomFilled) {
        answer.fill(0);
    }
    answer[..8].copy_from_slice(&bytes);
    DONE
}

#[allow(clippy::too_many_arguments)]
pub fn sample_with<F: Fault>(
    f: F,
    pressure: f32,
    valid: u8,
    faults: u32,
    seconds: u32,
    values: &mut [u8],
    state: &mut [u8],
) -> u32 {
    let (Ok(values), Ok(state)) = (values.try_into(), <&mut State>::try_from(state)) else {
        return BAD_MEMORY;
    };
    sample::sample(f, pressure, valid, faults, seconds, values, state);
    if f.on(SampleClearsForm) {
        state[FORM] = 0;
    }
    DONE
}

pub fn image_with<F: Fault>(f: F, values: &[u8], image: &mut [u8]) -> u32 {
    let Ok(values) = values.try_into() else {
        return BAD_MEMORY;
    };
    if image.len() < 10 {
        return SHORT_ROOM;
    }
    if f.on(ImageRoomFilled) {
        image.fill(0);
    }
    image[..10].copy_from_slice(&sample::image(f, values));
    DONE
}

/// `gauge_power_up`
pub fn power_up(form: u32, values: &mut [u8], block: &[u8], state: &mut [u8]) -> u32 {
    power_up_with(Sound, form, values, block, state)
}

/// `gauge_message`
pub fn message(line: u32, message: &[u8], values: &mut [u8], block: &mut [u8], state: &mut [u8], answer: &mut [u8]) -> u32 {
    message_with(Sound, line, message, values, block, state, answer)
}

/// `gauge_mailbox`
pub fn mailbox(mailbox: &[u8], values: &mut [u8], block: &mut [u8], state: &mut [u8], answer: &mut [u8]) -> u32 {
    mailbox_with(Sound, mailbox, values, block, state, answer)
}

/// `gauge_sample`
pub fn sample(pressure: f32, valid: u8, faults: u32, seconds: u32, values: &mut [u8], state: &mut [u8]) -> u32 {
    sample_with(Sound, pressure, valid, faults, seconds, values, state)
}

/// `gauge_image`
pub fn image(values: &[u8], image: &mut [u8]) -> u32 {
    image_with(Sound, values, image)
}
