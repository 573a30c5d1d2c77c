//! Exceptions: the words of a sample's faults, the masks, and the summary byte.

use super::card::{bits32, set32};
use super::code;
use super::fault::{Fault, Mutant, Mutant::*};
use super::table::{is_mask, place, Row};
use super::Values;

const SENSOR_ERROR: usize = place(0x9005, 2);
pub const SUMMARY: usize = place(0xF380, 0);
const ACTIVE: usize = place(0xF383, 1);
const LATCHED_WORDS: usize = place(0xF390, 0);
const LATCHED: usize = place(0xF393, 1);
const LATCHED_END: usize = place(0xF398, 1) + 4;
/// The device error mask, which hides bits of the active word.
const MASK: usize = place(0xF3A3, 1);

/// Filaments 1 and 2, electronics, over temperature.
const FAULTS: u32 = 1 << 0 | 1 << 1 | 1 << 9 | 1 << 10;

/// Whether a stored write of a row works the summary byte out: that of any mask does.
#[inline]
pub fn acts<F: Fault>(f: F, row: &Row) -> bool {
    let mask = if f.on(OnlyErrorMaskActs) { row.index() == 0xF3A3 } else { row.mask };
    mask && !f.on(MaskWaitsForSample) || f.on(EveryWriteActs)
}

/// Whether a refused write works it out: none does.
#[inline]
pub fn acts_refused<F: Fault>(f: F, key: u32, code: u32) -> bool {
    let mask = is_mask((key >> 8) as u16);
    match code {
        code::LOCKED => f.on(LockedMaskActs) && mask || f.on(LockedLoadActs) && key == 0xFB_F401,
        code::TOO_LONG | code::TOO_SHORT => f.on(MislengthMaskActs) && mask,
        _ => false,
    }
}

/// The word that the summary byte shows.
#[inline]
fn shown<F: Fault>(f: F, values: &Values) -> u32 {
    let active = bits32(values, ACTIVE);
    if f.on(SummaryFromLatched) {
        bits32(values, LATCHED)
    } else if f.on(LentBitsUncounted) {
        active & FAULTS
    } else if f.on(OtherDetailsCount) {
        active | bits32(values, place(0xF384, 1))
    } else {
        active
    }
}

/// The bits that are hidden in it.
#[inline]
fn hidden<F: Fault>(f: F, values: &Values) -> u32 {
    let mask = bits32(values, if f.on(MaskOfOtherWord) { place(0xF3A4, 1) } else { MASK });
    if f.on(MasksIgnored) {
        0
    } else if f.on(MaskTurned) {
        !mask
    } else {
        mask
    }
}

/// The summary byte under a mask: bit 2, Device Error, if the active word has a bit that the mask does not hide.
#[inline]
fn show<F: Fault>(f: F, values: &mut Values, mask: u32) {
    let word = shown(f, values);
    let all_hidden = f.on(OneHiddenHidesAll) && word & mask != 0 || f.on(MaskHidesWord) && mask != 0;
    let bit = if f.on(SummaryWrongBit) { 3 } else { 2 };
    values[SUMMARY] = ((word & !mask != 0 && !all_hidden) as u8) << bit;
}

/// Works the summary byte out.
#[inline]
pub fn summarize<F: Fault>(f: F, values: &mut Values) {
    show(f, values, hidden(f, values));
}

/// The words of a sample's faults, which no mask touches, and the summary byte.
#[inline]
pub fn sample<F: Fault>(f: F, faults: u32, values: &mut Values) {
    let faults = if f.on(AllFaultBits) { faults } else { faults & FAULTS };
    let masked = |wrong: Mutant, values: &Values| if f.on(wrong) { faults & !bits32(values, MASK) } else { faults };
    let sensor_error = masked(SensorErrorMasked, values) as u16;
    values[SENSOR_ERROR..SENSOR_ERROR + 2].copy_from_slice(&sensor_error.to_le_bytes());
    set32(values, ACTIVE, masked(ActiveMasked, values));
    let before = if f.on(LatchedIsActive) { 0 } else { bits32(values, LATCHED) };
    set32(values, LATCHED, before | masked(LatchedMasked, values));
    if f.on(SampleUnmasked) {
        show(f, values, 0);
    } else {
        summarize(f, values);
    }
}

/// An exception reset.
pub fn reset<F: Fault>(f: F, values: &mut Values) {
    if f.on(ExceptionResetOneWord) {
        values[LATCHED..LATCHED + 4].fill(0);
    } else {
        values[LATCHED_WORDS..LATCHED_END].fill(0);
    }
    if f.on(ExceptionResetClearsActive) {
        values[ACTIVE..ACTIVE + 4].fill(0);
    }
    if f.on(ExceptionResetUnmasked) {
        show(f, values, 0);
    } else if !f.on(ExceptionResetKeepsSummary) {
        summarize(f, values);
    }
}

const _: () = assert!(LATCHED_END == LATCHED_WORDS + 1 + 8 * 4);
