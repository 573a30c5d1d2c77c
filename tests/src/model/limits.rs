//! Limits of one entry's bytes.

use super::code;
use super::fault::{Fault, Mutant::*};
use super::table::{Kind, Row};

/// A little-endian whole number of 1, 2, 4 or 8 bytes.
#[inline]
pub fn number(bytes: &[u8]) -> u64 {
    match *bytes {
        [a] => a as u64,
        [a, b] => u16::from_le_bytes([a, b]) as u64,
        [a, b, c, d] => u32::from_le_bytes([a, b, c, d]) as u64,
        [a, b, c, d, e, f, g, h] => u64::from_le_bytes([a, b, c, d, e, f, g, h]),
        _ => 0,
    }
}

#[inline]
pub fn real<F: Fault>(f: F, bits: u32, min: f32, max: f32) -> Result<(), u32> {
    let value = f32::from_bits(bits);
    if value.is_nan() {
        if f.on(NanAccepted) {
            return Ok(());
        }
        return Err(if f.on(NanIsAbove) { code::ABOVE } else { code::OUT_OF_RANGE });
    }
    if f.on(InfinityAccepted) && value == f32::INFINITY && max == f32::MAX {
        return Ok(());
    }
    if f.on(MinusZeroBelow) && bits == 0x8000_0000 && min == 0.0 {
        return Err(code::BELOW);
    }
    if value > max || (f.on(MaximumExcluded) && value == max && max < f32::MAX) {
        Err(code::ABOVE)
    } else if value < min {
        Err(if f.on(BelowIsAbove) { code::ABOVE } else { code::BELOW })
    } else {
        Ok(())
    }
}

/// Judges a value, as a number of the row's type, against the row's limits.
#[inline]
pub fn judge_number<F: Fault>(f: F, row: &Row, value: u64) -> Result<(), u32> {
    match row.kind {
        Kind::Str | Kind::Card | Kind::Command => Ok(()),
        Kind::Real => real(f, value as u32, f32::from_bits(row.min as u32), f32::from_bits(row.max as u32)),
        Kind::Bool if f.on(BoolAnyByte) => Ok(()),
        _ if value > row.max => Err(code::ABOVE),
        _ if value < row.min => Err(if f.on(BelowIsAbove) { code::ABOVE } else { code::BELOW }),
        _ => Ok(()),
    }
}

#[inline]
pub fn judge<F: Fault>(f: F, row: &Row, bytes: &[u8]) -> Result<(), u32> {
    if row.kind.is_number() {
        judge_number(f, row, number(bytes))
    } else {
        Ok(())
    }
}
