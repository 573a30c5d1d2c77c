//! Crossed trip points: both sides enabled, and a low level that is not below the high level. The board takes none from a write, a
//! card or a saved block, and stores none.

use super::card::{self, bits32, Side, SIDES};
use super::code;
use super::fault::{Fault, Mutant::*};
use super::limits;
use super::table::{place, Kind, Row};
use super::Values;

/// A trip point's fields in the order of the card.
pub struct Point {
    /// High and low enable.
    pub enables: [u8; 2],
    /// High level, high hysteresis, low level, low hysteresis.
    pub reals: [u32; 4],
}

impl Point {
    /// Inlined, so that the compiler knows the places.
    #[inline(always)]
    fn at(values: &Values, high: &Side, low: &Side) -> Point {
        let [a, b] = [high.level, high.hysteresis].map(|at| bits32(values, at));
        let [c, d] = [low.level, low.hysteresis].map(|at| bits32(values, at));
        Point { enables: [values[high.enable], values[low.enable]], reals: [a, b, c, d] }
    }

    /// Trip point 1 (0) or 2 (1) of the values.
    #[inline]
    pub fn of(values: &Values, n: usize) -> Point {
        let [high_1, low_1, high_2, low_2] = &SIDES;
        match n {
            0 => Point::at(values, high_1, low_1),
            _ => Point::at(values, high_2, low_2),
        }
    }

    /// Puts one entry of the trip point's object in; entries beside the card's fields decide nothing.
    #[inline]
    fn put(&mut self, row: &Row, bytes: &[u8]) {
        let word = limits::number(bytes) as u32;
        match row.sub() {
            0x01 => self.enables[0] = word as u8,
            0x02 => self.enables[1] = word as u8,
            0x11 => self.reals[0] = word,
            0x17 => self.reals[1] = word,
            0x14 => self.reals[2] = word,
            0x18 => self.reals[3] = word,
            _ => (),
        }
    }
}

/// Whether the low level is below the high level.
#[inline]
fn is_below<F: Fault>(f: F, point: &Point) -> bool {
    let [high, high_hysteresis, low, low_hysteresis] = point.reals.map(f32::from_bits);
    if f.on(HysteresesCounted) {
        return low + low_hysteresis < high - high_hysteresis;
    }
    if f.on(LevelsByBits) {
        return point.reals[2] < point.reals[0];
    }
    if f.on(NextLevelsCross) {
        return low.next_up() < high;
    }
    low < high
        || f.on(EqualLevelsPass) && low == high
        || f.on(MinusZeroBelowZero) && low == high && low.is_sign_negative() && high.is_sign_positive()
        || f.on(NanLevelPasses) && (low.is_nan() || high.is_nan())
}

/// Whether a trip point is crossed: the one question that writes, cards, stores and blocks are asked.
#[inline]
pub fn is_crossed<F: Fault>(f: F, point: &Point) -> bool {
    let [high, low] = point.enables.map(|enable| if f.on(EnableMustBeOne) { enable == 1 } else { enable != 0 });
    let enabled = high && low || f.on(OneEnableCrosses) && (high || low) || f.on(EnablesIgnored);
    enabled && !is_below(f, point)
}

/// Whether trip point 1 or 2 is crossed in the values.
#[inline]
pub fn any<F: Fault>(f: F, values: &Values) -> bool {
    (0..2).any(|n| is_crossed(f, &Point::of(values, n)))
}

/// The bytes of a trip point's object in the values.
pub fn span(n: usize) -> core::ops::Range<usize> {
    [place(0x800E, 0x01)..place(0x800E, 0x1A) + 4, place(0x800F, 0x01)..place(0x800F, 0x1A) + 4][n].clone()
}

/// What wrong variants do not judge of a trip point's object.
#[inline]
fn is_unjudged<F: Fault>(f: F, row: &Row) -> bool {
    match row.sub() {
        0x01 | 0x02 => f.on(EnablesUnjudged),
        0x11 | 0x14 => f.on(LevelsUnjudged),
        _ => f.on(FourFieldsJudged),
    }
}

/// What wrong variants refuse besides, by the values before the write.
#[inline]
fn is_refused_besides<F: Fault>(f: F, row: &Row, n: usize, bytes: &[u8], values: &Values) -> bool {
    let kept = match row.sub() {
        0x01 | 0x02 => f.on(DisablingRefused) && bytes == [0],
        0x11 | 0x14 => f.on(UncrossingRefused),
        _ => false,
    };
    kept && is_crossed(f, &Point::of(values, n)) || f.on(BothPointsJudged) && is_crossed(f, &Point::of(values, 1 - n))
}

/// Whether a trip point is crossed when one entry of its object is written.
#[inline]
fn entry_crosses<F: Fault>(f: F, row: &Row, n: usize, bytes: &[u8], values: &Values) -> bool {
    if is_unjudged(f, row) {
        return false;
    }
    let mut point = Point::of(values, if f.on(OtherPointJudged) { 1 - n } else { n });
    if !f.on(JudgedBeforeWrite) && !f.on(OtherPointJudged) {
        point.put(row, bytes);
    }
    if f.on(OtherEnablesJudged) {
        point.enables = Point::of(values, 1 - n).enables;
    }
    is_crossed(f, &point) || is_refused_besides(f, row, n, bytes, values)
}

/// Whether trip point 1 or 2 is crossed in a card.
#[inline]
fn card_crosses<F: Fault>(f: F, bytes: &[u8], values: &Values) -> bool {
    if f.on(CardJudgedBefore) {
        return any(f, values);
    }
    let Ok(bytes) = bytes.try_into() else {
        return false;
    };
    let [first, second] = card::points(bytes);
    is_crossed(f, &first) && !f.on(CardFirstUnjudged) || is_crossed(f, &second) && !f.on(CardSecondUnjudged)
}

/// The last check of a write; `bytes` has the row's length.
#[inline]
pub fn judge<F: Fault>(f: F, row: &Row, bytes: &[u8], values: &Values) -> Result<(), u32> {
    let crosses = match (row.kind, row.point) {
        (Kind::Card, _) => card_crosses(f, bytes, values),
        (_, Some(n)) => entry_crosses(f, row, n as usize, bytes, values),
        (Kind::Command, _) => f.on(CommandsJudged) && any(f, values),
        _ => f.on(OtherEntriesJudged) && any(f, values),
    };
    match crosses {
        true if f.on(CrossedIsBelow) => Err(code::BELOW),
        true => Err(code::CROSSED),
        false => Ok(()),
    }
}
