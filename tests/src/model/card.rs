//! The trip card: 264 bits, a view of the trip entries.

use super::code;
use super::crossed::{is_crossed, Point};
use super::fault::{Fault, Mutant, Mutant::*};
use super::limits;
use super::table::place;
use super::Values;

/// Where a side of a trip point has its settings.
pub struct Side {
    pub enable: usize,
    pub level: usize,
    pub hysteresis: usize,
}

/// Trip point 1 high and low, trip point 2 high and low.
pub const SIDES: [Side; 4] = [
    Side { enable: place(0x800E, 0x01), level: place(0x800E, 0x11), hysteresis: place(0x800E, 0x17) },
    Side { enable: place(0x800E, 0x02), level: place(0x800E, 0x14), hysteresis: place(0x800E, 0x18) },
    Side { enable: place(0x800F, 0x01), level: place(0x800F, 0x11), hysteresis: place(0x800F, 0x17) },
    Side { enable: place(0x800F, 0x02), level: place(0x800F, 0x14), hysteresis: place(0x800F, 0x18) },
];

pub const LENGTH: usize = 33;
const HIGHEST: f32 = 1500.0;

#[inline]
pub fn bits32(values: &Values, at: usize) -> u32 {
    let mut word = [0; 4];
    word.copy_from_slice(&values[at..at + 4]);
    u32::from_le_bytes(word)
}

#[inline]
pub fn set32(values: &mut Values, at: usize, value: u32) {
    values[at..at + 4].copy_from_slice(&value.to_le_bytes());
}

#[inline]
fn be32(card: &[u8; LENGTH], at: usize) -> u32 {
    u32::from_be_bytes([card[at], card[at + 1], card[at + 2], card[at + 3]])
}

/// The card's REAL fields in their order. Those of trip point 1 start six bits into the card, those of trip point 2 at byte 17.
#[inline]
fn fields(card: &[u8; LENGTH]) -> [u32; 8] {
    let first = |n: usize| be32(card, 4 * n) << 6 | card[4 * n + 4] as u32 >> 2;
    let second = |n: usize| be32(card, 17 + 4 * n);
    [first(0), first(1), first(2), first(3), second(0), second(1), second(2), second(3)]
}

/// The enable bits in the order of the sides.
#[inline]
fn enables(card: &[u8; LENGTH]) -> [u8; 4] {
    [card[0] >> 3 & 1, card[0] >> 2 & 1, card[16] >> 1 & 1, card[16] & 1]
}

/// Trip points 1 and 2 of a card.
#[inline]
pub fn points(card: &[u8; LENGTH]) -> [Point; 2] {
    let (enables, fields) = (enables(card), fields(card));
    [0, 1].map(|n| Point {
        enables: [0, 1].map(|side| enables[2 * n + side]),
        reals: [0, 1, 2, 3].map(|field| fields[4 * n + field]),
    })
}

#[inline]
fn order<F: Fault>(f: F, side: usize) -> usize {
    if f.on(CardSidesSwapped) {
        side ^ 1
    } else {
        side
    }
}

/// Side and sort of setting (0 level, 1 hysteresis) of each REAL field.
#[inline]
fn setting<F: Fault>(f: F, n: usize) -> usize {
    let side = &SIDES[order(f, n / 2)];
    if n % 2 == 0 {
        side.level
    } else {
        side.hysteresis
    }
}

#[inline]
fn turned<F: Fault>(f: F, n: usize, value: u32) -> u32 {
    if f.on(CardLittleEndian) && n % 2 == 0 {
        value.swap_bytes()
    } else {
        value
    }
}

pub fn pack<F: Fault>(f: F, values: &Values) -> [u8; LENGTH] {
    let enable = |n: usize| {
        let byte = values[SIDES[order(f, n)].enable];
        if f.on(CardLentEnable) {
            byte & 1
        } else {
            (byte != 0) as u8
        }
    };
    let mut card = [0; LENGTH];
    // layout and trip point 1's enables: six bits that stand before each field of trip point 1
    let mut before = 1 << 2 | (enable(0) << 1 | enable(1)) as u32;
    for n in 0..4 {
        let value = turned(f, n, bits32(values, setting(f, n)));
        card[4 * n..4 * n + 4].copy_from_slice(&(before << 26 | value >> 6).to_be_bytes());
        before = value & 0x3F;
    }
    card[16] = (before << 2) as u8 | enable(2) << 1 | enable(3);
    for n in 4..8 {
        let value = turned(f, n, bits32(values, setting(f, n)));
        card[4 * n + 1..4 * n + 5].copy_from_slice(&value.to_be_bytes());
    }
    card
}

/// Layout and limits; the first bad field decides.
pub fn judge<F: Fault>(f: F, card: &[u8; LENGTH]) -> Result<(), u32> {
    let crossed_too_soon =
        |wrong: Mutant, count: usize| f.on(wrong) && points(card)[..count].iter().any(|point| is_crossed(f, point));
    let mut found = Ok(());
    if card[0] >> 4 != 1 && !f.on(CardLayoutFree) {
        found = Err(match () {
            _ if crossed_too_soon(CardCrossedBeforeLayout, 2) => code::CROSSED,
            _ if f.on(CardLayoutIsAbove) => code::ABOVE,
            _ => code::OUT_OF_RANGE,
        });
        if !f.on(CardLastFieldDecides) {
            return found;
        }
    }
    let fields = fields(card);
    for n in 0..8 {
        if n == 0 && crossed_too_soon(CardCrossedBeforeLimits, 2) || n == 4 && crossed_too_soon(CardCrossedByPoint, 1) {
            return Err(code::CROSSED);
        }
        let n = if f.on(CardLevelsFirst) { [0, 2, 1, 3, 4, 6, 5, 7][n] } else { n };
        let judged = limits::real(f, fields[n], 0.0, HIGHEST);
        if judged.is_err() {
            found = judged;
            if !f.on(CardLastFieldDecides) {
                return found;
            }
        }
    }
    found
}

pub fn unpack<F: Fault>(f: F, card: &[u8; LENGTH], values: &mut Values) {
    for (n, enable) in enables(card).into_iter().enumerate() {
        values[SIDES[order(f, n)].enable] = enable;
    }
    for (n, field) in fields(card).into_iter().enumerate() {
        let place = setting(f, n);
        values[place..place + 4].copy_from_slice(&turned(f, n, field).to_le_bytes());
    }
}
