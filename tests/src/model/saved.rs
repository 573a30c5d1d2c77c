//! The saved block: 4,096 bits, most significant first.
//!
//! The fields are sorted at compile time by their width, so that loading and storing are three short loops, and only those that a
//! value can break are held to limits.

use super::card::{bits32, set32, SIDES};
use super::crossed::{self, is_crossed, Point};
use super::fault::{Fault, Mutant::*};
use super::limits;
use super::table::{bits, Field, Kind, Row, DEFAULTS, FIELDS, FIELDS_END};
use super::{Block, Values};

/// Layout 1, model 1 (BAG552).
const HEAD: u8 = 0x11;

/// A field of one width: its byte and bit in the block, and its place in the values.
#[derive(Clone, Copy)]
struct Slot {
    at: u16,
    shift: u8,
    place: u16,
}

const fn count(of: u8) -> usize {
    let (mut n, mut found) = (0, 0);
    while n < FIELDS.len() {
        found += (sort(&FIELDS[n].row) == of) as usize;
        n += 1;
    }
    found
}

/// 0: one bit, 1: a byte, 2: four bytes, 3: a string. Other widths do not occur.
const fn sort(row: &Row) -> u8 {
    match (row.kind, bits(row)) {
        (Kind::Str, _) => 3,
        (_, 1) => 0,
        (_, 8) => 1,
        (_, 32) => 2,
        _ => panic!("an NV entry of a width that the saved block's loops do not have"),
    }
}

const fn slot(field: &Field) -> Slot {
    Slot { at: (field.bit / 8) as u16, shift: (field.bit % 8) as u8, place: field.row.place }
}

const fn slots<const N: usize>(of: u8) -> [Slot; N] {
    let mut slots = [Slot { at: 0, shift: 0, place: 0 }; N];
    let (mut n, mut found) = (0, 0);
    while n < FIELDS.len() {
        if sort(&FIELDS[n].row) == of {
            slots[found] = slot(&FIELDS[n]);
            found += 1;
        }
        n += 1;
    }
    slots
}

static BITS: [Slot; count(0)] = slots(0);
static BYTES: [Slot; count(1)] = slots(1);
static WORDS: [Slot; count(2)] = slots(2);

/// The field of a place.
const fn slot_at(place: usize) -> Slot {
    let mut n = 0;
    while FIELDS[n].row.place as usize != place {
        n += 1;
    }
    slot(&FIELDS[n])
}

/// Enable, level and hysteresis of each side.
const SIDE_SLOTS: [[Slot; 3]; 4] = {
    let mut slots = [[slot(&FIELDS[0]); 3]; 4];
    let mut n = 0;
    while n < 4 {
        slots[n] = [slot_at(SIDES[n].enable), slot_at(SIDES[n].level), slot_at(SIDES[n].hysteresis)];
        n += 1;
    }
    slots
};

/// A field that its width does not already keep within its limits.
#[derive(Clone, Copy)]
struct Limit {
    at: u16,
    shift: u8,
    width: u8,
    place: u16,
    is_real: bool,
    min: u32,
    max: u32,
}

const fn is_limited(row: &Row) -> bool {
    match row.kind {
        Kind::Bool | Kind::Str => false,
        Kind::Real => true,
        _ => row.min != 0 || row.max != u64::MAX >> (64 - bits(row)),
    }
}

const fn count_limits() -> usize {
    let (mut n, mut found) = (0, 0);
    while n < FIELDS.len() {
        found += is_limited(&FIELDS[n].row) as usize;
        n += 1;
    }
    found
}

static LIMITS: [Limit; count_limits()] = {
    let mut limits = [Limit { at: 0, shift: 0, width: 0, place: 0, is_real: false, min: 0, max: 0 }; count_limits()];
    let (mut n, mut found) = (0, 0);
    while n < FIELDS.len() {
        let Field { row, bit } = &FIELDS[n];
        if is_limited(row) {
            limits[found] = Limit {
                at: (*bit / 8) as u16,
                shift: (*bit % 8) as u8,
                width: bits(row) as u8,
                place: row.place,
                is_real: matches!(row.kind, Kind::Real),
                min: row.min as u32,
                max: row.max as u32,
            };
            found += 1;
        }
        n += 1;
    }
    limits
};

/// The bits from a place on, at the top of a word.
#[inline]
fn get(block: &Block, at: u16, shift: u8) -> u64 {
    let at = at as usize;
    let mut word = [0; 8];
    word.copy_from_slice(&block[at..at + 8]);
    u64::from_be_bytes(word) << shift
}

/// Sets bits, given at the top of a word, where zeros are.
#[inline]
fn put(block: &mut Block, at: u16, shift: u8, top: u64) {
    let at = at as usize;
    let mut word = [0; 8];
    word.copy_from_slice(&block[at..at + 8]);
    let word = u64::from_be_bytes(word) | top >> shift;
    block[at..at + 8].copy_from_slice(&word.to_be_bytes());
}

#[inline]
fn turned<F: Fault>(f: F, word: u32) -> u32 {
    if f.on(BlockLittleEndian) {
        word.swap_bytes()
    } else {
        word
    }
}

impl Slot {
    #[inline]
    fn bit(&self, block: &Block) -> u8 {
        block[self.at as usize] >> (7 - self.shift) & 1
    }

    #[inline]
    fn word<F: Fault>(&self, f: F, block: &Block) -> u32 {
        turned(f, (get(block, self.at, self.shift) >> 32) as u32)
    }
}

impl Limit {
    #[inline]
    fn allows<F: Fault>(&self, f: F, value: u32) -> bool {
        if self.is_real {
            limits::real(f, value, f32::from_bits(self.min), f32::from_bits(self.max)).is_ok()
        } else {
            self.min <= value && value <= self.max
        }
    }

    #[inline]
    fn allows_block<F: Fault>(&self, f: F, block: &Block) -> bool {
        let value = (get(block, self.at, self.shift) >> 32) as u32;
        let value = if self.width == 8 { value >> 24 } else { turned(f, value) };
        self.allows(f, value)
    }

    #[inline]
    fn allows_values<F: Fault>(&self, f: F, values: &Values) -> bool {
        let value = if self.width == 8 { values[self.place as usize] as u32 } else { bits32(values, self.place as usize) };
        self.allows(f, value)
    }
}

/// Inlined, so that the compiler knows the places.
#[inline(always)]
fn point<F: Fault>(f: F, block: &Block, high: &[Slot; 3], low: &[Slot; 3]) -> Point {
    Point {
        enables: [high[0].bit(block), low[0].bit(block)],
        reals: [high[1].word(f, block), high[2].word(f, block), low[1].word(f, block), low[2].word(f, block)],
    }
}

/// Whether a trip point of the block is crossed.
fn crosses<F: Fault>(f: F, block: &Block) -> bool {
    let [high_1, low_1, high_2, low_2] = &SIDE_SLOTS;
    is_crossed(f, &point(f, block, high_1, low_1)) || is_crossed(f, &point(f, block, high_2, low_2)) && !f.on(BlockSecondUnjudged)
}

/// Whether a block is faulty for its crossed trip points alone.
pub fn is_only_crossed<F: Fault>(f: F, block: &Block) -> bool {
    !is_damaged(f, block) && crosses(f, block)
}

pub fn is_faulty<F: Fault>(f: F, block: &Block) -> bool {
    is_damaged(f, block) || crosses(f, block)
}

/// Whether head, limits or rest are wrong.
fn is_damaged<F: Fault>(f: F, block: &Block) -> bool {
    let head = if f.on(ModelNotTested) && block[0] >> 4 == 1 { HEAD } else { block[0] };
    if head != HEAD {
        return true;
    }
    if !f.on(BlockLimitsNotTested) && !LIMITS.iter().all(|limit| limit.allows_block(f, block)) {
        return true;
    }
    if f.on(RestNotTested) {
        return false;
    }
    let end = if f.on(LastByteNotTested) { 511 } else { 512 };
    let rest = block[FIELDS_END / 8 + 1..end].iter().fold(0, |any, b| any | b);
    rest | (block[FIELDS_END / 8] & (0xFF >> (FIELDS_END % 8))) != 0
}

/// Takes the block whole, or nothing of it.
pub fn load<F: Fault>(f: F, block: &Block, values: &mut Values) -> bool {
    if is_faulty(f, block) {
        if f.on(GoodEntriesOfFaultyBlock) && block[0] == HEAD {
            let before = *values;
            take(f, block, values);
            for limit in LIMITS.iter().filter(|limit| !limit.allows_block(f, block)) {
                let span = limit.place as usize..limit.place as usize + limit.width as usize / 8;
                values[span.clone()].copy_from_slice(&before[span]);
            }
        }
        if f.on(LoadFaultyIsDefault) {
            for field in &FIELDS {
                let span = field.row.place as usize..(field.row.place + field.row.len as u16) as usize;
                values[span.clone()].copy_from_slice(&DEFAULTS[span]);
            }
        }
        return false;
    }
    take(f, block, values);
    true
}

/// What wrong variants take of a crossed block at power-up.
pub fn take_crossed<F: Fault>(f: F, block: &Block, values: &mut Values) {
    if !(f.on(PowerUpTakesCrossed) || f.on(PowerUpTakesGood)) || !is_only_crossed(f, block) {
        return;
    }
    take(f, block, values);
    for n in 0..2 {
        if f.on(PowerUpTakesGood) && is_crossed(f, &Point::of(values, n)) {
            values[crossed::span(n)].copy_from_slice(&DEFAULTS[crossed::span(n)]);
        }
    }
}

pub fn take<F: Fault>(f: F, block: &Block, values: &mut Values) {
    for slot in &WORDS {
        set32(values, slot.place as usize, slot.word(f, block));
    }
    for slot in &BYTES {
        values[slot.place as usize] = (get(block, slot.at, slot.shift) >> 56) as u8;
    }
    for slot in &BITS {
        values[slot.place as usize] = slot.bit(block);
    }
    for_strings(|place, bit, len| {
        if bit % 8 == 0 {
            values[place..place + len].copy_from_slice(&block[bit / 8..bit / 8 + len]);
        } else {
            for i in 0..len {
                values[place + i] = (get(block, (bit / 8 + i) as u16, (bit % 8) as u8) >> 56) as u8;
            }
        }
    });
}

/// Place, bit and length of each string; the compiler knows them.
#[inline(always)]
fn for_strings(mut each: impl FnMut(usize, usize, usize)) {
    const STRINGS: [(usize, usize, usize); count(3)] = {
        let mut strings = [(0, 0, 0); count(3)];
        let (mut n, mut found) = (0, 0);
        while n < FIELDS.len() {
            if sort(&FIELDS[n].row) == 3 {
                strings[found] = (FIELDS[n].row.place as usize, FIELDS[n].bit, FIELDS[n].row.len as usize);
                found += 1;
            }
            n += 1;
        }
        strings
    };
    for (place, bit, len) in STRINGS {
        each(place, bit, len);
    }
}

/// Whether a crossed trip point keeps the values from being stored.
fn keeps_from_storing<F: Fault>(f: F, values: &Values) -> bool {
    let point = |n: usize| is_crossed(f, &Point::of(values, n));
    !f.on(StoreTakesCrossed) && (point(0) || point(1) && !f.on(StoreSecondUnjudged))
}

/// Writes the block, or nothing in it if a value is outside its limits or a trip point is crossed.
pub fn store<F: Fault>(f: F, values: &Values, block: &mut Block) -> bool {
    let bools = BITS.iter().all(|slot| values[slot.place as usize] <= 1) || f.on(StoreClips) || f.on(BoolAnyByte);
    let within = bools && LIMITS.iter().all(|limit| limit.allows_values(f, values)) || f.on(StoreAnything);
    let good = within && !keeps_from_storing(f, values);
    if f.on(StoreRefusedWrites) && !good {
        block.fill(0);
    }
    if good || f.on(CrossedStoreWrites) && within {
        write(f, values, block);
    }
    good || f.on(CrossedStoreSilent) && within
}

fn write<F: Fault>(f: F, values: &Values, block: &mut Block) {
    if f.on(StoreLeavesRest) {
        block[..FIELDS_END / 8 + 1].fill(0);
    } else {
        block.fill(0);
    }
    block[0] = HEAD;
    for slot in &WORDS {
        put(block, slot.at, slot.shift, (turned(f, bits32(values, slot.place as usize)) as u64) << 32);
    }
    for slot in &BYTES {
        put(block, slot.at, slot.shift, (values[slot.place as usize] as u64) << 56);
    }
    for slot in &BITS {
        block[slot.at as usize] |= ((values[slot.place as usize] != 0) as u8) << (7 - slot.shift);
    }
    for_strings(|place, bit, len| {
        if bit % 8 == 0 {
            block[bit / 8..bit / 8 + len].copy_from_slice(&values[place..place + len]);
        } else {
            for i in 0..len {
                put(block, (bit / 8 + i) as u16, (bit % 8) as u8, (values[place + i] as u64) << 56);
            }
        }
    });
}
