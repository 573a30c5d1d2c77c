//! Samples and trips, and the cyclic image.

use super::card::{bits32, set32, SIDES};
use super::crossed::{is_crossed, Point};
use super::exception;
use super::fault::{Fault, Mutant::*};
use super::table::place;
use super::{State, Values, TRIPS};

const INPUT: usize = place(0x6000, 0x11);
const INPUT_1: usize = place(0x900E, 1);
const INPUT_2: usize = place(0x900F, 1);
const VALID: usize = place(0x6005, 1);
const OVERRANGE: usize = place(0x6005, 2);
const UNDERRANGE: usize = place(0x6005, 3);
const TRIP_STATUS: [usize; 4] = [place(0x600E, 1), place(0x600E, 2), place(0x600F, 1), place(0x600F, 2)];
const TRIP_ALL: usize = place(0xF641, 1);
const SECONDS: usize = place(0xF9F6, 0);

#[inline]
fn side<F: Fault>(f: F, values: &Values, n: usize, p: f32, on: bool) -> bool {
    let side = &SIDES[n];
    let enable = values[side.enable];
    if if f.on(LentEnableBit) { enable & 1 == 0 } else { enable == 0 } {
        return f.on(DisabledSideStays) && on;
    }
    if f.on(CrossedSidesOff) && is_crossed(f, &Point::of(values, n / 2)) {
        return false;
    }
    let level = f32::from_bits(bits32(values, side.level));
    let hysteresis = f32::from_bits(bits32(values, side.hysteresis));
    let (goes_on, goes_off) = if n % 2 == 0 {
        (
            p > level || f.on(HighTripAtLevel) && p == level,
            p < level - hysteresis || f.on(HighOffAtEdge) && p == level - hysteresis,
        )
    } else {
        (
            p < level || f.on(LowTripAtLevel) && p == level,
            if f.on(SumInDouble) {
                p as f64 > level as f64 + hysteresis as f64
            } else {
                p > level + hysteresis || f.on(LowOffAtEdge) && p == level + hysteresis
            },
        )
    };
    if f.on(BothHoldIsOn) && goes_on {
        return true;
    }
    !goes_off && (goes_on || on)
}

pub fn sample<F: Fault>(f: F, pressure: f32, valid: u8, faults: u32, seconds: u32, values: &mut Values, state: &mut State) {
    let flag = if f.on(ValidOnlyOne) { valid == 1 } else { valid != 0 };
    // minus zero is not negative
    let finite = pressure.is_finite() || f.on(InfinityValid) && pressure == f32::INFINITY;
    let negative = pressure < 0.0 || f.on(MinusZeroNegative) && pressure.is_sign_negative();
    let good = flag && finite && !negative;
    let mut all = 0;
    if good || f.on(InvalidTakesPressure) {
        set32(values, INPUT, pressure.to_bits());
        set32(values, INPUT_1, pressure.to_bits());
        if !f.on(SecondInputForgotten) {
            set32(values, INPUT_2, pressure.to_bits());
        }
    }
    values[VALID] = good as u8;
    for n in 0..4 {
        let was = state[TRIPS + n];
        let on = if good { side(f, values, n, pressure, was != 0) } else { f.on(InvalidKeepsTrips) && was != 0 };
        state[TRIPS + n] = if f.on(TripByteKept) && on && was != 0 { was } else { on as u8 };
        values[TRIP_STATUS[n]] = on as u8;
        all |= (on as u32) << n;
    }
    set32(values, TRIP_ALL, all);
    exception::sample(f, faults, values);
    if !f.on(SecondsOnlyForward) || bits32(values, SECONDS) < seconds {
        set32(values, SECONDS, seconds);
    }
}

pub fn image<F: Fault>(f: F, values: &Values) -> [u8; 10] {
    let bit = |at: usize| if f.on(ImageLentBool) { values[at] & 1 } else { (values[at] != 0) as u8 };
    let mut image = [0; 10];
    image[0] = bit(VALID) | bit(OVERRANGE) << 1 | bit(UNDERRANGE) << 2;
    if f.on(ImageBitsReversed) {
        image[0] = image[0].reverse_bits();
    }
    image[1..5].copy_from_slice(&values[INPUT..INPUT + 4]);
    if f.on(ImageBigEndian) {
        image[1..5].reverse();
    }
    image[5] = if f.on(ImageWithoutSummary) { 0 } else { values[exception::SUMMARY] };
    image[6..10].copy_from_slice(&values[TRIP_ALL..TRIP_ALL + 4]);
    image
}
