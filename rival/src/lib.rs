//! The independent board behind the C signatures of include/gauge.h, as `rival_power_up` and so on: for the benchmark, and to try
//! the C test on.

#[allow(dead_code)]
#[path = "../../tests/src/model/mod.rs"]
mod model;

/// # Safety
/// A pointer and the length of what it points to; no pointer is needed for length 0.
unsafe fn lent<'a>(bytes: *mut u8, len: usize) -> &'a mut [u8] {
    if len == 0 {
        &mut []
    } else {
        std::slice::from_raw_parts_mut(bytes, len)
    }
}

/// # Safety
/// Likewise, of bytes that are only read.
unsafe fn shown<'a>(bytes: *const u8, len: usize) -> &'a [u8] {
    if len == 0 {
        &[]
    } else {
        std::slice::from_raw_parts(bytes, len)
    }
}

/// # Safety
/// As include/gauge.h says.
#[no_mangle]
pub unsafe extern "C" fn rival_power_up(
    form: u32,
    values: *mut u8,
    v: usize,
    block: *const u8,
    b: usize,
    state: *mut u8,
    s: usize,
) -> u32 {
    model::power_up(form, lent(values, v), shown(block, b), lent(state, s))
}

/// # Safety
/// As include/gauge.h says.
#[no_mangle]
pub unsafe extern "C" fn rival_message(
    line: u32,
    message: *const u8,
    m: usize,
    values: *mut u8,
    v: usize,
    block: *mut u8,
    b: usize,
    state: *mut u8,
    s: usize,
    answer: *mut u8,
    a: usize,
) -> u32 {
    model::message(line, shown(message, m), lent(values, v), lent(block, b), lent(state, s), lent(answer, a))
}

/// # Safety
/// As include/gauge.h says.
#[no_mangle]
pub unsafe extern "C" fn rival_mailbox(
    mailbox: *const u8,
    m: usize,
    values: *mut u8,
    v: usize,
    block: *mut u8,
    b: usize,
    state: *mut u8,
    s: usize,
    answer: *mut u8,
    a: usize,
) -> u32 {
    model::mailbox(shown(mailbox, m), lent(values, v), lent(block, b), lent(state, s), lent(answer, a))
}

/// # Safety
/// As include/gauge.h says.
#[no_mangle]
pub unsafe extern "C" fn rival_sample(
    pressure: f32,
    valid: u8,
    faults: u32,
    seconds: u32,
    values: *mut u8,
    v: usize,
    state: *mut u8,
    s: usize,
) -> u32 {
    model::sample(pressure, valid, faults, seconds, lent(values, v), lent(state, s))
}

/// # Safety
/// As include/gauge.h says.
#[no_mangle]
pub unsafe extern "C" fn rival_image(values: *const u8, v: usize, image: *mut u8, i: usize) -> u32 {
    model::image(shown(values, v), lent(image, i))
}
