//! The exported C calls behind safe functions on slices. Every buffer is lent between guard bytes, at changing alignments;
//! the guards, and the buffers that a call may not write, are looked at after every call.

use crate::board::Board;

extern "C" {
    fn gauge_power_up(
        form: u32,
        values: *mut u8,
        values_len: usize,
        block: *const u8,
        block_len: usize,
        state: *mut u8,
        state_len: usize,
    ) -> u32;

    fn gauge_message(
        line: u32,
        message: *const u8,
        message_len: usize,
        values: *mut u8,
        values_len: usize,
        block: *mut u8,
        block_len: usize,
        state: *mut u8,
        state_len: usize,
        answer: *mut u8,
        answer_len: usize,
    ) -> u32;

    fn gauge_mailbox(
        mailbox: *const u8,
        mailbox_len: usize,
        values: *mut u8,
        values_len: usize,
        block: *mut u8,
        block_len: usize,
        state: *mut u8,
        state_len: usize,
        answer: *mut u8,
        answer_len: usize,
    ) -> u32;

    fn gauge_sample(
        pressure: f32,
        valid: u8,
        faults: u32,
        seconds: u32,
        values: *mut u8,
        values_len: usize,
        state: *mut u8,
        state_len: usize,
    ) -> u32;

    fn gauge_image(values: *const u8, values_len: usize, image: *mut u8, image_len: usize) -> u32;
}

/// The five calls with nothing round them, for measurements.
pub mod bare {
    pub fn power_up(form: u32, values: &mut [u8], block: &[u8], state: &mut [u8]) -> u32 {
        let (v, s) = (values.len(), state.len());
        // SAFETY: each pointer comes with its slice's length, and the slices do not overlap
        unsafe { super::gauge_power_up(form, values.as_mut_ptr(), v, block.as_ptr(), block.len(), state.as_mut_ptr(), s) }
    }

    pub fn message(line: u32, message: &[u8], values: &mut [u8], block: &mut [u8], state: &mut [u8], answer: &mut [u8]) -> u32 {
        let (v, b, s, a) = (values.len(), block.len(), state.len(), answer.len());
        // SAFETY: each pointer comes with its slice's length, and the slices do not overlap
        unsafe {
            super::gauge_message(
                line,
                message.as_ptr(),
                message.len(),
                values.as_mut_ptr(),
                v,
                block.as_mut_ptr(),
                b,
                state.as_mut_ptr(),
                s,
                answer.as_mut_ptr(),
                a,
            )
        }
    }

    pub fn mailbox(mailbox: &[u8], values: &mut [u8], block: &mut [u8], state: &mut [u8], answer: &mut [u8]) -> u32 {
        let (v, b, s, a) = (values.len(), block.len(), state.len(), answer.len());
        // SAFETY: each pointer comes with its slice's length, and the slices do not overlap
        unsafe {
            super::gauge_mailbox(
                mailbox.as_ptr(),
                mailbox.len(),
                values.as_mut_ptr(),
                v,
                block.as_mut_ptr(),
                b,
                state.as_mut_ptr(),
                s,
                answer.as_mut_ptr(),
                a,
            )
        }
    }

    pub fn sample(pressure: f32, valid: u8, faults: u32, seconds: u32, values: &mut [u8], state: &mut [u8]) -> u32 {
        let (v, s) = (values.len(), state.len());
        // SAFETY: each pointer comes with its slice's length, and the slices do not overlap
        unsafe { super::gauge_sample(pressure, valid, faults, seconds, values.as_mut_ptr(), v, state.as_mut_ptr(), s) }
    }

    pub fn image(values: &[u8], image: &mut [u8]) -> u32 {
        let i = image.len();
        // SAFETY: each pointer comes with its slice's length, and the slices do not overlap
        unsafe { super::gauge_image(values.as_ptr(), values.len(), image.as_mut_ptr(), i) }
    }
}

const GUARD: usize = 64;

/// One buffer between guards.
struct Lent {
    bytes: Vec<u8>,
    at: usize,
    len: usize,
}

fn guard(i: usize) -> u8 {
    0x5A ^ (i as u8).wrapping_mul(29)
}

impl Lent {
    fn new() -> Lent {
        Lent { bytes: Vec::new(), at: 0, len: 0 }
    }

    /// Lays a slice between guards, `shift` bytes further on.
    fn lay(&mut self, from: &[u8], shift: usize) {
        self.at = GUARD + shift;
        self.len = from.len();
        let size = self.at + self.len + GUARD;
        if self.bytes.len() < size {
            self.bytes.resize(size, 0);
        }
        for i in 0..self.at {
            self.bytes[i] = guard(i);
        }
        self.bytes[self.at..self.at + self.len].copy_from_slice(from);
        for i in 0..GUARD {
            self.bytes[self.at + self.len + i] = guard(i);
        }
    }

    fn check(&self, name: &str) {
        for i in 0..self.at {
            assert!(self.bytes[i] == guard(i), "a call wrote {} bytes before {name}", self.at - i);
        }
        for i in 0..GUARD {
            assert!(self.bytes[self.at + self.len + i] == guard(i), "a call wrote {i} bytes behind {name}");
        }
    }

    fn slice(&mut self) -> &mut [u8] {
        &mut self.bytes[self.at..self.at + self.len]
    }

    /// Takes what the call wrote.
    fn take(&mut self, to: &mut [u8], name: &str) {
        self.check(name);
        to.copy_from_slice(self.slice());
    }

    /// Looks that the call wrote nothing.
    fn same(&mut self, as_lent: &[u8], name: &str) {
        self.check(name);
        assert!(self.slice() == as_lent, "a call wrote into {name}, which is lent for reading");
    }
}

/// The exported calls.
pub struct Exported {
    buffers: [Lent; 5],
    calls: usize,
}

impl Exported {
    pub fn new() -> Exported {
        Exported { buffers: std::array::from_fn(|_| Lent::new()), calls: 0 }
    }

    fn shift(&mut self) -> usize {
        self.calls += 1;
        self.calls % 8
    }
}

impl Default for Exported {
    fn default() -> Exported {
        Exported::new()
    }
}

impl Board for Exported {
    fn power_up(&mut self, form: u32, values: &mut [u8], block: &[u8], state: &mut [u8]) -> u32 {
        let shift = self.shift();
        let [v, b, s, ..] = &mut self.buffers;
        v.lay(values, shift);
        b.lay(block, shift);
        s.lay(state, shift);
        let number = bare::power_up(form, v.slice(), b.slice(), s.slice());
        v.take(values, "values");
        b.same(block, "block");
        s.take(state, "state");
        number
    }

    fn message(
        &mut self,
        line: u32,
        message: &[u8],
        values: &mut [u8],
        block: &mut [u8],
        state: &mut [u8],
        answer: &mut [u8],
    ) -> u32 {
        let shift = self.shift();
        let [v, b, s, m, a] = &mut self.buffers;
        m.lay(message, shift);
        v.lay(values, shift);
        b.lay(block, shift);
        s.lay(state, shift);
        a.lay(answer, shift);
        let number = bare::message(line, m.slice(), v.slice(), b.slice(), s.slice(), a.slice());
        m.same(message, "message");
        v.take(values, "values");
        b.take(block, "block");
        s.take(state, "state");
        a.take(answer, "answer");
        number
    }

    fn mailbox(&mut self, mailbox: &[u8], values: &mut [u8], block: &mut [u8], state: &mut [u8], answer: &mut [u8]) -> u32 {
        let shift = self.shift();
        let [v, b, s, m, a] = &mut self.buffers;
        m.lay(mailbox, shift);
        v.lay(values, shift);
        b.lay(block, shift);
        s.lay(state, shift);
        a.lay(answer, shift);
        let number = bare::mailbox(m.slice(), v.slice(), b.slice(), s.slice(), a.slice());
        m.same(mailbox, "mailbox");
        v.take(values, "values");
        b.take(block, "block");
        s.take(state, "state");
        a.take(answer, "answer");
        number
    }

    fn sample(&mut self, pressure: f32, valid: u8, faults: u32, seconds: u32, values: &mut [u8], state: &mut [u8]) -> u32 {
        let shift = self.shift();
        let [v, s, ..] = &mut self.buffers;
        v.lay(values, shift);
        s.lay(state, shift);
        let number = bare::sample(pressure, valid, faults, seconds, v.slice(), s.slice());
        v.take(values, "values");
        s.take(state, "state");
        number
    }

    fn image(&mut self, values: &[u8], image: &mut [u8]) -> u32 {
        let shift = self.shift();
        let [v, i, ..] = &mut self.buffers;
        v.lay(values, shift);
        i.lay(image, shift);
        let number = bare::image(v.slice(), i.slice());
        v.same(values, "values");
        i.take(image, "image");
        number
    }
}

#[cfg(test)]
mod tests {
    use super::*;

    fn lent() -> Lent {
        let mut lent = Lent::new();
        lent.lay(&[1, 2, 3], 5);
        lent
    }

    #[test]
    fn guards_that_hold() {
        let mut lent = lent();
        lent.slice()[2] = 9;
        let mut to = [0; 3];
        lent.take(&mut to, "values");
        assert_eq!(to, [1, 2, 9]);
    }

    #[test]
    #[should_panic(expected = "1 bytes before values")]
    fn a_byte_before() {
        let mut lent = lent();
        let at = lent.at;
        lent.bytes[at - 1] ^= 1;
        lent.take(&mut [0; 3], "values");
    }

    #[test]
    #[should_panic(expected = "0 bytes behind values")]
    fn a_byte_behind() {
        let mut lent = lent();
        let end = lent.at + lent.len;
        lent.bytes[end] ^= 1;
        lent.take(&mut [0; 3], "values");
    }

    #[test]
    #[should_panic(expected = "lent for reading")]
    fn a_byte_of_what_is_lent_for_reading() {
        let mut lent = lent();
        lent.slice()[0] = 0;
        lent.same(&[1, 2, 3], "message");
    }
}
