//! The independent board as a `Board`.

use crate::board::Board;
use crate::model::fault::Fault;
use crate::model::{image_with, mailbox_with, message_with, power_up_with, sample_with};

/// The independent board, sound or with one fault, as a `Board`.
#[derive(Clone, Copy)]
pub struct Model<F: Fault>(pub F);

impl<F: Fault> Board for Model<F> {
    fn power_up(&mut self, form: u32, values: &mut [u8], block: &[u8], state: &mut [u8]) -> u32 {
        power_up_with(self.0, form, values, block, state)
    }

    fn message(
        &mut self,
        line: u32,
        message: &[u8],
        values: &mut [u8],
        block: &mut [u8],
        state: &mut [u8],
        answer: &mut [u8],
    ) -> u32 {
        message_with(self.0, line, message, values, block, state, answer)
    }

    fn mailbox(&mut self, mailbox: &[u8], values: &mut [u8], block: &mut [u8], state: &mut [u8], answer: &mut [u8]) -> u32 {
        mailbox_with(self.0, mailbox, values, block, state, answer)
    }

    fn sample(&mut self, pressure: f32, valid: u8, faults: u32, seconds: u32, values: &mut [u8], state: &mut [u8]) -> u32 {
        sample_with(self.0, pressure, valid, faults, seconds, values, state)
    }

    fn image(&mut self, values: &[u8], image: &mut [u8]) -> u32 {
        image_with(self.0, values, image)
    }
}
