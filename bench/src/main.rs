//! Writes the calls that are measured to standard output, for bench/driver.c: a list of kinds, each with its memory and its calls.

mod kinds;

use kinds::Call;
use std::io::{BufWriter, Write};

fn main() -> std::io::Result<()> {
    let kinds = kinds::kinds();
    let mut out = BufWriter::new(std::io::stdout().lock());
    out.write_all(&(kinds.len() as u32).to_le_bytes())?;
    for kind in &kinds {
        let mut name = format!("{}|{}", kind.family, kind.name).into_bytes();
        name.resize(64, 0);
        out.write_all(&name)?;
        out.write_all(&(kind.repeats as u32).to_le_bytes())?;
        out.write_all(&(kind.calls.len() as u32).to_le_bytes())?;
        out.write_all(&kind.memory.values)?;
        out.write_all(&kind.memory.block)?;
        out.write_all(&kind.memory.state)?;
        for call in &kind.calls {
            let mut bytes = [0; 128];
            let (number, words) = match *call {
                Call::PowerUp(form) => (0, [form, 0, 0, 0]),
                Call::Message(line, message) => {
                    bytes[..8].copy_from_slice(&message);
                    (1, [line, 0, 0, 0])
                }
                Call::Sample(pressure, valid, faults, seconds) => (2, [pressure.to_bits(), valid as u32, faults, seconds]),
                Call::Image => (3, [0; 4]),
                Call::Mailbox(mailbox) => {
                    bytes = mailbox;
                    (4, [0; 4])
                }
            };
            out.write_all(&u32::to_le_bytes(number))?;
            for word in words {
                out.write_all(&word.to_le_bytes())?;
            }
            out.write_all(&bytes)?;
        }
    }
    out.flush()
}
