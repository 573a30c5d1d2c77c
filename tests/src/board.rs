//! The five calls on slices, and a board with its memory.

pub trait Board {
    fn power_up(&mut self, form: u32, values: &mut [u8], block: &[u8], state: &mut [u8]) -> u32;

    fn message(
        &mut self,
        line: u32,
        message: &[u8],
        values: &mut [u8],
        block: &mut [u8],
        state: &mut [u8],
        answer: &mut [u8],
    ) -> u32;

    fn mailbox(&mut self, mailbox: &[u8], values: &mut [u8], block: &mut [u8], state: &mut [u8], answer: &mut [u8]) -> u32;

    fn sample(&mut self, pressure: f32, valid: u8, faults: u32, seconds: u32, values: &mut [u8], state: &mut [u8]) -> u32;

    fn image(&mut self, values: &[u8], image: &mut [u8]) -> u32;
}

/// What is lent to a board.
#[derive(Clone, PartialEq, Eq)]
pub struct Memory {
    pub values: Vec<u8>,
    pub block: Vec<u8>,
    pub state: Vec<u8>,
}

impl Memory {
    pub fn zero() -> Memory {
        Memory { values: vec![0; 1024], block: vec![0; 512], state: vec![0; 256] }
    }
}

/// The forms of line 0.
pub const EIGHT: u32 = 0;
pub const MAILBOX: u32 = 1;

/// The address that mailboxes have, 1001h, as it stands in them.
pub const ADDRESS: [u8; 2] = 0x1001u16.to_le_bytes();

/// A mailbox with an SDO request of at least eight bytes: counter 1, zeros behind it.
pub fn mailbox_with(sdo: &[u8]) -> [u8; 128] {
    let mut mailbox = [0; 128];
    mailbox[..8].copy_from_slice(&[2 + sdo.len() as u8, 0, ADDRESS[0], ADDRESS[1], 0, 0x13, 0, 0x20]);
    mailbox[8..8 + sdo.len()].copy_from_slice(sdo);
    mailbox
}

/// A board with its memory, for dialogues that are written out.
pub struct Desk<B: Board> {
    pub board: B,
    pub memory: Memory,
    form: u32,
}

impl<B: Board> Desk<B> {
    /// Powered up on a zero block; both lines speak in eight bytes.
    pub fn new(board: B) -> Desk<B> {
        Desk::in_form(EIGHT, board)
    }

    /// Powered up on a zero block; line 0 speaks in the form.
    pub fn in_form(form: u32, board: B) -> Desk<B> {
        let mut desk = Desk { board, memory: Memory::zero(), form };
        assert_eq!(desk.power_up(), 0);
        desk
    }

    pub fn power_up(&mut self) -> u32 {
        let m = &mut self.memory;
        self.board.power_up(self.form, &mut m.values, &m.block, &mut m.state)
    }

    /// A message and its answer; `None` is the client's abort.
    pub fn say(&mut self, line: u32, message: [u8; 8]) -> Option<[u8; 8]> {
        let m = &mut self.memory;
        let mut answer = [0xA5; 8];
        match self.board.message(line, &message, &mut m.values, &mut m.block, &mut m.state, &mut answer) {
            0 => Some(answer),
            5 => {
                assert_eq!(answer, [0xA5; 8], "the client's abort leaves the room untouched");
                None
            }
            n => panic!("number {n} for a message that is not refused"),
        }
    }

    /// An SDO request by mailbox on line 0 and the SDO of its answer; `None` is the client's abort.
    pub fn post(&mut self, sdo: &[u8]) -> Option<Vec<u8>> {
        let m = &mut self.memory;
        let mut answer = [0xA5; 128];
        match self.board.mailbox(&mailbox_with(sdo), &mut m.values, &mut m.block, &mut m.state, &mut answer) {
            0 => {
                let end = 6 + answer[0] as usize;
                let service = if answer[8] == 0x80 { 0x20 } else { 0x30 };
                let headers = [0, ADDRESS[0], ADDRESS[1], 0, 0x13, 0, service];
                assert_eq!(answer[1..8], headers, "headers of {}", hex(&answer));
                assert!(answer[end..].iter().all(|&byte| byte == 0), "zeros behind {}", hex(&answer));
                Some(answer[8..end].to_vec())
            }
            5 => {
                assert_eq!(answer, [0xA5; 128], "the client's abort leaves the room untouched");
                None
            }
            n => panic!("number {n} for a mailbox that is not refused"),
        }
    }

    /// A whole read by one mailbox: its bytes or the code.
    pub fn read_by_mailbox(&mut self, index: u16, sub: u8) -> Result<Vec<u8>, u32> {
        let [low, high] = index.to_le_bytes();
        let answer = self.post(&[0x40, low, high, sub, 0, 0, 0, 0]).unwrap();
        match answer[0] {
            0x80 => Err(code_of(&answer)),
            0x41 => {
                assert_eq!(code_of(&answer) as usize, answer.len() - 8, "the answer carries all");
                Ok(answer[8..].to_vec())
            }
            first => Ok(answer[4..8 - (first >> 2 & 3) as usize].to_vec()),
        }
    }

    /// A whole write by one mailbox.
    pub fn write_by_mailbox(&mut self, index: u16, sub: u8, bytes: &[u8]) -> Result<(), u32> {
        let [low, high] = index.to_le_bytes();
        let mut sdo = vec![0x21, low, high, sub, bytes.len() as u8, 0, 0, 0];
        sdo.extend(bytes);
        let answer = self.post(&sdo).unwrap();
        if answer[0] == 0x80 {
            return Err(code_of(&answer));
        }
        assert_eq!(answer, [0x60, low, high, sub, 0, 0, 0, 0]);
        Ok(())
    }

    /// A message written in hex, with zeros behind it, and its answer in hex.
    pub fn hex(&mut self, line: u32, message: &str) -> String {
        let mut bytes = [0; 8];
        for (byte, digits) in bytes.iter_mut().zip(message.split_whitespace()) {
            *byte = u8::from_str_radix(digits, 16).unwrap();
        }
        match self.say(line, bytes) {
            Some(answer) => hex(&answer),
            None => "-".to_string(),
        }
    }

    pub fn sample(&mut self, pressure: f32, valid: u8, faults: u32, seconds: u32) {
        let m = &mut self.memory;
        assert_eq!(self.board.sample(pressure, valid, faults, seconds, &mut m.values, &mut m.state), 0);
    }

    pub fn image(&mut self) -> [u8; 10] {
        let mut image = [0; 10];
        assert_eq!(self.board.image(&self.memory.values, &mut image), 0);
        image
    }

    /// A whole read: its bytes or the code.
    pub fn read(&mut self, line: u32, index: u16, sub: u8) -> Result<Vec<u8>, u32> {
        let [low, high] = index.to_le_bytes();
        let first = self.say(line, [0x40, low, high, sub, 0, 0, 0, 0]).unwrap();
        if first[0] == 0x80 {
            return Err(code(&first));
        }
        if first[0] & 2 != 0 {
            return Ok(first[4..8 - (first[0] >> 2 & 3) as usize].to_vec());
        }
        let mut bytes = Vec::new();
        for part in 0.. {
            let answer = self.say(line, [0x60 | (part % 2) << 4, 0, 0, 0, 0, 0, 0, 0]).unwrap();
            if answer[0] == 0x80 {
                return Err(code(&answer));
            }
            bytes.extend(&answer[1..8 - (answer[0] >> 1 & 7) as usize]);
            if answer[0] & 1 != 0 {
                break;
            }
        }
        Ok(bytes)
    }

    /// A whole write, expedited up to four bytes and else in parts of seven.
    pub fn write(&mut self, line: u32, index: u16, sub: u8, bytes: &[u8]) -> Result<(), u32> {
        let [low, high] = index.to_le_bytes();
        let mut first = [0x21, low, high, sub, 0, 0, 0, 0];
        if bytes.len() <= 4 {
            first[0] = 0x23 | (4 - bytes.len() as u8) << 2;
            first[4..4 + bytes.len()].copy_from_slice(bytes);
        } else {
            first[4] = bytes.len() as u8;
        }
        let answer = self.say(line, first).unwrap();
        if answer[0] == 0x80 {
            return Err(code(&answer));
        }
        if bytes.len() <= 4 {
            return Ok(());
        }
        let count = bytes.chunks(7).len();
        for (n, chunk) in bytes.chunks(7).enumerate() {
            let mut part = [0; 8];
            part[0] = (n as u8 % 2) << 4 | (7 - chunk.len() as u8) << 1 | (n + 1 == count) as u8;
            part[1..1 + chunk.len()].copy_from_slice(chunk);
            let answer = self.say(line, part).unwrap();
            if answer[0] == 0x80 {
                return Err(code(&answer));
            }
        }
        Ok(())
    }
}

/// The code of an abort answer.
pub fn code(answer: &[u8; 8]) -> u32 {
    u32::from_le_bytes([answer[4], answer[5], answer[6], answer[7]])
}

/// Bytes 4 to 7 of an SDO: the code of an abort answer, or a length.
fn code_of(sdo: &[u8]) -> u32 {
    code(sdo.first_chunk().unwrap())
}

/// Bytes in capital hex, with blanks.
pub fn hex(bytes: &[u8]) -> String {
    bytes.iter().map(|b| format!("{b:02X}")).collect::<Vec<_>>().join(" ")
}
