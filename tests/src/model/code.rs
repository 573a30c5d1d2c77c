//! Abort codes and the numbers that a call gives back.

pub const TOGGLE: u32 = 0x0503_0000;
pub const NO_TRANSFER: u32 = 0x0504_0001;
pub const WRITE_ONLY: u32 = 0x0601_0001;
pub const READ_ONLY: u32 = 0x0601_0002;
pub const NO_INDEX: u32 = 0x0602_0000;
pub const TOO_LONG: u32 = 0x0607_0012;
pub const TOO_SHORT: u32 = 0x0607_0013;
pub const NO_SUBINDEX: u32 = 0x0609_0011;
pub const OUT_OF_RANGE: u32 = 0x0609_0030;
pub const ABOVE: u32 = 0x0609_0031;
pub const BELOW: u32 = 0x0609_0032;
pub const CROSSED: u32 = 0x0609_0036;
pub const LOCKED: u32 = 0x0800_0022;

pub const DONE: u32 = 0;
pub const BAD_MESSAGE: u32 = 1;
pub const SHORT_ROOM: u32 = 2;
pub const BAD_LINE: u32 = 3;
pub const BAD_MEMORY: u32 = 4;
pub const CLIENT_ABORT: u32 = 5;
pub const BAD_MAILBOX: u32 = 6;
pub const NOT_SDO: u32 = 7;
