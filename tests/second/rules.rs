//! What both sides of the bench share: answer numbers, capabilities, the rule of last blocks, page size, classes and statuses.
//! Written from document 01, sections "Command words", "Header bytes", "Answer numbers", and document 02, Q-10 and Q-12, for the last two of them.

pub const SUCCESS: u8 = 0;
pub const INVALID_FIELD: u8 = 1;
pub const INVALID_LOG_PAGE: u8 = 2;
pub const SHORT_BUFFER: u8 = 3;
pub const DISAGREE: u8 = 4;
pub const BROKEN_CANDIDATE: u8 = 5;
pub const NO_AREA_4: u8 = 6;
pub const BAD_HEADER: u8 = 7;
pub const NO_ROOM: u8 = 8;
pub const ATTEMPTS_USED_UP: u8 = 9;
pub const WITHDRAWN: u8 = 10;
pub const NOTHING: u8 = 11;
pub const BROKE_ITS_WORD: u8 = 12;
pub const BAD_SETUP: u8 = 13;
pub const ALREADY_ENDED: u8 = 14;
pub const DOES_NOT_FIT: u8 = 15;
pub const OUT_OF_REACH: u8 = 19;
pub const TOTAL_FULL: u8 = 20;

pub const HOST_PAGE: u8 = 0x07;
pub const CONTROLLER_PAGE: u8 = 0x08;

/// Bytes of a block, and of a header.
pub const BLOCK: usize = 512;
/// Bytes of a reason.
pub const REASON: usize = 128;
/// The greatest last block of area 3: its field has two bytes.
pub const AREA_3_LIMIT: u32 = 65_535;
/// The greatest last block of area 4 (house limit).
pub const AREA_4_LIMIT: u32 = 1_048_576;

/// Last blocks of areas 1 to 4.
pub type LastBlocks = [u32; 4];
/// CDW10 to CDW14.
pub type Words = [u32; 5];

#[derive(Clone, Copy, Debug, Default, PartialEq, Eq)]
pub struct Capabilities {
    /// LPA bit 2
    pub extended: bool,
    /// LPA bit 3
    pub telemetry: bool,
    /// LPA bit 6
    pub da4s: bool,
    /// the host's yes to area 4
    pub etdas: bool,
    /// MCDA is honoured
    pub mcdas: bool,
}

impl Capabilities {
    /// Area 4 is in use only where both sides have said yes to it.
    pub fn area_4(&self) -> bool {
        self.da4s && self.etdas
    }
}

/// Bytes that so many blocks take. 64 bits: four bytes of blocks are more than 32 bits of bytes.
pub fn bytes_of(blocks: u32) -> u64 {
    512 * blocks as u64
}

/// Whether last blocks keep the rules: a1 <= a2 <= a3 <= 65,535, and a4 >= a3 if DA4S is 1, a4 = 0 if not; a4 > 0 asks for a3 > 0;
/// area 4 ends at block 1,048,576 at most.
pub fn last_blocks_keep_rules(last: LastBlocks, da4s: bool) -> bool {
    let [a1, a2, a3, a4] = last;
    let nested = a1 <= a2 && a2 <= a3 && a3 <= AREA_3_LIMIT;
    let fourth = if da4s { a4 >= a3 } else { a4 == 0 };
    let fourth_needs_third = a4 == 0 || a3 > 0;
    nested && fourth && fourth_needs_third && a4 <= AREA_4_LIMIT
}

/// Blocks after the header that belong to a page with these last blocks.
pub fn page_blocks(capabilities: Capabilities, last: LastBlocks) -> u32 {
    if capabilities.area_4() {
        last[3]
    } else {
        last[2]
    }
}

/// Bytes of a page, header included.
pub fn page_size(capabilities: Capabilities, last: LastBlocks) -> u64 {
    512 * (1 + page_blocks(capabilities, last) as u64)
}

#[derive(Clone, Copy, Debug, PartialEq, Eq)]
pub enum Class {
    Named,
    Elsewhere,
    Vendor,
    Reserved,
}

/// The class of a page identifier, as document 01 lists the ranges of document 004.
pub fn class_of(identifier: u8) -> Class {
    match identifier {
        0x00..=0x0D | 0x0F..=0x18 | 0x1A..=0x23 | 0x25 | 0x70..=0x73 | 0x7F..=0x81 => Class::Named,
        0x0E | 0x19 | 0x82..=0xBF => Class::Elsewhere,
        0xC0..=0xFF => Class::Vendor,
        _ => Class::Reserved,
    }
}

/// The NVMe status of an answer, (type, code). Answers from 3 on refuse the call itself and have none.
pub fn status_of(answer: u8) -> Option<(u8, u8)> {
    match answer {
        SUCCESS => Some((0x0, 0x00)),
        INVALID_FIELD => Some((0x0, 0x02)),
        INVALID_LOG_PAGE => Some((0x1, 0x09)),
        _ => None,
    }
}
