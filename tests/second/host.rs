//! The host side: header check, plan, command builder and the collection.
//! Written from document 01, section "Host: header check and collection", and document 02, Q-1, Q-2, Q-4, Q-10 and Q-14.

use crate::rules::*;

/// The greatest number of blocks in a command.
pub const CHUNK_LIMIT: u32 = 8_192;
pub const ATTEMPTS_LIMIT: u32 = 65_535;
/// Dwords that a drive without extended data sends at most.
const OLD_DWORDS: u32 = 4_096;
/// The last block that one command from offset 0 reaches on such a drive: of its blocks, 128 dwords each, the header is one.
const OLD_REACH: u32 = OLD_DWORDS / 128 - 1;
/// The greatest number of bytes of a copy.
pub const ROOM_LIMIT: u64 = 536_870_912;

#[derive(Clone, Debug, PartialEq, Eq)]
pub struct Fields {
    pub page: u8,
    pub oui: u32,
    pub last: LastBlocks,
    pub scope: u8,
    /// 0 on 08h, whose header has none
    pub host_generation: u8,
    pub available: u8,
    pub controller_generation: u8,
    pub reason: [u8; REASON],
}

/// What is at fault in a bad header (answer 7): the first of these, in this order.
#[derive(Clone, Copy, Debug, PartialEq, Eq)]
pub enum Fault {
    Length,
    Identifier,
    /// the last block of area 2, 3 or 4
    Area2,
    Area3,
    Area4,
    Scope,
    /// TCDA
    Available,
    /// data is available on 08h, and area 3 has no block
    Empty,
}

/// The byte of a page's header at which what is at fault starts. The length has none and gives 0; available but empty gives area 3's.
pub fn starts_at(fault: Fault, page: u8) -> u16 {
    match fault {
        Fault::Length | Fault::Identifier => 0,
        Fault::Area2 => 10,
        Fault::Area3 | Fault::Empty => 12,
        Fault::Area4 => 16,
        Fault::Scope if page == HOST_PAGE => 380,
        Fault::Scope => 381,
        Fault::Available => 382,
    }
}

/// Whether the last block of area 4 breaks its rule towards area 3's, or its limit.
fn area_4_is_at_fault(a3: u32, a4: u32, da4s: bool) -> bool {
    if !da4s {
        return a4 != 0;
    }
    a4 < a3 || a4 > AREA_4_LIMIT || (a4 > 0 && a3 == 0)
}

/// Where a page's own generation stands in its header.
fn generation_byte(page: u8) -> usize {
    if page == HOST_PAGE {
        381
    } else {
        383
    }
}

fn little_endian(bytes: &[u8]) -> u32 {
    bytes.iter().rev().fold(0, |number, byte| number * 256 + *byte as u32)
}

/// What a header says, or what is at fault in it. Area 1's last block has none before it, and no number of two bytes is over the limit of areas
/// 1 to 3. Reserved bytes are not looked at.
pub fn check_header(page: u8, da4s: bool, header: &[u8]) -> Result<Fields, Fault> {
    if header.len() != BLOCK {
        return Err(Fault::Length);
    }
    if !(page == HOST_PAGE || page == CONTROLLER_PAGE) || header[0] != page {
        return Err(Fault::Identifier);
    }
    let last = [
        little_endian(&header[8..10]),
        little_endian(&header[10..12]),
        little_endian(&header[12..14]),
        little_endian(&header[16..20]),
    ];
    let (scope, host_generation) = if page == HOST_PAGE { (header[380], header[381]) } else { (header[381], 0) };
    let available = header[382];
    let [a1, a2, a3, a4] = last;
    if a2 < a1 {
        return Err(Fault::Area2);
    }
    if a3 < a2 {
        return Err(Fault::Area3);
    }
    if area_4_is_at_fault(a3, a4, da4s) {
        return Err(Fault::Area4);
    }
    if scope > 2 {
        return Err(Fault::Scope);
    }
    if available > 1 {
        return Err(Fault::Available);
    }
    if page == CONTROLLER_PAGE && available == 1 && a3 == 0 {
        return Err(Fault::Empty);
    }
    let mut reason = [0; REASON];
    reason.copy_from_slice(&header[384..512]);
    Ok(Fields {
        page,
        oui: little_endian(&header[5..8]),
        last,
        scope,
        host_generation,
        available,
        controller_generation: header[383],
        reason,
    })
}

/// The five words of a Get Log Page, or nothing where the arguments are bad (answer 13). Offset and length are in blocks, the header
/// being block 0.
pub fn build_words(page: u8, create: bool, mcda: u8, retain: bool, offset: u32, blocks: u32) -> Option<Words> {
    if !(page == HOST_PAGE || page == CONTROLLER_PAGE)
        || (create && page == CONTROLLER_PAGE)
        || mcda > 4
        || (mcda != 0 && !create)
        || blocks == 0
        || blocks > CHUNK_LIMIT
        || offset > AREA_4_LIMIT
    {
        return None;
    }
    // 128 dwords a block, and the count is zero-based.
    let count = 128 * blocks - 1;
    let cdw10 =
        page as u32 | (create as u32) << 8 | (mcda as u32) << 9 | (retain as u32) << 15 | (count & 0xFFFF) << 16;
    Some([cdw10, count >> 16, 512 * offset, 0, 0])
}

/// What setup takes.
#[derive(Clone, Debug, PartialEq, Eq)]
pub struct Plan {
    pub page: u8,
    pub create: bool,
    /// the wanted area, w
    pub area: u8,
    pub capabilities: Capabilities,
    /// blocks a command, c; 0 in an old run
    pub chunk: u32,
    pub attempts: u32,
    /// bytes of the copy
    pub room: u64,
}

/// Which command's completion a collection awaits.
#[derive(Clone, Copy, Debug, PartialEq, Eq)]
pub enum Awaited {
    FirstHeader,
    /// of the chunk that starts at this block
    Chunk(u32),
    /// in an old run, of the middle command, which reads header and blocks together
    HeaderAndBlocks,
    ClosingHeader,
    /// the header that follows a refused chunk or middle command
    HeaderAfterRefusal,
    Acknowledgement,
    Nothing,
}

#[derive(Clone, Debug, PartialEq, Eq)]
pub struct Collection {
    pub plan: Plan,
    pub awaited: Awaited,
    /// this attempt, from 1
    pub attempt: u32,
    /// commands sent
    pub count: u64,
    /// generation and last blocks of the attempt's header
    pub generation: u8,
    pub last: LastBlocks,
}

/// What follows a setup or a step.
#[derive(Clone, Debug, PartialEq, Eq)]
pub enum Outcome {
    Send(Words),
    Ended {
        answer: u8,
        newer: bool,
        /// with 7, what is at fault in the header
        fault: Option<Fault>,
        count: u64,
    },
    /// 13, 14, 15, and 6 of a setup: nothing has changed
    Refused(u8),
}

impl Plan {
    /// A run from a drive without extended data is one of its own.
    fn is_old(&self) -> bool {
        !self.capabilities.extended
    }

    /// An old run takes no c, which is then 0.
    fn chunk_is_good(&self) -> bool {
        if self.is_old() {
            self.chunk == 0
        } else {
            1 <= self.chunk && self.chunk <= CHUNK_LIMIT
        }
    }

    /// What speaks against an area of so many blocks: 19, where no command of an old run reaches its end; then 8, no room.
    fn area_refusal(&self, wanted: u32) -> Option<u8> {
        if self.is_old() && wanted > OLD_REACH {
            return Some(OUT_OF_REACH);
        }
        if bytes_of(wanted) > self.room {
            return Some(NO_ROOM);
        }
        None
    }

    /// Setup's limits: 13, then 6.
    fn refusal(&self) -> Option<u8> {
        let good = (self.page == HOST_PAGE || self.page == CONTROLLER_PAGE)
            && !(self.create && self.page == CONTROLLER_PAGE)
            && (1..=4).contains(&self.area)
            && self.chunk_is_good()
            && (1..=ATTEMPTS_LIMIT).contains(&self.attempts)
            && self.room <= ROOM_LIMIT
            && self.room % 512 == 0
            && self.capabilities.telemetry;
        if !good {
            return Some(BAD_SETUP);
        }
        if self.area == 4 && !self.capabilities.area_4() {
            return Some(NO_AREA_4);
        }
        None
    }
}

/// What a plan gives: what the header says, and the length of the chunk list.
#[derive(Clone, Debug, PartialEq, Eq)]
pub struct Planned {
    pub fields: Fields,
    pub chunks: u32,
}

/// The header check and the first plan in one. Refusals: 13 and 6 by setup's limits, of which those of create and attempts do not apply, since
/// neither is asked for; then, as at a first header, 7 with what is at fault, 11, 19, 8.
pub fn plan_from_header(
    page: u8,
    header: &[u8],
    capabilities: Capabilities,
    area: u8,
    chunk: u32,
    room: u64,
) -> Result<Planned, (u8, Option<Fault>)> {
    let plan = Plan { page, create: false, area, capabilities, chunk, attempts: 1, room };
    if let Some(answer) = plan.refusal() {
        return Err((answer, None));
    }
    let fields = check_header(page, capabilities.da4s, header).map_err(|fault| (BAD_HEADER, Some(fault)))?;
    if page == CONTROLLER_PAGE && fields.available == 0 {
        return Err((NOTHING, None));
    }
    let wanted = fields.last[area as usize - 1];
    if let Some(answer) = plan.area_refusal(wanted) {
        return Err((answer, None));
    }
    if plan.is_old() {
        // The middle command, which an area without blocks does not need.
        return Ok(Planned { fields, chunks: if wanted == 0 { 0 } else { 1 } });
    }
    // The blocks that stand before each chunk.
    let chunk_list = (0..wanted).step_by(chunk as usize);
    Ok(Planned { fields, chunks: chunk_list.len() as u32 })
}

/// Begins a collection. A refused setup gives an ended one that has sent nothing.
pub fn setup(plan: Plan) -> (Collection, Outcome) {
    let refusal = plan.refusal();
    let mut collection =
        Collection { plan, awaited: Awaited::Nothing, attempt: 1, count: 0, generation: 0, last: [0; 4] };
    if let Some(answer) = refusal {
        return (collection, Outcome::Refused(answer));
    }
    let outcome = collection.send(Awaited::FirstHeader);
    (collection, outcome)
}

impl Collection {
    /// B, the last block of the wanted area in the attempt's header.
    fn wanted_blocks(&self) -> u32 {
        self.last[self.plan.area as usize - 1]
    }

    /// Blocks of the chunk that starts at block `at`: c, or fewer where the area ends before.
    fn chunk_blocks(&self, at: u32) -> u32 {
        self.plan.chunk.min(self.wanted_blocks() - at + 1)
    }

    /// The words of the awaited command.
    fn words(&self) -> Words {
        let page = self.plan.page;
        let words = match self.awaited {
            Awaited::FirstHeader => {
                let mcda = if self.plan.create && self.plan.capabilities.mcdas { self.plan.area } else { 0 };
                build_words(page, self.plan.create, mcda, true, 0, 1)
            }
            Awaited::Chunk(at) => build_words(page, false, 0, true, at, self.chunk_blocks(at)),
            Awaited::HeaderAndBlocks => build_words(page, false, 0, true, 0, 1 + self.wanted_blocks()),
            Awaited::ClosingHeader | Awaited::HeaderAfterRefusal => build_words(page, false, 0, true, 0, 1),
            Awaited::Acknowledgement => build_words(page, false, 0, false, 0, 1),
            Awaited::Nothing => Some([0; 5]),
        };
        words.expect("a state that is not 13 awaits a command that can be built")
    }

    fn send(&mut self, awaited: Awaited) -> Outcome {
        self.awaited = awaited;
        self.count += 1;
        Outcome::Send(self.words())
    }

    /// Ends: success keeps the wanted area and zeroes what is after it, any other ending zeroes the whole copy.
    fn end(&mut self, answer: u8, newer: bool, copy: &mut [u8]) -> Outcome {
        let kept = if answer == SUCCESS { bytes_of(self.wanted_blocks()) as usize } else { 0 };
        copy[kept..].fill(0);
        self.awaited = Awaited::Nothing;
        Outcome::Ended { answer, newer, fault: None, count: self.count }
    }

    /// Ends at a bad header, and hands on what is at fault in it.
    fn end_at_fault(&mut self, fault: Fault, copy: &mut [u8]) -> Outcome {
        self.end(BAD_HEADER, false, copy);
        Outcome::Ended { answer: BAD_HEADER, newer: false, fault: Some(fault), count: self.count }
    }

    /// Answer 13: a state that breaks setup's limits or its own.
    fn is_bad(&self) -> bool {
        if self.plan.refusal().is_some() {
            return true;
        }
        let attempt_is_bad = self.attempt < 1 || self.attempt > self.plan.attempts;
        let count_is_bad = self.count > 2 + self.plan.attempts as u64 * 1_048_577;
        let area_is_bad = self.plan.area_refusal(self.wanted_blocks()).is_some();
        let chunk_is_bad = match self.awaited {
            // An old run has no chunks but the middle command.
            Awaited::Chunk(at) => at < 1 || at > self.wanted_blocks() || self.plan.is_old(),
            Awaited::HeaderAndBlocks => self.wanted_blocks() == 0,
            _ => false,
        };
        attempt_is_bad || count_is_bad || area_is_bad || chunk_is_bad
    }

    /// Bytes that a successful completion of the awaited command brings.
    fn awaited_bytes(&self) -> u64 {
        match self.awaited {
            Awaited::Chunk(at) => bytes_of(self.chunk_blocks(at)),
            Awaited::HeaderAndBlocks => 512 + bytes_of(self.wanted_blocks()),
            _ => 512,
        }
    }

    /// Takes a completion. Order: 14, 13, 15.
    pub fn step(&mut self, ok: bool, data: &[u8], copy: &mut [u8]) -> Outcome {
        if self.awaited == Awaited::Nothing {
            return Outcome::Refused(ALREADY_ENDED);
        }
        if self.is_bad() {
            return Outcome::Refused(BAD_SETUP);
        }
        let due = if ok { self.awaited_bytes() } else { 0 };
        if data.len() as u64 != due || copy.len() as u64 != self.plan.room {
            return Outcome::Refused(DOES_NOT_FIT);
        }
        match self.awaited {
            Awaited::Chunk(_) | Awaited::HeaderAndBlocks if !ok => self.send(Awaited::HeaderAfterRefusal),
            Awaited::Chunk(at) => self.take_chunk(at, data, copy),
            Awaited::HeaderAndBlocks => self.take_header_and_blocks(data, copy),
            _ if !ok => self.end(BROKE_ITS_WORD, false, copy),
            Awaited::FirstHeader => self.take_first_header(data, copy),
            Awaited::Acknowledgement => {
                let newer = data[generation_byte(self.plan.page)] != self.generation;
                self.end(SUCCESS, newer, copy)
            }
            _ => self.take_later_header(data, copy),
        }
    }

    fn take_chunk(&mut self, at: u32, data: &[u8], copy: &mut [u8]) -> Outcome {
        let place = bytes_of(at - 1) as usize;
        copy[place..place + data.len()].copy_from_slice(data);
        let next = at + self.plan.chunk;
        if next <= self.wanted_blocks() {
            self.send(Awaited::Chunk(next))
        } else {
            self.send(Awaited::ClosingHeader)
        }
    }

    /// The middle command of an old run: its header is not judged, whatever it is, and its blocks are the copy's first.
    fn take_header_and_blocks(&mut self, data: &[u8], copy: &mut [u8]) -> Outcome {
        let (_, blocks) = data.split_at(BLOCK);
        copy[..blocks.len()].copy_from_slice(blocks);
        self.send(Awaited::ClosingHeader)
    }

    fn check(&self, data: &[u8]) -> Result<Fields, Fault> {
        check_header(self.plan.page, self.plan.capabilities.da4s, data)
    }

    /// Order at a first header: 7, 11, 19, 8.
    fn take_first_header(&mut self, data: &[u8], copy: &mut [u8]) -> Outcome {
        let fields = match self.check(data) {
            Ok(fields) => fields,
            Err(fault) => return self.end_at_fault(fault, copy),
        };
        if self.plan.page == CONTROLLER_PAGE && fields.available == 0 {
            return self.end(NOTHING, false, copy);
        }
        self.open_attempt(data, &fields, copy)
    }

    /// Whether a later header matches the one that opened the attempt: by the generation and all four last blocks.
    fn matches(&self, data: &[u8], fields: &Fields) -> bool {
        data[generation_byte(self.plan.page)] == self.generation && fields.last == self.last
    }

    /// Order at a later header: 7, 10, then on mismatch 9, else 19, 8.
    fn take_later_header(&mut self, data: &[u8], copy: &mut [u8]) -> Outcome {
        let fields = match self.check(data) {
            Ok(fields) => fields,
            Err(fault) => return self.end_at_fault(fault, copy),
        };
        if self.plan.page == CONTROLLER_PAGE && fields.available == 0 {
            return self.end(WITHDRAWN, false, copy);
        }
        if self.matches(data, &fields) {
            return if self.awaited == Awaited::HeaderAfterRefusal {
                self.end(BROKE_ITS_WORD, false, copy)
            } else if self.plan.page == CONTROLLER_PAGE {
                self.send(Awaited::Acknowledgement)
            } else {
                self.end(SUCCESS, false, copy)
            };
        }
        if self.attempt == self.plan.attempts {
            return self.end(ATTEMPTS_USED_UP, false, copy);
        }
        self.attempt += 1;
        self.open_attempt(data, &fields, copy)
    }

    /// A header opens an attempt if its wanted area is in reach (19) and the copy has room for it (8).
    fn open_attempt(&mut self, data: &[u8], fields: &Fields, copy: &mut [u8]) -> Outcome {
        let wanted = fields.last[self.plan.area as usize - 1];
        if let Some(answer) = self.plan.area_refusal(wanted) {
            return self.end(answer, false, copy);
        }
        self.generation = data[generation_byte(self.plan.page)];
        self.last = fields.last;
        if wanted == 0 {
            self.send(Awaited::ClosingHeader)
        } else if self.plan.is_old() {
            self.send(Awaited::HeaderAndBlocks)
        } else {
            self.send(Awaited::Chunk(1))
        }
    }
}
