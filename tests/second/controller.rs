//! The controller side: agreement, captures, drops, and Get Log Page on pages 07h and 08h.
//! Written from document 01, sections "Command words", "Header bytes", "Captures", "Answer numbers", and document 02, Q-1.

use crate::rules::*;

#[derive(Clone, Debug, PartialEq, Eq)]
pub struct Record {
    pub capabilities: Capabilities,
    pub oui: u32,
    pub host_scope: u8,
    pub controller_scope: u8,
    pub host_generation: u8,
    pub controller_generation: u8,
    /// TCDA
    pub available: u8,
    pub notice: bool,
    pub host_last: LastBlocks,
    pub controller_last: LastBlocks,
    pub host_reason: [u8; REASON],
    pub controller_reason: [u8; REASON],
}

/// What a capture would take.
pub struct Candidate<'a> {
    pub last: LastBlocks,
    pub bytes: &'a [u8],
    pub reason: &'a [u8],
}

/// A record before any capture: generations, last blocks, reasons, TCDA and notice at zero.
pub fn fresh(capabilities: Capabilities, oui: u32, host_scope: u8, controller_scope: u8) -> Record {
    Record {
        capabilities,
        oui,
        host_scope,
        controller_scope,
        host_generation: 0,
        controller_generation: 0,
        available: 0,
        notice: false,
        host_last: [0; 4],
        controller_last: [0; 4],
        host_reason: [0; REASON],
        controller_reason: [0; REASON],
    }
}

/// Answer 4: record and lent stores disagree. Both pages are looked at, whichever is asked for; the notice is not.
pub fn disagree(record: &Record, host_store: &[u8], controller_store: &[u8]) -> bool {
    let da4s = record.capabilities.da4s;
    let last = record.controller_last;
    !last_blocks_keep_rules(record.host_last, da4s)
        || !last_blocks_keep_rules(last, da4s)
        || !scope_is_known(record.host_scope)
        || !scope_is_known(record.controller_scope)
        || record.oui > 0x00FF_FFFF
        || record.available > 1
        || store_is_short(host_store, record.host_last)
        || store_is_short(controller_store, last)
        || (record.available == 0 && last != [0; 4])
        || (record.available == 1 && last[2] == 0)
}

fn scope_is_known(scope: u8) -> bool {
    scope == 1 || scope == 2
}

fn store_is_short(store: &[u8], last: LastBlocks) -> bool {
    let greatest = last.into_iter().max().unwrap_or(0);
    (store.len() as u64) < bytes_of(greatest)
}

/// The area a capture keeps at most: document 01's m. `mcda` is that of a host capture, 0 for one of the controller's own.
fn kept_area(capabilities: Capabilities, mcda: u8) -> usize {
    let areas = if capabilities.area_4() { 4 } else { 3 };
    if capabilities.mcdas && (1..=4).contains(&mcda) {
        areas.min(mcda as usize)
    } else {
        areas
    }
}

/// Last blocks as stored: those up to area m, area m's for each area above it, but 0 for area 4 without DA4S.
fn trimmed(last: LastBlocks, m: usize, da4s: bool) -> LastBlocks {
    let mut stored = [0; 4];
    for area in 1..=4 {
        stored[area - 1] = last[area.min(m) - 1];
    }
    if !da4s {
        stored[3] = 0;
    }
    stored
}

/// Answer 5, but for what 08h asks for beyond it: `kept` is document 01's a_m.
fn broken(candidate: &Candidate, kept: u32, store: &[u8]) -> bool {
    let [a1, a2, a3, a4] = candidate.last;
    !(a1 <= a2 && a2 <= a3 && a3 <= a4)
        || candidate.bytes.len() as u64 != bytes_of(a4)
        || candidate.reason.len() != REASON
        || a3 > AREA_3_LIMIT
        || (a4 > 0 && a3 == 0)
        || kept > AREA_4_LIMIT
        || bytes_of(kept) > store.len() as u64
}

fn reason_of(candidate: &Candidate) -> [u8; REASON] {
    let mut reason = [0; REASON];
    reason.copy_from_slice(candidate.reason);
    reason
}

/// The store's first blocks become the candidate's first `blocks` blocks; the rest of the store stays.
fn store_blocks(store: &mut [u8], candidate: &Candidate, blocks: u32) {
    let bytes = bytes_of(blocks) as usize;
    store[..bytes].copy_from_slice(&candidate.bytes[..bytes]);
}

/// A capture of the controller's own on 08h: 0, 4 or 5.
pub fn capture(record: &mut Record, host_store: &[u8], controller_store: &mut [u8], candidate: &Candidate) -> u8 {
    if disagree(record, host_store, controller_store) {
        return DISAGREE;
    }
    let m = kept_area(record.capabilities, 0);
    let kept = candidate.last[m - 1];
    if broken(candidate, kept, controller_store) || candidate.last[2] == 0 {
        return BROKEN_CANDIDATE;
    }
    store_blocks(controller_store, candidate, kept);
    record.controller_last = trimmed(candidate.last, m, record.capabilities.da4s);
    record.controller_generation = record.controller_generation.wrapping_add(1);
    record.controller_reason = reason_of(candidate);
    record.available = 1;
    record.notice = true;
    SUCCESS
}

/// A Firmware Commit or power on: the host's four last blocks and reason become zero, the generation stays. 0 or 4. Both stores are only
/// looked at, and 08h is not touched.
pub fn drop_host_data(record: &mut Record, host_store: &[u8], controller_store: &[u8]) -> u8 {
    if disagree(record, host_store, controller_store) {
        return DISAGREE;
    }
    record.host_last = [0; 4];
    record.host_reason = [0; REASON];
    SUCCESS
}

/// A Get Log Page as its five words say it.
struct Command {
    page: u8,
    create: bool,
    mcda: u8,
    retain: bool,
    length: u64,
    offset: u64,
    offset_type: bool,
}

/// Reads the five words. The count is zero-based and in dwords; without extended data only CDW10 bits 27:16 of it count. Create is for
/// 07h alone. CSI, UUID index, LSI and reserved fields are ignored.
fn read_words(words: Words, capabilities: Capabilities) -> Command {
    let [cdw10, cdw11, cdw12, cdw13, cdw14] = words;
    let page = (cdw10 & 0xFF) as u8;
    let count = if capabilities.extended {
        (cdw10 >> 16) as u64 + (((cdw11 & 0xFFFF) as u64) << 16)
    } else {
        ((cdw10 >> 16) & 0xFFF) as u64
    };
    Command {
        page,
        create: page == HOST_PAGE && (cdw10 >> 8) & 1 == 1,
        mcda: ((cdw10 >> 9) & 7) as u8,
        retain: (cdw10 >> 15) & 1 == 1,
        length: 4 * (count + 1),
        offset: cdw12 as u64 + ((cdw13 as u64) << 32),
        offset_type: (cdw14 >> 23) & 1 == 1,
    }
}

/// The refusals of 1 that come before the candidate is judged.
fn has_invalid_field(command: &Command, capabilities: Capabilities) -> bool {
    command.offset_type
        || command.length % 512 != 0
        || (!capabilities.extended && command.offset != 0)
        || command.offset % 512 != 0
        || (command.create && capabilities.mcdas && command.mcda >= 5)
}

/// Decides a command: the record as it stands before the transfer, a create's capture included, or the refusal. Writes nothing.
fn judge(
    record: &Record,
    host_store: &[u8],
    controller_store: &[u8],
    candidate: &Candidate,
    command: &Command,
    buffer_bytes: usize,
) -> Result<Record, (u8, Option<Class>)> {
    let capabilities = record.capabilities;
    if disagree(record, host_store, controller_store) {
        return Err((DISAGREE, None));
    }
    if !(command.page == HOST_PAGE || command.page == CONTROLLER_PAGE) || !capabilities.telemetry {
        return Err((INVALID_LOG_PAGE, Some(class_of(command.page))));
    }
    if has_invalid_field(command, capabilities) {
        return Err((INVALID_FIELD, None));
    }
    let mut after = record.clone();
    if command.create {
        let m = kept_area(capabilities, command.mcda);
        if broken(candidate, candidate.last[m - 1], host_store) {
            return Err((BROKEN_CANDIDATE, None));
        }
        after.host_last = trimmed(candidate.last, m, capabilities.da4s);
        after.host_generation = record.host_generation.wrapping_add(1);
        after.host_reason = reason_of(candidate);
    }
    if command.offset > page_size(capabilities, last_of(&after, command.page)) {
        return Err((INVALID_FIELD, None));
    }
    if (buffer_bytes as u64) < command.length {
        return Err((SHORT_BUFFER, None));
    }
    Ok(after)
}

/// Answers a command of any five words: its answer, and with answer 2 the identifier's class. A refused one leaves everything as lent:
/// all is decided before anything is written.
pub fn command(
    record: &mut Record,
    host_store: &mut [u8],
    controller_store: &[u8],
    candidate: &Candidate,
    words: Words,
    buffer: &mut [u8],
) -> (u8, Option<Class>) {
    let command = read_words(words, record.capabilities);
    *record = match judge(record, host_store, controller_store, candidate, &command, buffer.len()) {
        Ok(after) => after,
        Err(refusal) => return refusal,
    };
    if command.create {
        let m = kept_area(record.capabilities, command.mcda);
        store_blocks(host_store, candidate, candidate.last[m - 1]);
    }
    let store = if command.page == HOST_PAGE { &*host_store } else { controller_store };
    transfer(record, command.page, store, command.offset, &mut buffer[..command.length as usize]);
    if command.page == CONTROLLER_PAGE && !command.retain {
        record.available = 0;
        record.notice = false;
        record.controller_last = [0; 4];
    }
    (SUCCESS, None)
}

fn last_of(record: &Record, page: u8) -> LastBlocks {
    if page == HOST_PAGE {
        record.host_last
    } else {
        record.controller_last
    }
}

/// Puts a page's bytes from `offset` on into `target`, block by block: block 0 is the header, then come the store's, then zeros.
fn transfer(record: &Record, page: u8, store: &[u8], offset: u64, target: &mut [u8]) {
    let blocks = page_blocks(record.capabilities, last_of(record, page)) as u64;
    let first = offset / 512;
    for (index, place) in target.chunks_exact_mut(BLOCK).enumerate() {
        let block = first + index as u64;
        if block == 0 {
            place.copy_from_slice(&header(record, page));
        } else if block <= blocks {
            let start = (block as usize - 1) * BLOCK;
            place.copy_from_slice(&store[start..start + BLOCK]);
        } else {
            place.fill(0);
        }
    }
}

/// The header of a page, byte by byte as document 01's layout has it.
pub fn header(record: &Record, page: u8) -> [u8; BLOCK] {
    let host = page == HOST_PAGE;
    let last = last_of(record, page);
    let mut bytes = [0; BLOCK];
    bytes[0] = page;
    bytes[5..8].copy_from_slice(&record.oui.to_le_bytes()[..3]);
    bytes[8..10].copy_from_slice(&last[0].to_le_bytes()[..2]);
    bytes[10..12].copy_from_slice(&last[1].to_le_bytes()[..2]);
    bytes[12..14].copy_from_slice(&last[2].to_le_bytes()[..2]);
    bytes[16..20].copy_from_slice(&last[3].to_le_bytes());
    if host {
        bytes[380] = record.host_scope;
        bytes[381] = record.host_generation;
    } else {
        bytes[380] = 0;
        bytes[381] = record.controller_scope;
    }
    bytes[382] = record.available;
    bytes[383] = record.controller_generation;
    let reason = if host { &record.host_reason } else { &record.controller_reason };
    bytes[384..512].copy_from_slice(reason);
    bytes
}
