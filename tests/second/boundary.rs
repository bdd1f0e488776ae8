//! The second opinion across the C boundary: the same functions as `bumbazeel.h`, on the bytes of its structs at the offsets that the
//! header file writes beside each field. Written from the header file's words and documents 01 and 02.

use crate::controller::{self, Candidate, Record};
use crate::host::{self, Awaited, Collection, Fault, Outcome, Plan, Planned};
use crate::rules::*;
use crate::sheet::{Finished, Sheet};

pub const PLANNED_BYTES: usize = 160;
pub const STATE_BYTES: usize = 56;
pub const NEXT_BYTES: usize = 32;
pub const RECORD_BYTES: usize = 300;
pub const SHEET_BYTES: usize = 104;
pub const MEAN_BYTES: usize = 24;

/// What `bumbazeel_next` says by its kind.
pub const SEND: u8 = 0;
pub const ENDED: u8 = 1;
pub const REFUSED: u8 = 2;

const NO_STATUS: u16 = 0xFFFF;

pub fn put_u32(bytes: &mut [u8], at: usize, number: u32) {
    bytes[at..at + 4].copy_from_slice(&number.to_le_bytes());
}

pub fn put_u64(bytes: &mut [u8], at: usize, number: u64) {
    bytes[at..at + 8].copy_from_slice(&number.to_le_bytes());
}

pub fn get_u32(bytes: &[u8], at: usize) -> u32 {
    (0..4).map(|i| (bytes[at + i] as u32) << (8 * i)).sum()
}

pub fn get_u64(bytes: &[u8], at: usize) -> u64 {
    (0..8).map(|i| (bytes[at + i] as u64) << (8 * i)).sum()
}

fn put_last(bytes: &mut [u8], at: usize, last: LastBlocks) {
    for (i, number) in last.into_iter().enumerate() {
        put_u32(bytes, at + 4 * i, number);
    }
}

fn get_last(bytes: &[u8], at: usize) -> LastBlocks {
    [get_u32(bytes, at), get_u32(bytes, at + 4), get_u32(bytes, at + 8), get_u32(bytes, at + 12)]
}

/// The five bits of a capabilities byte; the bits above them are not looked at.
fn capabilities_of(caps: u8) -> Capabilities {
    Capabilities {
        extended: caps & 1 != 0,
        telemetry: caps & 2 != 0,
        da4s: caps & 4 != 0,
        etdas: caps & 8 != 0,
        mcdas: caps & 16 != 0,
    }
}

fn caps_byte(capabilities: Capabilities) -> u8 {
    capabilities.extended as u8
        | (capabilities.telemetry as u8) << 1
        | (capabilities.da4s as u8) << 2
        | (capabilities.etdas as u8) << 3
        | (capabilities.mcdas as u8) << 4
}

/// A record's bytes read, or nothing where they are damaged: `caps` over 31, `notice` over 1, `zero` not zero.
pub fn read_record(bytes: &[u8; RECORD_BYTES]) -> Option<Record> {
    if bytes[0] > 31 || bytes[6] > 1 || bytes[7] != 0 {
        return None;
    }
    let mut host_reason = [0; REASON];
    let mut controller_reason = [0; REASON];
    host_reason.copy_from_slice(&bytes[44..172]);
    controller_reason.copy_from_slice(&bytes[172..300]);
    Some(Record {
        capabilities: capabilities_of(bytes[0]),
        host_scope: bytes[1],
        controller_scope: bytes[2],
        host_generation: bytes[3],
        controller_generation: bytes[4],
        available: bytes[5],
        notice: bytes[6] == 1,
        oui: get_u32(bytes, 8),
        host_last: get_last(bytes, 12),
        controller_last: get_last(bytes, 28),
        host_reason,
        controller_reason,
    })
}

pub fn write_record(record: &Record) -> [u8; RECORD_BYTES] {
    let mut bytes = [0; RECORD_BYTES];
    bytes[0] = caps_byte(record.capabilities);
    bytes[1] = record.host_scope;
    bytes[2] = record.controller_scope;
    bytes[3] = record.host_generation;
    bytes[4] = record.controller_generation;
    bytes[5] = record.available;
    bytes[6] = record.notice as u8;
    put_u32(&mut bytes, 8, record.oui);
    put_last(&mut bytes, 12, record.host_last);
    put_last(&mut bytes, 28, record.controller_last);
    bytes[44..172].copy_from_slice(&record.host_reason);
    bytes[172..300].copy_from_slice(&record.controller_reason);
    bytes
}

fn write_planned(planned: &Planned) -> [u8; PLANNED_BYTES] {
    let fields = &planned.fields;
    let mut bytes = [0; PLANNED_BYTES];
    bytes[0] = fields.page;
    bytes[1] = fields.scope;
    bytes[2] = fields.host_generation;
    bytes[3] = fields.available;
    bytes[4] = fields.controller_generation;
    put_u32(&mut bytes, 8, fields.oui);
    put_last(&mut bytes, 12, fields.last);
    bytes[28..156].copy_from_slice(&fields.reason);
    put_u32(&mut bytes, 156, planned.chunks);
    bytes
}

/// What may be at fault, by the header file's numbers, which start at 1.
const FAULTS: [Fault; 8] = [
    Fault::Length,
    Fault::Identifier,
    Fault::Area2,
    Fault::Area3,
    Fault::Area4,
    Fault::Scope,
    Fault::Available,
    Fault::Empty,
];

/// The number of what is at fault, or 0 for nothing.
fn fault_number(fault: Option<Fault>) -> u8 {
    (1..).zip(FAULTS).find(|(_, named)| Some(*named) == fault).map_or(0, |(number, _)| number)
}

/// Of a bad header what is at fault and where it starts, and else zeros.
fn write_fault(page: u8, fault: Fault) -> [u8; PLANNED_BYTES] {
    let mut bytes = [0; PLANNED_BYTES];
    bytes[5] = fault_number(Some(fault));
    bytes[6..8].copy_from_slice(&host::starts_at(fault, page).to_le_bytes());
    bytes
}

fn phase_of(awaited: Awaited) -> (u8, u32) {
    match awaited {
        Awaited::FirstHeader => (0, 0),
        Awaited::Chunk(at) => (1, at),
        // Its blocks start at block 1.
        Awaited::HeaderAndBlocks => (1, 1),
        Awaited::ClosingHeader => (2, 0),
        Awaited::HeaderAfterRefusal => (3, 0),
        Awaited::Acknowledgement => (4, 0),
        Awaited::Nothing => (5, 0),
    }
}

/// A state's bytes read, or nothing where they are damaged: a phase over 5, `create` over 1, `caps` over 31, `zero` not zero, or an
/// `at` without an awaited chunk.
fn read_state(bytes: &[u8; STATE_BYTES]) -> Option<Collection> {
    let at = get_u32(bytes, 20);
    let awaited = match bytes[0] {
        0 => Awaited::FirstHeader,
        1 if at == 1 && bytes[4] & 1 == 0 => Awaited::HeaderAndBlocks,
        1 => Awaited::Chunk(at),
        2 => Awaited::ClosingHeader,
        3 => Awaited::HeaderAfterRefusal,
        4 => Awaited::Acknowledgement,
        5 => Awaited::Nothing,
        _ => return None,
    };
    if bytes[2] > 1 || bytes[4] > 31 || bytes[6] != 0 || bytes[7] != 0 || (bytes[0] != 1 && at != 0) {
        return None;
    }
    Some(Collection {
        plan: Plan {
            page: bytes[1],
            create: bytes[2] == 1,
            area: bytes[3],
            capabilities: capabilities_of(bytes[4]),
            chunk: get_u32(bytes, 8),
            attempts: get_u32(bytes, 12),
            room: get_u64(bytes, 24),
        },
        awaited,
        attempt: get_u32(bytes, 16),
        count: get_u64(bytes, 32),
        generation: bytes[5],
        last: get_last(bytes, 40),
    })
}

fn write_state(collection: &Collection) -> [u8; STATE_BYTES] {
    let (phase, at) = phase_of(collection.awaited);
    let mut bytes = [0; STATE_BYTES];
    bytes[0] = phase;
    bytes[1] = collection.plan.page;
    bytes[2] = collection.plan.create as u8;
    bytes[3] = collection.plan.area;
    bytes[4] = caps_byte(collection.plan.capabilities);
    bytes[5] = collection.generation;
    put_u32(&mut bytes, 8, collection.plan.chunk);
    put_u32(&mut bytes, 12, collection.plan.attempts);
    put_u32(&mut bytes, 16, collection.attempt);
    put_u32(&mut bytes, 20, at);
    put_u64(&mut bytes, 24, collection.plan.room);
    put_u64(&mut bytes, 32, collection.count);
    put_last(&mut bytes, 40, collection.last);
    bytes
}

fn write_next(outcome: &Outcome) -> [u8; NEXT_BYTES] {
    let mut bytes = [0; NEXT_BYTES];
    match outcome {
        Outcome::Send(words) => {
            bytes[0] = SEND;
            for (i, word) in words.iter().enumerate() {
                put_u32(&mut bytes, 4 + 4 * i, *word);
            }
        }
        Outcome::Ended { answer, newer, fault, count } => {
            bytes[0] = ENDED;
            bytes[1] = *answer;
            bytes[2] = *newer as u8;
            bytes[3] = fault_number(*fault);
            put_u64(&mut bytes, 24, *count);
        }
        Outcome::Refused(answer) => {
            bytes[0] = REFUSED;
            bytes[1] = *answer;
        }
    }
    bytes
}

/// The arguments of `bumbazeel_plan` but for the header and what it writes: those of a setup but for create and attempts.
#[derive(Clone, Copy, Debug)]
pub struct Wanted {
    pub page: u8,
    pub area: u8,
    pub caps: u8,
    pub chunk: u32,
    pub room: u64,
}

impl Wanted {
    /// The plan that refuses the fewest headers of a page: of the greatest area that the capabilities allow, a block a command, or without
    /// extended data in one, into the largest copy.
    pub fn largest(page: u8, caps: u8) -> Wanted {
        let capabilities = capabilities_of(caps);
        let area = if capabilities.area_4() { 4 } else { 3 };
        Wanted { page, area, caps, chunk: capabilities.extended as u32, room: host::ROOM_LIMIT }
    }

    pub fn setup(self, create: u8, attempts: u32) -> Setup {
        let Wanted { page, area, caps, chunk, room } = self;
        Setup { page, create, area, caps, chunk, attempts, room }
    }
}

pub fn plan(wanted: Wanted, header: &[u8], planned: &mut [u8; PLANNED_BYTES]) -> u8 {
    *planned = [0; PLANNED_BYTES];
    if wanted.caps > 31 {
        // To a setup they are bad ones.
        return BAD_SETUP;
    }
    let Wanted { page, area, chunk, room, .. } = wanted;
    match host::plan_from_header(page, header, capabilities_of(wanted.caps), area, chunk, room) {
        Ok(given) => {
            *planned = write_planned(&given);
            SUCCESS
        }
        Err((answer, fault)) => {
            if let Some(fault) = fault {
                *planned = write_fault(page, fault);
            }
            answer
        }
    }
}

/// 0 for a number that names nothing.
pub fn field_byte(page: u8, field: u8) -> u16 {
    let named = (1..).zip(FAULTS).find(|(number, _)| *number == field);
    named.map_or(0, |(_, fault)| host::starts_at(fault, page))
}

pub fn words(page: u8, create: u8, mcda: u8, rae: u8, offset: u32, blocks: u32, words: &mut Words) -> u8 {
    match host::build_words(page, create != 0, mcda, rae != 0, offset, blocks) {
        Some(built) => {
            *words = built;
            SUCCESS
        }
        None => {
            *words = [0; 5];
            BAD_SETUP
        }
    }
}

/// The arguments of `bumbazeel_setup` but for what it writes.
#[derive(Clone, Copy, Debug)]
pub struct Setup {
    pub page: u8,
    pub create: u8,
    pub area: u8,
    pub caps: u8,
    pub chunk: u32,
    pub attempts: u32,
    pub room: u64,
}

impl Setup {
    pub fn wanted(self) -> Wanted {
        let Setup { page, area, caps, chunk, room, .. } = self;
        Wanted { page, area, caps, chunk, room }
    }
}

pub fn setup(arguments: Setup, state: &mut [u8; STATE_BYTES], next: &mut [u8; NEXT_BYTES]) -> u8 {
    let (mut collection, mut outcome) = host::setup(Plan {
        page: arguments.page,
        create: arguments.create != 0,
        area: arguments.area,
        capabilities: capabilities_of(arguments.caps),
        chunk: arguments.chunk,
        attempts: arguments.attempts,
        room: arguments.room,
    });
    if arguments.caps > 31 {
        // No controller has such capabilities: a bad setup, which ends before it has sent anything, and its state has none.
        collection.plan.capabilities = capabilities_of(0);
        collection.awaited = Awaited::Nothing;
        collection.count = 0;
        outcome = Outcome::Refused(BAD_SETUP);
    }
    *state = write_state(&collection);
    *next = write_next(&outcome);
    next[0]
}

pub fn step(state: &mut [u8; STATE_BYTES], ok: u8, data: &[u8], copy: &mut [u8], next: &mut [u8; NEXT_BYTES]) -> u8 {
    let outcome = match read_state(state) {
        None => Outcome::Refused(BAD_SETUP),
        Some(mut collection) => {
            let outcome = collection.step(ok != 0, data, copy);
            *state = write_state(&collection);
            outcome
        }
    };
    *next = write_next(&outcome);
    next[0]
}

pub fn fresh(caps: u8, oui: u32, host_scope: u8, controller_scope: u8, record: &mut [u8; RECORD_BYTES]) -> u8 {
    let begun = controller::fresh(capabilities_of(caps), oui, host_scope, controller_scope);
    if caps > 31 || controller::disagree(&begun, &[], &[]) {
        *record = [0; RECORD_BYTES];
        return DISAGREE;
    }
    *record = write_record(&begun);
    SUCCESS
}

#[allow(clippy::too_many_arguments)]
pub fn command(
    record: &mut [u8; RECORD_BYTES],
    host_store: &mut [u8],
    controller_store: &[u8],
    candidate: &Candidate,
    words: Words,
    buffer: &mut [u8],
    identifier_class: &mut u8,
) -> u8 {
    *identifier_class = 0;
    let Some(mut held) = read_record(record) else {
        return DISAGREE;
    };
    let (answer, class) = controller::command(&mut held, host_store, controller_store, candidate, words, buffer);
    if let Some(class) = class {
        *identifier_class = class_number(class);
    }
    *record = write_record(&held);
    answer
}

pub fn capture(
    record: &mut [u8; RECORD_BYTES],
    host_store: &[u8],
    controller_store: &mut [u8],
    candidate: &Candidate,
) -> u8 {
    let Some(mut held) = read_record(record) else {
        return DISAGREE;
    };
    let answer = controller::capture(&mut held, host_store, controller_store, candidate);
    *record = write_record(&held);
    answer
}

pub fn drop_host_data(record: &mut [u8; RECORD_BYTES], host_store: &[u8], controller_store: &[u8]) -> u8 {
    let Some(mut held) = read_record(record) else {
        return DISAGREE;
    };
    let answer = controller::drop_host_data(&mut held, host_store, controller_store);
    *record = write_record(&held);
    answer
}

/// Where a sheet has its check, after the mark and eleven totals of eight bytes each.
pub const CHECK: usize = 96;

const MARK: [u8; 8] = *b"BZSHEET1";

/// "The twelve numbers before it added, `mark` as one of them, modulo 2^64".
pub fn check_of(bytes: &[u8; SHEET_BYTES]) -> u64 {
    let sum: u128 = (0..12).map(|number| get_u64(bytes, 8 * number) as u128).sum();
    (sum % (1 << 64)) as u64
}

/// A sheet's bytes read, or nothing where they are damaged: another mark, a check that is not the sum, totals that no runs have.
pub fn read_sheet(bytes: &[u8; SHEET_BYTES]) -> Option<Sheet> {
    let totals: Vec<u128> = (1..12).map(|number| get_u64(bytes, 8 * number) as u128).collect();
    let sheet = Sheet::of_totals(&totals);
    (bytes[..8] == MARK && get_u64(bytes, CHECK) == check_of(bytes) && sheet.has_runs()).then_some(sheet)
}

pub fn write_sheet(sheet: &Sheet) -> [u8; SHEET_BYTES] {
    let mut bytes = [0; SHEET_BYTES];
    bytes[..8].copy_from_slice(&MARK);
    for (number, total) in (1..).zip(sheet.totals()) {
        put_u64(&mut bytes, 8 * number, total as u64);
    }
    let check = check_of(&bytes);
    put_u64(&mut bytes, CHECK, check);
    bytes
}

pub fn new_sheet(sheet: &mut [u8; SHEET_BYTES]) {
    *sheet = write_sheet(&Sheet::default());
}

pub fn enter(sheet: &mut [u8; SHEET_BYTES], run: Finished) -> u8 {
    let Some(mut held) = read_sheet(sheet) else {
        return BAD_SETUP;
    };
    let answer = held.enter(run);
    *sheet = write_sheet(&held);
    answer
}

pub fn add(sheet: &mut [u8; SHEET_BYTES], other: &[u8; SHEET_BYTES]) -> u8 {
    let (Some(mut held), Some(other)) = (read_sheet(sheet), read_sheet(other)) else {
        return BAD_SETUP;
    };
    let answer = held.add(&other);
    *sheet = write_sheet(&held);
    answer
}

pub fn mean(sheet: &[u8; SHEET_BYTES], mean: &mut [u8; MEAN_BYTES]) -> u8 {
    *mean = [0; MEAN_BYTES];
    let Some(held) = read_sheet(sheet) else {
        return BAD_SETUP;
    };
    if let Some((whole, rest)) = held.mean() {
        mean[0] = 1;
        put_u64(mean, 8, whole as u64);
        put_u64(mean, 16, rest as u64);
    }
    SUCCESS
}

fn class_number(class: Class) -> u8 {
    match class {
        Class::Named => 0,
        Class::Elsewhere => 1,
        Class::Vendor => 2,
        Class::Reserved => 3,
    }
}

pub fn class(page: u8) -> u8 {
    class_number(class_of(page))
}

pub fn status(answer: u8) -> u16 {
    match status_of(answer) {
        Some((kind, code)) => kind as u16 * 256 + code as u16,
        None => NO_STATUS,
    }
}
