//! Large parts: copies of several MiB, where a library may copy in another way than it does small parts, and the limits of areas 3 and 4,
//! which only stores of up to 512 MiB reach.

use crate::boundary::{self, get_u32, put_u32, Setup, NEXT_BYTES, RECORD_BYTES, SEND};
use crate::controller::Candidate;
use crate::generate::{self, at, DA4S, ETDAS, EXTENDED, MCDAS, TELEMETRY};
use crate::lent::{Lent, Slice};
use crate::library::{self, Loan};
use crate::orders::header_state;
use crate::pair::{words_to_bytes, Difference, Offer, Pair, Same, World};
use crate::random::Random;
use crate::rules::*;
use crate::runs::words_of;

const ALL: u8 = EXTENDED | TELEMETRY | DA4S | ETDAS | MCDAS;
const FOUR_MIB: u32 = 8_192;

/// A capture and a create of 4 MiB and more, read back in one transfer, and a chunk of 8,192 blocks.
pub fn copies(pair: &mut Pair, random: &mut Random) -> Same<()> {
    let blocks = FOUR_MIB - 3 + random.up_to(2_000);
    let bytes = blocks as usize * BLOCK;
    let spare = random.pick(&[0, 1, 512, 5_000]);
    let (_, record) = pair.fresh(ALL, 0x00AB_CDEF, 1, 2)?;
    let mut world =
        World { record, host_store: random.bytes(bytes + spare), controller_store: random.bytes(bytes + spare) };
    let offer = Offer { last: [1, 2, 3, blocks], bytes: random.bytes(bytes), reason: random.bytes(REASON) };
    let past = random.up_to(4);
    let first = random.pick(&[0, 0, 1, 3]);
    let count = 128 * (blocks + 1 + past - first) - 1;
    let low = 0x8000 | count << 16;
    let mut buffer = random.bytes((count as usize + 1) * 4 + spare);
    let answer = if random.chance(50) {
        pair.capture(&mut world, &offer)?;
        pair.command(&mut world, &offer, [low | 0x08, count >> 16, 512 * first, 0, 0], &mut buffer)?.0
    } else {
        pair.command(&mut world, &offer, [low | 0x107, count >> 16, 512 * first, 0, 0], &mut buffer)?.0
    };
    due("a large transfer", SUCCESS, answer)?;
    chunk(pair, random, blocks)
}

/// A chunk of 8,192 blocks, or the last few of an area, and an ending that zeroes or keeps 4 MiB.
fn chunk(pair: &mut Pair, random: &mut Random, blocks: u32) -> Same<()> {
    let room = (blocks as u64 + 5) * 512;
    let setup = Setup { page: HOST_PAGE, create: 0, area: 4, caps: ALL, chunk: FOUR_MIB, attempts: 1, room };
    let mut state = header_state(setup, 1, 1, 7, [1, 2, 3, blocks]);
    put_u32(&mut state, 20, 1);
    let mut copy = random.bytes(room as usize);
    let mut next = [0; NEXT_BYTES];
    while state[0] == 1 {
        let blocks_due = FOUR_MIB.min(blocks - get_u32(&state, 20) + 1);
        let data = random.bytes(blocks_due as usize * BLOCK);
        next = pair.step(&mut state, 1, &data, &mut copy)?;
    }
    due("a large chunk is followed by a command", SEND, next[0])?;
    let mut header = generate::header(random, HOST_PAGE, [1, 2, 3, blocks]);
    header[381] = random.pick(&[7, 7, 8]);
    pair.step(&mut state, 1, &header, &mut copy).map(|_| ())
}

fn due(what: &str, due: u8, given: u8) -> Same<()> {
    if due == given {
        return Ok(());
    }
    Err(Difference(format!("{what}: both gave {given}, but due is {due}")))
}

/// Regions of zeros, larger than any store may need to be. Nobody writes most of them, so they take little memory.
struct Regions {
    /// lent to the library as what it may write
    library: Vec<u8>,
    /// lent to the second opinion as what it may write
    opinion: Vec<u8>,
    /// lent to both as what is read only
    read: Vec<u8>,
}

/// Bytes of area 4 at its limit.
const AREA_4_BYTES: usize = AREA_4_LIMIT as usize * BLOCK;
/// A store with a block more than area 4 may have.
const WHOLE: usize = AREA_4_BYTES + BLOCK;

/// One row of limits: a 07h record, what is lent, and the answer that document 01 gives.
struct Limit {
    caps: u8,
    host_last: LastBlocks,
    store: usize,
    candidate: LastBlocks,
    cdw10: u32,
    offset: u64,
    answer: u8,
}

const READ: u32 = 0x007F_8007;
const CREATE: u32 = 0x007F_8107;
const CREATE_AREA_1: u32 = 0x007F_8307;

const NO_ETDAS: u8 = ALL & !ETDAS;
const LIMITS: [Limit; 19] = [
    // Last blocks of area 3 are 65,535 at most.
    read(NO_ETDAS & !DA4S, [0, 0, 65_535, 0], 65_535 * BLOCK, 65_535 * 512, 0),
    read(NO_ETDAS & !DA4S, [0, 0, 65_535, 0], 65_535 * BLOCK, 65_536 * 512, 0),
    read(NO_ETDAS & !DA4S, [0, 0, 65_535, 0], 65_535 * BLOCK, 65_537 * 512, 1),
    read(NO_ETDAS & !DA4S, [0, 0, 65_535, 0], 65_535 * BLOCK - 1, 0, 4),
    read(NO_ETDAS & !DA4S, [0, 0, 65_536, 0], WHOLE, 0, 4),
    read(ALL, [0, 0, 65_536, 65_536], WHOLE, 0, 4),
    // Area 4 ends at block 1,048,576 at most.
    read(ALL, [0, 0, 1, 1_048_576], AREA_4_BYTES, 1_048_576 * 512, 0),
    read(ALL, [0, 0, 1, 1_048_576], AREA_4_BYTES, 1_048_577 * 512, 0),
    read(ALL, [0, 0, 1, 1_048_576], AREA_4_BYTES, 1_048_578 * 512, 1),
    read(ALL, [0, 0, 1, 1_048_576], AREA_4_BYTES - 1, 0, 4),
    read(ALL, [0, 0, 1, 1_048_577], WHOLE, 0, 4),
    // A candidate's area 3 is judged even where MCDA cuts it away; the limit of area 4 is judged of what is kept.
    create(ALL, CREATE_AREA_1, [1, 1, 65_535, 65_535], WHOLE, 0),
    create(ALL, CREATE_AREA_1, [1, 1, 65_536, 65_536], WHOLE, 5),
    create(ALL, CREATE_AREA_1, [1, 1, 1, 1_048_577], WHOLE, 0),
    create(NO_ETDAS, CREATE, [1, 1, 2, 1_048_577], WHOLE, 0),
    create(ALL, CREATE, [1, 1, 2, 1_048_577], WHOLE, 5),
    create(ALL, CREATE, [1, 1, 1, 1_048_576], AREA_4_BYTES - 1, 5),
    create(NO_ETDAS, CREATE, [1, 1, 65_535, 65_535], 65_535 * BLOCK - 1, 5),
    create(NO_ETDAS, CREATE, [1, 1, 2, 1_048_576], 2 * BLOCK, 0),
];

const fn read(caps: u8, host_last: LastBlocks, store: usize, offset: u64, answer: u8) -> Limit {
    Limit { caps, host_last, store, candidate: [0; 4], cdw10: READ, offset, answer }
}

const fn create(caps: u8, cdw10: u32, candidate: LastBlocks, store: usize, answer: u8) -> Limit {
    Limit { caps, host_last: [0; 4], store, candidate, cdw10, offset: 0, answer }
}

pub fn limits(pair: &mut Pair, _: &mut Random) -> Same<()> {
    let mut regions = Regions { library: vec![0; WHOLE], opinion: vec![0; WHOLE], read: vec![0; WHOLE] };
    for limit in &LIMITS {
        host_limit(&mut regions, limit)?;
        if limit.cdw10 == CREATE {
            controller_limit(&mut regions, limit)?;
        }
        if limit.cdw10 == READ {
            drop_limit(&regions, limit)?;
        }
    }
    far_chunk(&mut regions)?;
    for (count, limit) in [(536_870_912, SEND), (536_871_424, 2)] {
        let setup = Setup { page: HOST_PAGE, create: 0, area: 4, caps: ALL, chunk: 1, attempts: 1, room: count };
        due("the greatest room", limit, pair.setup(setup)?.1[0])?;
    }
    let untouched = [&regions.library, &regions.opinion, &regions.read].map(|region| is_zeros(region));
    if untouched == [true; 3] {
        return Ok(());
    }
    Err(Difference("a call at the limits wrote where it may not".to_string()))
}

fn is_zeros(bytes: &[u8]) -> bool {
    const PAGE: [u8; 4_096] = [0; 4_096];
    bytes.chunks(PAGE.len()).all(|part| part == &PAGE[..part.len()])
}

fn record_of(caps: u8, host_last: LastBlocks) -> [u8; RECORD_BYTES] {
    let mut record = [0; RECORD_BYTES];
    record[at::CAPS] = caps;
    record[at::HOST_SCOPE] = 1;
    record[at::CONTROLLER_SCOPE] = 2;
    generate::put_last(&mut record, at::HOST_LAST, host_last);
    record
}

fn read_only(bytes: &[u8]) -> Slice {
    Slice { pointer: bytes.as_ptr().cast_mut(), length: bytes.len() }
}

/// A command at a limit. A mark stands in the last block of the store, so that it is told from zeros past the end.
fn host_limit(regions: &mut Regions, limit: &Limit) -> Same<()> {
    let Regions { library: lent_store, opinion: own_store, read } = regions;
    let (lent_store, own_store) = (&mut lent_store[..limit.store], &mut own_store[..limit.store]);
    let candidate = &read[..limit.candidate[3] as usize * BLOCK];
    lent_store[limit.store - 1] = 0xEE;
    own_store[limit.store - 1] = 0xEE;
    let mut record = record_of(limit.caps, limit.host_last);
    let words = [limit.cdw10, 0, limit.offset as u32, (limit.offset >> 32) as u32, 0];
    let mut lent_record = Lent::new(&record, 0, false);
    let mut last = Lent::new(&words_to_bytes(&limit.candidate), 0, false);
    let mut lent_words = Lent::new(&words_to_bytes(&words), 0, false);
    let mut lent_buffer = Lent::new(&[0x77; BLOCK], 0, false);
    let mut class = Lent::new(&[9], 0, false);
    let loan = Loan {
        record: lent_record.pointer(),
        host_store: Slice { pointer: lent_store.as_mut_ptr(), length: limit.store },
        controller_store: read_only(read),
        last: last.pointer(),
        candidate: read_only(candidate),
        reason: read_only(&[1; REASON]),
    };
    let given = library::command(&loan, &mut lent_words, lent_buffer.slice(), &mut class);
    let offer = Candidate { last: limit.candidate, bytes: candidate, reason: &[1; REASON] };
    let (mut buffer, mut own_class) = ([0x77; BLOCK], 9);
    let own = boundary::command(&mut record, own_store, read, &offer, words, &mut buffer, &mut own_class);
    let same = given == own && lent_store[limit.store - 1] == own_store[limit.store - 1];
    let problem = lent_record.problem("record", &record).or(lent_buffer.problem("buffer", &buffer));
    lent_store[limit.store - 1] = 0;
    own_store[limit.store - 1] = 0;
    tell("command", limit, same, problem, given, own)
}

fn tell(call: &str, limit: &Limit, same: bool, problem: Option<String>, given: u8, own: u8) -> Same<()> {
    let Limit { caps, host_last, store, candidate, cdw10, offset, answer } = limit;
    if same && problem.is_none() && own == *answer {
        return Ok(());
    }
    Err(Difference(format!(
        "{call} at a limit: library {given}, second opinion {own}, due {answer} {}\ninputs: caps {caps} last {host_last:?} \
         store of {store} bytes candidate {candidate:?} CDW10 {cdw10:08X} offset {offset:X}h",
        problem.unwrap_or_default()
    )))
}

/// The same candidate as a capture of the controller's own.
fn controller_limit(regions: &mut Regions, limit: &Limit) -> Same<()> {
    let Regions { library: lent_store, opinion: own_store, read } = regions;
    let (lent_store, own_store) = (&mut lent_store[..limit.store], &mut own_store[..limit.store]);
    let candidate = &read[..limit.candidate[3] as usize * BLOCK];
    let mut record = record_of(limit.caps, [0; 4]);
    let mut lent_record = Lent::new(&record, 0, false);
    let mut last = Lent::new(&words_to_bytes(&limit.candidate), 0, false);
    let loan = Loan {
        record: lent_record.pointer(),
        host_store: read_only(read),
        controller_store: Slice { pointer: lent_store.as_mut_ptr(), length: limit.store },
        last: last.pointer(),
        candidate: read_only(candidate),
        reason: read_only(&[1; REASON]),
    };
    let given = library::capture(&loan);
    let offer = Candidate { last: limit.candidate, bytes: candidate, reason: &[1; REASON] };
    let own = boundary::capture(&mut record, read, own_store, &offer);
    let problem = lent_record.problem("record", &record);
    tell("capture", limit, given == own, problem, given, own)
}

/// A drop of what is read at a limit: it knows no offset, so it is 4 where the read is and else 0.
fn drop_limit(regions: &Regions, limit: &Limit) -> Same<()> {
    let store = &regions.read[..limit.store];
    let mut record = record_of(limit.caps, limit.host_last);
    let mut lent_record = Lent::new(&record, 0, false);
    let given = library::drop_host_data(&mut lent_record, read_only(store), read_only(&regions.read));
    let own = boundary::drop_host_data(&mut record, store, &regions.read);
    let answer = if limit.answer == DISAGREE { DISAGREE } else { SUCCESS };
    let problem = lent_record.problem("record", &record);
    tell("drop", &Limit { answer, ..*limit }, given == own, problem, given, own)
}

/// The last blocks of the largest area 4 into the largest copy.
fn far_chunk(regions: &mut Regions) -> Same<()> {
    let room = AREA_4_BYTES as u64;
    let setup = Setup { page: HOST_PAGE, create: 0, area: 4, caps: ALL, chunk: 5, attempts: 65_535, room };
    let mut state = header_state(setup, 1, 65_535, 7, [0, 0, 1, AREA_4_LIMIT]);
    put_u32(&mut state, 20, AREA_4_LIMIT - 2);
    let data = [0x33; 3 * BLOCK];
    let mut lent_state = Lent::new(&state, 0, false);
    let mut lent_next = Lent::new(&[0; NEXT_BYTES], 0, false);
    let copy = Slice { pointer: regions.library.as_mut_ptr(), length: AREA_4_BYTES };
    let given = library::step(&mut lent_state, 1, read_only(&data), copy, &mut lent_next);
    let mut next = [0; NEXT_BYTES];
    let own = boundary::step(&mut state, 1, &data, &mut regions.opinion[..AREA_4_BYTES], &mut next);
    let problem = lent_state.problem("state", &state).or(lent_next.problem("next", &next));
    let tail = AREA_4_BYTES - 4 * BLOCK..WHOLE;
    let same = given == own && regions.library[tail.clone()] == regions.opinion[tail.clone()];
    regions.library[tail.clone()].fill(0);
    regions.opinion[tail].fill(0);
    if same && problem.is_none() && words_of(&next) == [READ, 0, 0, 0, 0] {
        return Ok(());
    }
    Err(Difference(format!("step at the end of the largest copy: library {given}, second opinion {own} {problem:?}")))
}
