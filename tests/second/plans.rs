//! Plans: every argument at its limits and past them, every set of refusals that can hold together, and plans against collections, which answer
//! their first header in the same way and send as many chunks as were planned. What is due follows here from what was put into the arguments
//! and the header, so these cases are a third opinion on it.

use std::collections::BTreeSet;

use crate::boundary::{get_u32, get_u64, Setup, Wanted, ENDED, NEXT_BYTES, PLANNED_BYTES, REFUSED, SEND, STATE_BYTES};
use crate::generate::{self, asked_bytes, is_old, DA4S, ETDAS, EXTENDED, MCDAS, TELEMETRY};
use crate::lent::{Lent, Slice};
use crate::library;
use crate::orders::{break_header, first};
use crate::pair::{Difference, Pair, Same};
use crate::random::Random;
use crate::rules::*;
use crate::runs::words_of;
use crate::singles;

/// Where `chunks` stands in what a plan gives.
const CHUNKS: usize = 156;
const PAGES: [u8; 2] = [HOST_PAGE, CONTROLLER_PAGE];
const ALL: u8 = EXTENDED | TELEMETRY | DA4S | ETDAS | MCDAS;

fn hold(holds: bool, what: impl Fn() -> String) -> Same<()> {
    if holds {
        return Ok(());
    }
    Err(Difference(format!("both agree, but not with document 02: {}", what())))
}

/// A plan with this answer tells what goes with it and nothing else: fields and chunks with 0, what is at fault with 7.
fn tells_what_is_due(answer: u8, planned: &[u8; PLANNED_BYTES]) -> bool {
    let says_nothing = planned[..5] == [0; 5] && planned[8..] == [0; PLANNED_BYTES - 8];
    let has_no_fault = planned[5..8] == [0; 3];
    says_nothing == (answer != SUCCESS) && has_no_fault == (answer != BAD_HEADER)
}

/// A good header with data available.
fn shown(random: &mut Random, page: u8, last: LastBlocks) -> Vec<u8> {
    let mut header = generate::header(random, page, last);
    header[382] = 1;
    header
}

/// Blocks a command, and whether setup's limits take them with extended data, and without.
const CHUNK_LIMITS: [(u32, [bool; 2]); 11] = [
    (0, [false, true]),
    (1, [true, false]),
    (2, [true, false]),
    (3, [true, false]),
    (31, [true, false]),
    (8_191, [true, false]),
    (8_192, [true, false]),
    (8_193, [false, false]),
    (65_537, [false, false]),
    (1 << 31, [false, false]),
    (u32::MAX, [false, false]),
];

/// Rooms, and whether setup's limits take them: of no block and of one and beside them, at the limit and far beyond it.
const ROOM_LIMITS: [(u64, bool); 15] = [
    (0, true),
    (1, false),
    (511, false),
    (512, true),
    (513, false),
    (536_870_400, true),
    (536_870_911, false),
    (536_870_912, true),
    (536_870_913, false),
    (536_871_424, false),
    (1 << 32, false),
    ((1 << 32) + 512, false),
    (1 << 63, false),
    (u64::MAX - 511, false),
    (u64::MAX, false),
];

/// Rooms around an area of so many blocks: a byte and a block less, exactly it, a byte and a block more.
fn rooms_around(blocks: u32) -> [(u64, bool); 5] {
    let exact = bytes_of(blocks);
    [(exact - 512, true), (exact - 1, false), (exact, true), (exact + 1, false), (exact + 512, true)]
}

/// What documents 01 and 02 make of a plan from a good header of this page with data available.
fn due_of(wanted: Wanted, shows: u8, last: LastBlocks, limits_hold: bool) -> (u8, u32) {
    let good = limits_hold
        && PAGES.contains(&wanted.page)
        && (1..=4).contains(&wanted.area)
        && wanted.caps <= 31
        && wanted.caps & TELEMETRY != 0;
    let blocks = if good { last[wanted.area as usize - 1] as u64 } else { 0 };
    let answer = first(&[
        (BAD_SETUP, !good),
        (NO_AREA_4, wanted.area == 4 && wanted.caps & (DA4S | ETDAS) != DA4S | ETDAS),
        (BAD_HEADER, wanted.page != shows),
        (OUT_OF_REACH, is_old(wanted.caps) && blocks >= 32),
        (NO_ROOM, blocks > wanted.room / 512),
    ]);
    let chunks = match answer {
        SUCCESS if is_old(wanted.caps) => (blocks > 0) as u64,
        SUCCESS => blocks.div_ceil(wanted.chunk as u64),
        _ => 0,
    };
    (answer, chunks as u32)
}

/// Every argument at its limits and past them: all pages with all areas, all capabilities, and all of their limits together. Without extended data
/// the areas are about block 31.
pub fn limits(pair: &mut Pair, random: &mut Random) -> Same<()> {
    let capabilities: Vec<u8> = (0..=31).chain([32, 63, 95, 159, 224, 255]).collect();
    for page in PAGES {
        let (four, old_four) = ([1, 3, 6, 7], [0, 31, 32, 33]);
        let headers = [[1, 3, 6, 0], four, [0, 31, 32, 0], old_four].map(|last| (last, shown(random, page, last)));
        let try_plan = |pair: &mut Pair, wanted: Wanted, limits_hold: bool| {
            let (last, header) = &headers[(wanted.caps & DA4S != 0) as usize + 2 * is_old(wanted.caps) as usize];
            let (answer, planned) = pair.plan(wanted, header)?;
            let (given, due) = ((answer, get_u32(&planned, CHUNKS)), due_of(wanted, page, *last, limits_hold));
            hold(given == due && tells_what_is_due(answer, &planned), || {
                format!("{wanted:?}: {given:?}, due is {due:?}")
            })
        };
        let good = Wanted { page, area: 3, caps: ALL, chunk: 2, room: 7 * 512 };
        let good_old = Wanted { caps: ALL & !EXTENDED, chunk: 0, room: 33 * 512, ..good };
        for (asked, area) in (0..=255).flat_map(|asked| (0..=255).map(move |area| (asked, area))) {
            try_plan(pair, Wanted { page: asked, area, ..good }, true)?;
            try_plan(pair, Wanted { page: asked, area, ..good_old }, true)?;
        }
        for (caps, area) in (0..=255).flat_map(|caps| (1..=4).map(move |area| (caps, area))) {
            try_plan(pair, Wanted { caps, area, ..good }, !is_old(caps))?;
            try_plan(pair, Wanted { caps, area, ..good_old }, is_old(caps))?;
        }
        for area in [0, 1, 2, 3, 4, 5, 255] {
            let [blocks, old_blocks] = [four, old_four].map(|last| last[(area as usize).clamp(1, 4) - 1].max(1));
            let near = rooms_around(blocks).into_iter().chain(rooms_around(old_blocks));
            for (room, room_holds) in ROOM_LIMITS.into_iter().chain(near) {
                for (chunk, chunk_holds) in CHUNK_LIMITS {
                    for caps in &capabilities {
                        for asked in [page, 15 - page, 0x00, 0x06, 0x09, 0xFF] {
                            let wanted = Wanted { page: asked, area, caps: *caps, chunk, room };
                            try_plan(pair, wanted, room_holds && chunk_holds[is_old(*caps) as usize])?;
                        }
                    }
                }
            }
        }
    }
    Ok(())
}

/// The refusals of a plan, in document 02's order.
const ORDER: [u8; 6] = [BAD_SETUP, NO_AREA_4, BAD_HEADER, NOTHING, OUT_OF_REACH, NO_ROOM];

/// Breaks one of setup's limits and leaves the area, which others are refused by.
fn break_limit(random: &mut Random, wanted: &mut Wanted) {
    match random.up_to(5) {
        0 => wanted.page = random.pick(&[0x00, 0x06, 0x09, 0x87, 0x88, 0xFF]),
        1 => singles::mismatch_chunk(random, &mut wanted.caps, &mut wanted.chunk),
        2 => wanted.caps &= !TELEMETRY,
        3 => wanted.caps |= random.pick(&[32, 64, 128]),
        4 => wanted.room |= random.pick(&[1, 256, 511]),
        _ => wanted.room |= random.pick(&[1 << 30, 1 << 32, 1 << 63]),
    }
}

/// A plan and a header for which just these refusals hold, in the order above, or nothing where 11 is among them on 07h, which has none. Without
/// DA4S a good header's area 4 is larger than no copy and past no block, so 6 and one of these together are by ETDAS there. 19 is of drives
/// without extended data alone, and others may have an area past block 31 or not.
fn made(random: &mut Random, page: u8, holds: [bool; 6]) -> Option<(Wanted, Vec<u8>)> {
    let [bad_setup, no_area_4, bad_header, nothing, out_of_reach, large] = holds;
    if nothing && page == HOST_PAGE {
        return None;
    }
    let sized = out_of_reach || large;
    let lacks = if sized && !bad_header { ETDAS } else { random.pick(&[DA4S, ETDAS, DA4S | ETDAS]) };
    let old = out_of_reach || random.chance(50);
    let caps = if no_area_4 { ALL & !lacks } else { ALL } & if old { !EXTENDED } else { ALL };
    let area = if no_area_4 { 4 } else { 1 + random.up_to(3) as u8 };
    let blocks = match old {
        true if out_of_reach => random.pick(&[32, 32, 33, 64, 1_300]),
        true => random.pick(&[1, 5, 30, 31, 31]),
        false => random.pick(&[1, 5, 31, 32, 1_300]),
    };
    let room = if large { random.pick(&[0, blocks / 2, blocks - 1]) } else { blocks + random.pick(&[0, 0, 1, 300]) };
    let fourth = if caps & DA4S == 0 && !bad_header { 0 } else { blocks };
    let last = [blocks, blocks, blocks, fourth];
    let chunk = generate::chunk(random, caps, &[1, 2, 5, 8_192]);
    let mut wanted = Wanted { page, area, caps, chunk, room: bytes_of(room) };
    let mut header = shown(random, page, last);
    if nothing {
        header[382] = 0;
    } else if page == HOST_PAGE {
        header[382] = random.pick(&[0, 1]);
    }
    if bad_header && random.chance(60) {
        break_header(random, page, &mut header);
    } else if bad_header && random.chance(50) {
        header.resize(random.pick(&[511, 513, 1_024]), page);
    } else if bad_header {
        // The last blocks of areas 2, 3 or 4.
        match random.up_to(2) {
            0 => header[8..12].copy_from_slice(&[255, 255, 0, 0]),
            1 => header[10..14].copy_from_slice(&[255, 255, 0, 0]),
            _ => header[16..20].copy_from_slice(&u32::MAX.to_le_bytes()),
        }
    }
    if bad_setup {
        for _ in 0..random.pick(&[1, 1, 2, 4]) {
            break_limit(random, &mut wanted);
        }
    }
    Some((wanted, header))
}

/// 13, 6, 7, 11, 19, 8: every set of refusals that can hold together, each many times and in other ways. The first is answered, and with any but 7
/// nothing is told.
pub fn orders(pair: &mut Pair, random: &mut Random) -> Same<()> {
    for page in PAGES {
        let mut met = BTreeSet::new();
        for turn in 0..64 * 300 {
            let holds = [1, 2, 4, 8, 16, 32].map(|bit| turn & bit != 0);
            let Some((wanted, header)) = made(random, page, holds) else {
                continue;
            };
            met.insert(holds);
            let due = first(&[0, 1, 2, 3, 4, 5].map(|at| (ORDER[at], holds[at])));
            let (answer, planned) = pair.plan(wanted, &header)?;
            hold(answer == due && tells_what_is_due(answer, &planned), || {
                format!("of {ORDER:?} hold {holds:?}, and {wanted:?} gives {answer}")
            })?;
        }
        let can_be = if page == CONTROLLER_PAGE { 64 } else { 32 };
        hold(met.len() == can_be, || format!("{page:02X}h: {} sets of refusals were met", met.len()))?;
    }
    Ok(())
}

/// A plan whose arguments are mostly within the limits, from a header that mostly fits it.
fn any_plan(random: &mut Random) -> (Wanted, Vec<u8>) {
    let mut setup = singles::good_setup(random);
    let (page, da4s) = (setup.page, setup.caps & DA4S != 0);
    let near_reach = random.pick(&[0, 1, 30, 31, 31, 32, 32, 33]);
    let last = match random.up_to(3) {
        0 => generate::last_blocks(random, da4s, 12),
        1 | 2 if is_old(setup.caps) => generate::last_with(random, da4s, setup.area, near_reach),
        _ => generate::header_last(random, da4s),
    };
    let blocks = last[setup.area as usize - 1];
    if random.chance(60) {
        let room = bytes_of(blocks);
        setup.room = random.pick(&[room, room, room, room + 512, room.saturating_sub(512)]);
    }
    if random.chance(50) {
        let near = 1 + random.up_to(2 * blocks.min(8_000));
        let chunks = [near, near, blocks, blocks + 1, blocks.max(1) - 1, blocks.div_ceil(2)];
        setup.chunk = generate::chunk(random, setup.caps, &chunks.map(|chunk| chunk.clamp(1, 8_192)));
    }
    let mut header = generate::header(random, page, last);
    if random.chance(20) {
        singles::damage_header(random, page, da4s, &mut header);
    }
    for _ in 0..random.pick(&[0, 0, 0, 0, 1, 1, 2]) {
        singles::stretch_setup(random, &mut setup);
    }
    if random.chance(5) {
        header.resize(random.pick(&[0, 1, 511, 513, 1_024]), page);
    }
    (setup.wanted(), header)
}

/// A plan, and beside it one with another chunk and one with another room. Setup's refusals are the plan's, and the chunk changes no field, but
/// without extended data any chunk is 13.
pub fn plans(pair: &mut Pair, random: &mut Random) -> Same<()> {
    let (wanted, header) = any_plan(random);
    let (answer, planned) = pair.plan(wanted, &header)?;
    hold(tells_what_is_due(answer, &planned), || format!("{wanted:?} gives {answer} and tells {planned:?}"))?;
    let setup = pair.setup(wanted.setup(0, 1))?.1;
    let by_setup = [BAD_SETUP, NO_AREA_4].contains(&answer);
    hold(by_setup == (setup[0] == REFUSED) && (!by_setup || setup[1] == answer), || {
        format!("{wanted:?} gives {answer}, and to a setup {setup:?}")
    })?;
    let any = 1 + random.up_to(8_191);
    let other_chunk = Wanted { chunk: random.pick(&[1, 2, any, 8_192]), ..wanted };
    let other_room = Wanted { room: random.pick(&[0, 512, wanted.room.wrapping_add(512), ROOM]), ..wanted };
    let (chunk_answer, by_chunk) = pair.plan(other_chunk, &header)?;
    pair.plan(other_room, &header)?;
    if is_old(wanted.caps) {
        return hold(chunk_answer == BAD_SETUP, || format!("{other_chunk:?} gives {chunk_answer}"));
    }
    hold(answer != SUCCESS || by_chunk[..CHUNKS] == planned[..CHUNKS], || {
        format!("another chunk than that of {wanted:?} changes fields")
    })
}

/// The largest room.
const ROOM: u64 = 536_870_912;

/// A plan into a small copy, from a small header.
fn small_plan(random: &mut Random) -> (Wanted, Vec<u8>) {
    let (mut wanted, mut header) = any_plan(random);
    let page = if random.chance(90) { wanted.page } else { random.pick(&PAGES) };
    let most = random.pick(if is_old(wanted.caps) { &[0, 1, 6, 13, 31, 33, 40] } else { &[0, 1, 6, 13] });
    let last = generate::last_blocks(random, wanted.caps & DA4S != 0, most);
    if random.chance(80) {
        header = generate::header(random, page, last);
    }
    if header.len() == BLOCK && random.chance(15) {
        singles::damage_header(random, page, wanted.caps & DA4S != 0, &mut header);
    }
    if wanted.room % 512 == 0 && wanted.room <= ROOM {
        let blocks = last[wanted.area.clamp(1, 4) as usize - 1];
        wanted.room = bytes_of(random.pick(&[blocks, blocks, blocks + 1, blocks.saturating_sub(1), 0, 14]));
    }
    if (1..=8_192).contains(&wanted.chunk) {
        wanted.chunk = random.pick(&[1, 1, 2, 3, 5, 12, 13, 14, 8_192]);
    }
    (wanted, header)
}

/// Collections with whatever create and attempts setup takes, whose first header is the plan's: they end with its answer, or go on and send its
/// chunks.
pub fn collections(pair: &mut Pair, random: &mut Random) -> Same<()> {
    let (wanted, header) = small_plan(random);
    let (answer, planned) = pair.plan(wanted, &header)?;
    let any = 1 + random.up_to(65_534);
    for attempts in [1, random.pick(&[2, 256, any]), 65_535] {
        let create = wanted.page != CONTROLLER_PAGE && random.chance(50);
        let setup = wanted.setup(random.flag(create), attempts);
        one_collection(pair, random, setup, &header, answer, &planned)?;
    }
    Ok(())
}

/// One collection, from its setup to its end.
fn one_collection(
    pair: &mut Pair,
    random: &mut Random,
    setup: Setup,
    header: &[u8],
    answer: u8,
    planned: &[u8; PLANNED_BYTES],
) -> Same<()> {
    let what = |next: &[u8]| format!("the plan gives {answer}, {setup:?} {next:?}");
    let (mut state, next) = pair.setup(setup)?;
    if [BAD_SETUP, NO_AREA_4].contains(&answer) {
        return hold(next[..4] == [REFUSED, answer, 0, 0], || what(&next));
    }
    hold(next[0] == SEND, || what(&next))?;
    let mut copy = random.bytes(setup.room as usize);
    let next = pair.step(&mut state, 1, header, &mut copy)?;
    if header.len() != BLOCK {
        return hold(answer == BAD_HEADER && next[..4] == [REFUSED, DOES_NOT_FIT, 0, 0], || what(&next));
    }
    if answer != SUCCESS {
        let ended = next[..4] == [ENDED, answer, 0, planned[5]] && get_u64(&next, 24) == 1;
        return hold(ended && copy.iter().all(|byte| *byte == 0), || what(&next));
    }
    hold(generate::last_of(&state, 40) == generate::last_of(planned, 12), || what(&next))?;
    let blocks = get_u32(planned, 8 + 4 * setup.area as usize);
    let mut run = Undisturbed { setup, blocks, chunks: get_u32(planned, CHUNKS), sent: 0 };
    let mut area = Vec::new();
    let mut next = next;
    while next[0] == SEND {
        let data = match run.awaits_chunk(&state, &next)? {
            Some(bytes) => random.bytes(bytes),
            None => header.to_vec(),
        };
        if state[0] == CHUNK {
            area.extend(if is_old(setup.caps) { &data[BLOCK..] } else { &data[..] });
        }
        next = pair.step(&mut state, 1, &data, &mut copy)?;
    }
    area.resize(copy.len(), 0);
    hold(copy == area, || what(&next))?;
    run.ended(&next)
}

/// The phase in which a chunk is awaited.
const CHUNK: u8 = 1;

/// A collection from its first header on, with nothing that disturbs it.
struct Undisturbed {
    setup: Setup,
    /// of the wanted area
    blocks: u32,
    /// as planned
    chunks: u32,
    /// chunk commands
    sent: u32,
}

impl Undisturbed {
    /// Whether the awaited command is a chunk, and then its bytes: each starts where the one before it ended. Without extended data there is one,
    /// which starts with the header.
    fn awaits_chunk(&mut self, state: &[u8], next: &[u8; NEXT_BYTES]) -> Same<Option<usize>> {
        let words = words_of(next);
        if state[0] != CHUNK {
            return hold(words[2] == 0, || format!("a header is read at {words:X?}")).map(|()| None);
        }
        let old = is_old(self.setup.caps);
        let place = if old { 0 } else { 512 * (1 + self.sent as u64 * self.setup.chunk as u64) };
        let bytes = asked_bytes(self.setup.caps, words);
        let whole = !old || (self.sent == 0 && bytes == 512 + bytes_of(self.blocks));
        hold(words[2] as u64 == place && whole, || format!("chunk {} of {:?} is {words:X?}", self.sent, self.setup))?;
        self.sent += 1;
        Ok(Some(bytes as usize))
    }

    /// It ends well, after as many chunks as planned, the two headers and on 08h the acknowledgement.
    fn ended(&self, next: &[u8; NEXT_BYTES]) -> Same<()> {
        let commands = 2 + self.chunks as u64 + (self.setup.page == CONTROLLER_PAGE) as u64;
        let well = next[..4] == [ENDED, SUCCESS, 0, 0] && get_u64(next, 24) == commands;
        hold(well && self.sent == self.chunks, || {
            format!("{} chunks of {} planned were sent, {:?} {next:?}", self.sent, self.chunks, self.setup)
        })
    }
}

/// Long lists of chunks: areas of up to 1,048,576 blocks. The collections go through the library alone, since the pair keeps a copy of the copy at
/// every step.
pub fn long_lists(pair: &mut Pair, random: &mut Random) -> Same<()> {
    const ROWS: [(u8, u32, u32); 9] = [
        // area, its last block, chunk
        (3, 65_535, 1),
        (3, 65_535, 2),
        (3, 65_535, 65),
        (4, 65_536, 8_192),
        (4, 65_537, 8_192),
        (4, 100_001, 7),
        (4, 1_048_575, 8_191),
        (4, 1_048_576, 8_192),
        (4, 1_048_576, 1),
    ];
    let mut copy = vec![0; ROOM as usize];
    let mut chunk_bytes = random.bytes(8_192 * BLOCK);
    for (page, (area, blocks, chunk)) in PAGES.into_iter().flat_map(|page| ROWS.map(|row| (page, row))) {
        let last = [0, 1, blocks.min(AREA_3_LIMIT), blocks];
        let mut header = shown(random, page, last);
        let room = bytes_of(random.pick(&[blocks, blocks, AREA_4_LIMIT]));
        let wanted = Wanted { page, area, caps: ALL, chunk, room };
        let (answer, planned) = pair.plan(wanted, &header)?;
        hold(answer == SUCCESS, || format!("{wanted:?} gives {answer}"))?;
        let setup = wanted.setup(0, 1);
        let (mut state, mut next) = (Lent::new(&[0; STATE_BYTES], 0, false), Lent::new(&[0; NEXT_BYTES], 0, false));
        let mut run = Undisturbed { setup, blocks, chunks: get_u32(&planned, CHUNKS), sent: 0 };
        library::setup(setup, &mut state, &mut next);
        while next.bytes()[0] == SEND {
            let told = next.bytes().try_into().expect("as many bytes as were lent");
            let data = match run.awaits_chunk(state.bytes(), &told)? {
                Some(bytes) => Slice { pointer: chunk_bytes.as_mut_ptr(), length: bytes.min(chunk_bytes.len()) },
                None => Slice { pointer: header.as_mut_ptr(), length: BLOCK },
            };
            let copy = Slice { pointer: copy.as_mut_ptr(), length: room as usize };
            library::step(&mut state, 1, data, copy, &mut next);
        }
        run.ended(next.bytes().try_into().expect("as many bytes as were lent"))?;
    }
    Ok(())
}
