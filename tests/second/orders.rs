//! Orders of refusals: inputs that break several rules at once. Which answer is due follows here from document 01's list and document 02's
//! additions to it alone, so these cases are a third opinion on the order.

use crate::boundary::{get_u32, put_u32, put_u64, Setup, SEND, STATE_BYTES};
use crate::generate::{self, at, DA4S, ETDAS, EXTENDED, MCDAS, TELEMETRY};
use crate::pair::{Difference, Offer, Pair, Same, World};
use crate::random::Random;
use crate::rules::*;
use crate::singles;

/// The first answer of an order whose rule is broken, or 0.
pub fn first(order: &[(u8, bool)]) -> u8 {
    order.iter().find(|(_, broken)| *broken).map_or(SUCCESS, |(answer, _)| *answer)
}

fn expect(what: &str, due: u8, given: u8) -> Same<()> {
    if due == given {
        return Ok(());
    }
    Err(Difference(format!("{what}: both answered {given}, but the first broken rule gives {due}")))
}

/// A command that nothing is wrong with, as its parts.
struct Parts {
    world: World,
    offer: Offer,
    page: u32,
    create: bool,
    mcda: u32,
    count: u32,
    offset: u64,
    offset_type: bool,
    buffer: usize,
}

impl Parts {
    fn words(&self, retain: bool) -> Words {
        let low = self.page | (self.create as u32) << 8 | self.mcda << 9 | (retain as u32) << 15;
        let offset_type = (self.offset_type as u32) << 23;
        [low | self.count << 16, self.count >> 16, self.offset as u32, (self.offset >> 32) as u32, offset_type]
    }
}

/// On 08h create and MCDA are set too, since they count for nothing there.
fn good_parts(random: &mut Random) -> Parts {
    let caps = EXTENDED | TELEMETRY | MCDAS | random.pick(&[0, DA4S, ETDAS, DA4S | ETDAS]);
    let mut world = generate::world(random, caps);
    let host_page = random.chance(60);
    let create = random.chance(70);
    world.host_store = random.bytes(world.host_store.len() + 3 * BLOCK);
    let a3 = 1 + random.up_to(2);
    let offer = Offer { last: [0, a3, a3, a3], bytes: random.bytes(a3 as usize * BLOCK), reason: random.bytes(REASON) };
    let blocks = 1 + random.up_to(2);
    Parts {
        world,
        offer,
        page: if host_page { HOST_PAGE } else { CONTROLLER_PAGE } as u32,
        create,
        mcda: if create { random.up_to(4) } else { random.up_to(7) },
        count: 128 * blocks - 1,
        offset: 0,
        offset_type: false,
        buffer: blocks as usize * BLOCK + random.pick(&[0, 0, 1, 512]),
    }
}

/// A record that disagrees, or a damaged one.
fn break_agreement(random: &mut Random, world: &mut World) {
    match random.up_to(6) {
        0 => world.record[at::HOST_SCOPE] = 0,
        1 => world.record[at::CONTROLLER_SCOPE] = 3,
        2 => world.record[at::AVAILABLE] = 2,
        3 => world.record[at::CAPS] |= random.pick(&[32, 128]),
        4 => world.record[at::NOTICE] = random.pick(&[2, 255]),
        5 => world.record[at::ZERO] = random.pick(&[1, 128]),
        _ => put_u32(&mut world.record, at::OUI, 0x0100_0000),
    }
}

fn break_page(random: &mut Random, parts: &mut Parts) {
    if random.chance(50) {
        parts.page = random.pick(&[0x00, 0x06, 0x09, 0x24, 0x82, 0xC7]);
    } else {
        parts.world.record[at::CAPS] &= !TELEMETRY;
    }
}

/// One of the rules of the first 1.
fn break_field(random: &mut Random, parts: &mut Parts) {
    let creates = parts.page == HOST_PAGE as u32 && parts.create;
    match random.up_to(4) {
        0 => parts.offset_type = true,
        1 => parts.count -= random.pick(&[1, 64, 127]),
        2 => parts.offset += random.pick(&[1, 4, 256, 511]),
        3 if creates => parts.mcda = 5 + random.up_to(2),
        _ => {
            parts.world.record[at::CAPS] &= !EXTENDED;
            parts.offset = 512;
        }
    }
}

/// 4; 2; 1; 5; 1; 3.
pub fn commands(pair: &mut Pair, random: &mut Random) -> Same<()> {
    let mut parts = good_parts(random);
    let [disagree, page, field, broken, beyond, short] = [(); 6].map(|()| random.chance(30));
    let creates = parts.create && parts.page == HOST_PAGE as u32;
    if beyond {
        parts.offset = random.pick(&[512 * 2_000, 1 << 32, u64::MAX - 511]);
    }
    if field {
        break_field(random, &mut parts);
    }
    if broken {
        parts.offer.reason.truncate(127);
    }
    if short {
        parts.buffer =
            random.pick(&[0, 511, 512 * (parts.count as usize / 128 + 1) - 1]).min(4 * parts.count as usize + 3);
    }
    if page {
        break_page(random, &mut parts);
    }
    if disagree {
        break_agreement(random, &mut parts.world);
    }
    let due = first(&[
        (DISAGREE, disagree),
        (INVALID_LOG_PAGE, page),
        (INVALID_FIELD, field),
        (BROKEN_CANDIDATE, broken && creates),
        (INVALID_FIELD, beyond),
        (SHORT_BUFFER, short),
    ]);
    let words = parts.words(random.chance(50));
    let mut buffer = random.bytes(parts.buffer);
    let (given, _) = pair.command(&mut parts.world, &parts.offer, words, &mut buffer)?;
    expect("order of a command", due, given)
}

/// For a capture: 4, 5.
pub fn captures(pair: &mut Pair, random: &mut Random) -> Same<()> {
    let Parts { mut world, mut offer, .. } = good_parts(random);
    world.controller_store.extend([1; 3 * BLOCK]);
    let [disagree, broken] = [(); 2].map(|()| random.chance(40));
    if broken && random.chance(50) {
        // Whole on 07h: only 08h asks for an area 3.
        offer = Offer { last: [0; 4], bytes: Vec::new(), reason: offer.reason };
    } else if broken {
        generate::break_offer(random, &mut offer);
    }
    if disagree {
        break_agreement(random, &mut world);
    }
    let given = pair.capture(&mut world, &offer)?;
    expect("order of a capture", first(&[(DISAGREE, disagree), (BROKEN_CANDIDATE, broken)]), given)
}

/// A drop is 4 or 0, whatever the capabilities are; 0 zeroes the host's last blocks and reason and leaves every other byte.
pub fn drops(pair: &mut Pair, random: &mut Random) -> Same<()> {
    let caps = random.byte() & 31;
    let mut world = generate::world(random, caps);
    let disagree = random.chance(30);
    if disagree {
        break_agreement(random, &mut world);
    }
    let mut due = world.clone();
    if !disagree {
        due.record[at::HOST_LAST..at::CONTROLLER_LAST].fill(0);
        due.record[at::REASONS..at::CONTROLLER_REASON].fill(0);
    }
    let given = pair.drop_host_data(&mut world)?;
    expect("a drop", first(&[(DISAGREE, disagree)]), given)?;
    let same = world.record == due.record
        && world.host_store == due.host_store
        && world.controller_store == due.controller_store;
    expect("whether a drop leaves what it must", 1, same as u8)
}

/// 13 before 6.
pub fn setups(pair: &mut Pair, random: &mut Random) -> Same<()> {
    let mut setup = singles::good_setup(random);
    let [bad, no_area_4] = [(); 2].map(|()| random.chance(50));
    if no_area_4 {
        setup.area = 4;
        setup.caps &= !random.pick(&[DA4S, ETDAS, DA4S | ETDAS]);
    }
    if bad {
        match random.up_to(6) {
            0 => setup.page = random.pick(&[6, 9]),
            1 => (setup.page, setup.create) = (CONTROLLER_PAGE, 1),
            2 => singles::mismatch_chunk(random, &mut setup.caps, &mut setup.chunk),
            3 => setup.attempts = random.pick(&[0, 65_536]),
            4 => setup.room = random.pick(&[1, 513, 536_871_424]),
            5 => setup.caps &= !TELEMETRY,
            _ => setup.area = random.pick(&[0, 5]),
        }
    }
    let (_, next) = pair.setup(setup)?;
    expect("order of a setup", first(&[(BAD_SETUP, bad), (NO_AREA_4, no_area_4)]), next[1])
}

/// A state that awaits a header, made by hand.
pub fn header_state(setup: Setup, phase: u8, attempt: u32, generation: u8, last: LastBlocks) -> [u8; STATE_BYTES] {
    let mut state = [0; STATE_BYTES];
    state[0] = phase;
    state[1] = setup.page;
    state[2] = (setup.create != 0) as u8;
    state[3] = setup.area;
    state[4] = setup.caps;
    state[5] = generation;
    put_u32(&mut state, 8, setup.chunk);
    put_u32(&mut state, 12, setup.attempts);
    put_u32(&mut state, 16, attempt);
    put_u64(&mut state, 24, setup.room);
    put_u64(&mut state, 32, 3);
    generate::put_last(&mut state, 40, last);
    state
}

/// A plan whose copy has `blocks` blocks.
pub fn small_setup(random: &mut Random, blocks: u64) -> Setup {
    let setup = singles::good_setup(random);
    Setup { room: 512 * blocks, chunk: generate::chunk(random, setup.caps, &[1, 2, 3, 5, 8_192]), ..setup }
}

/// Makes a state that holds the areas (1,1,2,3) a bad one. Without extended data an area past block 31 is bad in any phase and any room, and a
/// chunk at any block but 1.
fn break_state(random: &mut Random, setup: Setup, state: &mut [u8; STATE_BYTES]) {
    let (old, chunk) = (generate::is_old(setup.caps), state[0] == 1);
    match random.up_to(8) {
        0 => state[1] = 9,
        1 => state[3] = random.pick(&[0, 5]),
        2 => put_u32(state, 16, random.pick(&[0, setup.attempts + 1])),
        3 => put_u64(state, 32, 3 + setup.attempts as u64 * 1_048_577),
        4 if old => generate::put_last(state, 40, [random.pick(&[32, 33, 40, 1 << 20]); 4]),
        5 if old && chunk => put_u32(state, 20, random.pick(&[0, 2, 3, 31, u32::MAX])),
        5 if chunk => put_u32(state, 20, random.pick(&[0, 4, 5, u32::MAX])),
        6 => generate::put_last(state, 40, [(setup.room / 512) as u32 + 1; 4]),
        7 if chunk => generate::put_last(state, 40, [0; 4]),
        _ => {
            let (mut caps, mut chunk) = (state[4], setup.chunk);
            singles::mismatch_chunk(random, &mut caps, &mut chunk);
            state[4] = caps;
            put_u32(state, 8, chunk);
        }
    }
}

/// 14, 13, 15.
pub fn steps(pair: &mut Pair, random: &mut Random) -> Same<()> {
    let blocks = random.pick(&[4, 40]);
    let setup = small_setup(random, blocks as u64);
    let [ended, bad, unfit] = [(); 3].map(|()| random.chance(50));
    let (phase, last) = (random.pick(&[0, 1, 1, 2, 3, 4]), [1, 1, 2, 3]);
    let mut state = header_state(setup, phase, setup.attempts, 9, last);
    let mut data = generate::header(random, setup.page, [1, 1, 2, 0]);
    if phase == 1 {
        put_u32(&mut state, 20, 1);
        let wanted = last[setup.area as usize - 1];
        let due = if generate::is_old(setup.caps) { 1 + wanted } else { wanted.min(setup.chunk) };
        data = random.bytes(due as usize * BLOCK);
    }
    let mut copy = random.bytes(blocks * BLOCK);
    if bad {
        break_state(random, setup, &mut state);
    }
    if unfit {
        match random.up_to(2) {
            0 => data.truncate(random.pick(&[0, 511, data.len() - 1, data.len() - BLOCK])),
            1 => copy.truncate(random.pick(&[0, 512, 2_047])),
            _ => copy.extend([1; BLOCK]),
        }
    }
    if ended {
        state[0] = 5;
        put_u32(&mut state, 20, 0);
    }
    let due = first(&[(ALREADY_ENDED, ended), (BAD_SETUP, bad), (DOES_NOT_FIT, unfit)]);
    let next = pair.step(&mut state, 1, &data, &mut copy)?;
    let refusals = [ALREADY_ENDED, BAD_SETUP, DOES_NOT_FIT];
    let given = if refusals.contains(&next[1]) { next[1] } else { SUCCESS };
    expect("order of a step", due, given)
}

/// Breaks a header in a way that leaves TCDA, generation and the wanted area.
pub fn break_header(random: &mut Random, page: u8, header: &mut [u8]) {
    match random.up_to(2) {
        0 => header[0] = random.pick(&[0, 9, 15 - page]),
        1 => header[if page == HOST_PAGE { 380 } else { 381 }] |= random.pick(&[4, 128]),
        _ => header[16..20].copy_from_slice(&1_048_577u32.to_le_bytes()),
    }
}

/// The same last block in every area, but none in area 4 without DA4S.
fn even_last(setup: Setup, blocks: u32) -> LastBlocks {
    let fourth = if setup.caps & DA4S != 0 { blocks } else { 0 };
    [blocks, blocks, blocks, fourth]
}

/// A good header of these last blocks, with data available.
fn plain_header(random: &mut Random, setup: Setup, last: LastBlocks, generation: u8) -> Vec<u8> {
    let mut header = generate::header(random, setup.page, last);
    header[382] = 1;
    header[if setup.page == HOST_PAGE { 381 } else { 383 }] = generation;
    header
}

/// The last block of a header's wanted area, past block 31 or not, and a copy's room in blocks, at least one and less than that or not.
fn area_and_room(random: &mut Random, far: bool, large: bool) -> (u32, u32) {
    let blocks = if far { random.pick(&[32, 32, 33, 64, 300]) } else { random.pick(&[2, 3, 30, 31, 31]) };
    let room = if large { random.pick(&[1, blocks / 2, blocks - 1]) } else { blocks + random.pick(&[0, 0, 1, 5]) };
    (blocks, room)
}

/// At a first header: 7, 11, 19, 8.
pub fn first_headers(pair: &mut Pair, random: &mut Random) -> Same<()> {
    let setup = small_setup(random, 0);
    let holds = [(); 4].map(|()| random.chance(50));
    first_header(pair, random, setup, holds)
}

/// A first header for which just these hold: it is bad, shows no data available, its area is past block 31, its area is larger than the copy.
/// With extended data there is no 19.
fn first_header(pair: &mut Pair, random: &mut Random, setup: Setup, holds: [bool; 4]) -> Same<()> {
    let [bad, nothing, far, large] = holds;
    let (blocks, room) = area_and_room(random, far, large);
    let setup = Setup { room: bytes_of(room), ..setup };
    let mut state = header_state(setup, 0, 1, 0, [0; 4]);
    let generation = random.byte();
    let mut header = plain_header(random, setup, even_last(setup, blocks), generation);
    if nothing {
        header[382] = 0;
    }
    if bad {
        break_header(random, setup.page, &mut header);
    }
    let mut copy = random.bytes(setup.room as usize);
    let next = pair.step(&mut state, 1, &header, &mut copy)?;
    let nothing = nothing && setup.page == CONTROLLER_PAGE;
    let far = far && generate::is_old(setup.caps);
    let due = first(&[(BAD_HEADER, bad), (NOTHING, nothing), (OUT_OF_REACH, far), (NO_ROOM, large)]);
    expect("order at a first header", due, next[1])?;
    expect("the attempt after a first header", 1, get_u32(&state, 16) as u8)
}

/// At a later header: 7, 10, then on mismatch 9, else 19, 8; on a match after a refused chunk 12.
pub fn later_headers(pair: &mut Pair, random: &mut Random) -> Same<()> {
    let setup = small_setup(random, 0);
    let phase = random.pick(&[2, 3]);
    let holds = [(); 6].map(|()| random.chance(50));
    later_header(pair, random, setup, phase, holds)
}

/// A later header for which just these hold: it is bad, shows no data available, its generation is another, no attempt is left, its area is past
/// block 31, its area is larger than the copy. The attempt's own area is not larger, nor in an old run past block 31, so these make a mismatch.
fn later_header(pair: &mut Pair, random: &mut Random, setup: Setup, phase: u8, holds: [bool; 6]) -> Same<()> {
    let [bad, withdrawn, captured, used_up, far, large] = holds;
    let (blocks, room) = area_and_room(random, far, large);
    let setup = Setup { room: bytes_of(room), attempts: setup.attempts.max(2), ..setup };
    let far = far && generate::is_old(setup.caps);
    let attempt = if used_up { setup.attempts } else { 1 + random.up_to(setup.attempts - 2) };
    let generation = random.byte();
    let small = 1 + random.up_to(room.min(31) - 1);
    let held = if far || large { small } else { random.pick(&[blocks, blocks, small]) };
    let mut state = header_state(setup, phase, attempt, generation, even_last(setup, held));
    let mismatch = captured || blocks != held;
    let shown = generation.wrapping_add(captured as u8 * random.pick(&[1, 255, 128]));
    let mut header = plain_header(random, setup, even_last(setup, blocks), shown);
    if withdrawn {
        header[382] = 0;
    }
    if bad {
        break_header(random, setup.page, &mut header);
    }
    let mut copy = random.bytes(setup.room as usize);
    let next = pair.step(&mut state, 1, &header, &mut copy)?;
    let due = first(&[
        (BAD_HEADER, bad),
        (WITHDRAWN, withdrawn && setup.page == CONTROLLER_PAGE),
        (BROKE_ITS_WORD, !mismatch && phase == 3),
        (ATTEMPTS_USED_UP, mismatch && used_up),
        (OUT_OF_REACH, mismatch && far),
        (NO_ROOM, mismatch && large),
    ]);
    expect("order at a later header", due, next[1])?;
    let goes_on = due == SUCCESS && (mismatch || setup.page == CONTROLLER_PAGE);
    expect("whether a later header is followed by a command", goes_on as u8, (next[0] == SEND) as u8)?;
    let is_next = (due == SUCCESS && mismatch) || [OUT_OF_REACH, NO_ROOM].contains(&due);
    let moved = get_u32(&state, 16) - attempt;
    expect("whether a later header is the next attempt's", is_next as u8, moved as u8)
}

/// Every set of what can hold at a first header and at a later one, each some times and in other ways, on both pages, with extended data and
/// without.
pub fn headers(pair: &mut Pair, random: &mut Random) -> Same<()> {
    for (page, old) in [(HOST_PAGE, false), (HOST_PAGE, true), (CONTROLLER_PAGE, false), (CONTROLLER_PAGE, true)] {
        for turn in 0..64 * 40 {
            let mut setup = small_setup(random, 0);
            while setup.page != page || generate::is_old(setup.caps) != old {
                setup = small_setup(random, 0);
            }
            let [bad, nothing, captured, used_up, far, large] = [1, 2, 4, 8, 16, 32].map(|bit| turn & bit != 0);
            first_header(pair, random, setup, [bad, nothing, far, large])?;
            for phase in [2, 3] {
                later_header(pair, random, setup, phase, [bad, nothing, captured, used_up, far, large])?;
            }
        }
    }
    Ok(())
}

/// What alone differs between the attempt's header and a later one.
#[derive(Clone, Copy)]
enum Differs {
    Nothing,
    Generation,
    /// the last block of the area at this index
    Last(usize),
}

/// Moves one last block of an attempt's header by one. Without DA4S a header shows no area 4, but a state may hold one.
fn moved_last(random: &mut Random, mut last: LastBlocks, index: usize) -> LastBlocks {
    last[index] = if last[index] > 0 && random.chance(50) { last[index] - 1 } else { last[index] + 1 };
    last
}

/// A later header matches by the generation and all four last blocks: each of the five is changed alone, and without a change a header of
/// any other reason, scope, OUI and other page's generation matches. After a refused chunk a match is 12, and nothing else is.
pub fn matches(pair: &mut Pair, random: &mut Random) -> Same<()> {
    let setup = Setup { attempts: 2 + random.up_to(3), ..small_setup(random, 12) };
    let differs = random.pick(&[
        Differs::Nothing,
        Differs::Nothing,
        Differs::Generation,
        Differs::Last(0),
        Differs::Last(1),
        Differs::Last(2),
        Differs::Last(3),
    ]);
    let (generation, mut shown) = (random.byte(), [2, 4, 6, 8]);
    if setup.caps & DA4S == 0 {
        shown[3] = 0;
    }
    let (held_generation, held) = match differs {
        Differs::Nothing => (generation, shown),
        Differs::Generation => (generation.wrapping_add(random.pick(&[1, 128, 255])), shown),
        Differs::Last(index) => (generation, moved_last(random, shown, index)),
    };
    let (phase, attempt) = (random.pick(&[2, 3]), 1 + random.up_to(setup.attempts - 1));
    let mut state = header_state(setup, phase, attempt, held_generation, held);
    let header = plain_header(random, setup, shown, generation);
    let mut copy = random.bytes(12 * BLOCK);
    let next = pair.step(&mut state, 1, &header, &mut copy)?;
    let match_due = matches!(differs, Differs::Nothing);
    let used_up = attempt == setup.attempts;
    let refused_chunk = phase == 3;
    let due = first(&[(BROKE_ITS_WORD, match_due && refused_chunk), (ATTEMPTS_USED_UP, !match_due && used_up)]);
    expect("a header that is to be matched", due, next[1])?;
    // 1: the first chunk of the next attempt; 4: the acknowledgement; 5: the end.
    let phase_due = match (due, match_due, setup.page) {
        (SUCCESS, false, _) => 1,
        (SUCCESS, true, CONTROLLER_PAGE) => 4,
        _ => 5,
    };
    expect("what a state awaits after a header that is to be matched", phase_due, state[0])
}
