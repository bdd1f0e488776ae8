//! Single calls on random inputs.

use crate::boundary::{Setup, Wanted, REFUSED};
use crate::generate::{self, at, DA4S, ETDAS, EXTENDED, TELEMETRY};
use crate::pair::{Difference, Pair, Same, World};
use crate::random::Random;
use crate::rules::{ALREADY_ENDED, BLOCK, CONTROLLER_PAGE, DISAGREE, HOST_PAGE, SUCCESS};

/// All identifiers, and the counts that document 01 gives.
pub fn classes(pair: &mut Pair, _: &mut Random) -> Same<()> {
    let mut counts = [0; 4];
    for page in 0..=255 {
        counts[pair.class(page)? as usize & 3] += 1;
    }
    if counts != [42, 64, 64, 86] {
        return Err(Difference(format!("the counts of the classes are {counts:?}")));
    }
    Ok(())
}

pub fn statuses(pair: &mut Pair, _: &mut Random) -> Same<()> {
    (0..=255).try_for_each(|answer| pair.status(answer).map(|_| ()))
}

pub fn fresh(pair: &mut Pair, random: &mut Random) -> Same<()> {
    let any = random.byte();
    let caps = random.pick(&[any, any & 31, any & 31, 31, 32, 0]);
    let any = random.u32();
    let oui = random.pick(&[any, any >> 8, any >> 8, 0, 0x00FF_FFFF, 0x0100_0000]);
    let any = random.byte();
    let host_scope = random.pick(&[1, 1, 2, 2, 0, 3, any]);
    let controller_scope = random.pick(&[1, 1, 2, 2, 0, 3, any]);
    pair.fresh(caps, oui, host_scope, controller_scope).map(|_| ())
}

fn page_asked(random: &mut Random) -> u8 {
    let any = random.byte();
    random.pick(&[HOST_PAGE, HOST_PAGE, HOST_PAGE, CONTROLLER_PAGE, CONTROLLER_PAGE, CONTROLLER_PAGE, any])
}

/// Largest plans from headers: from a good one, then from one with a damage, or of another length, page or DA4S.
pub fn headers(pair: &mut Pair, random: &mut Random) -> Same<()> {
    let page = page_asked(random);
    let caps = TELEMETRY | random.pick(&[0, EXTENDED, EXTENDED]) | random.pick(&[0, ETDAS, DA4S, DA4S | ETDAS]);
    let da4s = caps & DA4S != 0;
    let last = generate::header_last(random, da4s);
    let mut header = generate::header(random, page, last);
    let wanted = Wanted::largest(page, caps);
    pair.plan(wanted, &header)?;
    for _ in 0..random.pick(&[1, 1, 1, 2]) {
        damage_header(random, page, da4s, &mut header);
    }
    pair.plan(wanted, &header)?;
    let length = random.up_to(600) as usize;
    let length = random.pick(&[0, 1, 511, 512, 513, 384, length]);
    header.resize(length, page);
    pair.plan(wanted, &header)?;
    pair.plan(Wanted::largest(page, caps ^ DA4S), &header).map(|_| ())
}

pub fn damage_header(random: &mut Random, page: u8, da4s: bool, header: &mut [u8]) {
    let mut last = generate::header_last(random, da4s);
    match random.up_to(9) {
        0 => header[0] = random.pick(&[0, 7, 8, 9, !page]),
        1 => header[380] = random.pick(&[0, 2, 3, 255]),
        2 => header[381] = random.pick(&[0, 2, 3, 255]),
        3 => header[382] = random.pick(&[0, 1, 2, 255]),
        4 => {
            header[8..14].fill(0);
            header[382] = 1;
        }
        5 => header[16..20].copy_from_slice(&random.pick(&[0u32, 1, 1_048_576, 1_048_577, u32::MAX]).to_le_bytes()),
        6 => header[random.pick(&[8, 9, 10, 11, 12, 13, 16, 17, 18, 19])] = random.byte(),
        7 => header[random.up_to(511) as usize] = random.byte(),
        _ => {
            generate::break_rule(random, &mut last, da4s);
            let fresh = generate::header(random, page, last);
            header[8..20].copy_from_slice(&fresh[8..20]);
        }
    }
}

/// Builder arguments at and around each limit: good ones, of which one or two are then moved.
pub fn builder(pair: &mut Pair, random: &mut Random) -> Same<()> {
    let mut page = random.pick(&[HOST_PAGE, CONTROLLER_PAGE]);
    let mut create = page == HOST_PAGE && random.chance(50);
    let mut mcda = if create { random.up_to(4) as u8 } else { 0 };
    let near = random.up_to(1_048_576);
    let mut offset = random.pick(&[0, 1, near, near, 1_048_575, 1_048_576]);
    let near = 1 + random.up_to(8_191);
    let mut blocks = random.pick(&[1, 2, near, near, 512, 513, 8_191, 8_192]);
    for _ in 0..random.pick(&[0, 1, 1, 2]) {
        let (byte, number) = (random.byte(), random.u32());
        match random.up_to(4) {
            0 => page = random.pick(&[HOST_PAGE, CONTROLLER_PAGE, 0, 6, 9, byte]),
            1 => create = !create,
            2 => mcda = random.pick(&[0, 1, 4, 5, 8, byte]),
            3 => offset = random.pick(&[1_048_576, 1_048_577, 1 << 23, u32::MAX, number]),
            _ => blocks = random.pick(&[0, 8_192, 8_193, 1 << 25, u32::MAX, number]),
        }
    }
    let create = random.flag(create);
    let rae = random.chance(50);
    let rae = random.flag(rae);
    pair.words(page, create, mcda, rae, offset, blocks).map(|_| ())
}

/// A plan that setup takes, one in four of an old run.
pub fn good_setup(random: &mut Random) -> Setup {
    let page = random.pick(&[HOST_PAGE, CONTROLLER_PAGE]);
    let create = page == HOST_PAGE && random.chance(50);
    let area = 1 + random.up_to(3) as u8;
    let mut caps = (random.byte() & 31) | EXTENDED | TELEMETRY;
    if area == 4 {
        caps |= DA4S | ETDAS;
    }
    if random.chance(25) {
        caps &= !EXTENDED;
    }
    let near = 1 + random.up_to(8_191);
    let attempts = 1 + random.up_to(65_534);
    let room = random.up_to(1_048_576) as u64 * 512;
    Setup {
        page,
        create: random.flag(create),
        area,
        caps,
        chunk: generate::chunk(random, caps, &[1, 2, near, 8_191, 8_192]),
        attempts: random.pick(&[1, 2, attempts, 255, 256, 257, 65_534, 65_535]),
        room: random.pick(&[0, 512, room, 536_870_400, 536_870_912]),
    }
}

/// Makes of capabilities and chunk two that no setup takes together: with extended data none or too many blocks a command, without it any.
pub fn mismatch_chunk(random: &mut Random, caps: &mut u8, chunk: &mut u32) {
    if random.chance(50) {
        *caps |= EXTENDED;
        *chunk = random.pick(&[0, 0, 8_193, 1 << 16, u32::MAX]);
    } else {
        *caps &= !EXTENDED;
        *chunk = random.pick(&[1, 2, 31, 32, 8_192, 8_193, u32::MAX]);
    }
}

/// Moves one argument of a setup to a limit or over it.
pub fn stretch_setup(random: &mut Random, setup: &mut Setup) {
    let byte = random.byte();
    match random.up_to(9) {
        0 => setup.page = random.pick(&[0, 6, 7, 8, 9, byte]),
        1 => setup.create = random.pick(&[0, 1, 2, 255]),
        2 => setup.area = random.pick(&[0, 1, 4, 5, byte]),
        3 => setup.caps = random.pick(&[byte, byte & 31, 32, 255, setup.caps | 32]),
        4 => setup.caps &= !random.pick(&[EXTENDED, TELEMETRY, DA4S, ETDAS]),
        5 => setup.chunk = random.pick(&[0, 1, 8_192, 8_193, u32::MAX]),
        6 => setup.attempts = random.pick(&[0, 1, 257, 65_535, 65_536, 65_537, u32::MAX]),
        7 => setup.room = random.pick(&[0, 1, 256, 511, 513, 536_870_911, 536_870_912]),
        8 => setup.caps ^= EXTENDED,
        _ => {
            setup.room =
                random.pick(&[536_870_913, 536_871_424, 1 << 32, (1 << 32) + 512, 1 << 63, u64::MAX, u64::MAX - 511])
        }
    }
}

/// A good setup, then one at or over a limit. A refused one gives an ended state: a step from it is 14.
pub fn setups(pair: &mut Pair, random: &mut Random) -> Same<()> {
    let mut setup = good_setup(random);
    pair.setup(setup)?;
    for _ in 0..random.pick(&[1, 1, 1, 2, 3]) {
        stretch_setup(random, &mut setup);
    }
    let (mut state, next) = pair.setup(setup)?;
    if next[0] == REFUSED {
        let next = pair.step(&mut state, 0, &[], &mut Vec::new())?;
        if next[1] != ALREADY_ENDED {
            return Err(Difference(format!("a step after a refused setup gives {}: {setup:?}", next[1])));
        }
    }
    Ok(())
}

/// Some commands in a row on one drive, which mostly agrees.
pub fn commands(pair: &mut Pair, random: &mut Random) -> Same<()> {
    let caps = generate::caps(random);
    let mut world = generate::world(random, caps);
    if random.chance(5) {
        generate::damage_world(random, &mut world);
    }
    for _ in 0..4 {
        let mut offer = generate::offer(random, world.host_store.len());
        if random.chance(15) {
            generate::break_offer(random, &mut offer);
        }
        let words = generate::words(random, &world, &offer);
        let mut buffer = generate::buffer(random, caps, words);
        pair.command(&mut world, &offer, words, &mut buffer)?;
    }
    Ok(())
}

/// Some captures in a row, with a command between them that may read them and clear them.
pub fn captures(pair: &mut Pair, random: &mut Random) -> Same<()> {
    let caps = generate::caps(random);
    let mut world = generate::world(random, caps);
    if random.chance(10) {
        generate::damage_world(random, &mut world);
    }
    for _ in 0..3 {
        let mut offer = generate::offer(random, world.controller_store.len());
        if random.chance(20) {
            generate::break_offer(random, &mut offer);
        }
        pair.capture(&mut world, &offer)?;
        let words = generate::words(random, &world, &offer);
        let mut buffer = generate::buffer(random, caps, words);
        pair.command(&mut world, &offer, words, &mut buffer)?;
    }
    Ok(())
}

/// Some drops in a row, with captures and commands between them, on a drive that mostly agrees; then one with other bytes in its record.
pub fn drops(pair: &mut Pair, random: &mut Random) -> Same<()> {
    let caps = generate::caps(random);
    let mut world = generate::world(random, caps);
    if random.chance(15) {
        generate::damage_world(random, &mut world);
    }
    for _ in 0..random.pick(&[1, 2, 2, 4]) {
        pair.drop_host_data(&mut world)?;
        between_drops(pair, random, &mut world)?;
    }
    generate::scramble_record(random, &mut world);
    pair.drop_host_data(&mut world)?;
    between_drops(pair, random, &mut world)
}

/// Nothing, a capture, a command, or both.
fn between_drops(pair: &mut Pair, random: &mut Random, world: &mut World) -> Same<()> {
    let offer = generate::any_offer(random, world.host_store.len().min(world.controller_store.len()));
    if random.chance(40) {
        pair.capture(world, &offer)?;
    }
    if random.chance(70) {
        let words = generate::words(random, world, &offer);
        let mut buffer = generate::buffer(random, world.record[at::CAPS], words);
        pair.command(world, &offer, words, &mut buffer)?;
    }
    Ok(())
}

/// Every length of either store up to some bytes more than its last blocks need: a drop is 4 as long as the store is too short.
pub fn store_lengths(pair: &mut Pair, random: &mut Random) -> Same<()> {
    const BLOCKS: u32 = 2;
    let needed = BLOCKS as usize * BLOCK;
    let mut world = generate::world(random, EXTENDED | TELEMETRY);
    generate::put_last(&mut world.record, at::HOST_LAST, [0, 1, BLOCKS, 0]);
    generate::put_last(&mut world.record, at::CONTROLLER_LAST, [1, 1, BLOCKS, 0]);
    world.record[at::AVAILABLE] = 1;
    for length in 0..=needed + 40 {
        for (host_bytes, controller_bytes) in [(length, needed), (needed, length)] {
            let host_store = random.bytes(host_bytes);
            let controller_store = random.bytes(controller_bytes);
            let mut lent = World { record: world.record, host_store, controller_store };
            let given = pair.drop_host_data(&mut lent)?;
            let due = if length < needed { DISAGREE } else { SUCCESS };
            if given != due {
                return Err(Difference(format!(
                    "a drop with stores of {host_bytes} and {controller_bytes} gives {given}"
                )));
            }
        }
    }
    Ok(())
}

/// A record that disagrees or is damaged: 4 from commands, captures and drops alike, and nothing else is changed.
pub fn damaged(pair: &mut Pair, random: &mut Random) -> Same<()> {
    let caps = generate::caps(random);
    let mut world = generate::world(random, caps);
    generate::damage_world(random, &mut world);
    let offer = generate::any_offer(random, world.controller_store.len());
    let words = generate::words(random, &world, &offer);
    let mut buffer = generate::buffer(random, caps, words);
    pair.command(&mut world, &offer, words, &mut buffer)?;
    pair.capture(&mut world, &offer)?;
    pair.drop_host_data(&mut world).map(|_| ())
}
