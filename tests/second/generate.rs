//! Random records, stores, candidates, headers, command words and buffers: mostly sane ones, near the edges that the rules name.

use crate::boundary::{get_u32, put_u32, RECORD_BYTES};
use crate::pair::{Offer, World};
use crate::random::Random;
use crate::rules::{LastBlocks, Words, BLOCK, CONTROLLER_PAGE, HOST_PAGE, REASON};

/// Bits of a capabilities byte.
pub const EXTENDED: u8 = 1;
pub const TELEMETRY: u8 = 2;
pub const DA4S: u8 = 4;
pub const ETDAS: u8 = 8;
pub const MCDAS: u8 = 16;

/// Where a record's fields stand.
pub mod at {
    pub const CAPS: usize = 0;
    pub const HOST_SCOPE: usize = 1;
    pub const CONTROLLER_SCOPE: usize = 2;
    pub const HOST_GENERATION: usize = 3;
    pub const CONTROLLER_GENERATION: usize = 4;
    pub const AVAILABLE: usize = 5;
    pub const NOTICE: usize = 6;
    pub const ZERO: usize = 7;
    pub const OUI: usize = 8;
    pub const HOST_LAST: usize = 12;
    pub const CONTROLLER_LAST: usize = 28;
    pub const REASONS: usize = 44;
    pub const CONTROLLER_REASON: usize = 172;
}

pub fn last_of(record: &[u8], at: usize) -> LastBlocks {
    [get_u32(record, at), get_u32(record, at + 4), get_u32(record, at + 8), get_u32(record, at + 12)]
}

pub fn put_last(record: &mut [u8], at: usize, last: LastBlocks) {
    for (index, number) in last.into_iter().enumerate() {
        put_u32(record, at + 4 * index, number);
    }
}

/// Capabilities of a drive that can mostly do what a collection needs.
pub fn caps(random: &mut Random) -> u8 {
    let mut caps = random.byte() & 31;
    if random.chance(80) {
        caps |= EXTENDED;
    }
    if random.chance(90) {
        caps |= TELEMETRY;
    }
    if random.chance(30) {
        caps |= DA4S | ETDAS;
    }
    caps
}

/// Whether a drive of these capabilities is collected in an old run: it has no extended data.
pub fn is_old(caps: u8) -> bool {
    caps & EXTENDED == 0
}

/// Blocks a command: one of these, or for an old run 0, since it takes none.
pub fn chunk(random: &mut Random, caps: u8, from: &[u32]) -> u32 {
    let chunk = random.pick(from);
    if is_old(caps) {
        0
    } else {
        chunk
    }
}

/// How large areas are at most where no block past 31 is reached: a good share of them are about so large.
fn old_scale(random: &mut Random) -> u32 {
    random.pick(&[1, 3, 5, 5, 5, 12, 12, 31, 33, 33, 40, 64])
}

/// How large areas are at most: mostly a few blocks, now and then so many that a count needs CDW11.
pub fn scale(random: &mut Random) -> u32 {
    match random.up_to(399) {
        0 => 700,
        1..=12 => 40,
        13..=120 => 12,
        _ => 5,
    }
}

/// Last blocks that keep the rules.
pub fn last_blocks(random: &mut Random, da4s: bool, most: u32) -> LastBlocks {
    let mut areas = [random.up_to(most), random.up_to(most), random.up_to(most)];
    areas.sort_unstable();
    let [a1, a2, a3] = areas;
    let a4 = if da4s && a3 > 0 { a3 + random.up_to(most) } else { 0 };
    [a1, a2, a3, a4]
}

/// Last blocks that keep the rules, the last of this area being this one.
pub fn last_with(random: &mut Random, da4s: bool, area: u8, blocks: u32) -> LastBlocks {
    let mut last = [blocks; 4];
    for index in (0..area as usize - 1).rev() {
        last[index] = random.up_to(last[index + 1]);
    }
    if area == 4 {
        last[2] = last[2].max(blocks.min(1));
    }
    for index in area as usize..4 {
        last[index] = last[index - 1] + random.up_to(2);
    }
    if !da4s || last[2] == 0 {
        last[3] = 0;
    }
    last
}

fn generation(random: &mut Random) -> u8 {
    let any = random.byte();
    random.pick(&[any, any, 0, 254, 255])
}

/// A store that holds these last blocks, with nothing, a few bytes or some blocks to spare.
fn store(random: &mut Random, last: LastBlocks, most: u32) -> Vec<u8> {
    let held = last.into_iter().max().unwrap_or(0) as usize * BLOCK;
    let spare = match random.up_to(3) {
        0 => 0,
        1 => random.up_to(600) as usize,
        _ => random.up_to(2 * most) as usize * BLOCK,
    };
    random.bytes(held + spare)
}

/// A record that agrees with its stores.
pub fn world(random: &mut Random, caps: u8) -> World {
    let most = if is_old(caps) { old_scale(random) } else { scale(random) };
    let da4s = caps & DA4S != 0;
    let host_last = last_blocks(random, da4s, most);
    let mut controller_last = last_blocks(random, da4s, most);
    let available = controller_last[2] > 0 && random.chance(80);
    if !available {
        controller_last = [0; 4];
    }
    let mut record = [0; RECORD_BYTES];
    record[at::CAPS] = caps;
    record[at::HOST_SCOPE] = random.pick(&[1, 2]);
    record[at::CONTROLLER_SCOPE] = random.pick(&[1, 2]);
    record[at::HOST_GENERATION] = generation(random);
    record[at::CONTROLLER_GENERATION] = generation(random);
    record[at::AVAILABLE] = available as u8;
    record[at::NOTICE] = random.pick(&[0, 1]);
    let oui = random.u32() & 0x00FF_FFFF;
    put_u32(&mut record, at::OUI, random.pick(&[oui, oui, oui, 0, 0x00FF_FFFF]));
    put_last(&mut record, at::HOST_LAST, host_last);
    put_last(&mut record, at::CONTROLLER_LAST, controller_last);
    random.fill(&mut record[at::REASONS..]);
    let host_store = store(random, host_last, most);
    let controller_store = store(random, controller_last, most);
    World { record, host_store, controller_store }
}

/// Makes record and stores disagree, or damages the record, in one of all the ways there are.
pub fn damage_world(random: &mut Random, world: &mut World) {
    match random.up_to(15) {
        0 => world.record[at::CAPS] |= random.pick(&[32, 64, 128]),
        1 => world.record[at::NOTICE] = random.pick(&[2, 3, 255]),
        2 => world.record[at::ZERO] = random.pick(&[1, 128, 255]),
        3 => world.record[at::HOST_SCOPE] = random.pick(&[0, 3, 255]),
        4 => world.record[at::CONTROLLER_SCOPE] = random.pick(&[0, 3, 255]),
        5 => put_u32(&mut world.record, at::OUI, random.pick(&[0x0100_0000, 0xFFFF_FFFF])),
        6 => world.record[at::AVAILABLE] = random.pick(&[2, 3, 255]),
        7 => world.record[at::AVAILABLE] ^= 1,
        8 => hide_areas(random, world),
        9 | 10 => shorten_store(random, world),
        _ => break_last_blocks(random, world),
    }
}

/// Puts any bytes into a record: a few of them at any places, or all.
pub fn scramble_record(random: &mut Random, world: &mut World) {
    if random.chance(20) {
        random.fill(&mut world.record);
        return;
    }
    for _ in 0..random.pick(&[1, 1, 2, 4]) {
        let any = random.byte();
        let place = random.up_to(RECORD_BYTES as u32 - 1) as usize;
        // The bytes before the reasons are the ones that are judged.
        let place = if random.chance(80) { place % at::REASONS } else { place };
        world.record[place] = random.pick(&[any, 0, 1, 2, 3, 255]);
    }
}

/// TCDA 0 with last blocks that keep the rule and that the store holds.
fn hide_areas(random: &mut Random, world: &mut World) {
    let da4s = world.record[at::CAPS] & DA4S != 0;
    let last = last_blocks(random, da4s, 3);
    world.record[at::AVAILABLE] = 0;
    put_last(&mut world.record, at::CONTROLLER_LAST, last);
    let store = random.bytes(8 * BLOCK);
    world.controller_store = store;
}

fn shorten_store(random: &mut Random, world: &mut World) {
    let host = random.chance(50);
    let last = last_of(&world.record, if host { at::HOST_LAST } else { at::CONTROLLER_LAST });
    let held = last.into_iter().max().unwrap_or(0) as usize * BLOCK;
    let short = random.pick(&[1, 1, 2, 511, 512]);
    let store = if host { &mut world.host_store } else { &mut world.controller_store };
    store.truncate(held.saturating_sub(short));
}

/// Breaks the rule of last blocks and lends a store that would hold them, so that nothing else is wrong.
fn break_last_blocks(random: &mut Random, world: &mut World) {
    let da4s = world.record[at::CAPS] & DA4S != 0;
    let host = random.chance(50);
    let mut last = last_blocks(random, da4s, 4);
    break_rule(random, &mut last, da4s);
    put_last(&mut world.record, if host { at::HOST_LAST } else { at::CONTROLLER_LAST }, last);
    let most = last.into_iter().max().unwrap_or(0).min(16) as usize;
    let store = random.bytes(most * BLOCK);
    if host {
        world.host_store = store;
    } else {
        world.controller_store = store;
        world.record[at::AVAILABLE] = (last[2] > 0) as u8;
    }
}

/// Changes last blocks so that they break the rule in one way.
pub fn break_rule(random: &mut Random, last: &mut LastBlocks, da4s: bool) {
    match random.up_to(5) {
        0 => last[0] = last[1] + 1,
        1 => last[1] = last[2] + 1,
        2 if da4s && last[2] > 0 => last[3] = last[2] - 1,
        2 => last[3] = random.pick(&[1, 2, 5]),
        3 if da4s => *last = [0, 0, 0, random.pick(&[1, 2, 5])],
        3 => last[3] = last[2] + 1,
        4 => last[2] = random.pick(&[65_536, 65_537, 0x0001_0001, u32::MAX]),
        _ => last[3] = random.pick(&[1_048_577, 1_048_578, 0x0100_0001, u32::MAX]),
    }
}

/// A whole candidate, mostly one that a store of `store_bytes` holds.
pub fn offer(random: &mut Random, store_bytes: usize) -> Offer {
    let room = (store_bytes / BLOCK) as u32;
    let most = if random.chance(10) { room + 1 } else { room };
    let [a1, a2, a3, _] = last_blocks(random, false, most);
    let a4 = match random.up_to(3) {
        _ if a3 == 0 => 0,
        0 => a3,
        1 => a3 + random.up_to(6),
        _ => a3 + random.up_to(room.saturating_sub(a3)),
    };
    Offer { last: [a1, a2, a3, a4], bytes: random.bytes(a4 as usize * BLOCK), reason: random.bytes(REASON) }
}

/// Breaks a candidate in one way.
pub fn break_offer(random: &mut Random, offer: &mut Offer) {
    match random.up_to(8) {
        0 => offer.last[0] = offer.last[1] + 1,
        1 => offer.last[1] = offer.last[2] + 1,
        2 => offer.last[2] = offer.last[3] + 1,
        3 => {
            let a4 = 1 + random.up_to(2);
            *offer =
                Offer { last: [0, 0, 0, a4], bytes: random.bytes(a4 as usize * BLOCK), reason: random.bytes(REASON) };
        }
        4 => offer.bytes.push(0),
        5 => offer.bytes.extend([0; BLOCK]),
        6 => {
            let length = offer.bytes.len().saturating_sub(random.pick(&[1, 512]));
            offer.bytes.truncate(length);
            offer.last[3] = offer.last[3].max(1);
        }
        _ => {
            let length = random.pick(&[0, 127, 129, 256]);
            offer.reason.resize(length, 7);
        }
    }
}

/// What is lent where no create is meant: anything.
pub fn any_offer(random: &mut Random, store_bytes: usize) -> Offer {
    let mut lent = offer(random, store_bytes);
    if random.chance(20) {
        break_offer(random, &mut lent);
    }
    lent
}

/// A good header. Reserved bytes are of any value now and then: nobody looks at them.
pub fn header(random: &mut Random, page: u8, last: LastBlocks) -> Vec<u8> {
    let mut header = if random.chance(50) { random.bytes(BLOCK) } else { vec![0; BLOCK] };
    random.fill(&mut header[384..]);
    header[0] = page;
    for (index, place) in [8, 10, 12].into_iter().enumerate() {
        header[place..place + 2].copy_from_slice(&(last[index] as u16).to_le_bytes());
    }
    put_u32(&mut header, 16, last[3]);
    header[if page == HOST_PAGE { 380 } else { 381 }] = random.pick(&[0, 1, 2]);
    if page == HOST_PAGE {
        header[381] = generation(random);
    }
    let may_be_available = page == HOST_PAGE || last[2] > 0;
    header[382] = (may_be_available && random.chance(80)) as u8;
    header[383] = generation(random);
    header
}

/// Last blocks as a header may show them: up to the edges, since no store stands behind them.
pub fn header_last(random: &mut Random, da4s: bool) -> LastBlocks {
    let edge = random.pick(&[3, 12, 31, 33, 300, 65_534, 65_535]);
    let [a1, a2, a3, a4] = last_blocks(random, da4s, edge);
    let a3 = if random.chance(20) { 65_535 } else { a3 };
    let a4 = match random.up_to(5) {
        _ if !da4s || a3 == 0 => 0,
        0 => 1_048_576,
        1 => a3,
        _ => a4.max(a3),
    };
    [a1, a2, a3, a4]
}

/// A count of dwords less one, mostly of whole blocks.
fn count(random: &mut Random, blocks: u32) -> u32 {
    match random.up_to(19) {
        0 => random.pick(&[0, 126, 128, 254, 0xFFE]),
        1 => random.pick(&[0x0FFF, 0xFFFF, 0x1_0000, 0x1_007F, 0xF_FFFF]),
        2 => random.pick(&[u32::MAX, u32::MAX - 1, u32::MAX - 128, 0x7FFF_FFFF, 0x3FFF_FFFF]),
        3 => random.u32(),
        _ => 128 * (1 + random.up_to(blocks + 1)) - 1,
    }
}

/// An offset near a page's end: before, at and after it, between blocks, and far away.
fn offset(random: &mut Random, blocks: u32) -> u64 {
    let end = 512 * (blocks as u64 + 1);
    match random.up_to(19) {
        0 => end,
        1 => end + 512,
        2 => end - 512,
        3 => end + 1024,
        4 => random.pick(&[1, 4, 256, 511, 513]),
        5 => end - random.pick(&[1, 4, 256]),
        6 => 1 << 32,
        7 => random.u64() << 32,
        8 => random.u64() & !511,
        9 => u64::MAX - 511,
        10..=13 => 0,
        _ => 512 * random.up_to(blocks + 1) as u64,
    }
}

fn identifier(random: &mut Random) -> u8 {
    match random.up_to(19) {
        0 => random.byte(),
        1 => random.pick(&[0x00, 0x06, 0x09, 0x0E, 0x24, 0x47, 0x87, 0xC8, 0xFF]),
        2..=11 => HOST_PAGE,
        _ => CONTROLLER_PAGE,
    }
}

/// Five words for a drive. Fields that are to be ignored have any value now and then.
pub fn words(random: &mut Random, world: &World, offer: &Offer) -> Words {
    let extended = world.record[at::CAPS] & EXTENDED != 0;
    let page = identifier(random);
    let create = random.chance(if page == HOST_PAGE { 50 } else { 15 });
    let lasts = [offer.last, last_of(&world.record, at::HOST_LAST), last_of(&world.record, at::CONTROLLER_LAST)];
    let own = if page == CONTROLLER_PAGE { lasts[2] } else { lasts[!create as usize] };
    let shown = if random.chance(80) { own } else { random.pick(&lasts) };
    let blocks = shown[random.pick(&[0, 1, 2, 2, 3, 3])].min(1_000);
    let mut count = count(random, blocks);
    let mut offset = offset(random, blocks);
    if !extended && random.chance(70) {
        offset = 0;
        count = random.pick(&[127, 255, 1_023, 4_095]) | (random.u32() & !0xFFF);
    }
    let mcda = if random.chance(50) { 0 } else { random.up_to(7) };
    let junk = if random.chance(30) { random.u32() } else { 0 };
    let other_junk = if random.chance(30) { random.u32() } else { 0 };
    let rae = random.chance(60) as u32;
    let offset_type = random.chance(4) as u32;
    [
        page as u32 | (create as u32) << 8 | mcda << 9 | (junk & 7) << 12 | rae << 15 | count << 16,
        count >> 16 | (junk & 0xFFFF_0000),
        offset as u32,
        (offset >> 32) as u32,
        (other_junk & !(1 << 23)) | offset_type << 23,
    ]
}

/// Bytes that five words ask for, to lend a buffer of about that length.
pub fn asked_bytes(caps: u8, words: Words) -> u64 {
    let low = words[0] as u64 >> 16;
    let count = if caps & EXTENDED != 0 { low | (words[1] as u64 & 0xFFFF) << 16 } else { low & 0xFFF };
    (count + 1) * 4
}

/// A transfer buffer for these words: mostly long enough, sometimes a little short.
pub fn buffer(random: &mut Random, caps: u8, words: Words) -> Vec<u8> {
    const MOST: u64 = 1 << 20;
    let asked = asked_bytes(caps, words);
    let length = match random.up_to(9) {
        _ if asked > MOST => random.up_to(2_048) as u64,
        0 => asked - random.pick(&[1, 1, 4]),
        1 => random.up_to(1_024) as u64,
        2..=4 => asked + random.up_to(600) as u64,
        _ => asked,
    };
    random.bytes(length as usize)
}
