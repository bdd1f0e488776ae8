//! Steps on random states, sane, forged and damaged, with random completions.

use crate::boundary::{get_u32, get_u64, put_u32, put_u64, STATE_BYTES};
use crate::generate::{self, is_old, last_of, DA4S, EXTENDED};
use crate::orders::{header_state, small_setup};
use crate::pair::{Pair, Same};
use crate::random::Random;
use crate::rules::{LastBlocks, BLOCK, HOST_PAGE};

const CHUNK: u8 = 1;

/// A state that a run could be in, over a copy of `blocks` blocks.
fn sane_state(random: &mut Random, blocks: u32) -> [u8; STATE_BYTES] {
    let setup = small_setup(random, blocks as u64);
    let da4s = setup.caps & DA4S != 0;
    let mut last = generate::last_blocks(random, da4s, blocks / 2);
    if is_old(setup.caps) {
        // No area of an old run is past block 31.
        last = last.map(|blocks| blocks.min(31));
    }
    let phase = random.pick(&[0, 1, 1, 1, 1, 2, 2, 2, 3, 3, 4, 4, 5]);
    if phase == 0 {
        last = [0; 4];
    }
    let attempt = 1 + random.up_to(setup.attempts - 1);
    let attempt = random.pick(&[1, attempt, setup.attempts]);
    let mut state = header_state(setup, phase, attempt, random.byte(), last);
    let limit = 2 + setup.attempts as u64 * 1_048_577;
    put_u64(&mut state, 32, random.pick(&[1, 2, 77, 1 << 20, limit - 1, limit]));
    let wanted = last[setup.area as usize - 1];
    if phase == CHUNK && wanted == 0 {
        state[0] = 2;
    } else if phase == CHUNK && is_old(setup.caps) {
        put_u32(&mut state, 20, 1);
    } else if phase == CHUNK {
        put_u32(&mut state, 20, 1 + random.up_to(wanted - 1));
    }
    state
}

/// Makes a state one that setup and step never give, field by field.
fn forge(random: &mut Random, state: &mut [u8; STATE_BYTES]) {
    let attempts = get_u32(state, 12);
    let limit = 2 + attempts as u64 * 1_048_577;
    let byte = random.byte();
    match random.up_to(15) {
        0 => state[0] = random.pick(&[0, 1, 2, 3, 4, 4]),
        1 => state[1] = random.pick(&[7, 8, 6, byte]),
        2 => state[2] ^= 1,
        3 => state[3] = random.pick(&[0, 1, 2, 3, 4, 5, byte]),
        4 => state[4] = byte & 31,
        5 => put_u32(state, 8, random.pick(&[0, 1, 2, 8_192, 8_193, u32::MAX])),
        6 => put_u32(state, 12, random.pick(&[0, 1, 257, 65_535, 65_536, 65_537, u32::MAX])),
        7 => put_u32(state, 16, random.pick(&[0, attempts, attempts.wrapping_add(1), u32::MAX])),
        8 if state[0] == CHUNK => put_u32(state, 20, random.pick(&[0, 1, 2, 5, 6, 9, u32::MAX])),
        9 => put_u64(state, 24, random.pick(&[0, 512, 513, 1_024, 536_870_912, 536_871_424, u64::MAX - 511, 1 << 32])),
        10 => put_u64(state, 32, random.pick(&[0, limit, limit + 1, limit + 2, 1 << 32, u64::MAX])),
        11 => put_u32(state, random.pick(&[40, 44, 48, 52]), random.pick(&[0, 1, 3, 8, 9, 0x0080_0000, u32::MAX])),
        12 => state[5] = byte,
        13 => state[4] ^= EXTENDED,
        14 => forge_reach(random, state),
        _ => forge_edge(random, state),
    }
}

/// The wanted area against the room, and the awaited chunk against the wanted area, at the very edges.
fn forge_edge(random: &mut Random, state: &mut [u8; STATE_BYTES]) {
    let area = state[3].clamp(1, 4) as usize;
    let wanted = random.up_to(6);
    put_u32(state, 36 + 4 * area, wanted);
    let blocks = wanted as u64 + random.pick(&[0, 0, 1]);
    let room = 512 * blocks;
    put_u64(state, 24, if random.chance(30) { room.saturating_sub(512) } else { room });
    if state[0] == CHUNK {
        put_u32(state, 20, random.pick(&[wanted, wanted, wanted + 1, 1, 0]));
    }
}

/// The wanted area at block 31 and past it, in a copy that has room for it or not quite, with extended data and without.
fn forge_reach(random: &mut Random, state: &mut [u8; STATE_BYTES]) {
    if random.chance(50) {
        state[4] ^= EXTENDED;
        let chunk = generate::chunk(random, state[4], &[1, 31, 32, 8_192]);
        put_u32(state, 8, chunk);
    }
    let area = state[3].clamp(1, 4) as usize;
    let wanted = random.pick(&[30, 31, 31, 32, 32, 33]);
    put_u32(state, 36 + 4 * area, wanted);
    put_u64(state, 24, 512 * (wanted as u64 + random.pick(&[0, 0, 0, 1]) - random.pick(&[0, 0, 0, 1])));
    if state[0] == CHUNK {
        put_u32(state, 20, random.pick(&[1, 1, 1, 0, 2, wanted]));
    }
}

/// Damages a state's bytes where no field may have such a value.
fn damage(random: &mut Random, state: &mut [u8; STATE_BYTES]) {
    match random.up_to(4) {
        0 => state[0] = random.pick(&[6, 7, 128, 255]),
        1 => state[2] = random.pick(&[2, 3, 255]),
        2 => state[4] |= random.pick(&[32, 64, 128]),
        3 => state[random.pick(&[6, 7])] = random.pick(&[1, 128]),
        _ if state[0] != CHUNK => put_u32(state, 20, random.pick(&[1, 2, 1 << 16, u32::MAX])),
        _ => state[0] = 6,
    }
}

/// The last blocks of a state's attempt, now and then with one of them changed. A forged state may have any, and no header has so many.
fn near_last(random: &mut Random, state: &[u8; STATE_BYTES]) -> LastBlocks {
    let mut last = last_of(state, 40).map(|blocks| blocks.min(1_100_000));
    if random.chance(25) {
        let index = random.up_to(3) as usize;
        last[index] = random.pick(&[0, last[index] + 1, last[index].saturating_sub(1)]);
    }
    last
}

/// Data for a success: a header that may match, may open an attempt, or is bad; or a chunk, in an old run after any header.
fn data(random: &mut Random, state: &[u8; STATE_BYTES]) -> Vec<u8> {
    let (page, da4s) = (state[1], state[4] & DA4S != 0);
    if state[0] == CHUNK {
        let area = state[3].clamp(1, 4) as usize;
        if is_old(state[4]) {
            let blocks = get_u32(state, 36 + 4 * area).min(64);
            return random.bytes((1 + blocks as usize) * BLOCK);
        }
        let left = get_u32(state, 36 + 4 * area).wrapping_sub(get_u32(state, 20)).wrapping_add(1);
        let blocks = get_u32(state, 8).min(left).min(64);
        return random.bytes(blocks as usize * BLOCK);
    }
    let blocks = (get_u64(state, 24) / 512).min(1_000) as u32;
    let most = if random.chance(70) { blocks / 2 } else { blocks + 2 };
    let mut last = generate::last_blocks(random, da4s, most);
    if random.chance(60) {
        last = near_last(random, state);
    } else if is_old(state[4]) && random.chance(50) {
        let blocks = random.pick(&[30, 31, 32, 33]);
        last = generate::last_with(random, da4s, state[3].clamp(1, 4), blocks);
    }
    if random.chance(10) {
        generate::break_rule(random, &mut last, da4s);
    }
    let mut header = generate::header(random, page, last);
    let own = if page == HOST_PAGE { 381 } else { 383 };
    if random.chance(60) {
        header[own] = state[5];
    }
    if random.chance(8) {
        header[random.pick(&[0, 380, 381, 382])] = random.byte();
    }
    header
}

pub fn steps(pair: &mut Pair, random: &mut Random) -> Same<()> {
    let blocks = random.pick(&[0, 1, 2, 6, 6, 10, 16, 31, 32, 64]);
    let mut state = sane_state(random, blocks);
    if random.chance(30) {
        for _ in 0..random.pick(&[1, 1, 1, 2, 3]) {
            forge(random, &mut state);
        }
    }
    if random.chance(6) {
        damage(random, &mut state);
    }
    let ok = random.chance(85);
    let mut bytes = if ok || random.chance(10) { data(random, &state) } else { Vec::new() };
    if random.chance(5) {
        let whole = bytes.len();
        let length = random.pick(&[0, 1, 511, 512, 513, 1_024, whole + 1, whole + BLOCK, whole.saturating_sub(BLOCK)]);
        bytes.resize(length, 3);
    }
    let room = get_u64(&state, 24).min(64 * 512) as usize;
    let room = if random.chance(5) { random.pick(&[0, 1, 512, room + 1, room + 512]) } else { room };
    let mut copy = random.bytes(room);
    let flag = random.flag(ok);
    pair.step(&mut state, flag, &bytes, &mut copy)?;
    // What a step gave is lent again: it may be an ended state or one that awaits the next command.
    let bytes = if ok { data(random, &state) } else { Vec::new() };
    pair.step(&mut state, flag, &bytes, &mut copy).map(|_| ())
}
