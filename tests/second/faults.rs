//! What is at fault in a bad header: each fault alone, every two and more of them together, at a plan and in collections. What is due follows
//! here from what was put into a header, by document 02's order, so these cases are a third opinion on it. The plans are of the greatest area
//! into the largest copy, so that nothing but the header refuses them, and without extended data the reach.
//!
//! These cannot be at fault together:
//! - TCDA and available but empty: one has TCDA over 1, the other TCDA 1;
//! - on 07h available but empty and anything: it is a rule of 08h alone;
//! - area 4 below area 3 and available but empty: area 3 ends at block 0 then, so area 4 is at fault in another way;
//! - the length and what stands in bytes that are not there;
//! - in a collection the length and anything: a header of another length does not fit (15).

use std::collections::BTreeSet;

use crate::boundary::{Setup, Wanted, ENDED, NEXT_BYTES, PLANNED_BYTES, REFUSED, STATE_BYTES};
use crate::generate::{self, is_old, DA4S, ETDAS, EXTENDED, MCDAS, TELEMETRY};
use crate::orders::header_state;
use crate::pair::{hex, Difference, Pair, Same};
use crate::random::Random;
use crate::rules::*;

/// The numbers of `bumbazeel.h`, in document 02's order.
const NONE: u8 = 0;
const LENGTH: u8 = 1;
const IDENTIFIER: u8 = 2;
const AREA_2: u8 = 3;
const AREA_3: u8 = 4;
const AREA_4: u8 = 5;
const SCOPE: u8 = 6;
const AVAILABLE: u8 = 7;
const EMPTY: u8 = 8;

/// The byte at which each starts, on a page whose scope is at this byte.
fn bytes(scope: u16) -> [u16; 9] {
    [0, 0, 0, 10, 12, 16, scope, 382, 12]
}

fn scope_byte(page: u8) -> u16 {
    if page == HOST_PAGE {
        380
    } else {
        381
    }
}

/// Last blocks with the areas that are at fault in them.
type Row = (LastBlocks, &'static [u8]);

/// With DA4S 1.
const FOUR_AREAS: [Row; 42] = [
    ([0, 0, 0, 0], &[]),
    ([1, 2, 3, 4], &[]),
    ([0, 0, 1, 1], &[]),
    ([256, 256, 256, 256], &[]),
    ([65_535, 65_535, 65_535, 65_535], &[]),
    ([0, 65_534, 65_535, 65_536], &[]),
    ([0, 0, 1, 1_048_576], &[]),
    ([1, 0, 0, 0], &[AREA_2]),
    ([3, 2, 2, 2], &[AREA_2]),
    ([3, 2, 3, 4], &[AREA_2]),
    ([256, 255, 65_535, 65_535], &[AREA_2]),
    ([65_535, 0, 65_535, 1_048_576], &[AREA_2]),
    ([0, 1, 0, 0], &[AREA_3]),
    ([1, 3, 2, 2], &[AREA_3]),
    ([2, 3, 1, 1], &[AREA_3]),
    ([0, 256, 255, 256], &[AREA_3]),
    ([1, 65_535, 65_534, 1_048_576], &[AREA_3]),
    ([5, 3, 1, 1], &[AREA_2, AREA_3]),
    ([2, 1, 0, 0], &[AREA_2, AREA_3]),
    ([65_535, 65_534, 65_533, 1_048_576], &[AREA_2, AREA_3]),
    // below area 3
    ([0, 0, 1, 0], &[AREA_4]),
    ([1, 2, 3, 2], &[AREA_4]),
    ([0, 0, 65_535, 65_534], &[AREA_4]),
    // over its limit
    ([1, 2, 3, 1_048_577], &[AREA_4]),
    ([0, 0, 65_535, 0x0100_0000], &[AREA_4]),
    ([0, 0, 1, u32::MAX], &[AREA_4]),
    // a block where area 3 has none
    ([0, 0, 0, 1], &[AREA_4]),
    ([0, 0, 0, 1_048_576], &[AREA_4]),
    // both
    ([0, 0, 0, 1_048_577], &[AREA_4]),
    ([3, 2, 2, 1], &[AREA_2, AREA_4]),
    ([3, 2, 2, 1_048_577], &[AREA_2, AREA_4]),
    ([1, 0, 0, 1], &[AREA_2, AREA_4]),
    ([1, 0, 0, 1_048_577], &[AREA_2, AREA_4]),
    ([1, 3, 2, 1], &[AREA_3, AREA_4]),
    ([0, 2, 1, 0], &[AREA_3, AREA_4]),
    ([0, 2, 1, 1_048_577], &[AREA_3, AREA_4]),
    ([0, 1, 0, 1], &[AREA_3, AREA_4]),
    ([1, 1, 0, u32::MAX], &[AREA_3, AREA_4]),
    ([5, 3, 1, 0], &[AREA_2, AREA_3, AREA_4]),
    ([5, 3, 1, 1_048_577], &[AREA_2, AREA_3, AREA_4]),
    ([2, 1, 0, 1], &[AREA_2, AREA_3, AREA_4]),
    ([2, 1, 0, 1_048_577], &[AREA_2, AREA_3, AREA_4]),
];

/// With DA4S 0.
const THREE_AREAS: [Row; 26] = [
    ([0, 0, 0, 0], &[]),
    ([1, 2, 3, 0], &[]),
    ([0, 0, 1, 0], &[]),
    ([65_535, 65_535, 65_535, 0], &[]),
    ([1, 0, 0, 0], &[AREA_2]),
    ([3, 2, 2, 0], &[AREA_2]),
    ([256, 255, 65_535, 0], &[AREA_2]),
    ([0, 1, 0, 0], &[AREA_3]),
    ([1, 3, 2, 0], &[AREA_3]),
    ([2, 65_535, 1, 0], &[AREA_3]),
    ([5, 3, 1, 0], &[AREA_2, AREA_3]),
    ([2, 1, 0, 0], &[AREA_2, AREA_3]),
    ([1, 2, 3, 3], &[AREA_4]),
    ([1, 2, 3, 4], &[AREA_4]),
    ([1, 2, 3, 2], &[AREA_4]),
    ([0, 0, 0, 1], &[AREA_4]),
    ([0, 0, 0, 256], &[AREA_4]),
    ([0, 0, 1, 65_536], &[AREA_4]),
    ([0, 0, 1, 1_048_577], &[AREA_4]),
    ([65_535, 65_535, 65_535, 0x0100_0000], &[AREA_4]),
    ([3, 2, 2, 2], &[AREA_2, AREA_4]),
    ([1, 0, 0, 1], &[AREA_2, AREA_4]),
    ([1, 3, 2, 2], &[AREA_3, AREA_4]),
    ([0, 1, 0, u32::MAX], &[AREA_3, AREA_4]),
    ([5, 3, 1, 1], &[AREA_2, AREA_3, AREA_4]),
    ([2, 1, 0, 1_048_577], &[AREA_2, AREA_3, AREA_4]),
];

/// A header of 512 bytes, and the numbers of all that is at fault in it, in order.
struct Shown {
    header: Vec<u8>,
    faults: Vec<u8>,
}

impl Shown {
    /// The first that is at fault.
    fn due(&self) -> u8 {
        self.faults.first().copied().unwrap_or(NONE)
    }
}

/// Headers of a page with every set of faults that can be in one.
fn shown(random: &mut Random, page: u8, da4s: bool) -> Vec<Shown> {
    let rows = if da4s { &FOUR_AREAS[..] } else { &THREE_AREAS[..] };
    let mut all = Vec::new();
    for identifier in [page, 15 - page, 0x00] {
        for (last, areas) in rows {
            for (scope, available) in (0..16).map(|at| ([0, 2, 3, 255][at / 4], [0, 1, 2, 255][at % 4])) {
                let mut header = generate::header(random, page, *last);
                header[0] = identifier;
                // What is the scope on one page is no scope on the other.
                header[380..382].copy_from_slice(&if page == HOST_PAGE { [scope, 3] } else { [3, scope] });
                header[382] = available;
                let empty = page == CONTROLLER_PAGE && available == 1 && last[2] == 0;
                let mut faults = if identifier == page { Vec::new() } else { vec![IDENTIFIER] };
                faults.extend(*areas);
                let rest = [(SCOPE, scope > 2), (AVAILABLE, available > 1), (EMPTY, empty)];
                faults.extend(rest.into_iter().filter(|(_, broken)| *broken).map(|(fault, _)| fault));
                all.push(Shown { header, faults });
            }
        }
    }
    all
}

/// Both pages, with DA4S 1 and 0.
const SIDES: [(u8, bool); 4] =
    [(HOST_PAGE, true), (HOST_PAGE, false), (CONTROLLER_PAGE, true), (CONTROLLER_PAGE, false)];

fn hold(holds: bool, what: impl Fn() -> String) -> Same<()> {
    if holds {
        return Ok(());
    }
    Err(Difference(format!("both agree, but not with document 02: {}", what())))
}

/// What nothing but a header refuses: with DA4S 1 area 4 may be wanted or, without ETDAS, not. One in three is a drive without extended data.
fn caps(random: &mut Random, da4s: bool) -> u8 {
    let extended = random.pick(&[EXTENDED, EXTENDED, 0]);
    extended | TELEMETRY | random.pick(&[0, ETDAS, MCDAS, ETDAS | MCDAS]) | if da4s { DA4S } else { 0 }
}

/// The answer to a largest plan from a good header: on 08h without data available 11, then without extended data 19 past block 31.
fn answer_to_good(page: u8, caps: u8, header: &[u8]) -> u8 {
    let nothing = page == CONTROLLER_PAGE && header[382] == 0;
    let greatest = if caps & (DA4S | ETDAS) == DA4S | ETDAS { 16..20 } else { 12..14 };
    let far = header[greatest].iter().rev().fold(0, |number, byte| number << 8 | *byte as u32) > 31;
    match is_old(caps) {
        _ if nothing => NOTHING,
        true if far => OUT_OF_REACH,
        _ => SUCCESS,
    }
}

/// A plan that is to find this at fault, and then tells nothing else of the header. Of a good one it tells what it says, but nothing with 11
/// and 19.
fn find(pair: &mut Pair, page: u8, caps: u8, header: &[u8], due: u8) -> Same<()> {
    let (answer, planned) = pair.plan(Wanted::largest(page, caps), header)?;
    let byte = bytes(scope_byte(page))[due as usize];
    let answer_due = if due == NONE { answer_to_good(page, caps, header) } else { BAD_HEADER };
    let wanted = (answer_due, due, byte);
    let told = (answer, planned[5], u16::from_le_bytes([planned[6], planned[7]]));
    let silent = planned[..5] == [0; 5] && planned[8..] == [0; PLANNED_BYTES - 8];
    hold(told == wanted && silent == (answer_due != SUCCESS), || {
        let parts = [&header[..header.len().min(20)], header.get(380..383).unwrap_or(&[])].map(hex);
        format!("{page:02X}h, caps {caps}, {} bytes {parts:?}: {told:?}, due is {wanted:?}", header.len())
    })
}

/// Every set of faults at a plan, at the right length and at others, and where the page asked for is neither.
pub fn plans(pair: &mut Pair, random: &mut Random) -> Same<()> {
    for (page, da4s) in SIDES {
        let mut met = BTreeSet::new();
        for shown in shown(random, page, da4s) {
            let (caps, due) = (caps(random, da4s), shown.due());
            let Shown { header, faults } = shown;
            find(pair, page, caps, &header, due)?;
            find(pair, page, caps, &header[..511], LENGTH)?;
            find(pair, page, caps, &[&header[..], &[page]].concat(), LENGTH)?;
            find(pair, page, caps, &header[..random.up_to(510) as usize], LENGTH)?;
            met.insert([&[LENGTH], &faults[..]].concat());
            met.insert(faults);
            other_pages(pair, random, da4s, header)?;
        }
        find(pair, page, caps(random, da4s), &[], LENGTH)?;
        all_were_met(page, &met)?;
    }
    Ok(())
}

/// A header that is asked for as a page that is neither, whether it says that it is that page or not: by setup's limits 13, before anything that
/// is at fault in it, and nothing is told.
fn other_pages(pair: &mut Pair, random: &mut Random, da4s: bool, mut header: Vec<u8>) -> Same<()> {
    let any = random.byte();
    let asked = random.pick(&[0x00, 0x06, 0x09, 0x0F, 0x87, 0x88, any | 0x10]);
    if random.chance(60) {
        header[0] = asked;
    }
    let wanted = Wanted::largest(asked, caps(random, da4s));
    let due = (BAD_SETUP, [0; PLANNED_BYTES]);
    let given = pair.plan(wanted, &header)?;
    hold(given == due, || format!("asked for as {asked:02X}h: {given:?}"))?;
    header.resize(random.pick(&[0, 511, 513]), asked);
    let given = pair.plan(wanted, &header)?;
    hold(given == due, || format!("asked for as {asked:02X}h, {} bytes: {given:?}", header.len()))
}

/// Each fault was met alone, and each two of them with no third, but for those that cannot be.
fn all_were_met(page: u8, met: &BTreeSet<Vec<u8>>) -> Same<()> {
    for first in LENGTH..=EMPTY {
        let can_be = first != EMPTY || page == CONTROLLER_PAGE;
        hold(met.contains(&vec![first]) == can_be, || format!("{page:02X}h, {first} alone can be: {can_be}"))?;
        for second in first + 1..=EMPTY {
            let can_be = second != EMPTY || (page == CONTROLLER_PAGE && first != AVAILABLE);
            let were = met.contains(&vec![first, second]);
            hold(were == can_be, || format!("{page:02X}h, {first} and {second} together can be: {can_be}"))?;
        }
    }
    Ok(())
}

/// All 65,536 arguments, against the bytes above.
pub fn field_bytes(pair: &mut Pair, _: &mut Random) -> Same<()> {
    for page in 0..=255 {
        for field in 0..=255 {
            let due = bytes(scope_byte(page)).get(field as usize).copied().unwrap_or(0);
            let told = pair.field_byte(page, field)?;
            hold(told == due, || format!("{page:02X}h, field {field} starts at {told}, due is {due}"))?;
        }
    }
    Ok(())
}

/// A collection of one block or of none, for headers of a page.
fn one_block(random: &mut Random, page: u8, da4s: bool) -> Setup {
    let caps = caps(random, da4s);
    let create = page == HOST_PAGE && random.chance(50);
    Setup { page, create: random.flag(create), area: 1, caps, chunk: !is_old(caps) as u32, attempts: 2, room: 512 }
}

/// The states of a collection that await a header, each after the steps that lead there: the first, a closing one, the one after a refused
/// chunk, and the same two of the next attempt, which is the last.
fn awaiting(pair: &mut Pair, random: &mut Random, setup: Setup) -> Same<[[u8; STATE_BYTES]; 5]> {
    let last = [1, 1, 1, (setup.caps & DA4S != 0) as u32];
    let mut copy = random.bytes(BLOCK);
    let (first, _) = pair.setup(setup)?;
    let mut states = [first; 5];
    let mut opened = first;
    for attempt in [0, 2] {
        let mut opening = generate::header(random, setup.page, last);
        opening[382] = 1;
        opening[if setup.page == HOST_PAGE { 381 } else { 383 }] = attempt as u8;
        pair.step(&mut opened, 1, &opening, &mut copy)?;
        [states[attempt + 1], states[attempt + 2]] = [opened; 2];
        let chunk = if is_old(setup.caps) { &[7; 2 * BLOCK][..] } else { &[7; BLOCK] };
        pair.step(&mut states[attempt + 1], 1, chunk, &mut copy)?;
        pair.step(&mut states[attempt + 2], 0, &[], &mut copy)?;
        opened = states[attempt + 1];
    }
    let phases = states.map(|state| state[0]);
    hold(phases == [0, 2, 3, 2, 3], || format!("the states await {phases:?}"))?;
    Ok(states)
}

/// What an ending tells but for its count.
fn told(next: &[u8; NEXT_BYTES]) -> [u8; 4] {
    [next[0], next[1], next[2], next[3]]
}

/// Every set of faults at first headers and at later ones: the ending has the first of them, and nothing else ever has one.
pub fn collections(pair: &mut Pair, random: &mut Random) -> Same<()> {
    for ((page, da4s), old) in SIDES.into_iter().flat_map(|side| [(side, false), (side, true)]) {
        let mut setup = one_block(random, page, da4s);
        while is_old(setup.caps) != old {
            setup = one_block(random, page, da4s);
        }
        for awaiting in awaiting(pair, random, setup)? {
            for shown in shown(random, page, da4s) {
                one_header(pair, awaiting, &shown)?;
            }
        }
        unjudged(pair, random, setup)?;
    }
    Ok(())
}

/// One header in one state, before that as a completion that does not fit, and after the ending once more.
fn one_header(pair: &mut Pair, awaiting: [u8; STATE_BYTES], shown: &Shown) -> Same<()> {
    let (mut state, mut copy) = (awaiting, vec![0xDD; BLOCK]);
    let what = |next: &[u8; NEXT_BYTES]| format!("faults {:?} in phase {}: {next:?}", shown.faults, awaiting[0]);
    let next = pair.step(&mut state, 1, &shown.header[..511], &mut copy)?;
    hold(told(&next) == [REFUSED, DOES_NOT_FIT, 0, NONE], || what(&next))?;
    let next = pair.step(&mut state, 1, &shown.header, &mut copy)?;
    if shown.faults.is_empty() {
        return hold(next[1] != BAD_HEADER && next[3] == NONE, || what(&next));
    }
    hold(told(&next) == [ENDED, BAD_HEADER, 0, shown.due()] && copy == [0; BLOCK], || what(&next))?;
    let next = pair.step(&mut state, 1, &shown.header, &mut copy)?;
    hold(told(&next) == [REFUSED, ALREADY_ENDED, 0, NONE], || what(&next))
}

/// Of an acknowledgement only the generation is judged, and a chunk and a refused header not at all: no ending of theirs has a field. Nor is the
/// header judged that an old run reads together with its blocks: the copy gets these, and what follows is the closing header.
fn unjudged(pair: &mut Pair, random: &mut Random, setup: Setup) -> Same<()> {
    for shown in shown(random, setup.page, setup.caps & DA4S != 0) {
        let mut copy = vec![0xDD; BLOCK];
        let [mut acknowledged, mut chunk, mut refused] =
            [4, 1, 0].map(|phase| header_state(setup, phase, 1, shown.header[383], [1, 1, 1, 1]));
        chunk[20] = 1;
        let block = random.bytes(BLOCK);
        let header_and_block = [&shown.header[..], &block].concat();
        let data = if is_old(setup.caps) { &header_and_block } else { &block };
        let next = pair.step(&mut chunk, 1, data, &mut copy)?;
        hold(told(&next) == [0; 4] && chunk[0] == 2 && copy == block, || format!("a chunk: {next:?}"))?;
        let next = pair.step(&mut refused, 0, &[], &mut copy.clone())?;
        hold(told(&next) == [ENDED, BROKE_ITS_WORD, 0, NONE], || format!("a refused header: {next:?}"))?;
        let next = pair.step(&mut acknowledged, 1, &shown.header, &mut copy)?;
        hold(next[0] == ENDED && next[1] == SUCCESS && next[3] == NONE, || format!("an acknowledgement: {next:?}"))?;
    }
    Ok(())
}

/// A number of blocks at an edge of two bytes, of one byte, or anywhere.
fn edge(random: &mut Random, most: u32) -> u32 {
    let any = random.up_to(most);
    random.pick(&[0, 0, 1, 2, 255, 256, 257, 65_534, 65_535, any])
}

/// One more, one less or the same.
fn beside(random: &mut Random, blocks: u32) -> u32 {
    random.pick(&[blocks, blocks, blocks.wrapping_add(1), blocks.saturating_sub(1)])
}

/// A header whose parts are all near their limits, so that it may be good or have any faults.
fn near_header(random: &mut Random, page: u8) -> Vec<u8> {
    let a2 = edge(random, 65_535);
    let (a1, a3) = (beside(random, a2), beside(random, a2));
    let limit = beside(random, AREA_4_LIMIT);
    let near = beside(random, a3);
    let (any, other) = (random.u32(), edge(random, AREA_4_LIMIT));
    let a4 = random.pick(&[0, a3, a3, near, near, limit, other, any]);
    let mut header = generate::header(random, page, [a1, a2, a3, a4]);
    header[380] = random.pick(&[0, 1, 2, 2, 3, 255]);
    header[381] = random.pick(&[0, 1, 2, 2, 3, 255]);
    header[382] = random.pick(&[0, 0, 1, 1, 1, 2, 255]);
    if random.chance(5) {
        header[0] = random.pick(&[0, 6, 7, 8, 9, page ^ 0x80]);
    }
    header
}

/// Whether a header is good by document 01's words, "Bad header", which document 02 leaves as they are.
fn is_good(page: u8, da4s: bool, header: &[u8]) -> bool {
    let number = |places: &[usize]| places.iter().rev().fold(0, |number, at| number * 256 + header[*at] as u32);
    let identified = header.len() == BLOCK && header[0] == page && [HOST_PAGE, CONTROLLER_PAGE].contains(&page);
    identified && {
        let last = [number(&[8, 9]), number(&[10, 11]), number(&[12, 13]), number(&[16, 17, 18, 19])];
        let (scope, available) = (header[scope_byte(page) as usize], header[382]);
        let empty = page == CONTROLLER_PAGE && available == 1 && last[2] == 0;
        last_blocks_keep_rules(last, da4s) && scope <= 2 && available <= 1 && !empty
    }
}

/// Headers near the limits, at a plan and in a collection, which tells the same field.
pub fn near_limits(pair: &mut Pair, random: &mut Random) -> Same<()> {
    let (page, da4s) = random.pick(&SIDES);
    let any = random.byte();
    let asked = if random.chance(5) { any } else { page };
    let mut header = near_header(random, page);
    let setup = one_block(random, page, da4s);
    let mut state = header_state(setup, random.pick(&[0, 2, 3]), 1, header[383], [1, 1, 1, 1]);
    let (_, planned) = pair.plan(Wanted::largest(page, setup.caps), &header)?;
    let next = pair.step(&mut state, 1, &header, &mut vec![0xDD; BLOCK])?;
    hold(next[3] == planned[5] && (next[1] == BAD_HEADER) == (next[3] != NONE), || {
        format!("the plan's field is {}, the collection's {next:?}", planned[5])
    })?;
    if random.chance(10) {
        header.resize(random.pick(&[0, 1, 511, 513, 1_024]), page);
    }
    let caps = caps(random, da4s);
    let (answer, planned) = pair.plan(Wanted::largest(asked, caps), &header)?;
    let good = is_good(asked, da4s, &header);
    let due = match asked {
        _ if good => answer_to_good(asked, caps, &header),
        HOST_PAGE | CONTROLLER_PAGE => BAD_HEADER,
        _ => BAD_SETUP,
    };
    hold(answer == due && (planned[5] != NONE) == (due == BAD_HEADER), || {
        format!("whether a header is good: {good}, the plan gives {answer}, due is {due}")
    })
}
