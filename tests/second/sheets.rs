//! Sheets: entries and additions at every limit, every damage, means of numbers of every length, and lists of runs in any order and divided in
//! any way. What is due follows here from document 02, Q-12, alone, so these cases are a third opinion.

use crate::boundary::{check_of, get_u64, put_u64, CHECK, SHEET_BYTES};
use crate::orders::first;
use crate::pair::{Difference, Pair, Same};
use crate::random::Random;
use crate::rules::*;
use crate::sheet::{Finished, ENDINGS, MOST};

type Bytes = [u8; SHEET_BYTES];

/// The totals by their places among a sheet's numbers, of which the mark is the first: eight of runs by ending, then these.
const GOOD_RUNS: usize = 1;
const BLOCKS: usize = 9;
const COMMANDS: usize = 10;
const FAILED: usize = 11;
const TOTALS: std::ops::RangeInclusive<usize> = GOOD_RUNS..=FAILED;
/// Bits of the mark and the totals: all that the check is made of.
const CHECKED_BITS: usize = 8 * CHECK;

fn hold(holds: bool, what: impl Fn() -> String) -> Same<()> {
    if holds {
        return Ok(());
    }
    Err(Difference(format!("both agree, but not with document 02: {}", what())))
}

fn get(sheet: &Bytes, place: usize) -> u64 {
    get_u64(sheet, 8 * place)
}

fn mend(sheet: &mut Bytes) {
    let check = check_of(sheet);
    put_u64(sheet, CHECK, check);
}

/// A sheet with these totals, whose mark and check are right.
fn sheet_of(total: impl Fn(usize) -> u64) -> Bytes {
    let mut sheet = [0; SHEET_BYTES];
    sheet[..8].copy_from_slice(b"BZSHEET1");
    TOTALS.for_each(|place| put_u64(&mut sheet, 8 * place, total(place)));
    mend(&mut sheet);
    sheet
}

/// A sheet of some runs with every ending.
fn some_runs() -> Bytes {
    sheet_of(|place| [3, 1, 4, 1, 5, 9, 2, 6, 53, 58, 97][place - 1])
}

fn full() -> Bytes {
    sheet_of(|_| u64::MAX)
}

/// Whether no runs have these totals: blocks without a good run, commands or failed attempts without a run.
fn is_of_no_runs(sheet: &Bytes) -> bool {
    let runs = (GOOD_RUNS..BLOCKS).any(|place| get(sheet, place) > 0);
    let lone_blocks = get(sheet, BLOCKS) > 0 && get(sheet, GOOD_RUNS) == 0;
    lone_blocks || (!runs && (get(sheet, COMMANDS) > 0 || get(sheet, FAILED) > 0))
}

/// Whether a total and what is added to it pass 18,446,744,073,709,551,615.
fn passes(total: u64, added: u64) -> bool {
    total as u128 + added as u128 > MOST
}

/// What a run adds to which totals, or nothing if no run ends so.
fn moves(run: Finished) -> Option<[(usize, u64); 4]> {
    let place = GOOD_RUNS + ENDINGS.iter().position(|ending| *ending == run.ending)?;
    Some([(place, 1), (BLOCKS, run.blocks), (COMMANDS, run.commands), (FAILED, run.failed)])
}

/// Enters a run into a copy of a sheet, which may be damaged: "13 for an ending that no run has, or for blocks kept with an ending other than 0;
/// then 20 if any total would pass [the limit]; nothing is entered then". Else the totals moved by the run's numbers.
fn enter(pair: &mut Pair, before: &Bytes, is_damaged: bool, run: Finished) -> Same<(u8, Bytes)> {
    let moves = moves(run);
    let would_pass =
        || moves.is_some_and(|moves| moves.iter().any(|(place, added)| passes(get(before, *place), *added)));
    let due = first(&[
        (BAD_SETUP, is_damaged),
        (BAD_SETUP, moves.is_none()),
        (BAD_SETUP, run.blocks > 0 && run.ending != SUCCESS),
        (TOTAL_FULL, would_pass()),
    ]);
    let mut after = *before;
    let given = pair.enter(&mut after, run)?;
    hold(given == due, || format!("{run:?} gives {given}, and {due} is due"))?;
    let mut sheet_due = *before;
    if given == SUCCESS {
        for (place, added) in moves.into_iter().flatten() {
            put_u64(&mut sheet_due, 8 * place, get(before, place) + added);
        }
        mend(&mut sheet_due);
    }
    hold(after == sheet_due, || format!("the sheet after {run:?}"))?;
    Ok((given, after))
}

/// Adds a sheet to a copy of another, either of which may be damaged: 13, 20 or the sums.
fn add(pair: &mut Pair, before: &Bytes, other: &Bytes, is_damaged: bool) -> Same<(u8, Bytes)> {
    let would_pass = TOTALS.into_iter().any(|place| passes(get(before, place), get(other, place)));
    let due = first(&[(BAD_SETUP, is_damaged), (TOTAL_FULL, would_pass)]);
    let mut after = *before;
    let given = pair.add(&mut after, other)?;
    hold(given == due, || format!("an addition gives {given}, and {due} is due"))?;
    let sheet_due = if given == SUCCESS { sheet_of(|place| get(before, place) + get(other, place)) } else { *before };
    hold(after == sheet_due, || "the sheet after an addition".to_string())?;
    Ok((given, after))
}

/// The mean of a sheet: "blocks = whole * runs[0] + rest", the rest "less than runs[0]", and none without a good run.
fn mean(pair: &mut Pair, sheet: &Bytes, is_damaged: bool) -> Same<()> {
    let (answer, mean) = pair.mean(sheet)?;
    let (good, blocks) = (get(sheet, GOOD_RUNS) as u128, get(sheet, BLOCKS) as u128);
    let (whole, rest) = (get_u64(&mean, 8) as u128, get_u64(&mean, 16) as u128);
    let told = if is_damaged || good == 0 {
        mean == [0; 24]
    } else {
        mean[..8] == [1, 0, 0, 0, 0, 0, 0, 0] && whole * good + rest == blocks && rest < good
    };
    let due = if is_damaged { BAD_SETUP } else { SUCCESS };
    hold(answer == due && told, || format!("the mean of {blocks} blocks and {good} good runs: {answer}, {mean:?}"))
}

/// All that a sheet can be lent to.
fn every_use(pair: &mut Pair, sheet: &Bytes, is_damaged: bool) -> Same<()> {
    let new = pair.new_sheet()?;
    for (ending, blocks) in [(SUCCESS, 0), (SUCCESS, 1), (OUT_OF_REACH, 0), (OUT_OF_REACH, 1), (BAD_SETUP, 0)] {
        enter(pair, sheet, is_damaged, Finished { ending, blocks, commands: 2, failed: 0 })?;
    }
    for other in [new, some_runs(), full()] {
        add(pair, sheet, &other, is_damaged)?;
        add(pair, &other, sheet, is_damaged)?;
    }
    add(pair, sheet, sheet, is_damaged)?;
    mean(pair, sheet, is_damaged)
}

/// Every ending, without blocks and with them: on a new sheet, on one with runs, on a full one and on a damaged one.
pub fn endings(pair: &mut Pair, _: &mut Random) -> Same<()> {
    let new = pair.new_sheet()?;
    let mut damaged = some_runs();
    damaged[CHECK] ^= 1;
    for ending in 0..=255 {
        for blocks in [0, 1, u64::MAX] {
            for (sheet, is_damaged) in [(new, false), (some_runs(), false), (full(), false), (damaged, true)] {
                let run = Finished { ending, blocks, commands: 9, failed: 2 };
                let (answer, _) = enter(pair, &sheet, is_damaged, run)?;
                let has_runs = matches!(ending, 0 | 7..=12 | 19);
                hold(has_runs || answer == BAD_SETUP, || format!("ending {ending} gives {answer}"))?;
            }
        }
    }
    Ok(())
}

/// Every set of the four totals that an entry moves past the limit, by one; the others are moved up to it. The runs of other endings are
/// none, or as many as a sheet counts, and neither matters. Endings that no run has are tried too, and damage: both go before 20.
pub fn limits_of_entries(pair: &mut Pair, _: &mut Random) -> Same<()> {
    for ending in ENDINGS.into_iter().chain([NO_AREA_4, BAD_SETUP, TOTAL_FULL, 255]) {
        for added in [1, 2, 255, 1 << 32, 1 << 63, u64::MAX - 1, u64::MAX] {
            for (past, others) in (0..16).flat_map(|past| [(past, 0), (past, u64::MAX)]) {
                let run = Finished { ending, blocks: added, commands: added, failed: added };
                entry_at_limits(pair, run, past, others)?;
                entry_at_limits(pair, Finished { blocks: 0, ..run }, past, others)?;
            }
        }
    }
    Ok(())
}

/// One entry. The bits of `past` are the totals that it moves past the limit, if it moves them.
fn entry_at_limits(pair: &mut Pair, run: Finished, past: u32, others: u64) -> Same<()> {
    let moves =
        moves(run).unwrap_or([(GOOD_RUNS, 0), (BLOCKS, run.blocks), (COMMANDS, run.commands), (FAILED, run.failed)]);
    let mut sheet = sheet_of(|_| others);
    for (bit, (place, added)) in moves.into_iter().enumerate() {
        let up_to_limit = u64::MAX - added;
        put_u64(&mut sheet, 8 * place, up_to_limit.saturating_add((past >> bit & 1).into()));
    }
    mend(&mut sheet);
    let is_damaged = is_of_no_runs(&sheet);
    enter(pair, &sheet, is_damaged, run)?;
    sheet[8 * FAILED] ^= 1;
    enter(pair, &sheet, true, run)?;
    Ok(())
}

/// Each total alone and each two of them past the limit by an addition, the others up to it; then each alone on sheets of one run.
pub fn limits_of_additions(pair: &mut Pair, _: &mut Random) -> Same<()> {
    for added in [0, 1, 2, 255, 1 << 32, 1 << 63, u64::MAX - 1, u64::MAX] {
        let other = sheet_of(|_| added);
        let up_to_limit = u64::MAX - added;
        for (one, two) in TOTALS.flat_map(|one| (one..=FAILED).map(move |two| (one, two))) {
            let past = |place| if place == one || place == two { up_to_limit.saturating_add(1) } else { up_to_limit };
            both_ways(pair, &sheet_of(past), &other)?;
        }
        both_ways(pair, &sheet_of(|_| up_to_limit), &other)?;
        for (total, run) in TOTALS.flat_map(|total| [(total, GOOD_RUNS), (total, GOOD_RUNS + 7)]) {
            let alone = |number: u64| sheet_of(|place| if place == total { number } else { (place == run) as u64 });
            both_ways(pair, &alone(up_to_limit), &alone(added))?;
            both_ways(pair, &alone(up_to_limit.saturating_add(1)), &alone(added))?;
        }
    }
    Ok(())
}

/// Two sheets whose marks and checks are right, added either way: the answer and the sums are the same.
fn both_ways(pair: &mut Pair, one: &Bytes, two: &Bytes) -> Same<()> {
    let is_damaged = is_of_no_runs(one) || is_of_no_runs(two);
    let (answer, sum) = add(pair, one, two, is_damaged)?;
    let (other_answer, other_sum) = add(pair, two, one, is_damaged)?;
    let same = answer == other_answer && (answer != SUCCESS || sum == other_sum);
    hold(same, || "two sheets added either way are one sheet".to_string())
}

/// Every bit of a sheet flipped is damage. With the check mended it is so where the bit is the mark's, and where no runs have the totals.
pub fn flipped_bits(pair: &mut Pair, _: &mut Random) -> Same<()> {
    let one_run = |ending: usize| sheet_of(|place| (place == GOOD_RUNS + ending) as u64);
    for sheet in [pair.new_sheet()?, some_runs(), full(), one_run(0), one_run(3), one_run(7)] {
        every_use(pair, &sheet, false)?;
        for bit in 0..8 * SHEET_BYTES {
            let mut damaged = sheet;
            damaged[bit / 8] ^= 1 << (bit % 8);
            every_use(pair, &damaged, true)?;
            if bit < CHECKED_BITS {
                mend(&mut damaged);
                let is_damaged = bit / 8 < 8 || is_of_no_runs(&damaged);
                every_use(pair, &damaged, is_damaged)?;
            }
        }
    }
    Ok(())
}

/// Other marks with a check that fits them, and checks that are made otherwise.
pub fn marks_and_checks(pair: &mut Pair, _: &mut Random) -> Same<()> {
    let sheet = some_runs();
    for (at, byte) in (0..8).flat_map(|at| (0..=255).map(move |byte| (at, byte))) {
        let mut marked = sheet;
        marked[at] = byte;
        mend(&mut marked);
        every_use(pair, &marked, marked[at] != sheet[at])?;
    }
    for mark in [b"1TEEHSZB", b"BZSHEET2", b"bzsheet1", b"ZBSHEET1", b"BZSHEE1T", &[0; 8]] {
        let mut marked = sheet;
        marked[..8].copy_from_slice(mark);
        mend(&mut marked);
        every_use(pair, &marked, true)?;
    }
    for sheet in [pair.new_sheet()?, some_runs(), full()] {
        let numbers = || (0..12).map(|place| get(&sheet, place));
        let (sum, totals) = (check_of(&sheet), numbers().skip(1).fold(0, u64::wrapping_add));
        let checks = [
            totals,
            0,
            !sum,
            sum.wrapping_neg(),
            sum.swap_bytes(),
            sum.wrapping_add(sum),
            numbers().fold(0, u64::saturating_add),
            numbers().fold(0, |sum, number| sum ^ number),
            numbers().map(|number| number as u32 as u64).sum(),
            sum as u32 as u64,
            // the sum but for one number
            sum.wrapping_sub(get(&sheet, FAILED)),
            sum.wrapping_sub(get(&sheet, GOOD_RUNS)),
        ];
        for check in checks {
            let mut checked = sheet;
            put_u64(&mut checked, CHECK, check);
            every_use(pair, &checked, check != sum)?;
        }
    }
    Ok(())
}

/// Totals with no run, with a good run, and with one of each other ending: blocks ask for a good run, commands and failed attempts for any.
pub fn totals_of_no_runs(pair: &mut Pair, _: &mut Random) -> Same<()> {
    const FEW: [u64; 3] = [0, 1, u64::MAX];
    for (good, other) in
        [0, 1, u64::MAX].into_iter().flat_map(|good| (GOOD_RUNS..BLOCKS).map(move |other| (good, other)))
    {
        for numbers in 0..27 {
            let [blocks, commands, failed] = [1, 3, 9].map(|unit| FEW[numbers / unit % 3]);
            let sheet = sheet_of(|place| match place {
                GOOD_RUNS => good,
                BLOCKS => blocks,
                COMMANDS => commands,
                FAILED => failed,
                // The first of them is the place of good runs: then there is no other.
                _ => (place == other) as u64,
            });
            let no_run = good == 0 && other == GOOD_RUNS;
            let is_damaged = (good == 0 && blocks > 0) || (no_run && (commands > 0 || failed > 0));
            every_use(pair, &sheet, is_damaged)?;
        }
    }
    Ok(())
}

/// Blocks and good runs at and beside every power of two.
pub fn means_of_powers(pair: &mut Pair, _: &mut Random) -> Same<()> {
    let beside = |power: u32| [(1u64 << power) - 1, 1 << power, (1 << power) + 1, u64::MAX - (1 << power)];
    for (blocks, good) in (0..64).flat_map(|one| (0..64).map(move |two| (one, two))) {
        for (blocks, good) in beside(blocks).into_iter().flat_map(|blocks| beside(good).map(|good| (blocks, good))) {
            let sheet = sheet_of(|place| match place {
                GOOD_RUNS => good,
                BLOCKS => blocks,
                _ => 0,
            });
            mean(pair, &sheet, is_of_no_runs(&sheet))?;
        }
    }
    Ok(())
}

/// A number of any length in bits, or one at or beside a limit.
fn any_number(random: &mut Random) -> u64 {
    let any = random.u64() >> random.up_to(63);
    random.pick(&[0, 1, any, any, any, any, u64::MAX - any, u64::MAX - 1, u64::MAX])
}

/// A sheet of any totals that runs have, with a mark and check that are right.
fn any_sheet(random: &mut Random) -> Bytes {
    let few = random.chance(50);
    let totals: Vec<u64> = TOTALS.map(|_| any_number(random) >> if few { 8 } else { 0 }).collect();
    let sheet = sheet_of(|place| totals[place - 1]);
    if is_of_no_runs(&sheet) {
        return sheet_of(|place| if place == GOOD_RUNS { 1 } else { totals[place - 1] });
    }
    sheet
}

/// A run that some sheet takes. With `bits` its numbers are below 2 to that power.
fn any_run(random: &mut Random, bits: u32) -> Finished {
    let any = random.pick(&ENDINGS);
    let ending = random.pick(&[SUCCESS, any]);
    let mut number = || any_number(random) >> (64 - bits);
    let (blocks, commands, failed) = (number(), number(), number());
    Finished { ending, blocks: if ending == SUCCESS { blocks } else { 0 }, commands, failed }
}

/// Some entries in a row into any sheet, the numbers of which often just fill a total, or pass it by one.
pub fn entries(pair: &mut Pair, random: &mut Random) -> Same<()> {
    let mut sheet = any_sheet(random);
    for _ in 0..4 {
        let mut run = any_run(random, 64);
        let mut fill = |place, number: u64| {
            let room = u64::MAX - get(&sheet, place);
            random.pick(&[number, number, room, room.saturating_add(1), room / 2])
        };
        run.commands = fill(COMMANDS, run.commands);
        run.failed = fill(FAILED, run.failed);
        if run.ending == SUCCESS {
            run.blocks = fill(BLOCKS, run.blocks);
        }
        let any = random.byte();
        run.ending = random.pick(&[run.ending, run.ending, run.ending, run.ending, any]);
        (_, sheet) = enter(pair, &sheet, false, run)?;
        mean(pair, &sheet, false)?;
    }
    Ok(())
}

/// Sheets with other bytes than they were given with: whatever becomes of them, both agree, and nothing is written.
pub fn damaged(pair: &mut Pair, random: &mut Random) -> Same<()> {
    let mut sheet = any_sheet(random);
    for _ in 0..random.pick(&[1, 1, 2, 3]) {
        let (one, two) = (1 + random.up_to(10) as usize, 1 + random.up_to(10) as usize);
        let added = any_number(random);
        match random.up_to(5) {
            0 => sheet[random.up_to(SHEET_BYTES as u32 - 1) as usize] = random.byte(),
            1 => put_u64(&mut sheet, 8 * one, 0),
            2 => (GOOD_RUNS..=one).for_each(|place| put_u64(&mut sheet, 8 * place, 0)),
            // These two keep the check.
            3 => {
                let (first, second) = (get(&sheet, one), get(&sheet, two));
                put_u64(&mut sheet, 8 * one, second);
                put_u64(&mut sheet, 8 * two, first);
            }
            4 => {
                let number = get(&sheet, one).wrapping_add(added);
                put_u64(&mut sheet, 8 * one, number);
                let number = get(&sheet, two).wrapping_sub(added);
                put_u64(&mut sheet, 8 * two, number);
            }
            _ => random.fill(&mut sheet[8..CHECK]),
        }
        if random.chance(60) {
            mend(&mut sheet);
        }
    }
    let is_damaged = sheet[..8] != *b"BZSHEET1" || get_u64(&sheet, CHECK) != check_of(&sheet) || is_of_no_runs(&sheet);
    every_use(pair, &sheet, is_damaged)
}

/// Any two sheets added either way, often such that a total is just filled or passed by one; and a third one in either order.
pub fn additions(pair: &mut Pair, random: &mut Random) -> Same<()> {
    let (one, mut two, three) = (any_sheet(random), any_sheet(random), any_sheet(random));
    for place in TOTALS {
        let (room, held) = (u64::MAX - get(&one, place), get(&two, place));
        let number = random.pick(&[held.min(room), held.min(room), held.min(room), room, held]);
        put_u64(&mut two, 8 * place, number);
    }
    if random.chance(25) {
        let place = 1 + random.up_to(10) as usize;
        put_u64(&mut two, 8 * place, (u64::MAX - get(&one, place)).saturating_add(1));
    }
    mend(&mut two);
    both_ways(pair, &one, &two)?;
    if is_of_no_runs(&two) {
        return Ok(());
    }
    let (answer, sum) = add(pair, &one, &two, false)?;
    if answer == SUCCESS {
        both_ways(pair, &sum, &three)?;
    }
    mean(pair, &sum, false)
}

/// Enters runs one after the other into a new sheet: it, and how many were refused.
fn enter_all(pair: &mut Pair, runs: &[Finished]) -> Same<(Bytes, usize)> {
    let (mut sheet, mut refused) = (pair.new_sheet()?, 0);
    for run in runs {
        let (answer, after) = enter(pair, &sheet, false, *run)?;
        refused += (answer != SUCCESS) as usize;
        sheet = after;
    }
    Ok((sheet, refused))
}

fn shuffle(random: &mut Random, runs: &mut [Finished]) {
    for place in (1..runs.len()).rev() {
        runs.swap(place, random.up_to(place as u32) as usize);
    }
}

/// "Where no entry is refused, entering the same runs in any order gives the same sheet", and that is where the totals do not pass the limit.
/// Divided between sheets that are added, in any order too, they give that sheet again.
pub fn lists(pair: &mut Pair, random: &mut Random) -> Same<()> {
    let bits = random.pick(&[4, 12, 32, 58, 62, 64]);
    let length = random.pick(&[0, 1, 2, 3, 8, 24]);
    let mut runs: Vec<Finished> = (0..length).map(|_| any_run(random, bits)).collect();
    let mut totals = [0u128; 12];
    for (place, added) in runs.iter().filter_map(|run| moves(*run)).flatten() {
        totals[place] += added as u128;
    }
    let fits = totals.iter().all(|total| *total <= MOST);
    let (whole, refused) = enter_all(pair, &runs)?;
    hold((refused == 0) == fits, || format!("{refused} runs refused of {runs:?}"))?;
    if fits {
        hold(whole == sheet_of(|place| totals[place] as u64), || format!("the exact totals of {runs:?}"))?;
    }
    mean(pair, &whole, false)?;
    let mut orders = vec![runs.clone(); 4];
    orders[0].reverse();
    orders[1].sort_by_key(|run| (run.ending, run.blocks, run.commands, run.failed));
    orders[2..].iter_mut().for_each(|order| shuffle(random, order));
    for order in orders {
        let (sheet, refused) = enter_all(pair, &order)?;
        hold((refused == 0) == fits, || format!("{refused} runs refused of {order:?}"))?;
        hold(!fits || sheet == whole, || format!("the same runs in another order: {order:?}"))?;
    }
    shuffle(random, &mut runs);
    divide(pair, random, &runs, fits.then_some(whole))
}

/// The runs on some benches' sheets, which are added to a new one in order and in reverse.
fn divide(pair: &mut Pair, random: &mut Random, runs: &[Finished], whole: Option<Bytes>) -> Same<()> {
    let benches = random.pick(&[2, 2, 3, 5]);
    let mut parts = vec![Vec::new(); benches];
    runs.iter().for_each(|run| parts[random.up_to(benches as u32 - 1) as usize].push(*run));
    let mut sheets = Vec::new();
    for part in &parts {
        sheets.push(enter_all(pair, part)?.0);
    }
    for _ in 0..2 {
        let mut sum = pair.new_sheet()?;
        for sheet in &sheets {
            (_, sum) = add(pair, &sum, sheet, false)?;
        }
        hold(whole.is_none() || whole == Some(sum), || format!("the runs divided between sheets: {parts:?}"))?;
        sheets.reverse();
    }
    Ok(())
}
