//! Whole runs: a collection against a drive on which captures, drops, clearings by other hosts, creates by other hosts and refused commands
//! happen in between. Every call goes to the pair; what documents 01 and 02 claim of a run is checked besides.

use crate::boundary::{self, get_u32, get_u64, Setup, ENDED, NEXT_BYTES, REFUSED, SEND, STATE_BYTES};
use crate::generate::{self, asked_bytes, at, is_old};
use crate::orders::small_setup;
use crate::pair::{Difference, Offer, Pair, Same, World};
use crate::random::Random;
use crate::rules::*;
use crate::sheet::{Finished, Sheet, ENDINGS};

const FIRST_HEADER: u8 = 0;
const CHUNK: u8 = 1;
const HEADER_AFTER_REFUSAL: u8 = 3;
const ACKNOWLEDGEMENT: u8 = 4;

/// So many captures in one attempt are surely told by its closing header, since a generation is one byte.
const MOST_CAPTURES_TOLD: u32 = 255;

pub fn words_of(next: &[u8; NEXT_BYTES]) -> Words {
    [4, 8, 12, 16, 20].map(|at| get_u32(next, at))
}

/// Whether a command is one that a drive without extended data takes: from offset 0, and the count in bits 27:16 of CDW10.
fn is_without_extended_data(words: Words) -> bool {
    words[0] >> 28 == 0 && words[1..] == [0; 4]
}

/// Commands that bring an area of so many blocks, but for headers.
fn chunks_of(setup: Setup, blocks: u32) -> u64 {
    match blocks {
        0 => 0,
        _ if is_old(setup.caps) => 1,
        _ => blocks.div_ceil(setup.chunk) as u64,
    }
}

/// A run with the books that its claims need.
struct Run {
    world: World,
    setup: Setup,
    state: [u8; STATE_BYTES],
    next: [u8; NEXT_BYTES],
    copy: Vec<u8>,
    /// nothing but the drive completes commands, and it is lent what it needs
    honest: bool,
    sent: u64,
    /// captures of the run's page since its first command
    captures: u64,
    /// drops of the run's page since then
    drops: u64,
    /// of the captures, those since a header was last read: since an attempt's first, or since the last check
    captures_since_header: u64,
    /// the most captures between a header that opened an attempt and the one that closed it
    captures_in_an_attempt: u64,
    /// the wanted area when a header was last read
    area_at_check: Vec<u8>,
    /// in an old run, the blocks that its last middle command brought
    blocks_together: Vec<u8>,
    /// the most chunks that a header called for
    chunks: u64,
    /// chunks of the plan from the first header
    planned: u64,
}

pub fn runs(pair: &mut Pair, random: &mut Random) -> Same<()> {
    run_to_its_end(pair, random).map(|_| ())
}

/// A run on a drive that others may use too, what is claimed of its ending, and what a month's sheet counts of it.
fn run_to_its_end(pair: &mut Pair, random: &mut Random) -> Same<Finished> {
    let (world, setup) = drive_and_setup(random);
    let honest = random.chance(75);
    let busy = random.pick(&[0, 5, 20, 50, 90]);
    let mut run = begin(pair, random, world, setup, honest)?;
    while run.next[0] == SEND {
        run.one_command(pair, random)?;
        // Others rest at last, so that no run takes all of 65,535 attempts.
        if run.next[0] == SEND && run.sent < 2_000 && random.chance(busy) {
            run.happenings(pair, random)?;
        }
    }
    run.finish(pair)?;
    Ok(run.finished())
}

/// A month: every run that ended is entered, and the totals are those of its runs.
pub fn months(pair: &mut Pair, random: &mut Random) -> Same<()> {
    let mut sheet = pair.new_sheet()?;
    let mut due = Sheet::default();
    for _ in 0..random.pick(&[1, 5, 20]) {
        let run = run_to_its_end(pair, random)?;
        claim(pair.enter(&mut sheet, run)? == SUCCESS, "a run that ended is entered")?;
        let ending = ENDINGS.iter().position(|ending| *ending == run.ending);
        claim(ending.is_some(), "a run has one of eight endings")?;
        ending.into_iter().for_each(|place| due.runs[place] += 1);
        due.blocks += run.blocks as u128;
        due.commands += run.commands as u128;
        due.failed += run.failed as u128;
    }
    claim(boundary::read_sheet(&sheet) == Some(due), "a month's totals are those of its runs")?;
    pair.mean(&sheet).map(|_| ())
}

/// Runs on an honest drive in which at most k captures and drops happen, and that have more than k attempts.
pub fn runs_of_k(pair: &mut Pair, random: &mut Random) -> Same<()> {
    let (world, plan) = drive_and_setup(random);
    let k = random.pick(&[0, 1, 1, 2, 2, 3, 5, 9]);
    let attempts = random.pick(&[k + 1, k + 1, k + 2, k + 41, 65_535]);
    let busy = random.pick(&[20, 50, 100]);
    let mut run = begin(pair, random, world, Setup { attempts, ..plan }, true)?;
    let mut happened = 0;
    while run.next[0] == SEND {
        run.one_command(pair, random)?;
        while run.next[0] == SEND && happened < k && random.chance(busy) {
            run.capture_or_drop(pair, random)?;
            happened += 1;
        }
    }
    run.finish_of_k(pair, k)
}

/// Soak tests: the same with hundreds of captures and drops, at most 255 of the captures in an attempt. After the last check there may be
/// any number of them.
pub fn soaks(pair: &mut Pair, random: &mut Random) -> Same<()> {
    let (mut world, mut plan) = drive_and_setup(random);
    while world.host_store.len().max(world.controller_store.len()) >= 8 * BLOCK {
        (world, plan) = drive_and_setup(random);
    }
    let k = random.pick(&[256, 300, 700]);
    let attempts = random.pick(&[k + 1, 65_535]);
    let (chunk, room) = (generate::chunk(random, plan.caps, &[1, 1, 2]), 8 * 512);
    let mut run = begin(pair, random, world, Setup { attempts, chunk, room, ..plan }, true)?;
    let mut left = k;
    while run.next[0] == SEND {
        run.one_command(pair, random)?;
        if run.next[0] == SEND && random.chance(60) {
            let after_check = run.state[0] == ACKNOWLEDGEMENT;
            let most = if after_check { left } else { left.min(MOST_CAPTURES_TOLD - run.captures_since_header as u32) };
            let captures = random.pick(&[1, 100, 256, most]).min(most);
            run.burst(pair, random, captures)?;
            left -= captures;
            if left > 0 && random.chance(20) {
                run.drop_host_data(pair)?;
                left -= 1;
            }
        }
    }
    run.finish_of_k(pair, k)
}

fn claim(holds: bool, what: &str) -> Same<()> {
    if holds {
        return Ok(());
    }
    Err(Difference(format!("both agree, but the run breaks a claim of documents 01 and 02: {what}")))
}

/// A random drive, and the setup of a collection from it.
fn drive_and_setup(random: &mut Random) -> (World, Setup) {
    let plan = small_setup(random, 0);
    let mut world = generate::world(random, plan.caps);
    let spare = random.up_to(6) as usize * BLOCK;
    world.host_store.extend(vec![1; spare]);
    world.controller_store.extend(vec![2; spare]);
    let store = if plan.page == HOST_PAGE { &world.host_store } else { &world.controller_store };
    let all = (store.len() / BLOCK) as u32;
    let now = area_last(&world, plan);
    let any = random.up_to(all);
    let blocks = random.pick(&[all, all, all, all + 3, now, now.saturating_sub(1), any]);
    let attempts = random.pick(&[1, 2, 2, 3, 4, 8, 257, 65_535]);
    // A large area goes in large chunks, so that no run takes hundreds of commands.
    let chunks: &[u32] = if all > 40 { &[100, 513, 8_192] } else { &[1, 1, 2, 3, 4, 7, 8_192] };
    let chunk = generate::chunk(random, plan.caps, chunks);
    (world, Setup { room: blocks as u64 * 512, attempts, chunk, ..plan })
}

/// Begins a collection whose setup is taken.
fn begin(pair: &mut Pair, random: &mut Random, world: World, setup: Setup, honest: bool) -> Same<Run> {
    let (state, next) = pair.setup(setup)?;
    claim(next[0] == SEND, "a good setup gives a command")?;
    let copy = random.bytes(setup.room as usize);
    Ok(Run {
        world,
        setup,
        state,
        next,
        copy,
        honest,
        sent: 0,
        captures: 0,
        drops: 0,
        captures_since_header: 0,
        captures_in_an_attempt: 0,
        area_at_check: Vec::new(),
        blocks_together: Vec::new(),
        chunks: 0,
        planned: 0,
    })
}

/// The wanted area as the drive has it.
fn wanted_area(world: &World, setup: Setup) -> Vec<u8> {
    let store = if setup.page == HOST_PAGE { &world.host_store } else { &world.controller_store };
    store[..area_last(world, setup) as usize * BLOCK].to_vec()
}

/// The last block of the wanted area as the drive has it.
fn area_last(world: &World, setup: Setup) -> u32 {
    let at = if setup.page == HOST_PAGE { at::HOST_LAST } else { at::CONTROLLER_LAST };
    generate::last_of(&world.record, at)[setup.area as usize - 1]
}

impl Run {
    fn store(&self) -> &[u8] {
        if self.setup.page == HOST_PAGE {
            &self.world.host_store
        } else {
            &self.world.controller_store
        }
    }

    /// Sends the awaited command to the drive and takes its completion.
    fn one_command(&mut self, pair: &mut Pair, random: &mut Random) -> Same<()> {
        if self.sent > 20_000 {
            return Err(Difference("a run does not end".to_string()));
        }
        let words = words_of(&self.next);
        let old = is_old(self.setup.caps);
        claim(!old || is_without_extended_data(words), "an old run takes no offset and at most 4,096 dwords")?;
        let asked = asked_bytes(self.setup.caps, words) as usize;
        let short = !self.honest && random.chance(3);
        let length = if short { asked - 1 } else { asked + random.pick(&[0, 0, 1, 512]) };
        let mut buffer = random.bytes(length);
        let offer = self.own_offer(random);
        let (answer, _) = pair.command(&mut self.world, &offer, words, &mut buffer)?;
        self.sent += 1;
        self.book_command(answer)?;
        buffer.truncate(if answer == SUCCESS { asked } else { 0 });
        let mut ok = answer == SUCCESS;
        if !self.honest {
            tamper(random, &mut ok, &mut buffer);
        }
        if random.chance(6) {
            self.unfit_completion(pair, random, ok, &buffer)?;
        }
        let (flag, phase) = (random.flag(ok), self.state[0]);
        self.next = pair.step(&mut self.state, flag, &buffer, &mut self.copy)?;
        claim(self.next[0] != REFUSED, "a completion that fits is taken")?;
        if phase == FIRST_HEADER && ok {
            self.plan(pair, &buffer)?;
        }
        if phase == CHUNK && ok && old {
            self.blocks_together = buffer.split_off(BLOCK);
        }
        let wanted = get_u32(&self.state, 36 + 4 * self.setup.area as usize);
        self.chunks = self.chunks.max(chunks_of(self.setup, wanted));
        Ok(())
    }

    /// The plan from the first header, after the step with it.
    fn plan(&mut self, pair: &mut Pair, header: &[u8]) -> Same<()> {
        let (answer, planned) = pair.plan(self.setup.wanted(), header)?;
        let kind = if answer == SUCCESS { SEND } else { ENDED };
        claim(self.next[..2] == [kind, answer], "a run answers its first header as a plan does")?;
        claim(self.next[3] == planned[5], "and tells the same field")?;
        self.planned = get_u32(&planned, 156) as u64;
        Ok(())
    }

    /// The candidate that an own command is lent: the first create needs a good one, all others may be lent anything.
    fn own_offer(&self, random: &mut Random) -> Offer {
        let store = self.world.host_store.len();
        if self.state[0] != FIRST_HEADER || !self.honest {
            return generate::any_offer(random, store);
        }
        let a3 = random.up_to((store / BLOCK) as u32);
        let a1 = random.up_to(a3);
        let last = [a1, a3, a3, a3];
        Offer { last, bytes: random.bytes(a3 as usize * BLOCK), reason: random.bytes(REASON) }
    }

    /// Books an own command, and claims that an honest drive refuses no more than a chunk, and in an old run nothing.
    fn book_command(&mut self, answer: u8) -> Same<()> {
        let phase = self.state[0];
        if self.honest {
            let may_be_refused = phase == CHUNK && answer == INVALID_FIELD && !is_old(self.setup.caps);
            claim(answer == SUCCESS || may_be_refused, "what starts with the header is not refused")?;
        }
        if phase != CHUNK && phase != ACKNOWLEDGEMENT {
            let last = area_last(&self.world, self.setup);
            self.area_at_check = wanted_area(&self.world, self.setup);
            if phase != FIRST_HEADER {
                self.captures_in_an_attempt = self.captures_in_an_attempt.max(self.captures_since_header);
            }
            self.captures_since_header = 0;
            self.chunks = self.chunks.max(chunks_of(self.setup, last));
        }
        Ok(())
    }

    /// A completion that does not fit: 15, and nothing changes.
    fn unfit_completion(&mut self, pair: &mut Pair, random: &mut Random, ok: bool, data: &[u8]) -> Same<()> {
        let mut data = data.to_vec();
        let mut copy = self.copy.clone();
        match random.up_to(3) {
            0 => data.push(0),
            1 if ok => data.truncate(data.len() - 1),
            2 if ok => data.truncate(data.len() - BLOCK),
            _ => copy.push(0),
        }
        let (state, before) = (self.state, copy.clone());
        let next = pair.step(&mut self.state, random.flag(ok), &data, &mut copy)?;
        claim(next[0] == REFUSED && next[1] == DOES_NOT_FIT, "a completion that does not fit is 15")?;
        claim(self.state == state && copy == before, "15 changes nothing")
    }

    /// What others do between two own commands.
    fn happenings(&mut self, pair: &mut Pair, random: &mut Random) -> Same<()> {
        // Now and then as many captures as bring a generation back to where it was, or nearly.
        if self.store().len() < 8 * BLOCK && random.chance(2) {
            let captures = random.pick(&[255, 256, 256, 257, 512]);
            return self.burst(pair, random, captures);
        }
        for _ in 0..random.pick(&[1, 1, 1, 2, 3]) {
            let captured = match random.up_to(11) {
                0..=3 => self.own_page_capture(pair, random)?,
                4 => self.controller_capture(pair, random)?,
                5 => self.foreign_create(pair, random)?,
                6 => self.foreign_clearing(pair, random)?,
                7 | 8 => self.drop_host_data(pair)?,
                _ => self.foreign_command(pair, random)?,
            };
            self.book_capture(captured);
        }
        Ok(())
    }

    /// So many captures of the run's page, if it takes them. Half the time they have the areas that it has: these and the generation are all
    /// that headers tell captures by.
    fn burst(&mut self, pair: &mut Pair, random: &mut Random, captures: u32) -> Same<()> {
        let host = self.setup.page == HOST_PAGE;
        let last = generate::last_of(&self.world.record, if host { at::HOST_LAST } else { at::CONTROLLER_LAST });
        let same = Event::captured(self.setup.page, [last[0], last[1], last[2], last[2].max(last[3])]);
        let keeps_areas = (host || last[2] > 0) && random.chance(50);
        let mut taken = 0;
        for _ in 0..4 * captures {
            if taken == captures {
                break;
            }
            let captured = if keeps_areas {
                happen(pair, random, &mut self.world, &same)?;
                true
            } else {
                self.own_page_capture(pair, random)?
            };
            self.book_capture(captured);
            taken += captured as u32;
        }
        Ok(())
    }

    /// One of what k counts, and on 08h now and then another host's clearing before it.
    fn capture_or_drop(&mut self, pair: &mut Pair, random: &mut Random) -> Same<()> {
        if self.setup.page == CONTROLLER_PAGE && random.chance(10) {
            self.foreign_clearing(pair, random)?;
        }
        let captured =
            if random.chance(50) { self.drop_host_data(pair)? } else { self.own_page_capture(pair, random)? };
        self.book_capture(captured);
        Ok(())
    }

    fn book_capture(&mut self, captured: bool) {
        self.captures += captured as u64;
        self.captures_since_header += captured as u64;
    }

    /// A Firmware Commit or power on. It is no capture, so the books have it here; of page 08h it changes nothing.
    fn drop_host_data(&mut self, pair: &mut Pair) -> Same<bool> {
        let answer = pair.drop_host_data(&mut self.world)?;
        claim(answer == SUCCESS, "a drive that agrees with its stores takes a drop")?;
        self.drops += (self.setup.page == HOST_PAGE) as u64;
        Ok(false)
    }

    fn own_page_capture(&mut self, pair: &mut Pair, random: &mut Random) -> Same<bool> {
        if self.setup.page == HOST_PAGE {
            self.foreign_create(pair, random)
        } else {
            self.controller_capture(pair, random)
        }
    }

    /// Whether it was a capture of the run's page, as for all happenings.
    fn controller_capture(&mut self, pair: &mut Pair, random: &mut Random) -> Same<bool> {
        let mut offer = generate::offer(random, self.world.controller_store.len());
        if random.chance(5) {
            generate::break_offer(random, &mut offer);
        }
        let answer = pair.capture(&mut self.world, &offer)?;
        Ok(answer == SUCCESS && self.setup.page == CONTROLLER_PAGE)
    }

    fn foreign_create(&mut self, pair: &mut Pair, random: &mut Random) -> Same<bool> {
        let offer = generate::any_offer(random, self.world.host_store.len());
        let mcda = random.pick(&[0, 0, 1, 2, 3, 4, 5]);
        let offset = random.pick(&[0, 0, 512, 4_096]);
        let words = [0x007F_0107 | mcda << 9 | random.pick(&[0, 1 << 15]), 0, offset, 0, 0];
        self.foreign(pair, random, &offer, words)
    }

    fn foreign_clearing(&mut self, pair: &mut Pair, random: &mut Random) -> Same<bool> {
        let offer = generate::any_offer(random, 0);
        let words = [0x007F_0008, 0, random.pick(&[0, 0, 512, 1_024]), 0, 0];
        self.foreign(pair, random, &offer, words)
    }

    fn foreign_command(&mut self, pair: &mut Pair, random: &mut Random) -> Same<bool> {
        let offer = generate::any_offer(random, self.world.host_store.len());
        let words = generate::words(random, &self.world, &offer);
        self.foreign(pair, random, &offer, words)
    }

    fn foreign(&mut self, pair: &mut Pair, random: &mut Random, offer: &Offer, words: Words) -> Same<bool> {
        let mut buffer = generate::buffer(random, self.setup.caps, words);
        let (answer, _) = pair.command(&mut self.world, offer, words, &mut buffer)?;
        let creates = words[0] & 0x1FF == 0x107;
        Ok(answer == SUCCESS && creates && self.setup.page == HOST_PAGE)
    }

    /// What is claimed of an ended run that had more attempts than the k captures and drops that could happen.
    fn finish_of_k(&mut self, pair: &mut Pair, k: u32) -> Same<()> {
        let old_ending = is_old(self.setup.caps) && self.next[1] == OUT_OF_REACH;
        claim(
            [SUCCESS, NO_ROOM, WITHDRAWN, NOTHING].contains(&self.next[1]) || old_ending,
            "with more than k attempts a run ends with 0, 8, 10 or 11, and an old one with these or 19",
        )?;
        claim(self.captures + self.drops <= k as u64, "no more than k captures and drops were counted")?;
        let told = self.captures_in_an_attempt <= MOST_CAPTURES_TOLD as u64;
        claim(told, "no attempt had more captures than its closing header tells")?;
        self.finish(pair)
    }

    /// What is claimed of an ended run, and that it stays ended.
    fn finish(&mut self, pair: &mut Pair) -> Same<()> {
        self.check_ending()?;
        let next = pair.step(&mut self.state, 1, &[], &mut self.copy)?;
        claim(next[0] == REFUSED && next[1] == ALREADY_ENDED, "a step after the ending is 14")
    }

    /// What a month's sheet counts of an ended run: failed attempts are those before its last one, and with 9 that one too.
    fn finished(&self) -> Finished {
        let (ending, attempt) = (self.next[1], get_u32(&self.state, 16) as u64);
        let wanted = get_u32(&self.state, 36 + 4 * self.setup.area as usize);
        Finished {
            ending,
            blocks: if ending == SUCCESS { wanted as u64 } else { 0 },
            commands: get_u64(&self.next, 24),
            failed: if ending == ATTEMPTS_USED_UP { attempt } else { attempt - 1 },
        }
    }

    /// What document 01 claims of every ending, and of those of an honest run.
    fn check_ending(&self) -> Same<()> {
        let (answer, newer, count) = (self.next[1], self.next[2], get_u64(&self.next, 24));
        let attempts = self.setup.attempts as u64;
        claim(self.next[0] == ENDED && self.state[0] == 5, "the state has ended")?;
        claim((self.next[3] != 0) == (answer == BAD_HEADER), "7 carries the field, and no other answer does")?;
        claim(count == self.sent, "the answer gives the number of commands sent")?;
        claim(count <= 2 + attempts * (self.chunks + 1), "a run ends within 2 + attempts * (C + 1) commands")?;
        let kept = if answer == SUCCESS { get_u32(&self.state, 36 + 4 * self.setup.area as usize) } else { 0 };
        let (kept, tail) = self.copy.split_at(kept as usize * BLOCK);
        claim(tail.iter().all(|byte| *byte == 0), "zeros stand after what an ending keeps")?;
        let together = kept.is_empty() || kept == self.blocks_together;
        claim(together || !is_old(self.setup.caps), "an old run keeps the blocks of one command")?;
        if self.honest {
            self.check_honest_ending(answer, newer == 1, count)?;
        }
        Ok(())
    }

    fn check_honest_ending(&self, answer: u8, newer: bool, count: u64) -> Same<()> {
        let controller_page = self.setup.page == CONTROLLER_PAGE;
        let k = self.captures + self.drops;
        let bound = 1 + (k + 1) * (self.chunks + 1) + controller_page as u64;
        claim(count <= bound, "a run ends within 1 + (k + 1)(C + 1) commands, one more on 08h")?;
        if self.captures_in_an_attempt > MOST_CAPTURES_TOLD as u64 {
            return Ok(());
        }
        let may_be_used_up = k >= self.setup.attempts as u64;
        let bytes = self.area_at_check.len();
        let out_of_reach = is_old(self.setup.caps) && bytes > 31 * BLOCK;
        let allowed = match answer {
            SUCCESS => true,
            NO_ROOM => bytes as u64 > self.setup.room && !out_of_reach,
            OUT_OF_REACH => out_of_reach,
            ATTEMPTS_USED_UP => may_be_used_up,
            WITHDRAWN | NOTHING => controller_page,
            _ => false,
        };
        claim(
            allowed,
            "an honest drive's run ends with 0, 8, 10, 11 or 19, and with 9 only if captures and drops use up the attempts",
        )?;
        if answer == SUCCESS {
            let area = self.copy.get(..self.area_at_check.len());
            claim(area == Some(&self.area_at_check[..]), "the copy is the wanted area at the last check")?;
            let tail = &self.copy[self.area_at_check.len()..];
            claim(tail.iter().all(|byte| *byte == 0), "zeros stand after the wanted area")?;
            // However many captures follow the last check: a multiple of 256 is not told.
            let told = controller_page && self.captures_since_header % 256 != 0;
            claim(newer == told, "newer tells of captures between the last check and the acknowledgement")?;
            let undisturbed = 2 + self.planned + controller_page as u64;
            claim(k > 0 || count == undisturbed, "an undisturbed run sends as many chunks as were planned")?;
        }
        Ok(())
    }
}

/// A drive that refuses or lies.
fn tamper(random: &mut Random, ok: &mut bool, data: &mut Vec<u8>) {
    if random.chance(6) {
        *ok = false;
        data.clear();
    }
    if *ok && random.chance(12) {
        let at = random.pick(&[0, 8, 10, 12, 16, 380, 381, 382, 383, 383, 500]);
        data[at] = random.pick(&[0, 1, 2, 3, 7, 8, 255]);
    }
}

/// What happens after an own command of a scripted run.
enum Event {
    Capture(LastBlocks),
    Create(LastBlocks),
    /// another host acknowledges
    Clear,
    /// a Firmware Commit or power on
    Drop,
    /// one of the others, so many times
    Many(u32, &'static Event),
}

impl Event {
    fn captured(page: u8, last: LastBlocks) -> Event {
        if page == HOST_PAGE {
            Event::Create(last)
        } else {
            Event::Capture(last)
        }
    }
}

/// A capture of page 07h, and of page 08h, that has the areas of the one before it.
const SAME_07H: Event = Event::Create([0, 0, 2, 2]);
const SAME_08H: Event = Event::Capture([0, 0, 2, 2]);

/// A run of one capture plan, as its commands are expected: H first header, cN chunk at block N, M the middle command of an old run, h closing
/// header, A acknowledgement, and ! after a refused one. A chunk of 0 is an old run, from a drive without extended data.
struct Script {
    page: u8,
    last: LastBlocks,
    generation: u8,
    area: u8,
    chunk: u32,
    attempts: u32,
    room: u32,
    /// after which own command, from 1
    events: &'static [(usize, Event)],
    commands: &'static str,
    answer: u8,
    newer: bool,
}

/// Corner cases in which captures, few and many, clearings, drops and the end of a page meet.
const SCRIPTS: [Script; 85] = [
    script(7, [0, 0, 3, 0], 2, 4, &[], "H c1 c3 h", 0, false),
    script(7, [0, 0, 0, 0], 2, 4, &[], "H h", 0, false),
    Script { area: 1, ..script(8, [0, 0, 3, 0], 2, 4, &[], "H h A", 0, false) },
    script(8, [0, 0, 0, 0], 2, 4, &[], "H", 11, false),
    script(7, [0, 0, 1, 0], 1, 4, &[(2, Event::Create([0, 0, 5, 5]))], "H c1 h", 8, false),
    script(7, [0, 0, 1, 0], 1, 4, &[(2, Event::Create([0, 0, 4, 4]))], "H c1 h c1 c2 c3 c4 h", 0, false),
    Script {
        generation: 255,
        ..script(7, [0, 0, 4, 0], 1, 4, &[(2, Event::Create([0, 0, 1, 1]))], "H c1 c2 c3! h c1 h", 0, false)
    },
    script(7, [0, 0, 4, 0], 1, 4, &[(1, Event::Create([0, 0, 0, 0]))], "H c1 c2! h h", 0, false),
    script(
        7,
        [0, 0, 3, 0],
        2,
        4,
        &[(3, Event::Create([0, 0, 3, 3])), (6, Event::Create([0, 0, 3, 3]))],
        "H c1 c3 h c1 c3 h c1 c3 h",
        0,
        false,
    ),
    script(8, [0, 0, 3, 0], 1, 4, &[(1, Event::Clear)], "H c1 c2! h", 10, false),
    script(8, [0, 0, 3, 0], 4, 4, &[(1, Event::Clear)], "H c1 h", 10, false),
    Script {
        generation: 255,
        ..script(
            8,
            [0, 0, 3, 0],
            1,
            4,
            &[(1, Event::Clear), (1, Event::Capture([0, 0, 2, 2]))],
            "H c1 c2 c3 h c1 c2 h A",
            0,
            false,
        )
    },
    script(
        8,
        [0, 0, 3, 0],
        1,
        4,
        &[(1, Event::Clear), (3, Event::Capture([0, 0, 2, 2]))],
        "H c1 c2! h c1 c2 h A",
        0,
        false,
    ),
    script(8, [0, 0, 1, 0], 1, 4, &[(3, Event::Capture([0, 0, 2, 2]))], "H c1 h A", 0, true),
    script(8, [0, 0, 1, 0], 1, 4, &[(3, Event::Clear)], "H c1 h A", 0, false),
    script(8, [0, 0, 1, 0], 1, 4, &[(3, Event::Clear), (3, Event::Capture([0, 0, 2, 2]))], "H c1 h A", 0, true),
    Script {
        attempts: 2,
        ..script(
            7,
            [0, 0, 1, 0],
            1,
            4,
            &[(2, Event::Create([0, 0, 5, 5])), (2, Event::Create([0, 0, 1, 1])), (4, Event::Create([0, 0, 9, 9]))],
            "H c1 h c1 h",
            9,
            false,
        )
    },
    // A drop before, between and after the chunks: the page has ended, so the chunk at block 1 is zeros and a later one is refused. No
    // copy of what was dropped stands.
    script(7, [2, 2, 2, 0], 1, 4, &[(1, Event::Drop)], "H c1 c2! h h", 0, false),
    script(7, [2, 2, 2, 0], 2, 4, &[(1, Event::Drop)], "H c1 h h", 0, false),
    script(7, [2, 2, 2, 0], 1, 4, &[(2, Event::Drop)], "H c1 c2! h h", 0, false),
    script(7, [2, 2, 2, 0], 1, 4, &[(3, Event::Drop)], "H c1 c2 h h", 0, false),
    // Once the page is empty, further drops change nothing, neither in the same attempt nor in the next.
    script(7, [2, 2, 2, 0], 2, 4, &[(1, Event::Drop), (2, Event::Drop), (3, Event::Drop)], "H c1 h h", 0, false),
    // An attempt is used up by a drop too.
    Script { attempts: 1, ..script(7, [2, 2, 2, 0], 1, 4, &[(1, Event::Drop)], "H c1 c2! h", 9, false) },
    Script { attempts: 1, ..script(7, [2, 2, 2, 0], 2, 4, &[(2, Event::Drop)], "H c1 h", 9, false) },
    Script { attempts: 2, ..script(7, [2, 2, 2, 0], 2, 4, &[(2, Event::Drop)], "H c1 h h", 0, false) },
    // No block is wanted before or after the drop, and still other areas' last blocks tell of it.
    Script { area: 1, ..script(7, [0, 1, 3, 0], 2, 4, &[(1, Event::Drop)], "H h h", 0, false) },
    Script { area: 2, ..script(7, [0, 0, 3, 0], 2, 4, &[(1, Event::Drop)], "H h h", 0, false) },
    // On a page that is empty already a drop changes the reason alone, which is not compared.
    script(7, [0, 0, 0, 0], 2, 4, &[(1, Event::Drop)], "H h", 0, false),
    // A capture of the same areas after the drop: the generation tells, also where it goes from 255 to 0.
    Script {
        generation: 255,
        ..script(
            7,
            [0, 0, 2, 0],
            1,
            4,
            &[(1, Event::Drop), (1, Event::Create([0, 0, 2, 2]))],
            "H c1 c2 h c1 c2 h",
            0,
            false,
        )
    },
    script(
        7,
        [0, 0, 2, 0],
        1,
        4,
        &[(2, Event::Create([0, 0, 2, 2])), (5, Event::Drop)],
        "H c1 c2 h c1 c2! h h",
        0,
        false,
    ),
    // A capture between two drops, which the room would not have held.
    script(
        7,
        [0, 0, 2, 0],
        2,
        4,
        &[(1, Event::Drop), (1, Event::Create([0, 0, 9, 9])), (1, Event::Drop)],
        "H c1 h h",
        0,
        false,
    ),
    script(7, [0, 0, 2, 0], 2, 4, &[(1, Event::Drop), (2, Event::Create([0, 0, 9, 9]))], "H c1 h", 8, false),
    // Page 08h knows nothing of drops.
    script(8, [0, 0, 2, 0], 1, 4, &[(1, Event::Drop), (2, Event::Drop), (4, Event::Drop)], "H c1 c2 h A", 0, false),
    script(8, [0, 0, 1, 0], 1, 4, &[(1, Event::Drop), (3, Event::Capture([0, 0, 2, 2]))], "H c1 h A", 0, true),
    // 300 captures of the same areas in one run, none of its attempts having more than 255.
    script(
        7,
        [0, 0, 2, 0],
        1,
        4,
        &[(1, Event::Many(100, &SAME_07H)), (5, Event::Many(100, &SAME_07H)), (9, Event::Many(100, &SAME_07H))],
        "H c1 c2 h c1 c2 h c1 c2 h c1 c2 h",
        0,
        false,
    ),
    script(
        7,
        [0, 0, 2, 0],
        1,
        4,
        &[(2, Event::Many(255, &SAME_07H)), (6, Event::Many(45, &SAME_07H))],
        "H c1 c2 h c1 c2 h c1 c2 h",
        0,
        false,
    ),
    script(
        8,
        [0, 0, 2, 0],
        1,
        4,
        &[(2, Event::Many(255, &SAME_08H)), (5, Event::Many(255, &SAME_08H)), (9, Event::Many(90, &SAME_08H))],
        "H c1 c2 h c1 c2 h c1 c2 h c1 c2 h A",
        0,
        false,
    ),
    // 256 of them before and after a closing header, but no more than 255 between two.
    script(
        7,
        [0, 0, 2, 0],
        1,
        4,
        &[(3, Event::Many(128, &SAME_07H)), (4, Event::Many(128, &SAME_07H))],
        "H c1 c2 h c1 c2 h c1 c2 h",
        0,
        false,
    ),
    // Drops do not count for the 255, wherever they fall.
    script(
        7,
        [0, 0, 2, 0],
        1,
        4,
        &[(1, Event::Many(9, &Event::Drop)), (2, Event::Many(255, &SAME_07H))],
        "H c1 c2 h c1 c2 h",
        0,
        false,
    ),
    script(
        7,
        [0, 0, 2, 0],
        1,
        4,
        &[(1, Event::Many(255, &SAME_07H)), (2, Event::Many(9, &Event::Drop))],
        "H c1 c2! h h",
        0,
        false,
    ),
    script(
        7,
        [0, 0, 2, 0],
        1,
        4,
        &[(1, Event::Many(127, &SAME_07H)), (2, Event::Many(300, &Event::Drop)), (3, Event::Many(128, &SAME_07H))],
        "H c1 c2! h c1 c2 h",
        0,
        false,
    ),
    // 300 drops in one attempt are one change.
    script(7, [0, 0, 2, 0], 1, 4, &[(1, Event::Many(300, &Event::Drop))], "H c1 c2! h h", 0, false),
    // They use an attempt up.
    Script {
        attempts: 1,
        ..script(7, [0, 0, 2, 0], 1, 4, &[(1, Event::Many(255, &SAME_07H)), (1, Event::Drop)], "H c1 c2! h", 9, false)
    },
    // 257 captures in one attempt are told as one is, and 256 where the areas are others at the end.
    script(7, [0, 0, 2, 0], 1, 4, &[(2, Event::Many(257, &SAME_07H))], "H c1 c2 h c1 c2 h", 0, false),
    script(7, [0, 0, 2, 0], 1, 4, &[(3, Event::Many(256, &Event::Create([0, 0, 1, 1])))], "H c1 c2 h c1 h", 0, false),
    script(7, [0, 0, 2, 0], 1, 4, &[(2, Event::Many(256, &SAME_07H)), (2, Event::Drop)], "H c1 c2! h h", 0, false),
    // Captures after the last check are not limited, and a multiple of 256 is not told.
    script(8, [0, 0, 2, 0], 2, 4, &[(3, Event::Many(255, &SAME_08H))], "H c1 h A", 0, true),
    script(8, [0, 0, 2, 0], 2, 4, &[(3, Event::Many(256, &SAME_08H))], "H c1 h A", 0, false),
    script(8, [0, 0, 2, 0], 2, 4, &[(3, Event::Many(256, &Event::Capture([0, 0, 9, 9])))], "H c1 h A", 0, false),
    script(8, [0, 0, 2, 0], 2, 4, &[(3, Event::Many(257, &SAME_08H))], "H c1 h A", 0, true),
    script(8, [0, 0, 2, 0], 2, 4, &[(3, Event::Many(512, &SAME_08H))], "H c1 h A", 0, false),
    // Old runs, of no block, of one, and of all that are in reach.
    script(7, [0, 0, 0, 0], 0, 4, &[], "H h", 0, false),
    Script { area: 1, ..script(8, [0, 0, 3, 0], 0, 4, &[], "H h A", 0, false) },
    script(8, [0, 0, 0, 0], 0, 4, &[], "H", 11, false),
    script(7, [0, 0, 1, 0], 0, 1, &[], "H M h", 0, false),
    script(8, [0, 0, 1, 0], 0, 4, &[], "H M h A", 0, false),
    script(7, [0, 0, 31, 0], 0, 31, &[], "H M h", 0, false),
    script(8, [0, 0, 31, 0], 0, 40, &[], "H M h A", 0, false),
    // Past block 31, whatever the room is, but not where only another area is.
    script(7, [0, 0, 32, 0], 0, 31, &[], "H", 19, false),
    script(7, [0, 0, 32, 0], 0, 32, &[], "H", 19, false),
    script(8, [0, 0, 32, 0], 0, 0, &[], "H", 19, false),
    Script { area: 2, ..script(7, [0, 31, 32, 0], 0, 31, &[], "H M h", 0, false) },
    script(7, [0, 0, 20, 0], 0, 10, &[], "H", 8, false),
    // An area that grows past block 31: 9 before 19 before 8.
    script(7, [0, 0, 1, 0], 0, 40, &[(2, Event::Create([0, 0, 32, 32]))], "H M h", 19, false),
    script(7, [0, 0, 1, 0], 0, 4, &[(2, Event::Create([0, 0, 32, 32]))], "H M h", 19, false),
    script(7, [0, 0, 1, 0], 0, 4, &[(2, Event::Create([0, 0, 31, 31]))], "H M h", 8, false),
    script(8, [0, 0, 31, 0], 0, 40, &[(1, Event::Capture([0, 0, 32, 32]))], "H M h", 19, false),
    Script { attempts: 1, ..script(7, [0, 0, 1, 0], 0, 4, &[(2, Event::Create([0, 0, 32, 32]))], "H M h", 9, false) },
    Script {
        attempts: 2,
        ..script(
            7,
            [0, 0, 1, 0],
            0,
            4,
            &[(1, Event::Create([0, 0, 2, 2])), (4, Event::Create([0, 0, 32, 32]))],
            "H M h M h",
            9,
            false,
        )
    },
    script(
        7,
        [0, 0, 31, 0],
        0,
        31,
        &[(1, Event::Create([0, 0, 32, 32])), (2, Event::Create([0, 0, 31, 31]))],
        "H M h M h",
        0,
        false,
    ),
    // The header of the middle command shows another generation or no data, and is not judged: the closing one decides.
    Script {
        generation: 255,
        ..script(7, [0, 0, 2, 0], 0, 4, &[(1, Event::Create([0, 0, 2, 2]))], "H M h M h", 0, false)
    },
    script(7, [0, 0, 4, 0], 0, 4, &[(1, Event::Create([0, 0, 0, 0]))], "H M h h", 0, false),
    script(8, [0, 0, 3, 0], 0, 4, &[(1, Event::Clear)], "H M h", 10, false),
    script(8, [0, 0, 3, 0], 0, 4, &[(1, Event::Clear), (2, Event::Capture([0, 0, 2, 2]))], "H M h M h A", 0, false),
    script(8, [0, 0, 3, 0], 0, 4, &[(3, Event::Capture([0, 0, 32, 32]))], "H M h A", 0, true),
    script(7, [2, 2, 2, 0], 0, 4, &[(1, Event::Drop)], "H M h h", 0, false),
    script(7, [2, 2, 2, 0], 0, 4, &[(2, Event::Drop)], "H M h h", 0, false),
    Script { attempts: 1, ..script(7, [2, 2, 2, 0], 0, 4, &[(1, Event::Drop)], "H M h", 9, false) },
    Script { area: 1, ..script(7, [0, 1, 3, 0], 0, 4, &[(1, Event::Drop)], "H h h", 0, false) },
    script(7, [0, 0, 0, 0], 0, 4, &[(1, Event::Drop)], "H h", 0, false),
    script(8, [0, 0, 2, 0], 0, 4, &[(1, Event::Drop), (2, Event::Drop)], "H M h A", 0, false),
    // One command brings all blocks, so that 256 captures before it mix nothing, though no header tells of them.
    script(7, [0, 0, 2, 0], 0, 4, &[(1, Event::Many(256, &SAME_07H))], "H M h", 0, false),
    script(8, [0, 0, 2, 0], 0, 4, &[(1, Event::Many(256, &SAME_08H))], "H M h A", 0, false),
    script(7, [0, 0, 2, 0], 0, 4, &[(1, Event::Many(255, &SAME_07H))], "H M h M h", 0, false),
    script(8, [0, 0, 2, 0], 0, 4, &[(3, Event::Many(256, &SAME_08H))], "H M h A", 0, false),
];

#[allow(clippy::too_many_arguments)]
const fn script(
    page: u8,
    last: LastBlocks,
    chunk: u32,
    room: u32,
    events: &'static [(usize, Event)],
    commands: &'static str,
    answer: u8,
    newer: bool,
) -> Script {
    Script { page, last, generation: 9, area: 3, chunk, attempts: 5, room, events, commands, answer, newer }
}

pub fn scripts(pair: &mut Pair, random: &mut Random) -> Same<()> {
    SCRIPTS.iter().try_for_each(|script| play(pair, random, script))
}

fn offer_of(random: &mut Random, last: LastBlocks) -> Offer {
    Offer { last, bytes: random.bytes(last[3] as usize * BLOCK), reason: random.bytes(REASON) }
}

fn play(pair: &mut Pair, random: &mut Random, script: &Script) -> Same<()> {
    let old = script.chunk == 0;
    let caps = generate::TELEMETRY | if old { 0 } else { generate::EXTENDED };
    let (_, mut record) = pair.fresh(caps, 0x00C0_FFEE, 1, 2)?;
    let host = script.page == HOST_PAGE;
    generate::put_last(&mut record, if host { at::HOST_LAST } else { at::CONTROLLER_LAST }, script.last);
    record[if host { at::HOST_GENERATION } else { at::CONTROLLER_GENERATION }] = script.generation;
    record[at::AVAILABLE] = (!host && script.last[2] > 0) as u8;
    random.fill(&mut record[at::REASONS..]);
    let store = if old { 33 } else { 9 } * BLOCK;
    let mut world = World { record, host_store: random.bytes(store), controller_store: random.bytes(store) };
    let room = script.room as u64 * 512;
    let Script { page, area, chunk, attempts, .. } = *script;
    let setup = Setup { page, create: 0, area, caps, chunk, attempts, room };
    let (mut state, mut next) = pair.setup(setup)?;
    let mut copy = random.bytes(room as usize);
    let mut told = String::new();
    let mut sent = 0;
    let mut area_at_check = Vec::new();
    while next[0] == SEND && sent < 100 {
        sent += 1;
        if ![CHUNK, ACKNOWLEDGEMENT].contains(&state[0]) {
            area_at_check = wanted_area(&world, setup);
        }
        let words = words_of(&next);
        let mut buffer = random.bytes(asked_bytes(caps, words) as usize);
        let nothing = offer_of(random, [0; 4]);
        let (answer, _) = pair.command(&mut world, &nothing, words, &mut buffer)?;
        let refused = answer != SUCCESS;
        told += &format!("{}{} ", name_of(&state), if refused { "!" } else { "" });
        buffer.truncate(if refused { 0 } else { buffer.len() });
        next = pair.step(&mut state, !refused as u8, &buffer, &mut copy)?;
        for (_, event) in script.events.iter().filter(|(after, _)| *after == sent) {
            happen(pair, random, &mut world, event)?;
        }
    }
    let got = (told.trim_end(), next[1], next[2] == 1, get_u64(&next, 24) as usize);
    let due = (script.commands, script.answer, script.newer, script.commands.split(' ').count());
    if got != due {
        return Err(Difference(format!("scripted run: both gave {got:?}, but due is {due:?}")));
    }
    let mut copy_due = if script.answer == SUCCESS { area_at_check } else { Vec::new() };
    copy_due.resize(room as usize, 0);
    claim(
        copy == copy_due,
        "the copy of a scripted run is the wanted area at the last check and zeros after it, else zeros",
    )
}

fn name_of(state: &[u8; STATE_BYTES]) -> String {
    match state[0] {
        FIRST_HEADER => "H".to_string(),
        CHUNK if is_old(state[4]) && get_u32(state, 20) == 1 => "M".to_string(),
        CHUNK => format!("c{}", get_u32(state, 20)),
        ACKNOWLEDGEMENT => "A".to_string(),
        2..=HEADER_AFTER_REFUSAL => "h".to_string(),
        other => format!("phase {other}"),
    }
}

fn happen(pair: &mut Pair, random: &mut Random, world: &mut World, event: &Event) -> Same<()> {
    let mut buffer = vec![0; BLOCK];
    let answer = match event {
        Event::Many(times, event) => return (0..*times).try_for_each(|_| happen(pair, random, world, event)),
        Event::Drop => pair.drop_host_data(world)?,
        Event::Capture(last) => pair.capture(world, &offer_of(random, *last))?,
        Event::Create(last) => pair.command(world, &offer_of(random, *last), [0x007F_8107, 0, 0, 0, 0], &mut buffer)?.0,
        Event::Clear => pair.command(world, &offer_of(random, [0; 4]), [0x007F_0008, 0, 0, 0, 0], &mut buffer)?.0,
    };
    claim(answer == SUCCESS, "what happens in a scripted run is taken")
}
