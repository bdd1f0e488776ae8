//! The pair: every call goes to the library and to the second opinion on the same bytes, and every lent byte is compared afterwards,
//! those that may not be written among them.

use crate::boundary::{
    self, Setup, Wanted, MEAN_BYTES, NEXT_BYTES, PLANNED_BYTES, RECORD_BYTES, SEND, SHEET_BYTES, STATE_BYTES,
};
use crate::controller::Candidate;
use crate::lent::Lent;
use crate::library::{self, Loan};
use crate::rules::{LastBlocks, Words, SUCCESS};
use crate::seen::{Function, Place, Seen};
use crate::sheet::Finished;

/// A difference, told in words.
#[derive(Debug)]
pub struct Difference(pub String);

pub type Same<T> = Result<T, Difference>;

/// A record with both stores.
#[derive(Clone)]
pub struct World {
    pub record: [u8; RECORD_BYTES],
    pub host_store: Vec<u8>,
    pub controller_store: Vec<u8>,
}

/// A candidate that owns its bytes.
#[derive(Clone)]
pub struct Offer {
    pub last: LastBlocks,
    pub bytes: Vec<u8>,
    pub reason: Vec<u8>,
}

impl Offer {
    fn candidate(&self) -> Candidate<'_> {
        Candidate { last: self.last, bytes: &self.bytes, reason: &self.reason }
    }
}

/// A world and an offer as they are lent to the library.
struct LentWorld {
    record: Lent,
    host_store: Lent,
    controller_store: Lent,
    last: Lent,
    candidate: Lent,
    reason: Lent,
}

impl LentWorld {
    fn loan(&mut self) -> Loan {
        Loan {
            record: self.record.pointer(),
            host_store: self.host_store.slice(),
            controller_store: self.controller_store.slice(),
            last: self.last.pointer(),
            candidate: self.candidate.slice(),
            reason: self.reason.slice(),
        }
    }
}

/// Bytes that stand in what a call must write, so that a byte left out is seen.
const STALE: u8 = 0x5A;

pub struct Pair {
    pub seen: Seen,
    turn: usize,
}

pub fn hex(bytes: &[u8]) -> String {
    let shown: String = bytes.iter().take(64).map(|byte| format!("{byte:02X}")).collect();
    let more = if bytes.len() > 64 { ".." } else { "" };
    format!("{shown}{more} ({} bytes)", bytes.len())
}

pub fn words_to_bytes(words: &[u32]) -> Vec<u8> {
    words.iter().flat_map(|word| word.to_le_bytes()).collect()
}

fn hex_words(words: &[u32]) -> String {
    words.iter().map(|word| format!("{word:08X} ")).collect()
}

/// The verdict on a call: equal answers, and each lent part as the second opinion has it.
fn verify(answers: (u32, u32), parts: &[(&str, &Lent, &[u8])], call: &str, inputs: impl Fn() -> String) -> Same<()> {
    let (library, opinion) = answers;
    let problem = if library == opinion {
        parts.iter().find_map(|(name, lent, expected)| lent.problem(name, expected))
    } else {
        Some("the answers differ".to_string())
    };
    match problem {
        None => Ok(()),
        Some(problem) => Err(Difference(format!(
            "{call}: {problem}\nanswers: library {library}, second opinion {opinion}\ninputs:\n{}",
            inputs()
        ))),
    }
}

fn describe_world(world: &World) -> String {
    format!(
        "  record        {}\n  host store    {}\n  control store {}",
        hex(&world.record),
        hex(&world.host_store),
        hex(&world.controller_store)
    )
}

fn describe_sheet(sheet: &[u8; SHEET_BYTES]) -> String {
    sheet
        .chunks(8)
        .map(|number| number.iter().rev().map(|byte| format!("{byte:02X}")).collect::<String>() + " ")
        .collect()
}

fn describe_loan(world: &World, offer: &Offer) -> String {
    let (bytes, reason) = (hex(&offer.bytes), hex(&offer.reason));
    format!("{}\n  candidate     {:?} {bytes}\n  reason        {reason}", describe_world(world), offer.last)
}

impl Pair {
    pub fn new() -> Pair {
        Pair { seen: Seen::new(), turn: 0 }
    }

    /// Lends bytes, each time with another skew: a copy loop may be right for aligned bytes alone.
    fn lend(&mut self, bytes: &[u8]) -> Lent {
        self.turn = self.turn.wrapping_add(1);
        Lent::new(bytes, self.turn * 5 % 8, self.turn % 2 == 0)
    }

    fn lend_struct(bytes: &[u8]) -> Lent {
        Lent::new(bytes, 0, false)
    }

    pub fn class(&mut self, page: u8) -> Same<u8> {
        let (got, want) = (library::class(page), boundary::class(page));
        verify((got.into(), want.into()), &[], "class", || format!("  page {page:02X}h"))?;
        self.seen.note(Function::Class, want);
        Ok(want)
    }

    pub fn status(&mut self, answer: u8) -> Same<u16> {
        let (got, want) = (library::status(answer), boundary::status(answer));
        verify((got.into(), want.into()), &[], "status", || format!("  answer {answer}"))?;
        self.seen.note(Function::Status, if want == 0xFFFF { 3 } else { answer });
        Ok(want)
    }

    pub fn plan(&mut self, wanted: Wanted, header: &[u8]) -> Same<(u8, [u8; PLANNED_BYTES])> {
        let mut lent = self.lend(header);
        let mut planned = Pair::lend_struct(&[STALE; PLANNED_BYTES]);
        let got = library::plan(wanted, &mut lent, &mut planned);
        let mut planned_wanted = [STALE; PLANNED_BYTES];
        let want = boundary::plan(wanted, header, &mut planned_wanted);
        let parts: [(&str, &Lent, &[u8]); 2] = [("header", &lent, header), ("planned", &planned, &planned_wanted)];
        verify((got.into(), want.into()), &parts, "plan", || {
            let tail = header.get(380..400).unwrap_or(&[]);
            format!("  {wanted:?}\n  header {}\n  from 380 {}", hex(header), hex(tail))
        })?;
        self.seen.note(Function::Plan.of(wanted.caps), want);
        if planned_wanted[5] != 0 {
            self.seen.note_fault(Place::Plan, wanted.page, planned_wanted[5]);
        }
        Ok((want, planned_wanted))
    }

    pub fn field_byte(&mut self, page: u8, field: u8) -> Same<u16> {
        let (got, want) = (library::field_byte(page, field), boundary::field_byte(page, field));
        verify((got.into(), want.into()), &[], "field_byte", || format!("  page {page:02X}h field {field}"))?;
        Ok(want)
    }

    pub fn words(&mut self, page: u8, create: u8, mcda: u8, rae: u8, offset: u32, blocks: u32) -> Same<(u8, Words)> {
        let mut lent = Pair::lend_struct(&[STALE; 20]);
        let got = library::words(page, create, mcda, rae, offset, blocks, &mut lent);
        let mut wanted = [0x5A5A_5A5A; 5];
        let want = boundary::words(page, create, mcda, rae, offset, blocks, &mut wanted);
        let expected = words_to_bytes(&wanted);
        verify((got.into(), want.into()), &[("words", &lent, &expected)], "words", || {
            format!("  page {page:02X}h create {create} mcda {mcda} rae {rae} offset {offset} blocks {blocks}")
        })?;
        self.seen.note(Function::Words, want);
        Ok((want, wanted))
    }

    pub fn fresh(
        &mut self,
        caps: u8,
        oui: u32,
        host_scope: u8,
        controller_scope: u8,
    ) -> Same<(u8, [u8; RECORD_BYTES])> {
        let mut lent = Pair::lend_struct(&[STALE; RECORD_BYTES]);
        let got = library::fresh(caps, oui, host_scope, controller_scope, &mut lent);
        let mut wanted = [STALE; RECORD_BYTES];
        let want = boundary::fresh(caps, oui, host_scope, controller_scope, &mut wanted);
        verify((got.into(), want.into()), &[("record", &lent, &wanted)], "fresh", || {
            format!("  caps {caps} oui {oui:X}h scopes {host_scope} {controller_scope}")
        })?;
        self.seen.note(Function::Fresh, want);
        Ok((want, wanted))
    }

    pub fn setup(&mut self, arguments: Setup) -> Same<([u8; STATE_BYTES], [u8; NEXT_BYTES])> {
        let mut state = Pair::lend_struct(&[STALE; STATE_BYTES]);
        let mut next = Pair::lend_struct(&[STALE; NEXT_BYTES]);
        let got = library::setup(arguments, &mut state, &mut next);
        let (mut state_wanted, mut next_wanted) = ([STALE; STATE_BYTES], [STALE; NEXT_BYTES]);
        let want = boundary::setup(arguments, &mut state_wanted, &mut next_wanted);
        let parts: [(&str, &Lent, &[u8]); 2] = [("next", &next, &next_wanted), ("state", &state, &state_wanted)];
        verify((got.into(), want.into()), &parts, "setup", || format!("  {arguments:?}"))?;
        self.note_next(Function::Setup.of(arguments.caps), &next_wanted);
        Ok((state_wanted, next_wanted))
    }

    pub fn step(
        &mut self,
        state: &mut [u8; STATE_BYTES],
        ok: u8,
        data: &[u8],
        copy: &mut Vec<u8>,
    ) -> Same<[u8; NEXT_BYTES]> {
        let mut lent_state = Pair::lend_struct(state);
        let mut lent_data = self.lend(data);
        let mut lent_copy = self.lend(copy);
        let mut next = Pair::lend_struct(&[STALE; NEXT_BYTES]);
        let got = library::step(&mut lent_state, ok, lent_data.slice(), lent_copy.slice(), &mut next);
        let (mut state_wanted, mut copy_wanted, mut next_wanted) = (*state, copy.clone(), [STALE; NEXT_BYTES]);
        let want = boundary::step(&mut state_wanted, ok, data, &mut copy_wanted, &mut next_wanted);
        let parts: [(&str, &Lent, &[u8]); 4] = [
            ("next", &next, &next_wanted),
            ("state", &lent_state, &state_wanted),
            ("copy", &lent_copy, &copy_wanted),
            ("data", &lent_data, data),
        ];
        verify((got.into(), want.into()), &parts, "step", || {
            format!("  state {}\n  ok {ok}\n  data {}\n  copy {}", hex(state), hex(data), hex(copy))
        })?;
        self.note_next(Function::Step.of(state[4]), &next_wanted);
        if next_wanted[3] != 0 {
            let place = match state[0] {
                0 => Place::FirstHeader,
                2 => Place::ClosingHeader,
                _ => Place::AfterRefusal,
            };
            self.seen.note_fault(place, state[1], next_wanted[3]);
        }
        *state = state_wanted;
        *copy = copy_wanted;
        Ok(next_wanted)
    }

    fn note_next(&mut self, function: Function, next: &[u8; NEXT_BYTES]) {
        if next[0] == SEND {
            self.seen.note_sent(function);
        } else {
            self.seen.note(function, next[1]);
        }
        if next[2] == 1 {
            self.seen.newer += 1;
        }
    }

    fn lend_world(&mut self, world: &World, offer: &Offer) -> LentWorld {
        LentWorld {
            record: Pair::lend_struct(&world.record),
            host_store: self.lend(&world.host_store),
            controller_store: self.lend(&world.controller_store),
            last: Pair::lend_struct(&words_to_bytes(&offer.last)),
            candidate: self.lend(&offer.bytes),
            reason: self.lend(&offer.reason),
        }
    }

    /// A command: its answer and the identifier's class.
    pub fn command(&mut self, world: &mut World, offer: &Offer, words: Words, buffer: &mut Vec<u8>) -> Same<(u8, u8)> {
        let mut lent = self.lend_world(world, offer);
        let mut lent_words = Pair::lend_struct(&words_to_bytes(&words));
        let mut lent_buffer = self.lend(buffer);
        let mut lent_class = self.lend(&[STALE]);
        let got = library::command(&lent.loan(), &mut lent_words, lent_buffer.slice(), &mut lent_class);
        let (mut after, mut filled, mut class) = (world.clone(), buffer.clone(), STALE);
        let (record, host_store) = (&mut after.record, &mut after.host_store);
        let candidate = offer.candidate();
        let want =
            boundary::command(record, host_store, &after.controller_store, &candidate, words, &mut filled, &mut class);
        let (last, five) = (words_to_bytes(&offer.last), words_to_bytes(&words));
        let parts: [(&str, &Lent, &[u8]); 9] = [
            ("identifier class", &lent_class, &[class]),
            ("record", &lent.record, &after.record),
            ("host store", &lent.host_store, &after.host_store),
            ("controller store", &lent.controller_store, &world.controller_store),
            ("last", &lent.last, &last),
            ("candidate", &lent.candidate, &offer.bytes),
            ("reason", &lent.reason, &offer.reason),
            ("words", &lent_words, &five),
            ("buffer", &lent_buffer, &filled),
        ];
        verify((got.into(), want.into()), &parts, "command", || {
            let (shown, buffer) = (hex_words(&words), hex(buffer));
            format!("{}\n  words         {shown}\n  buffer        {buffer}", describe_loan(world, offer))
        })?;
        *world = after;
        *buffer = filled;
        self.seen.note(Function::Command, want);
        Ok((want, class))
    }

    pub fn capture(&mut self, world: &mut World, offer: &Offer) -> Same<u8> {
        let mut lent = self.lend_world(world, offer);
        let got = library::capture(&lent.loan());
        let mut after = world.clone();
        let (record, store) = (&mut after.record, &mut after.controller_store);
        let want = boundary::capture(record, &after.host_store, store, &offer.candidate());
        let last = words_to_bytes(&offer.last);
        let parts: [(&str, &Lent, &[u8]); 6] = [
            ("record", &lent.record, &after.record),
            ("host store", &lent.host_store, &world.host_store),
            ("controller store", &lent.controller_store, &after.controller_store),
            ("last", &lent.last, &last),
            ("candidate", &lent.candidate, &offer.bytes),
            ("reason", &lent.reason, &offer.reason),
        ];
        verify((got.into(), want.into()), &parts, "capture", || describe_loan(world, offer))?;
        *world = after;
        self.seen.note(Function::Capture, want);
        Ok(want)
    }

    pub fn drop_host_data(&mut self, world: &mut World) -> Same<u8> {
        let mut lent_record = Pair::lend_struct(&world.record);
        let mut lent_host_store = self.lend(&world.host_store);
        let mut lent_controller_store = self.lend(&world.controller_store);
        let got = library::drop_host_data(&mut lent_record, lent_host_store.slice(), lent_controller_store.slice());
        let mut record = world.record;
        let want = boundary::drop_host_data(&mut record, &world.host_store, &world.controller_store);
        let parts: [(&str, &Lent, &[u8]); 3] = [
            ("record", &lent_record, &record),
            ("host store", &lent_host_store, &world.host_store),
            ("controller store", &lent_controller_store, &world.controller_store),
        ];
        verify((got.into(), want.into()), &parts, "drop", || describe_world(world))?;
        world.record = record;
        self.seen.note(Function::Drop, want);
        Ok(want)
    }

    pub fn new_sheet(&mut self) -> Same<[u8; SHEET_BYTES]> {
        let mut lent = Pair::lend_struct(&[STALE; SHEET_BYTES]);
        library::new_sheet(&mut lent);
        let mut wanted = [STALE; SHEET_BYTES];
        boundary::new_sheet(&mut wanted);
        verify((0, 0), &[("sheet", &lent, &wanted)], "new_sheet", String::new)?;
        Ok(wanted)
    }

    pub fn enter(&mut self, sheet: &mut [u8; SHEET_BYTES], run: Finished) -> Same<u8> {
        let mut lent = Pair::lend_struct(sheet);
        let got = library::enter(&mut lent, run);
        let mut after = *sheet;
        let want = boundary::enter(&mut after, run);
        verify((got.into(), want.into()), &[("sheet", &lent, &after)], "enter", || {
            format!("  sheet {}\n  {run:?}", describe_sheet(sheet))
        })?;
        *sheet = after;
        self.seen.note(Function::Enter, want);
        Ok(want)
    }

    pub fn add(&mut self, sheet: &mut [u8; SHEET_BYTES], other: &[u8; SHEET_BYTES]) -> Same<u8> {
        let mut lent = Pair::lend_struct(sheet);
        let mut lent_other = Pair::lend_struct(other);
        let got = library::add(&mut lent, &mut lent_other);
        let mut after = *sheet;
        let want = boundary::add(&mut after, other);
        let parts: [(&str, &Lent, &[u8]); 2] = [("sheet", &lent, &after), ("other", &lent_other, other)];
        verify((got.into(), want.into()), &parts, "add", || {
            format!("  sheet {}\n  other {}", describe_sheet(sheet), describe_sheet(other))
        })?;
        *sheet = after;
        self.seen.note(Function::Add, want);
        Ok(want)
    }

    pub fn mean(&mut self, sheet: &[u8; SHEET_BYTES]) -> Same<(u8, [u8; MEAN_BYTES])> {
        let mut lent = Pair::lend_struct(sheet);
        let mut mean = Pair::lend_struct(&[STALE; MEAN_BYTES]);
        let got = library::mean(&mut lent, &mut mean);
        let mut mean_wanted = [STALE; MEAN_BYTES];
        let want = boundary::mean(sheet, &mut mean_wanted);
        let parts: [(&str, &Lent, &[u8]); 2] = [("sheet", &lent, sheet), ("mean", &mean, &mean_wanted)];
        verify((got.into(), want.into()), &parts, "mean", || format!("  sheet {}", describe_sheet(sheet)))?;
        self.seen.note(Function::Mean, want);
        if want == SUCCESS {
            self.seen.means[mean_wanted[0] as usize] += 1;
        }
        Ok((want, mean_wanted))
    }
}
