//! The library under test: the functions of `bumbazeel.h`, on lent bytes.

use crate::boundary::{Setup, Wanted};
use crate::lent::{Lent, Slice};
use crate::sheet::Finished;

extern "C" {
    fn bumbazeel_plan(
        page: u8,
        area: u8,
        caps: u8,
        chunk: u32,
        room: usize,
        header: *const u8,
        bytes: usize,
        planned: *mut u8,
    ) -> u8;
    fn bumbazeel_field_byte(page: u8, field: u8) -> u16;
    fn bumbazeel_words(page: u8, create: u8, mcda: u8, rae: u8, offset: u32, blocks: u32, words: *mut u8) -> u8;
    fn bumbazeel_setup(
        page: u8,
        create: u8,
        area: u8,
        caps: u8,
        chunk: u32,
        attempts: u32,
        room: usize,
        state: *mut u8,
        next: *mut u8,
    ) -> u8;
    fn bumbazeel_step(
        state: *mut u8,
        ok: u8,
        data: *const u8,
        bytes: usize,
        copy: *mut u8,
        room: usize,
        next: *mut u8,
    ) -> u8;
    fn bumbazeel_fresh(caps: u8, oui: u32, host_scope: u8, controller_scope: u8, record: *mut u8) -> u8;
    fn bumbazeel_command(
        record: *mut u8,
        host_store: *mut u8,
        host_bytes: usize,
        controller_store: *const u8,
        controller_bytes: usize,
        last: *const u8,
        candidate: *const u8,
        candidate_bytes: usize,
        reason: *const u8,
        reason_bytes: usize,
        words: *const u8,
        buffer: *mut u8,
        buffer_bytes: usize,
        identifier_class: *mut u8,
    ) -> u8;
    fn bumbazeel_capture(
        record: *mut u8,
        host_store: *const u8,
        host_bytes: usize,
        controller_store: *mut u8,
        controller_bytes: usize,
        last: *const u8,
        candidate: *const u8,
        candidate_bytes: usize,
        reason: *const u8,
        reason_bytes: usize,
    ) -> u8;
    fn bumbazeel_drop(
        record: *mut u8,
        host_store: *const u8,
        host_bytes: usize,
        controller_store: *const u8,
        controller_bytes: usize,
    ) -> u8;
    fn bumbazeel_new_sheet(sheet: *mut u8);
    fn bumbazeel_enter(sheet: *mut u8, ending: u8, blocks: u64, commands: u64, failed: u64) -> u8;
    fn bumbazeel_add(sheet: *mut u8, other: *const u8) -> u8;
    fn bumbazeel_mean(sheet: *const u8, mean: *mut u8) -> u8;
    fn bumbazeel_class(page: u8) -> u8;
    fn bumbazeel_status(answer: u8) -> u16;
}

// Each call below is sound if the library keeps to its header file: every pointer comes from bytes that are lent for the call alone,
// with their own length, and structs are aligned.

pub fn plan(w: Wanted, header: &mut Lent, planned: &mut Lent) -> u8 {
    let (header, planned) = (header.slice(), planned.pointer());
    unsafe { bumbazeel_plan(w.page, w.area, w.caps, w.chunk, w.room as usize, header.pointer, header.length, planned) }
}

pub fn field_byte(page: u8, field: u8) -> u16 {
    unsafe { bumbazeel_field_byte(page, field) }
}

pub fn words(page: u8, create: u8, mcda: u8, rae: u8, offset: u32, blocks: u32, words: &mut Lent) -> u8 {
    unsafe { bumbazeel_words(page, create, mcda, rae, offset, blocks, words.pointer()) }
}

pub fn setup(a: Setup, state: &mut Lent, next: &mut Lent) -> u8 {
    let (state, next) = (state.pointer(), next.pointer());
    unsafe { bumbazeel_setup(a.page, a.create, a.area, a.caps, a.chunk, a.attempts, a.room as usize, state, next) }
}

pub fn step(state: &mut Lent, ok: u8, data: Slice, copy: Slice, next: &mut Lent) -> u8 {
    let (state, next) = (state.pointer(), next.pointer());
    unsafe { bumbazeel_step(state, ok, data.pointer, data.length, copy.pointer, copy.length, next) }
}

pub fn fresh(caps: u8, oui: u32, host_scope: u8, controller_scope: u8, record: &mut Lent) -> u8 {
    unsafe { bumbazeel_fresh(caps, oui, host_scope, controller_scope, record.pointer()) }
}

/// What a command and a capture are both lent.
pub struct Loan {
    pub record: *mut u8,
    pub host_store: Slice,
    pub controller_store: Slice,
    pub last: *mut u8,
    pub candidate: Slice,
    pub reason: Slice,
}

pub fn command(loan: &Loan, words: &mut Lent, buffer: Slice, identifier_class: &mut Lent) -> u8 {
    unsafe {
        bumbazeel_command(
            loan.record,
            loan.host_store.pointer,
            loan.host_store.length,
            loan.controller_store.pointer,
            loan.controller_store.length,
            loan.last,
            loan.candidate.pointer,
            loan.candidate.length,
            loan.reason.pointer,
            loan.reason.length,
            words.pointer(),
            buffer.pointer,
            buffer.length,
            identifier_class.pointer(),
        )
    }
}

pub fn capture(loan: &Loan) -> u8 {
    unsafe {
        bumbazeel_capture(
            loan.record,
            loan.host_store.pointer,
            loan.host_store.length,
            loan.controller_store.pointer,
            loan.controller_store.length,
            loan.last,
            loan.candidate.pointer,
            loan.candidate.length,
            loan.reason.pointer,
            loan.reason.length,
        )
    }
}

pub fn drop_host_data(record: &mut Lent, host_store: Slice, controller_store: Slice) -> u8 {
    unsafe {
        bumbazeel_drop(
            record.pointer(),
            host_store.pointer,
            host_store.length,
            controller_store.pointer,
            controller_store.length,
        )
    }
}

pub fn new_sheet(sheet: &mut Lent) {
    unsafe { bumbazeel_new_sheet(sheet.pointer()) }
}

pub fn enter(sheet: &mut Lent, run: Finished) -> u8 {
    unsafe { bumbazeel_enter(sheet.pointer(), run.ending, run.blocks, run.commands, run.failed) }
}

pub fn add(sheet: &mut Lent, other: &mut Lent) -> u8 {
    unsafe { bumbazeel_add(sheet.pointer(), other.pointer()) }
}

pub fn mean(sheet: &mut Lent, mean: &mut Lent) -> u8 {
    unsafe { bumbazeel_mean(sheet.pointer(), mean.pointer()) }
}

pub fn class(page: u8) -> u8 {
    unsafe { bumbazeel_class(page) }
}

pub fn status(answer: u8) -> u16 {
    unsafe { bumbazeel_status(answer) }
}
