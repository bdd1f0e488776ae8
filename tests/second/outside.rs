//! Vectors from outside: the rows and the listing of document 01, the stories of document 02, and tables of documents 000 to 004, typed in
//! from there. Each check holds the pair to the table, so it is an opinion that neither the library nor the second opinion had a hand in.

use crate::boundary::{
    get_u32, get_u64, put_u64, Setup, Wanted, ENDED, PLANNED_BYTES, RECORD_BYTES, REFUSED, SEND, STATE_BYTES,
};
use crate::generate::{self, asked_bytes, at, DA4S, ETDAS, EXTENDED, MCDAS, TELEMETRY};
use crate::orders::header_state;
use crate::pair::{hex, Difference, Offer, Pair, Same, World};
use crate::random::Random;
use crate::rules::{LastBlocks, Words, BLOCK, REASON};
use crate::runs::words_of;
use crate::sheet::Finished;

const ALL: u8 = EXTENDED | TELEMETRY | DA4S | ETDAS | MCDAS;

fn hold(holds: bool, row: &str) -> Same<()> {
    if holds {
        return Ok(());
    }
    Err(Difference(format!("both agree, but not with the row: {row}")))
}

/// A drive with a host page, whose stores hold blocks that each begin with their number.
fn drive(caps: u8, host_last: LastBlocks) -> World {
    let mut record = [0; RECORD_BYTES];
    record[at::CAPS] = caps;
    record[at::HOST_SCOPE] = 1;
    record[at::CONTROLLER_SCOPE] = 2;
    generate::put_last(&mut record, at::HOST_LAST, host_last);
    World { record, host_store: numbered(12, 0x00), controller_store: numbered(12, 0x80) }
}

/// `blocks` blocks of which each byte is the block's number plus `base`.
fn numbered(blocks: u8, base: u8) -> Vec<u8> {
    (1..=blocks).flat_map(|block| [block + base; BLOCK]).collect()
}

fn candidate(last: LastBlocks) -> Offer {
    Offer { last, bytes: numbered(last[3] as u8, 0x40), reason: vec![0x5C; REASON] }
}

/// Reads `bytes` bytes of page 07h or 08h with RAE 1: the answer and what came.
fn read(pair: &mut Pair, world: &mut World, page: u32, offset: u32, bytes: u32) -> Same<(u8, Vec<u8>)> {
    let mut buffer = vec![0xDD; bytes as usize];
    let words = [page | 0x8000 | (bytes / 4 - 1) << 16, 0, offset, 0, 0];
    let (answer, _) = pair.command(world, &candidate([0; 4]), words, &mut buffer)?;
    Ok((answer, buffer))
}

/// Document 01, "Rows on each side": the host page (2,2,5,0) with DA4S 0 and extended data on, size 3,072.
pub fn page_rows(pair: &mut Pair, _: &mut Random) -> Same<()> {
    let mut world = drive(EXTENDED | TELEMETRY, [2, 2, 5, 0]);
    let (answer, bytes) = read(pair, &mut world, 7, 3_072, 512)?;
    hold(answer == 0 && bytes == [0; 512], "offset 3,072, 512 bytes: zeros")?;
    hold(read(pair, &mut world, 7, 3_584, 512)?.0 == 1, "offset 3,584: 1")?;
    hold(read(pair, &mut world, 7, 256, 512)?.0 == 1, "offset 256: 1")?;
    let (answer, bytes) = read(pair, &mut world, 7, 2_560, 1_024)?;
    let due = [[5; 512], [0; 512]].concat();
    hold(answer == 0 && bytes == due, "offset 2,560, 1,024 bytes: block 5, then zeros")?;
    hold(read(pair, &mut world, 7, 0, 127 * 4)?.0 == 1, "count 126: 1")?;
    world.record[at::HOST_GENERATION] = 255;
    let mut buffer = vec![0; 512];
    let (answer, _) = pair.command(&mut world, &candidate([1, 1, 1, 1]), [0x007F_8107, 0, 0, 0, 0], &mut buffer)?;
    hold(answer == 0 && world.record[at::HOST_GENERATION] == 0 && buffer[381] == 0, "generation 255, one capture: 0")
}

/// Document 01, "Rows on each side": what is stored of the candidate (2,2,5,9).
pub fn trimming_rows(pair: &mut Pair, _: &mut Random) -> Same<()> {
    let rows: [(&str, u8, u32, Option<LastBlocks>); 4] = [
        ("MCDA 2 stores (2,2,2,2)", ALL, 2, Some([2, 2, 2, 2])),
        ("MCDA 0 stores (2,2,5,9)", ALL, 0, Some([2, 2, 5, 9])),
        ("MCDA 5: 1", ALL, 5, None),
        ("DA4S 0, MCDA 0: (2,2,5,0)", ALL & !DA4S, 0, Some([2, 2, 5, 0])),
    ];
    for (row, caps, mcda, stored) in rows {
        let mut world = drive(caps, [0; 4]);
        let before = world.clone();
        let words = [0x007F_8107 | mcda << 9, 0, 0, 0, 0];
        let (answer, _) = pair.command(&mut world, &candidate([2, 2, 5, 9]), words, &mut vec![0; 512])?;
        let last = generate::last_of(&world.record, at::HOST_LAST);
        let due = stored.unwrap_or(generate::last_of(&before.record, at::HOST_LAST));
        hold(answer == stored.is_none() as u8 && last == due, row)?;
        let kept = due.into_iter().max().unwrap_or(0) as usize * BLOCK;
        let store = [&numbered(9, 0x40)[..kept], &before.host_store[kept..]].concat();
        hold(world.host_store == store, &format!("{row}, and as many blocks"))?;
    }
    Ok(())
}

/// A collection run to its end: the words of each command, the ending's number and count, and the copy. `between` happens after each
/// command, with its number from 1.
fn collect(
    pair: &mut Pair,
    world: &mut World,
    setup: Setup,
    mut between: impl FnMut(&mut Pair, &mut World, usize) -> Same<()>,
) -> Same<(Vec<Words>, u8, u64, Vec<u8>)> {
    let (mut state, mut next) = pair.setup(setup)?;
    let mut copy = vec![0xDD; setup.room as usize];
    let mut sent = Vec::new();
    while next[0] == SEND && sent.len() < 70_000 {
        let words = words_of(&next);
        sent.push(words);
        let mut buffer = vec![0; asked_bytes(setup.caps, words) as usize];
        let (answer, _) = pair.command(world, &candidate([1, 2, 3, 4]), words, &mut buffer)?;
        let data = if answer == 0 { &buffer[..] } else { &[] };
        next = pair.step(&mut state, (answer == 0) as u8, data, &mut copy)?;
        between(pair, world, sent.len())?;
    }
    hold(next[0] == ENDED, "a collection ends")?;
    Ok((sent, next[1], get_u64(&next, 24), copy))
}

/// Document 01, "Whole listing, 08h, B = 7, c = 3, no capture".
const LISTING: [Words; 6] = [
    [0x007F8008, 0x00000000, 0x00000000, 0x00000000, 0x00000000],
    [0x017F8008, 0x00000000, 0x00000200, 0x00000000, 0x00000000],
    [0x017F8008, 0x00000000, 0x00000800, 0x00000000, 0x00000000],
    [0x007F8008, 0x00000000, 0x00000E00, 0x00000000, 0x00000000],
    [0x007F8008, 0x00000000, 0x00000000, 0x00000000, 0x00000000],
    [0x007F0008, 0x00000000, 0x00000000, 0x00000000, 0x00000000],
];

/// Document 01, "Rows on each side": the rows of a collection, the whole listing, and the traps of "Easy to get wrong".
pub fn collection_rows(pair: &mut Pair, _: &mut Random) -> Same<()> {
    let setup = Setup { page: 8, create: 0, area: 3, caps: ALL, chunk: 3, attempts: 2, room: 9 * 512 };
    let quiet = |_: &mut Pair, _: &mut World, _: usize| Ok(());
    let mut world = drive(ALL, [0; 4]);
    hold(pair.capture(&mut world, &candidate([1, 4, 7, 8]))? == 0, "a capture of B = 7")?;
    let copied = [&numbered(7, 0x40)[..], &[0; 2 * BLOCK]].concat();
    let ran = collect(pair, &mut world.clone(), setup, quiet)?;
    hold(ran == (LISTING.to_vec(), 0, 6, copied.clone()), "whole listing, 08h, B = 7, c = 3, no capture")?;

    let first = Setup { page: 7, create: 1, ..setup };
    let ran = collect(pair, &mut drive(ALL, [0; 4]), first, quiet)?;
    hold(ran.0[0] == [0x007F8707, 0, 0, 0, 0], "first word, 07h, create, w = 3, MCDAS: 007F8707h")?;

    let empty = Setup { page: 7, room: 512, ..setup };
    let ran = collect(pair, &mut drive(ALL, [0; 4]), empty, quiet)?;
    hold(ran.1 == 0 && ran.0.len() == 2 && ran.2 == 2 && ran.3 == [0; 512], "B = 0: two commands on 07h, empty copy")?;

    let clear_after_header = |pair: &mut Pair, world: &mut World, sent: usize| {
        if sent == 1 {
            let cleared = pair.command(world, &candidate([0; 4]), [0x007F_0008, 0, 0, 0, 0], &mut vec![0; 512])?.0;
            hold(cleared == 0, "another host clears")?;
            let (answer, bytes) = read(pair, world, 8, 512, 512)?;
            hold(answer == 0 && bytes == [0; 512], "08h cleared: a read at 512 gives zeros")?;
        }
        Ok(())
    };
    let ran = collect(pair, &mut world, setup, clear_after_header)?;
    hold(ran.1 == 10 && ran.3 == vec![0; 9 * 512], "08h cleared by another host mid-run: the last check gives 10")?;

    let capture_on_08h =
        |pair: &mut Pair, world: &mut World, _: usize| pair.capture(world, &candidate([1, 2, 3, 4])).map(|_| ());
    let ran = collect(pair, &mut drive(ALL, [1, 2, 3, 4]), Setup { page: 7, ..setup }, capture_on_08h)?;
    hold(ran.1 == 0 && ran.2 == 3, "on 07h, bytes 382 and 383 may change with no host capture")
}

/// A row of a header's layout: first byte, last byte, name, and what stands there in `shown_drive`.
type HeaderRow = (usize, usize, &'static str, &'static [u8]);

/// Page 07h: document 001's table, whose rows 07:05 to 11:10 and 380 to 383 stand one text apart and whose "79:20" and "11:384" are
/// 379:20 and 511:384; the same in document 003, figure 205, but for the scope; in document 01's table from 380 on.
const HEADER_07H: [HeaderRow; 14] = [
    (0, 0, "LID", &[0x07]),
    (1, 4, "Reserved", &[]),
    (5, 7, "IEEE", &[0x56, 0x34, 0x12]),
    (8, 9, "THDA1LB", &[0x02, 0x01]),
    (10, 11, "THDA2LB", &[0x04, 0x03]),
    (12, 13, "THDA3LB", &[0x06, 0x05]),
    (14, 15, "Reserved", &[]),
    (16, 19, "THDA4LB", &[0x08, 0x07, 0x00, 0x00]),
    (20, 379, "Reserved", &[]),
    (380, 380, "THS", &[0x01]),
    (381, 381, "THDGN", &[0xB1]),
    (382, 382, "TCDA", &[0x01]),
    (383, 383, "TCDGN", &[0xB2]),
    (384, 511, "RID", &[0xC7; 128]),
];

/// Page 08h: document 000's table up to 380; from 381 on it is shifted by one row and document 01's table stands instead, which document
/// 003, figure 206, confirms for 382 to 511.
const HEADER_08H: [HeaderRow; 14] = [
    (0, 0, "LID", &[0x08]),
    (1, 4, "Reserved", &[]),
    (5, 7, "IEEE", &[0x56, 0x34, 0x12]),
    (8, 9, "TCDA1LB", &[0x0A, 0x01]),
    (10, 11, "TCDA2LB", &[0x0B, 0x02]),
    (12, 13, "TCDA3LB", &[0x0C, 0x03]),
    (14, 15, "Reserved", &[]),
    (16, 19, "TCDA4LB", &[0x0D, 0x04, 0x00, 0x00]),
    (20, 379, "Reserved", &[]),
    (380, 380, "Reserved", &[]),
    (381, 381, "scope", &[0x02]),
    (382, 382, "TCDA", &[0x01]),
    (383, 383, "TCDGN", &[0xB2]),
    (384, 511, "RID", &[0xC8; 128]),
];

/// A record in which every field of both headers has a value of its own.
fn shown_drive() -> World {
    let mut world = drive(ALL, [0x0102, 0x0304, 0x0506, 0x0708]);
    generate::put_last(&mut world.record, at::CONTROLLER_LAST, [0x010A, 0x020B, 0x030C, 0x040D]);
    world.record[at::HOST_GENERATION] = 0xB1;
    world.record[at::CONTROLLER_GENERATION] = 0xB2;
    world.record[at::AVAILABLE] = 1;
    world.record[at::OUI..at::OUI + 3].copy_from_slice(&[0x56, 0x34, 0x12]);
    world.record[at::REASONS..at::REASONS + REASON].fill(0xC7);
    world.record[at::REASONS + REASON..].fill(0xC8);
    world.host_store = vec![1; 0x0708 * BLOCK];
    world.controller_store = vec![2; 0x040D * BLOCK];
    world
}

/// Both headers as the tables lay them out, written by the controller and read by the host.
pub fn header_tables(pair: &mut Pair, _: &mut Random) -> Same<()> {
    let mut world = shown_drive();
    for (page, rows) in [(7, HEADER_07H), (8, HEADER_08H)] {
        let (answer, header) = read(pair, &mut world, page, 0, 512)?;
        hold(answer == 0, "the header is always there")?;
        let mut place = 0;
        for (first, last, name, shown) in rows {
            let due = if shown.is_empty() { vec![0; last + 1 - first] } else { shown.to_vec() };
            let row = format!("page {page:02}h, bytes {last}:{first}, {name}, has {}", hex(&header[first..=last]));
            hold(first == place && header[first..=last] == due, &row)?;
            place = last + 1;
        }
        hold(place == 512, "the rows cover the header")?;
        fields_are_read(pair, page as u8, &header)?;
    }
    Ok(())
}

/// The fields that the host reads from the headers above.
fn fields_are_read(pair: &mut Pair, page: u8, header: &[u8]) -> Same<()> {
    let (answer, fields) = pair.plan(Wanted::largest(page, ALL), header)?;
    let host = page == 7;
    hold(answer == 0, "the header is good")?;
    hold(
        fields[..5] == if host { [7, 1, 0xB1, 1, 0xB2] } else { [8, 2, 0, 1, 0xB2] },
        "page, scope, generations, TCDA",
    )?;
    hold(get_u32(&fields, 8) == 0x0012_3456, "OUI")?;
    let last = [12, 16, 20, 24].map(|at| get_u32(&fields, at));
    let due = if host { [0x0102, 0x0304, 0x0506, 0x0708] } else { [0x010A, 0x020B, 0x030C, 0x040D] };
    hold(last == due, "last blocks")?;
    hold(fields[28..156] == [if host { 0xC7 } else { 0xC8 }; 128], "reason")?;
    hold(get_u32(&fields, 156) == last[3], "a chunk for each block of the greatest area")
}

/// The largest plan's answer, and the field at fault with the byte at which it starts.
fn at_fault(pair: &mut Pair, page: u8, caps: u8, header: &[u8]) -> Same<(u8, u8, u16)> {
    let (answer, planned) = pair.plan(Wanted::largest(page, caps), header)?;
    Ok((answer, planned[5], u16::from_le_bytes([planned[6], planned[7]])))
}

/// Document 001, table of the scope field, and document 01: above 2 is bad.
pub fn scope_table(pair: &mut Pair, _: &mut Random) -> Same<()> {
    let mut world = shown_drive();
    for (page, byte) in [(7, 380), (8, 381)] {
        let (_, mut header) = read(pair, &mut world, page, 0, 512)?;
        for scope in 0..=255 {
            header[byte] = scope;
            // 00h not reported, 01h controller, 02h NVM subsystem, 03h to FFh reserved
            let due = if scope <= 2 { (0, 0, 0) } else { (7, 6, byte as u16) };
            hold(at_fault(pair, page as u8, ALL, &header)? == due, &format!("scope {scope} on {page:02}h: {due:?}"))?;
        }
    }
    Ok(())
}

/// Document 001, table of MCDA, with the candidate (1,2,3,4): the areas that are kept, or none where the value is reserved.
pub fn mcda_table(pair: &mut Pair, _: &mut Random) -> Same<()> {
    let rows: [(u32, Option<LastBlocks>); 8] = [
        (0b000, Some([1, 2, 3, 4])), // the controller determines the data areas
        (0b001, Some([1, 1, 1, 1])), // Data Area 1
        (0b010, Some([1, 2, 2, 2])), // Data Area 1 through Data Area 2
        (0b011, Some([1, 2, 3, 3])), // Data Area 1 through Data Area 3
        (0b100, Some([1, 2, 3, 4])), // Data Area 1 through Data Area 4
        (0b101, None),               // Reserved
        (0b110, None),
        (0b111, None),
    ];
    for (mcda, stored) in rows {
        let words = [0x007F_8107 | mcda << 9, 0, 0, 0, 0];
        let mut world = drive(ALL, [0; 4]);
        let (answer, _) = pair.command(&mut world, &candidate([1, 2, 3, 4]), words, &mut vec![0; 512])?;
        let last = generate::last_of(&world.record, at::HOST_LAST);
        hold(
            answer == stored.is_none() as u8 && last == stored.unwrap_or([0; 4]),
            &format!("MCDA {mcda:03b}b: {stored:?}"),
        )?;
        // "If the MCDAS bit is cleared to '0' [..], then this field shall be ignored by the controller."
        let mut world = drive(ALL & !MCDAS, [0; 4]);
        let (answer, _) = pair.command(&mut world, &candidate([1, 2, 3, 4]), words, &mut vec![0; 512])?;
        let last = generate::last_of(&world.record, at::HOST_LAST);
        hold(answer == 0 && last == [1, 2, 3, 4], &format!("MCDA {mcda:03b}b without MCDAS is ignored"))?;
    }
    Ok(())
}

/// Documents 000 and 001, "The size of the log page is variable": which area's last block sizes the page, by DA4S and ETDAS.
pub fn size_table(pair: &mut Pair, _: &mut Random) -> Same<()> {
    let rows: [(u8, LastBlocks, u32); 4] =
        [(0, [1, 2, 3, 0], 3), (ETDAS, [1, 2, 3, 0], 3), (DA4S | ETDAS, [1, 2, 3, 6], 6), (DA4S, [1, 2, 3, 6], 3)];
    for (caps, last, sized_by) in rows {
        let mut world = drive(EXTENDED | TELEMETRY | caps, last);
        generate::put_last(&mut world.record, at::CONTROLLER_LAST, last);
        world.record[at::AVAILABLE] = 1;
        for (page, base) in [(7, 0x00), (8, 0x80)] {
            let size = 512 * (1 + sized_by);
            let row = format!("{page:02}h with caps {caps}: {size} bytes");
            // "The controller shall return data for all blocks requested": here zeros where it is undefined.
            let due = [[base + sized_by as u8; 512], [0; 512]].concat();
            let got = read(pair, &mut world, page, size - 512, 1_024)?;
            hold(got == (0, due), &row)?;
            // Document 004: an offset greater than the size is an Invalid Field in Command.
            hold(read(pair, &mut world, page, size, 512)? == (0, vec![0; 512]), &row)?;
            hold(read(pair, &mut world, page, size + 512, 512)?.0 == 1, &row)?;
        }
    }
    Ok(())
}

/// Document 004, tables 1 and 2, and document 001, figure 217: dword, highest bit, lowest bit and name of each field of the command.
const COMMAND_FIELDS: [(usize, u32, u32, &str); 13] = [
    (10, 31, 16, "NUMDL"),
    (10, 15, 15, "RAE"),
    (10, 14, 12, "LSP, of which figure 217 has 11:8"),
    (10, 11, 9, "MCDA"),
    (10, 8, 8, "CTHID"),
    (10, 7, 0, "LID"),
    (11, 31, 16, "LSI"),
    (11, 15, 0, "NUMDU"),
    (12, 31, 0, "LPOL"),
    (13, 31, 0, "LPOU"),
    (14, 31, 24, "CSI"),
    (14, 23, 23, "OT"),
    (14, 22, 0, "Reserved and UIDX"),
];

fn field(words: &Words, name: &str) -> u32 {
    let (dword, high, low, _) = COMMAND_FIELDS.into_iter().find(|row| row.3 == name).expect("a field of the table");
    (words[dword - 10] >> low) & (u32::MAX >> (31 - (high - low)))
}

/// What the builder builds, read field by field at the table's places.
pub fn builder_fields(pair: &mut Pair, _: &mut Random) -> Same<()> {
    let rows = [
        (7, 0, 0, 0, 0, 1),
        (7, 1, 0, 1, 0, 1),
        (7, 1, 4, 1, 0, 1),
        (7, 1, 3, 0, 5, 3),
        (8, 0, 0, 1, 1_048_576, 512),
        (8, 0, 0, 0, 1, 513),
        (8, 0, 0, 1, 4_097, 8_192),
    ];
    for (page, create, mcda, rae, offset, blocks) in rows {
        let (answer, words) = pair.words(page, create, mcda, rae, offset, blocks)?;
        // "The combined NUMDL field and NUMDU field form a 0's based value."
        let dwords = field(&words, "NUMDL") + (field(&words, "NUMDU") << 16) + 1;
        let got = (field(&words, "LID"), field(&words, "CTHID"), field(&words, "MCDA"), field(&words, "RAE"));
        let row = format!("builder {page} {create} {mcda} {rae} {offset} {blocks}");
        hold(answer == 0 && got == (page as u32, create as u32, mcda as u32, rae as u32), &row)?;
        hold(dwords == 128 * blocks && field(&words, "LPOL") == 512 * offset, &row)?;
        for name in ["LSP, of which figure 217 has 11:8", "LSI", "LPOU", "CSI", "OT", "Reserved and UIDX"] {
            hold(field(&words, name) == 0, &format!("{row}: {name} is 0"))?;
        }
    }
    Ok(())
}

/// What the controller makes of each field: those it ignores change nothing when all their bits are set, the others do.
pub fn controller_fields(pair: &mut Pair, _: &mut Random) -> Same<()> {
    let base = [0x007F_8008, 0, 0, 0, 0];
    for (dword, high, low, name) in COMMAND_FIELDS {
        let mut words: Words = base;
        words[dword - 10] |= (u32::MAX >> (31 - (high - low))) << low;
        let mut world = shown_drive();
        let mut buffer = vec![0; 1_024];
        let (answer, class) = pair.command(&mut world, &candidate([0; 4]), words, &mut buffer)?;
        let due = match name {
            "NUMDL" => 3,
            "NUMDU" => 3,
            "LID" => 2,
            "LPOL" | "LPOU" | "OT" => 1,
            _ => 0,
        };
        let class_due = if name == "LID" { 2 } else { 0 };
        hold((answer, class) == (due, class_due), &format!("CDW{dword} bits {high}:{low}, {name}, all set: {due}"))?;
        hold(world.record == shown_drive().record, &format!("{name} changes no record"))?;
    }
    let mut world = shown_drive();
    let (answer, _) = pair.command(&mut world, &candidate([0; 4]), [0x007F_0008, 0, 0, 0, 0], &mut vec![0; 512])?;
    let cleared = (world.record[at::AVAILABLE], generate::last_of(&world.record, at::CONTROLLER_LAST));
    hold(answer == 0 && cleared == (0, [0; 4]), "RAE 0 on 08h clears")
}

/// Document 004, "If extended data is not supported, then bits 27:16 [..] specify the Number of Dwords", with document 01's house rule.
pub fn without_extended_data(pair: &mut Pair, _: &mut Random) -> Same<()> {
    let rows: [(Words, usize, u8); 6] = [
        ([0x007F_8007, 0x0000_0000, 0, 0, 0], 512, 0),
        ([0xF07F_8007, 0xFFFF_FFFF, 0, 0, 0], 512, 0),
        ([0x0FFF_8007, 0x0000_0000, 0, 0, 0], 16_384, 0),
        ([0x0FFF_8007, 0x0000_0000, 0, 0, 0], 16_383, 3),
        ([0x007F_8007, 0x0000_0000, 512, 0, 0], 512, 1),
        ([0x007F_8007, 0x0000_0000, 0, 1, 0], 512, 1),
    ];
    for (words, bytes, due) in rows {
        let mut world = drive(TELEMETRY, [2, 2, 5, 0]);
        let (answer, _) = pair.command(&mut world, &candidate([0; 4]), words, &mut vec![0xDD; bytes])?;
        hold(answer == due, &format!("without extended data {words:08X?} into {bytes} bytes: {due}"))?;
    }
    Ok(())
}

const NAMED: u8 = 0;
const ELSEWHERE: u8 = 1;
const VENDOR: u8 = 2;
const RESERVED: u8 = 3;

/// Document 004, figure 206 (the table of log page identifiers), row by row.
const IDENTIFIERS: [(u8, u8, u8, &str); 50] = [
    (0x00, 0x00, NAMED, "Supported Log Pages"),
    (0x01, 0x01, NAMED, "Error Information"),
    (0x02, 0x02, NAMED, "SMART / Health Information"),
    (0x03, 0x03, NAMED, "Firmware Slot Information"),
    (0x04, 0x04, NAMED, "Changed Attached Namespace List"),
    (0x05, 0x05, NAMED, "Commands Supported and Effects"),
    (0x06, 0x06, NAMED, "Device Self-test"),
    (0x07, 0x07, NAMED, "Telemetry Host-Initiated"),
    (0x08, 0x08, NAMED, "Telemetry Controller-Initiated"),
    (0x09, 0x09, NAMED, "Endurance Group Information"),
    (0x0A, 0x0A, NAMED, "Predictable Latency Per NVM Set"),
    (0x0B, 0x0B, NAMED, "Predictable Latency Event Aggregate"),
    (0x0C, 0x0C, NAMED, "Asymmetric Namespace Access"),
    (0x0D, 0x0D, NAMED, "Persistent Event Log"),
    (0x0E, 0x0E, ELSEWHERE, "Refer to the NVM Express NVM Command Set Specification"),
    (0x0F, 0x0F, NAMED, "Endurance Group Event Aggregate"),
    (0x10, 0x10, NAMED, "Media Unit Status"),
    (0x11, 0x11, NAMED, "Supported Capacity Configuration List"),
    (0x12, 0x12, NAMED, "Feature Identifiers Supported and Effects"),
    (0x13, 0x13, NAMED, "NVMe-MI Commands Supported and Effects"),
    (0x14, 0x14, NAMED, "Command and Feature Lockdown"),
    (0x15, 0x15, NAMED, "Boot Partition"),
    (0x16, 0x16, NAMED, "Rotational Media Information"),
    (0x17, 0x17, NAMED, "Dispersed Namespace Participating NVM Subsystems"),
    (0x18, 0x18, NAMED, "Management Address List"),
    (0x19, 0x19, ELSEWHERE, "Refer to the applicable NVM Express Transport specification"),
    (0x1A, 0x1A, NAMED, "Reachability Groups"),
    (0x1B, 0x1B, NAMED, "Reachability Associations"),
    (0x1C, 0x1C, NAMED, "Changed Allocated Namespace List"),
    (0x1D, 0x1D, NAMED, "Device Personalities"),
    (0x1E, 0x1E, NAMED, "Cross-Controller Reset"),
    (0x1F, 0x1F, NAMED, "Lost Host Communication"),
    (0x20, 0x20, NAMED, "FDP Configurations"),
    (0x21, 0x21, NAMED, "Reclaim Unit Handle Usage"),
    (0x22, 0x22, NAMED, "FDP Statistics"),
    (0x23, 0x23, NAMED, "FDP Events"),
    (0x24, 0x24, RESERVED, "Reserved"),
    (0x25, 0x25, NAMED, "Power Measurement"),
    (0x26, 0x6F, RESERVED, "Reserved"),
    (0x70, 0x70, NAMED, "Discovery"),
    (0x71, 0x71, NAMED, "Host Discovery"),
    (0x72, 0x72, NAMED, "AVE Discovery"),
    (0x73, 0x73, NAMED, "Pull Model DDC Request"),
    (0x74, 0x7E, RESERVED, "Reserved"),
    (0x7F, 0x7F, NAMED, "Sanitize Namespace Status List"),
    (0x80, 0x80, NAMED, "Reservation Notification"),
    (0x81, 0x81, NAMED, "Sanitize Status"),
    (0x82, 0xBE, ELSEWHERE, "I/O Command Set Specific"),
    (0xBF, 0xBF, ELSEWHERE, "Refer to the NVM Express Zoned Namespace Command Set Specification"),
    (0xC0, 0xFF, VENDOR, "Vendor specific"),
];

/// Every identifier's class, and with answer 2 the same one.
pub fn identifier_table(pair: &mut Pair, _: &mut Random) -> Same<()> {
    let mut next = 0;
    for (first, last, class, name) in IDENTIFIERS {
        hold(first as u32 == next, "the rows follow one another")?;
        for identifier in first..=last {
            let row = format!("{identifier:02X}h, {name}: class {class}");
            hold(pair.class(identifier)? == class, &row)?;
            // With LPA bit 3 clear no identifier is served, 07h and 08h no more than others.
            let words = [0x007F_8000 | identifier as u32, 0, 0, 0, 0];
            let mut world = drive(EXTENDED, [0; 4]);
            let given = pair.command(&mut world, &candidate([0; 4]), words, &mut vec![0; 512])?;
            hold(given == (2, class), &row)?;
        }
        next = last as u32 + 1;
    }
    hold(next == 256, "the rows cover all identifiers")
}

/// Document 01, "Answer numbers": generic 02h, command specific 09h.
pub fn status_table(pair: &mut Pair, _: &mut Random) -> Same<()> {
    for (answer, due) in [(0, 0x0000), (1, 0x0002), (2, 0x0109), (3, 0xFFFF), (15, 0xFFFF), (255, 0xFFFF)] {
        hold(pair.status(answer)? == due, &format!("answer {answer} has the status {due:04X}h"))?;
    }
    Ok(())
}

/// Document 002: "If Data Area 4 is created, then Data Area 3 of non-zero length shall also be created"; document 01's other rules of a
/// candidate, on a drive of four areas and on one of three.
pub fn candidate_table(pair: &mut Pair, _: &mut Random) -> Same<()> {
    let rows: [(LastBlocks, u8, u8, u8); 9] = [
        // last blocks, answer of a create, of a capture, of a create on a drive of three areas
        ([0, 0, 0, 1], 5, 5, 5),
        ([0, 0, 1, 1], 0, 0, 0),
        ([2, 2, 5, 0], 5, 5, 5),
        ([2, 1, 5, 5], 5, 5, 5),
        ([1, 2, 1, 5], 5, 5, 5),
        ([0, 0, 0, 0], 0, 5, 0),
        ([1, 2, 5, 12], 0, 0, 0),
        ([1, 2, 5, 13], 5, 5, 0),
        ([1, 2, 13, 13], 5, 5, 5),
    ];
    for (last, create, capture, of_three) in rows {
        let words = [0x007F_8107, 0, 0, 0, 0];
        let offer = candidate(last);
        let given = pair.command(&mut drive(ALL, [0; 4]), &offer, words, &mut vec![0; 512])?.0;
        hold(given == create, &format!("create of {last:?}: {create}"))?;
        hold(pair.capture(&mut drive(ALL, [0; 4]), &offer)? == capture, &format!("capture of {last:?}: {capture}"))?;
        let given = pair.command(&mut drive(ALL & !DA4S, [0; 4]), &offer, words, &mut vec![0; 512])?.0;
        hold(given == of_three, &format!("create of {last:?} on a drive of three areas: {of_three}"))?;
    }
    Ok(())
}

/// Document 02, Q-1: "The lab updated firmware while I was collecting page 07h. The generation matched and I got a copy half real, half
/// zeros." A commit sets "the host's four last blocks and reason to zero" and keeps "the generation and the store".
pub fn commit_in_a_run(pair: &mut Pair, _: &mut Random) -> Same<()> {
    let mut world = drive(EXTENDED | TELEMETRY, [2, 2, 4, 0]);
    world.record[at::HOST_GENERATION] = 77;
    world.record[at::REASONS..].fill(0xC7);
    let (_, opening) = read(pair, &mut world, 7, 0, 512)?;
    let (_, first_half) = read(pair, &mut world, 7, 512, 1_024)?;
    let before = world.clone();
    hold(pair.drop_host_data(&mut world)? == 0, "a drop gives 0")?;
    hold(world.host_store == before.host_store, "a drop keeps the store")?;
    let (_, closing) = read(pair, &mut world, 7, 0, 512)?;
    hold(closing[381] == 77 && opening[381] == 77, "a drop keeps the generation")?;
    hold(closing[8..20] == [0; 12] && closing[384..] == [0; 128], "a drop sets last blocks and reason to zero")?;
    let page = (1, [0xDD; 512].to_vec());
    hold(read(pair, &mut world, 7, 1_024, 512)? == page, "after a drop the page ends with its header")?;
    half_copy(pair, &opening, &first_half, &closing)?;

    let mut disagreeing = World { host_store: before.host_store[..4 * BLOCK - 1].to_vec(), ..before };
    let record = disagreeing.record;
    hold(
        pair.drop_host_data(&mut disagreeing)? == 4 && disagreeing.record == record,
        "a drop gives 4 and changes nothing",
    )
}

/// The half copy needs a drive that serves zeros where ours refuses: header, the real half, the half of zeros, and the header of the page
/// without areas. It does not match, so it opens the next attempt, which ends with no blocks.
fn half_copy(pair: &mut Pair, opening: &[u8], first_half: &[u8], closing: &[u8]) -> Same<()> {
    let caps = EXTENDED | TELEMETRY;
    let setup = Setup { page: 7, create: 0, area: 3, caps, chunk: 2, attempts: 2, room: 4 * 512 };
    let (mut state, _) = pair.setup(setup)?;
    let mut copy = vec![0xDD; 4 * BLOCK];
    for data in [opening, first_half, &[0; 2 * BLOCK], closing] {
        hold(pair.step(&mut state, 1, data, &mut copy)?[0] == SEND, "the run goes on until a header matches")?;
    }
    let next = pair.step(&mut state, 1, closing, &mut copy)?;
    hold(next[0] == ENDED && next[1] == 0 && get_u64(&next, 24) == 5, "the next attempt ends with 0 after 5 commands")?;
    hold(copy == [0; 4 * BLOCK], "and its copy has no blocks")
}

/// Document 02, Q-2: "the first in this order: length, identifier, last blocks of areas 2, 3, 4, scope, TCDA, available but empty (length gives
/// byte 0, available but empty byte 12)". A header with all of these wrong but TCDA over 1 has them mended one after the other, and each time
/// the next one is told; TCDA over 1 is told in the place of available but empty.
pub fn which_field(pair: &mut Pair, _: &mut Random) -> Same<()> {
    for (page, scope) in [(7, 380), (8, 381)] {
        for caps in [ALL, ALL & !ETDAS, ALL & !DA4S] {
            let mut header = vec![0; 513];
            header[0] = 15 - page;
            header[8..20].copy_from_slice(&[3, 0, 2, 0, 0, 0, 0, 0, 1, 0, 16, 0]); // areas 3, 2, 0 and 1,048,577
            header[380..383].copy_from_slice(&[3, 3, 1]);
            let name = format!("page {page:02}h, caps {caps}");
            let mut told = |header: &[u8], field: u8, byte: u16, row: &str| {
                let due = (if field == 0 { 0 } else { 7 }, field, byte);
                hold(at_fault(pair, page, caps, header)? == due, &format!("{name}, {row}: {due:?}"))
            };
            told(&header, 1, 0, "513 bytes with a wrong identifier: length")?;
            told(&header[..511], 1, 0, "511 bytes: length")?;
            told(&[], 1, 0, "no bytes: length")?;
            header.truncate(512);
            told(&header, 2, 0, "identifier")?;
            header[0] = page;
            told(&header, 3, 10, "areas 2 and 3 below the one before: area 2")?;
            header[8] = 1;
            told(&header, 4, 12, "area 3 below area 2")?;
            header[12] = 2;
            told(&header, 5, 16, "area 4 over its limit, or there without DA4S")?;
            header[16..20].copy_from_slice(&[1, 0, 0, 0]);
            told(&header, 5, 16, "area 4 below area 3, or there without DA4S")?;
            header[8..14].fill(0);
            told(&header, 5, 16, "area 4 where area 3 has no block, or there without DA4S")?;
            header[16] = 0;
            told(&header, 6, scope, "scope")?;
            header[scope as usize] = 2;
            header[382] = 2;
            told(&header, 7, 382, "TCDA")?;
            header[382] = 1;
            let (empty, byte) = if page == 8 { (8, 12) } else { (0, 0) };
            told(&header, empty, byte, "available but empty, which 07h may be")?;
            header[12] = 1;
            header[16] = (caps & DA4S != 0) as u8;
            told(&header, 0, 0, "a good header")?;
            header[382] = 0;
            let due = (if page == 8 { 11 } else { 0 }, 0, 0);
            hold(at_fault(pair, page, caps, &header)? == due, &format!("{name}, no data available: {due:?}"))?;
        }
    }
    Ok(())
}

/// A row of a plan: what is wanted, the header's last blocks and TCDA, and the answer with the number of chunks.
type PlanRow = (&'static str, Wanted, LastBlocks, u8, (u8, u32));

/// Document 02, Q-4: a plan "takes the page, the header, the capabilities, the wanted area, c and the room, and gives the fields with the chunk
/// list's length, or the refusal". "Refusals: 13 and 6 by setup's limits, then 7, 11, 8 as at a first header."
pub fn check_and_plan(pair: &mut Pair, _: &mut Random) -> Same<()> {
    let listed = Wanted { page: 8, area: 3, caps: ALL, chunk: 3, room: 9 * 512 };
    let four = Wanted { area: 4, ..listed };
    let no_area_4 = Wanted { caps: ALL & !ETDAS, ..four };
    let bad = [5, 4, 7, 8];
    let rows: [PlanRow; 26] = [
        ("the whole listing of document 01", listed, [1, 4, 7, 8], 1, (0, 3)),
        ("the same on 07h", Wanted { page: 7, ..listed }, [1, 4, 7, 8], 1, (0, 3)),
        ("area 2 of it", Wanted { area: 2, ..listed }, [1, 4, 7, 8], 1, (0, 2)),
        ("area 1 of it", Wanted { area: 1, ..listed }, [1, 4, 7, 8], 1, (0, 1)),
        ("area 4 of it", four, [1, 4, 7, 8], 1, (0, 3)),
        ("c divides B", listed, [1, 4, 9, 9], 1, (0, 3)),
        ("c is B", Wanted { chunk: 7, ..listed }, [1, 4, 7, 8], 1, (0, 1)),
        ("c is over B", Wanted { chunk: 8_192, ..listed }, [1, 4, 7, 8], 1, (0, 1)),
        ("a block a command", Wanted { chunk: 1, ..listed }, [1, 4, 7, 8], 1, (0, 7)),
        ("B = 0", Wanted { area: 1, ..listed }, [0, 4, 7, 8], 1, (0, 0)),
        ("B = 0 into no room", Wanted { area: 1, room: 0, ..listed }, [0, 4, 7, 8], 1, (0, 0)),
        ("07h without data, which TCDA does not tell", Wanted { page: 7, ..listed }, [0; 4], 0, (0, 0)),
        ("the room is the area", Wanted { room: 7 * 512, ..listed }, [1, 4, 7, 8], 1, (0, 3)),
        ("a block less", Wanted { room: 6 * 512, ..listed }, [1, 4, 7, 8], 1, (8, 0)),
        ("area 4 is larger than the copy, and is not wanted", listed, [1, 4, 7, 99], 1, (0, 3)),
        ("area 4 at its limit", Wanted::largest(8, ALL), [0, 0, 1, 1_048_576], 1, (0, 1_048_576)),
        (
            "in the fewest commands",
            Wanted { chunk: 8_192, ..Wanted::largest(8, ALL) },
            [0, 0, 1, 1_048_576],
            1,
            (0, 128),
        ),
        (
            "one block a command less",
            Wanted { chunk: 8_191, ..Wanted::largest(8, ALL) },
            [0, 0, 1, 1_048_576],
            1,
            (0, 129),
        ),
        ("08h, TCDA 0", listed, [1, 4, 7, 8], 0, (11, 0)),
        ("08h, TCDA 0 and too large", Wanted { room: 512, ..listed }, [1, 4, 7, 8], 0, (11, 0)),
        ("a bad header, TCDA 0 and too large", Wanted { room: 512, ..listed }, bad, 0, (7, 0)),
        ("w = 4 without ETDAS", no_area_4, [1, 4, 7, 8], 1, (6, 0)),
        ("bad header and w = 4 without ETDAS", no_area_4, bad, 1, (6, 0)),
        ("the same, TCDA 0 and too large", Wanted { room: 512, ..no_area_4 }, bad, 0, (6, 0)),
        ("everything wrong", Wanted { room: 511, ..no_area_4 }, bad, 0, (13, 0)),
        (
            "everything wrong, and every limit broken",
            Wanted { page: 9, area: 5, caps: 32, chunk: 0, room: 1 },
            bad,
            2,
            (13, 0),
        ),
    ];
    for (row, wanted, last, available, due) in rows {
        let mut header = vec![0; 512];
        header[0] = wanted.page;
        for (place, blocks) in [8, 10, 12].into_iter().zip(last) {
            header[place..place + 2].copy_from_slice(&(blocks as u16).to_le_bytes());
        }
        header[16..20].copy_from_slice(&last[3].to_le_bytes());
        header[382] = available;
        let (answer, planned) = pair.plan(wanted, &header)?;
        hold((answer, get_u32(&planned, 156)) == due, &format!("{row}: {due:?}"))?;
        let silent = planned[..5] == [0; 5] && planned[8..] == [0; PLANNED_BYTES - 8];
        hold(silent == (answer != 0) && (planned[5..8] == [0; 3]) == (answer != 7), &format!("{row}: what is told"))?;
    }
    Ok(())
}

/// A drive without extended data that shows the same areas on both pages.
fn old_drive(last: LastBlocks) -> World {
    let mut world = drive(TELEMETRY, last);
    generate::put_last(&mut world.record, at::CONTROLLER_LAST, last);
    world.record[at::AVAILABLE] = (last[2] > 0) as u8;
    World { host_store: numbered(40, 0x00), controller_store: numbered(40, 0x80), ..world }
}

/// A row of an old run: the last block of area 3, the room in blocks, the middle command's CDW10 but for the page or 0, and the ending.
type OldRow = (u32, u64, u32, u8);

/// Document 02, Q-10: "the header, then header and blocks together from offset 0, at most 31 blocks, then the header, all with RAE 1; on 08h the
/// acknowledgement follows as before. B = 0 skips the middle command." "19, wanted area past block 31, just before 8 at any header".
pub fn old_drives(pair: &mut Pair, _: &mut Random) -> Same<()> {
    let rows: [OldRow; 14] = [
        (0, 0, 0, 0),
        (0, 9, 0, 0),
        (1, 1, 0x00FF_8000, 0),
        (1, 9, 0x00FF_8000, 0),
        (30, 31, 0x0F7F_8000, 0),
        (31, 31, 0x0FFF_8000, 0),
        (31, 40, 0x0FFF_8000, 0),
        (31, 30, 0, 8),
        (20, 10, 0, 8),
        (1, 0, 0, 8),
        (32, 31, 0, 19),
        (32, 32, 0, 19),
        (33, 40, 0, 19),
        (32, 0, 0, 19),
    ];
    for page in [7, 8] {
        rows.into_iter().try_for_each(|row| old_run(pair, page, row))?;
        old_middles(pair, page)?;
        old_closings(pair, page)?;
    }
    old_setups(pair)?;
    old_states(pair)
}

/// One row of old runs. Page 08h has data only with a block in area 3, so an area of no block is area 1 of it.
fn old_run(pair: &mut Pair, page: u8, (blocks, room, middle, answer): OldRow) -> Same<()> {
    let (area, last) = if blocks == 0 { (1, [0, 1, 1, 0]) } else { (3, [0, 0, blocks, 0]) };
    let setup = Setup { page, create: 0, area, caps: TELEMETRY, chunk: 0, attempts: 2, room: 512 * room };
    let (sent, given, count, copy) = collect(pair, &mut old_drive(last), setup, |_, _, _| Ok(()))?;
    let (goes_on, header) = (answer == 0, 0x007F_8000);
    let listing = [
        (true, header),
        (goes_on && blocks > 0, middle),
        (goes_on, header),
        (goes_on && page == 8, 0x007F_0000), // RAE 0
    ];
    let due: Vec<Words> = listing
        .into_iter()
        .filter(|(is_sent, _)| *is_sent)
        .map(|(_, cdw10)| [cdw10 | page as u32, 0, 0, 0, 0])
        .collect();
    let row = format!("0{page}h, B = {blocks}, room of {room} blocks");
    hold(sent == due, &format!("{row}: {sent:08X?}"))?;
    hold((given, count) == (answer, sent.len() as u64), &format!("{row}: ending {answer}"))?;
    let base = if page == 7 { 0x00 } else { 0x80 };
    let mut area = if goes_on { numbered(blocks as u8, base) } else { Vec::new() };
    area.resize(room as usize * BLOCK, 0);
    hold(copy == area, &format!("{row}: the copy"))
}

/// "Setup takes no c (0 in a transcript) and extended data must be off", "13 if extended data is on". Area 4 is as it was.
fn old_setups(pair: &mut Pair) -> Same<()> {
    let new = EXTENDED | TELEMETRY;
    let rows: [(u8, u8, u32, u8); 19] = [
        // capabilities, wanted area, c, the answer
        (TELEMETRY, 3, 0, 0),
        (TELEMETRY, 1, 0, 0),
        (TELEMETRY | MCDAS, 3, 0, 0),
        (TELEMETRY | DA4S, 3, 0, 0),
        (TELEMETRY, 3, 1, 13),
        (TELEMETRY, 3, 31, 13),
        (TELEMETRY, 3, 8_192, 13),
        (TELEMETRY, 3, 8_193, 13),
        (TELEMETRY, 3, u32::MAX, 13),
        (new, 3, 0, 13),
        (new, 3, 1, 0),
        (new, 3, 8_192, 0),
        (0, 3, 0, 13),
        (EXTENDED, 3, 1, 13),
        (TELEMETRY, 4, 0, 6),
        (TELEMETRY | DA4S, 4, 0, 6),
        (TELEMETRY | ETDAS, 4, 0, 6),
        (TELEMETRY | DA4S | ETDAS, 4, 0, 0),
        (TELEMETRY, 4, 1, 13),
    ];
    let mut header = vec![0; 512];
    header[0] = 7;
    for (caps, area, chunk, answer) in rows {
        let setup = Setup { page: 7, create: 1, area, caps, chunk, attempts: 1, room: 512 };
        let (_, next) = pair.setup(setup)?;
        let kind = if answer == 0 { SEND } else { REFUSED };
        hold(next[..2] == [kind, answer], &format!("{setup:?}: {answer}"))?;
        let given = pair.plan(setup.wanted(), &header)?.0;
        hold(given == answer, &format!("a plan of {setup:?}: {answer}"))?;
    }
    Ok(())
}

/// A state of an old run is bad where its area is past block 31, whatever it awaits, where its chunk starts at another block than 1 or outside the
/// area, and where setup's limits are broken. Its middle command brings the header and B blocks, and no other data fits.
fn old_states(pair: &mut Pair) -> Same<()> {
    let setup = Setup { page: 7, create: 0, area: 3, caps: TELEMETRY, chunk: 0, attempts: 2, room: 40 * 512 };
    for (phase, blocks) in (0..=5).flat_map(|phase| [31, 32, 40].map(|blocks| (phase, blocks))) {
        let mut state = header_state(setup, phase, 1, 9, [0, 0, blocks, 0]);
        state[20] = (phase == 1) as u8;
        let (next, ended) = (pair.step(&mut state, 0, &[], &mut vec![0xDD; 40 * BLOCK])?, phase == 5);
        let refusal = if ended { 14 } else { 13 };
        let due = ended || blocks > 31;
        hold((next[..2] == [REFUSED, refusal]) == due, &format!("a state in phase {phase} with B = {blocks}"))?;
    }
    for at in [0, 1, 2, 3, 31, 32, u32::MAX] {
        let mut state = header_state(setup, 1, 1, 9, [0, 0, 31, 0]);
        state[20..24].copy_from_slice(&at.to_le_bytes());
        let next = pair.step(&mut state, 1, &[7; 32 * BLOCK], &mut vec![0xDD; 40 * BLOCK])?;
        let due = if at == 1 { [SEND, 0] } else { [REFUSED, 13] };
        hold(next[..2] == due, &format!("a state whose chunk starts at block {at}: {due:?}"))?;
    }
    // Capabilities, c, the area's last block, blocks of data, and the answer, or 0 for a command.
    let rows = [
        (TELEMETRY, 0, 3, 4, 0),
        (TELEMETRY, 0, 3, 3, 15),
        (TELEMETRY, 0, 3, 5, 15),
        (TELEMETRY, 0, 3, 0, 15),
        (TELEMETRY, 0, 0, 1, 13),
        (TELEMETRY, 1, 3, 4, 13),
        (TELEMETRY, 31, 3, 4, 13),
        (EXTENDED | TELEMETRY, 0, 3, 4, 13),
        (EXTENDED | TELEMETRY, 31, 3, 4, 15),
        (EXTENDED | TELEMETRY, 31, 3, 3, 0),
        (EXTENDED | TELEMETRY, 31, 40, 31, 0),
        (0, 0, 3, 4, 13),
    ];
    for (caps, chunk, blocks, given, answer) in rows {
        let mut state = header_state(Setup { caps, chunk, ..setup }, 1, 1, 9, [0, 0, blocks, 0]);
        state[20] = 1;
        let next = pair.step(&mut state, 1, &vec![7; given * BLOCK], &mut vec![0xDD; 40 * BLOCK])?;
        let due = [if answer == 0 { SEND } else { REFUSED }, answer];
        hold(next[..2] == due, &format!("caps {caps}, c = {chunk}, B = {blocks}, {given} blocks of data: {due:?}"))?;
    }
    Ok(())
}

/// A header of an old drive with data available, so many blocks in area 3 and this generation of its page.
fn old_header(page: u8, blocks: u8, generation: u8) -> Vec<u8> {
    let mut header = vec![0; BLOCK];
    (header[0], header[12], header[382]) = (page, blocks, 1);
    header[if page == 7 { 381 } else { 383 }] = generation;
    header
}

/// An old run of two blocks into four: its state and copy after the first header and the middle command, whose header this is, or which is
/// refused.
fn after_middle(pair: &mut Pair, page: u8, attempts: u32, middle: Option<&[u8]>) -> Same<([u8; STATE_BYTES], Vec<u8>)> {
    let setup = Setup { page, create: 0, area: 3, caps: TELEMETRY, chunk: 0, attempts, room: 4 * 512 };
    let (mut state, _) = pair.setup(setup)?;
    let mut copy = vec![0xDD; 4 * BLOCK];
    pair.step(&mut state, 1, &old_header(page, 2, 5), &mut copy)?;
    match middle {
        Some(middle) => pair.step(&mut state, 1, &[middle, &numbered(2, 0x40)].concat(), &mut copy)?,
        None => pair.step(&mut state, 0, &[], &mut copy)?,
    };
    Ok((state, copy))
}

/// "The middle command's own header is not judged, only the last one."
fn old_middles(pair: &mut Pair, page: u8) -> Same<()> {
    let unlike = |change: fn(&mut [u8])| {
        let mut unlike = old_header(page, 2, 5);
        change(&mut unlike);
        unlike
    };
    let middles = [
        ("the same header", unlike(|_| ())),
        ("another generation", old_header(page, 2, 6)),
        ("TCDA 0", unlike(|header| header[382] = 0)),
        ("no blocks", unlike(|header| header[12] = 0)),
        ("an area past block 31", unlike(|header| header[12] = 32)),
        ("the other page", unlike(|header| header[0] ^= 15)),
        ("a bad scope", unlike(|header| header[380..382].fill(3))),
        ("zeros", vec![0; BLOCK]),
        ("anything", vec![0xFF; BLOCK]),
    ];
    let (blocks, matching) = (numbered(2, 0x40), old_header(page, 2, 5));
    for (name, middle) in &middles {
        let row = format!("0{page}h, the middle header: {name}");
        let (mut state, mut copy) = after_middle(pair, page, 2, Some(middle))?;
        hold(state[0] == 2 && copy[..2 * BLOCK] == blocks && copy[2 * BLOCK..] == [0xDD; 2 * BLOCK], &row)?;
        let mut next = pair.step(&mut state, 1, &matching, &mut copy)?;
        if page == 8 {
            hold(words_of(&next) == [0x007F_0008, 0, 0, 0, 0], &format!("{row}, and the acknowledgement"))?;
            next = pair.step(&mut state, 1, &matching, &mut copy)?;
        }
        let count = if page == 8 { 4 } else { 3 };
        let whole = copy[..2 * BLOCK] == blocks && copy[2 * BLOCK..] == [0; 2 * BLOCK];
        hold(next[..4] == [ENDED, 0, 0, 0] && get_u64(&next, 24) == count && whole, &row)?;
    }
    Ok(())
}

/// Attempts allowed, what the closing header shows of blocks and generation, the ending after the middle command and after a refused one, or 0
/// without one and with success, and the attempt then.
type ClosingRow = (&'static str, u32, u8, u8, [u8; 2], u8);

/// A refused middle command is a refused chunk: 12 where a match follows, and else the next attempt, unless attempts are used up (9), the area is
/// out of reach (19) or larger than the copy (8).
fn old_closings(pair: &mut Pair, page: u8) -> Same<()> {
    let rows: [ClosingRow; 8] = [
        ("another generation", 2, 2, 6, [0, 0], 2),
        ("another generation in the last attempt", 1, 2, 6, [9, 9], 1),
        ("block 31 in the last attempt", 1, 31, 6, [9, 9], 1),
        ("block 32 in the last attempt", 1, 32, 5, [9, 9], 1),
        ("block 31, larger than the copy", 2, 31, 5, [8, 8], 2),
        ("block 32, larger than the copy too", 2, 32, 5, [19, 19], 2),
        ("a match", 2, 2, 5, [0, 12], 1),
        ("a match in the last attempt", 1, 2, 5, [0, 12], 1),
    ];
    let middle = old_header(page, 2, 6);
    for (name, attempts, blocks, generation, endings, attempt) in rows {
        for (middle, ending) in [Some(&middle[..]), None].into_iter().zip(endings) {
            let row = format!("0{page}h, middle refused: {}, the closing header: {name}", middle.is_none());
            let (mut state, mut copy) = after_middle(pair, page, attempts, middle)?;
            let next = pair.step(&mut state, 1, &old_header(page, blocks, generation), &mut copy)?;
            hold(next[1] == ending && state[16] == attempt, &format!("{row}: {ending} in attempt {attempt}"))?;
            hold(ending == 0 || copy == [0; 4 * BLOCK], &format!("{row}: a copy of zeros"))?;
        }
    }
    Ok(())
}

/// Document 02, Q-12: entries one after the other, each with the sheet's numbers after it and the mean: "runs by ending, blocks kept, commands
/// sent, failed attempts", "the mean blocks a good run, as a whole part and a remainder". The mark is the number 3154454548535A42h.
pub fn months_sheet(pair: &mut Pair, _: &mut Random) -> Same<()> {
    const MARK: u64 = 0x3154_4545_4853_5A42;
    const FULL: u64 = 18_446_744_073_709_551_615;
    type Row = (u8, [u64; 3], u8, [u64; 12], Option<(u64, u64)>);
    let rows: [Row; 13] = [
        // ending, blocks, commands and failed attempts, the answer, the totals and how far the check is over the mark, the mean
        (6, [0, 1, 0], 13, [0; 12], None),
        (11, [0, 1, 0], 0, [0, 0, 0, 0, 0, 1, 0, 0, 0, 1, 0, 2], None),
        (9, [1, 9, 3], 13, [0, 0, 0, 0, 0, 1, 0, 0, 0, 1, 0, 2], None),
        (9, [0, 9, 3], 0, [0, 0, 0, 1, 0, 1, 0, 0, 0, 10, 3, 15], None),
        (0, [7, 6, 0], 0, [1, 0, 0, 1, 0, 1, 0, 0, 7, 16, 3, 29], Some((7, 0))),
        // A good run of no blocks counts in the mean.
        (0, [0, 2, 0], 0, [2, 0, 0, 1, 0, 1, 0, 0, 7, 18, 3, 32], Some((3, 1))),
        (0, [10, 8, 1], 0, [3, 0, 0, 1, 0, 1, 0, 0, 17, 26, 4, 52], Some((5, 2))),
        (19, [0, 1, 0], 0, [3, 0, 0, 1, 0, 1, 0, 1, 17, 27, 4, 54], Some((5, 2))),
        (13, [FULL, FULL, FULL], 13, [3, 0, 0, 1, 0, 1, 0, 1, 17, 27, 4, 54], Some((5, 2))),
        // "13 [..] for blocks kept with an ending other than 0; then 20"
        (12, [FULL, FULL, FULL], 13, [3, 0, 0, 1, 0, 1, 0, 1, 17, 27, 4, 54], Some((5, 2))),
        (0, [FULL - 16, 1, 0], 20, [3, 0, 0, 1, 0, 1, 0, 1, 17, 27, 4, 54], Some((5, 2))),
        (0, [FULL - 17, 1, 0], 0, [4, 0, 0, 1, 0, 1, 0, 1, FULL, 28, 4, 38], Some((4_611_686_018_427_387_903, 3))),
        (0, [1, 1, 0], 20, [4, 0, 0, 1, 0, 1, 0, 1, FULL, 28, 4, 38], Some((4_611_686_018_427_387_903, 3))),
    ];
    let mut sheet = pair.new_sheet()?;
    hold(sheet == [&b"BZSHEET1"[..], &[0; 88], b"BZSHEET1"].concat()[..], "a sheet with no run entered")?;
    for (ending, [blocks, commands, failed], answer, after, mean) in rows {
        let run = Finished { ending, blocks, commands, failed };
        let row = format!("{run:?}: {answer}, then {after:?}, {mean:?}");
        hold(pair.enter(&mut sheet, run)? == answer, &row)?;
        let [totals @ .., over] = after;
        let numbers = [&[MARK][..], &totals, &[MARK + over]].concat();
        let due: Vec<u8> = numbers.iter().flat_map(|number| number.to_le_bytes()).collect();
        hold(sheet == due[..], &row)?;
        let (given, (whole, rest)) = (mean.is_some() as u64, mean.unwrap_or((0, 0)));
        let due: Vec<u8> = [given, whole, rest].iter().flat_map(|number| number.to_le_bytes()).collect();
        let told = pair.mean(&sheet)?;
        hold(told.0 == 0 && told.1 == due[..], &row)?;
    }
    // Another bench's sheet: first it is taken, and then it would pass.
    let (mut other, mut month) = (pair.new_sheet()?, pair.new_sheet()?);
    hold(
        pair.enter(&mut other, Finished { ending: 10, blocks: 0, commands: FULL - 27, failed: 0 })? == 0,
        "a long run",
    )?;
    let before = sheet;
    hold(pair.add(&mut sheet, &other)? == 20 && sheet == before, "commands that would pass with another sheet")?;
    hold(pair.add(&mut month, &other)? == 0 && month == other, "a sheet added to none")?;
    hold(pair.add(&mut month, &before)? == 20 && month == other, "and then another one")
}

/// Document 02, Q-14: "Attempts may now be set up to 65,535", "13 from 65,536 attempts". A state's numbers keep setup's limits, and its
/// command count is 2 + attempts·1,048,577 at most, which takes more than 32 bits.
pub fn attempts_table(pair: &mut Pair, _: &mut Random) -> Same<()> {
    let taken = [1, 2, 255, 256, 257, 4_095, 4_096, 65_534, 65_535].map(|attempts| (attempts, true));
    let refused = [0, 65_536, 65_537, 1 << 24, u32::MAX].map(|attempts| (attempts, false));
    for (attempts, taken) in taken.into_iter().chain(refused) {
        let caps = EXTENDED | TELEMETRY;
        let setup = Setup { page: 7, create: 0, area: 3, caps, chunk: 1, attempts, room: 512 };
        let (_, next) = pair.setup(setup)?;
        let due = if taken { (SEND, 0) } else { (REFUSED, 13) };
        hold((next[0], next[1]) == due, &format!("setup of {attempts} attempts: {due:?}"))?;
        let most = 2 + attempts as u64 * 1_048_577;
        for (count, taken) in [(most, taken), (most + 1, false)] {
            // The last attempt's closing header is refused.
            let mut state = header_state(setup, 2, attempts, 9, [0, 0, 1, 0]);
            put_u64(&mut state, 32, count);
            let next = pair.step(&mut state, 0, &[], &mut vec![0xDD; 512])?;
            let due = if taken { (ENDED, 12, count) } else { (REFUSED, 13, 0) };
            let row = format!("a state with {attempts} attempts and {count} commands: {due:?}");
            hold((next[0], next[1], get_u64(&next, 24)) == due, &row)?;
        }
    }
    Ok(())
}

/// A capture on the page of these last blocks.
fn capture_on(pair: &mut Pair, world: &mut World, page: u8, last: LastBlocks) -> Same<()> {
    let answer = match page {
        7 => pair.command(world, &candidate(last), [0x007F_8107, 0, 0, 0, 0], &mut vec![0; BLOCK])?.0,
        _ => pair.capture(world, &candidate(last))?,
    };
    hold(answer == 0, "a capture is taken")
}

/// Document 02, Q-14: "show one run with exactly 256 captures in one attempt where the copy mixes two captures and the run ends well": H c1,
/// the captures, c2 h. With one more or one less the next attempt brings the later capture, whole.
pub fn mixed_copies(pair: &mut Pair, _: &mut Random) -> Same<()> {
    let later = numbered(2, 0x40);
    for (page, first_block) in [(7, 0x01), (8, 0x81)] {
        let mixed = [[first_block; BLOCK], [0x42; BLOCK]].concat();
        for (captures, copy, commands) in [(255, &later, 7), (256, &mixed, 4), (257, &later, 7), (512, &mixed, 4)] {
            let mut world = drive(EXTENDED | TELEMETRY, [0, 0, 2, 0]);
            generate::put_last(&mut world.record, at::CONTROLLER_LAST, [0, 0, 2, 0]);
            world.record[at::AVAILABLE] = 1;
            let caps = EXTENDED | TELEMETRY;
            let setup = Setup { page, create: 0, area: 3, caps, chunk: 1, attempts: 2, room: 1_024 };
            let ran = collect(pair, &mut world, setup, |pair, world, sent| {
                let times = if sent == 2 { captures } else { 0 };
                (0..times).try_for_each(|_| capture_on(pair, world, page, [0, 0, 2, 2]))
            })?;
            let commands = commands + (page == 8) as u64;
            let row = format!("0{page}h, {captures} captures in an attempt: ending 0, {commands} commands");
            hold(ran.1 == 0 && ran.2 == commands && ran.0.len() as u64 == commands, &row)?;
            hold(ran.3 == *copy, &format!("{row}, and which captures the copy holds"))?;
        }
    }
    Ok(())
}

/// All of 65,535 attempts on a page without blocks, where an attempt is its closing header: with a capture in each they are used up; without
/// one in the last they are enough, and the commands are demand 3's bound 1 + (k + 1)(C + 1), k being 65,534 and C 0.
pub fn attempts_used_up(pair: &mut Pair, _: &mut Random) -> Same<()> {
    let caps = EXTENDED | TELEMETRY;
    let setup = Setup { page: 7, create: 0, area: 3, caps, chunk: 1, attempts: 65_535, room: 0 };
    for (captures, answer) in [(65_535, 9), (65_534, 0)] {
        let mut world = World { host_store: Vec::new(), controller_store: Vec::new(), ..drive(caps, [0; 4]) };
        let (sent, given, count, _) = collect(pair, &mut world, setup, |pair, world, sent| {
            if sent <= captures {
                capture_on(pair, world, 7, [0; 4])?;
            }
            Ok(())
        })?;
        let row = format!("{captures} captures, one in an attempt: ending {answer}, 65,536 commands");
        hold((given, count, sent.len()) == (answer, 65_536, 65_536), &row)?;
    }
    Ok(())
}
