//! The paper's worked cases and the maker's checksums, written out by hand; round trips of our own implementation.

use crate::ask::Peer;
use crate::board::{moved_to, OPENED_MAX};
use crate::calls::{device_fields, Request};
use crate::device::{is_image, Device};
use crate::field::{line, Field};
use crate::gen::{device_of_size, fitting, image_for, large_device, name, reading_for, with_id};
use crate::model::{self, Run};
use crate::rng::Rng;
use crate::sheet::Form;
use crate::tally::{cut, difference, Tally};
use crate::words::{NOT_GIVEN, WORD_MAX};
use crate::{bench, device, erases, hex, judge, large, masked, moved, sheet, streams};
use std::iter::once;
use std::ops::Range;

pub const TINY: Device = Device {
    id: 0x2A00,
    words: 16,
    row: 8,
    mask1: 0x3EFF,
    mask2: 0x3FF3,
    idmask: 0x3FFF,
};
const F1459: Device = Device {
    id: 0x3023,
    words: 8_192,
    row: 32,
    mask1: 0x3EFF,
    mask2: 0x3FF3,
    idmask: 0x3FFF,
};
pub const TINY_LINE: &[u8] = b"TINY\t2A00\t16\t8\t3EFF\t3FF3\n";
pub const END: &str = ":00000001FF\n";
pub const CONFIGURED: &str = ":020000040001F9\n:02000E007F3F32\n:00000001FF\n";

/// The whole listing of the paper.
pub const LISTING: &str = "16\t0000\n00\t7FFE\n06\t0000\n06\t0000\n06\t0000\n06\t0000\n06\t0000\n\
    06\t0000\n06\t0000\n02\t7EFE\n08\t0000\n";

/// A request, and the answer that must come.
pub struct Case {
    what: String,
    request: Request,
    expected: Vec<Field>,
}

pub fn case(
    what: &str,
    name: &str,
    d: Option<&Device>,
    rest: Vec<Field>,
    expected: Vec<Field>,
) -> Case {
    let mut fields = d.map(device_fields).unwrap_or_default();
    fields.extend(rest);
    Case {
        what: what.to_string(),
        request: Request::new(name, fields),
        expected,
    }
}

pub fn number(n: u32) -> Field {
    n.into()
}

/// Number, line and column.
type Answer = (u32, u32, u32);

/// A HEX text that is read and gives no word.
pub fn sound_text(d: &Device, text: &[u8]) -> Case {
    hex_case(d, text, (0, 0, 0), &[])
}

/// A HEX text that is refused.
pub fn refused_text(d: &Device, text: &[u8], answer: Answer) -> Case {
    hex_case(d, text, answer, &[])
}

/// A HEX text read for a device: number, line, column, and the words it gives.
pub fn hex_case(d: &Device, text: &[u8], answer: Answer, given: &[(usize, u16)]) -> Case {
    // The lent image holds something that no reader writes.
    let lent: Vec<u16> = (0..d.entries()).map(|i| i as u16 ^ 0x5A5A).collect();
    let mut image = vec![NOT_GIVEN; d.entries()];
    for &(entry, word) in given {
        image[entry] = word;
    }
    let what = format!("HEX text {:?}", cut(text, 0));
    let expected = vec![
        number(answer.0),
        number(answer.1),
        number(answer.2),
        image.into(),
    ];
    case(
        &what,
        "ihex.read_hex",
        Some(d),
        vec![text.to_vec().into(), lent.into()],
        expected,
    )
}

fn one_word(upper: u16, offset: u16, word: u16) -> Vec<u8> {
    let mut text = hex::record_text(0, 4, &upper.to_be_bytes());
    text.extend(hex::record_text(offset, 0, &word.to_le_bytes()));
    text.extend(END.bytes());
    text
}

fn hex_cases() -> Vec<Case> {
    let p = F1459.p();
    let read = |d, text: &[u8], given: &[(usize, u16)]| hex_case(d, text, (0, 0, 0), given);
    let word = one_word(0, 0x3FFE, 0x1234);
    let id = one_word(1, 0x0006, 0x1234);
    vec![
        read(&TINY, END.as_bytes(), &[]),
        read(&TINY, b":00000001FF", &[]),
        read(&TINY, b":020000000034CA\n:00000001FF\n", &[(0, 0x3400)]),
        read(&TINY, CONFIGURED.as_bytes(), &[(16 + 7, 0x3F7F)]),
        read(&F1459, &word, &[(0x1FFF, 0x1234)]),
        read(&F1459, &id, &[(p + 3, 0x1234)]),
        refused_text(&TINY, b"", (10, 0, 0)),
        refused_text(&F1459, &one_word(0, 0x4000, 0x1234), (7, 2, 10)),
        refused_text(&F1459, &one_word(1, 0x0008, 0x1234), (7, 2, 10)),
        refused_text(&F1459, &one_word(1, 0x0012, 0x1234), (7, 2, 10)),
    ]
}

/// A word of TINY given by a record of its own, and given again as the third of the next.
const THIRD_AGAIN: &str = ":020004000700F3\n:06000000010002000300F4\n:00000001FF\n";

/// Which column, on TINY.
fn column_cases() -> Vec<Case> {
    let refused: &[(&str, Answer)] = &[
        // 2: a line that stops short
        (":\n", (2, 1, 2)),
        (":00\n", (2, 1, 4)),
        (":0\n:00000001FF\n", (2, 1, 3)),
        (":020000003412B\n:00000001FF\n", (2, 1, 15)),
        (":020000003412\r\n:00000001FF\n", (2, 1, 14)),
        // 2: a character that cannot stand there
        (":0200000000G4CA\n", (2, 1, 12)),
        ("\n\r\n;020000003412B8\n", (2, 3, 1)),
        (" :020000003412B8\n", (2, 1, 1)),
        (":G20000003412B8\n", (2, 1, 2)),
        (":0G0000003412B8\n", (2, 1, 3)),
        (":02::\n", (2, 1, 4)),
        (":0200\r0003412B8\n", (2, 1, 6)),
        (":02000000\u{e9}412B8\n", (2, 1, 10)),
        // 2: a line that is too long
        (":00000001FF0\n", (2, 1, 12)),
        (":020000000034CA\r\r\n:00000001FF\n", (2, 1, 16)),
        (":020000003412B8:00000001FF\n", (2, 1, 16)),
        (":000000003412B8G\n", (2, 1, 12)),
        // 2: two of these, of which the left one counts
        (":02000000G412\n", (2, 1, 10)),
        (":00000001G\n", (2, 1, 10)),
        (":00000001FFG\n", (2, 1, 12)),
        (":0000G001FF00\n", (2, 1, 6)),
        // 3 to 6, and 11: the whole line
        (":020000000034CB\n:00000001FF\n", (3, 1, 1)),
        (":020000021000EC\n:00000001FF\n", (4, 1, 1)),
        (":00010001FE\n", (5, 1, 1)),
        (":020001003412B7\n:00000001FF\n", (6, 1, 1)),
        (":00000001FF\n\n:02000000G412B8\n", (11, 3, 1)),
        // 7 to 9: the low byte of the word
        (":06001C00010002000300D8\n:00000001FF\n", (7, 1, 18)),
        (":04000000FF3F00407E\n:00000001FF\n", (8, 1, 14)),
        (THIRD_AGAIN, (9, 2, 18)),
        // 10
        (":020000003412B8\n", (10, 0, 0)),
    ];
    let case = |&(text, answer): &(&str, Answer)| refused_text(&TINY, text.as_bytes(), answer);
    refused.iter().map(case).collect()
}

/// A reading of one word all through, but for some.
fn reading(d: &Device, fill: u16, others: &[(usize, u16)]) -> Vec<u16> {
    let mut list = vec![fill; d.entries()];
    for &(entry, word) in others {
        list[entry] = word;
    }
    list
}

fn checksum_case(what: &str, d: &Device, others: &[(usize, u16)], sum: u16) -> Case {
    let list = reading(d, WORD_MAX, others);
    case(
        what,
        "judge.checksum",
        Some(d),
        vec![list.into()],
        vec![number(0), sum.into()],
    )
}

fn checksum_cases() -> Vec<Case> {
    let protected = |d: &Device, ids: [u16; 4]| -> Vec<(usize, u16)> {
        let p = d.p();
        let mut others: Vec<(usize, u16)> = (0..4).map(|k| (p + k, ids[k])).collect();
        others.push((p + 7, 0x3F7F));
        others
    };
    let last = F1459.p() - 1;
    let example3 = protected(&F1459, [6, 7, 1, 2]);
    let example4 = protected(&F1459, [0xE, 8, 5, 8]);
    let tiny4 = protected(&TINY, [0xE, 8, 5, 8]);
    vec![
        checksum_case("example 7-1", &F1459, &[], 0x5EF2),
        checksum_case("example 7-2", &F1459, &[(0, 0xAA), (last, 0xAA)], 0xE048),
        checksum_case("example 7-3", &F1459, &example3, 0xE584),
        checksum_case("example 7-4", &F1459, &example4, 0x66CA),
        checksum_case("example 7-4 on TINY", &TINY, &tiny4, 0x66CA),
        checksum_case("blank TINY", &TINY, &[], 0x7EE2),
    ]
}

/// Loads at 0002h to 0009h, Begin at 0009h: the row of the counter is written, with what lay in each latch.
fn latch_case() -> Case {
    let cells = vec![WORD_MAX; TINY.cells()];
    let mut stream = vec![0x16, 0, 0, 0x06, 0, 0, 0x06, 0, 0];
    let word = |address: usize| 0x0100 + address as u16;
    for address in 2..=9 {
        stream.push(0x02);
        stream.extend((2 * word(address)).to_le_bytes());
        if address < 9 {
            stream.extend([0x06, 0, 0]);
        }
    }
    stream.extend([0x08, 0, 0]);
    let steps = stream.len() / 3;
    let mut after = cells.clone();
    for (k, cell) in after[8..16].iter_mut().enumerate() {
        // Latches 0 and 1 were loaded at 0008h and 0009h, the others at 0002h to 0007h.
        *cell = word(if k < 2 { 8 + k } else { k });
    }
    let lent: Vec<u16> = vec![0x1111, 0xFFFF];
    case(
        "the maker's example of a row",
        "target.run",
        Some(&TINY),
        vec![
            cells.into(),
            stream.into(),
            Field::Num(1_000),
            lent.clone().into(),
        ],
        vec![
            number(0),
            steps.into(),
            number(0),
            after.into(),
            lent.into(),
        ],
    )
}

/// TINY's blank board, but for some words.
pub fn tiny_board(others: &[(usize, u16)]) -> Vec<u16> {
    let mut board = reading(&TINY, WORD_MAX, &[(16 + 5, 0x2000), (16 + 6, 0x2A00)]);
    for &(entry, word) in others {
        board[entry] = word;
    }
    board
}

/// An image of TINY that gives one word.
fn gives(entry: usize, word: u16) -> Vec<u16> {
    let mut image = vec![NOT_GIVEN; TINY.entries()];
    image[entry] = word;
    image
}

/// A stream planned, with its steps as code and payload, or refused.
fn plan_case(what: &str, name: &str, rest: Vec<Field>, plan: Result<&[(u8, u16)], u32>) -> Case {
    let lent: Vec<u8> = (100..200u8).collect();
    let mut out = lent.clone();
    for (k, &(code, payload)) in plan.unwrap_or_default().iter().enumerate() {
        out[3 * k] = code;
        out[3 * k + 1..3 * k + 3].copy_from_slice(&payload.to_le_bytes());
    }
    let mut fields = rest;
    fields.push(lent.into());
    let steps = plan.map_or(0, <[(u8, u16)]>::len);
    let expected = vec![number(plan.err().unwrap_or(0)), steps.into(), out.into()];
    case(what, name, Some(&TINY), fields, expected)
}

/// The steps that write 8007h of TINY alone, after Reset.
fn write_8007(payload: u16) -> Vec<(u8, u16)> {
    let mut steps = vec![(0x16, 0), (0x00, 0x7FFE)];
    steps.extend([(0x06, 0); 7]);
    steps.extend([(0x02, payload), (0x08, 0)]);
    steps
}

/// Begin at an address of blank TINY with every latch 0000h: one cell changes.
fn begin_case(address: u16, cell: u16) -> Case {
    let cells = vec![WORD_MAX; TINY.cells()];
    let mut after = cells.clone();
    after[16 + usize::from(address - 0x8000)] = cell;
    let lent: Vec<u16> = vec![0x5A5A];
    case(
        &format!("Begin at {address:04X}h"),
        "target.step",
        Some(&TINY),
        vec![
            address.into(),
            vec![0u16; 32].into(),
            number(0x08),
            number(0),
            lent.clone().into(),
            cells.into(),
        ],
        vec![
            number(0),
            address.into(),
            vec![WORD_MAX; 32].into(),
            lent.into(),
            after.into(),
        ],
    )
}

/// A reading of TINY against a wanted one.
fn verify_case(what: &str, wanted: Vec<u16>, reading: Vec<u16>, verdict: (u32, u16, u32)) -> Case {
    let (n, address, count) = verdict;
    case(
        what,
        "judge.verify",
        Some(&TINY),
        vec![wanted.into(), reading.into()],
        vec![number(n), address.into(), number(count)],
    )
}

/// What is wanted at an entry, nothing judged.
fn wanted_case(what: &str, d: &Device, new: u16, old: Option<u16>, at: usize, word: u16) -> Case {
    let mut image = vec![NOT_GIVEN; at + 1];
    image[at] = new;
    let mut reading = vec![0x1555; at];
    reading.extend(old);
    case(
        what,
        "plan.wanted",
        Some(d),
        vec![image.into(), reading.into(), at.into()],
        vec![word.into()],
    )
}

/// New bits under the mask of an entry, old ones elsewhere.
fn under_case(d: &Device, at: u64, new: u16, old: u16, word: u16) -> Case {
    case(
        &format!("{new:04X}h over {old:04X}h at entry {at}"),
        "device.under_mask",
        Some(d),
        vec![at.into(), new.into(), old.into()],
        vec![word.into()],
    )
}

/// Spare configuration bits: TINY has bit 8 of 8007h, bits 2 and 3 of 8008h.
fn spare_cases() -> Vec<Case> {
    let (one, two) = (16 + 7, 16 + 8);
    let update = |what, new, old, plan| {
        let rest = vec![gives(one, new).into(), tiny_board(&[(one, old)]).into()];
        plan_case(what, "plan.update", rest, plan)
    };
    let fresh = |what, new, plan| {
        let rest = vec![gives(two, new).into(), number(0x2A00)];
        plan_case(what, "plan.fresh", rest, Ok(plan))
    };
    let reset: &[(u8, u16)] = &[(0x16, 0)];
    let erased: &[(u8, u16)] = &[(0x00, 0x7FFE), (0x09, 0), (0x16, 0)];
    let mut written = erased.to_vec();
    written.push((0x00, 0x7FFE));
    written.extend([(0x06, 0); 8]);
    written.extend([(0x02, 0x0018), (0x08, 0)]);
    let above = Device {
        mask1: 0xC0FF,
        ..TINY
    };
    vec![
        update(
            "8007h wanted 3E7Fh: the spare bit is the reading's",
            0x3E7F,
            0x3FFF,
            Ok(&write_8007(0x7EFE)),
        ),
        update(
            "8007h differs in a spare bit alone: not written",
            0x3EFF,
            0x3FFF,
            Ok(reset),
        ),
        update(
            "a spare bit wanted 1 that reads 0 is not 24",
            0x3FFF,
            0x3EFF,
            Ok(reset),
        ),
        update(
            "a bit under the mask wanted 1 that reads 0 is 24",
            0x3FFF,
            0x3DFF,
            Err(24),
        ),
        update(
            "8007h wanted 3F7Fh: the spare bit stays 0",
            0x3F7F,
            0x3EFF,
            Ok(&write_8007(0x7CFE)),
        ),
        fresh("8008h wanted 0000h: its spare bits are ones", 0, &written),
        fresh("8008h wanted 3FF3h: blank already", 0x3FF3, erased),
        begin_case(0x8007, 0x0100),
        begin_case(0x8008, 0x000C),
        begin_case(0x8000, 0x0000),
        verify_case(
            "8007h differs in a spare bit alone",
            tiny_board(&[]),
            tiny_board(&[(one, 0x3EFF)]),
            (0, 0, 0),
        ),
        verify_case(
            "8007h differs under its mask",
            tiny_board(&[]),
            tiny_board(&[(one, 0x3DFF)]),
            (40, 0x8007, 1),
        ),
        verify_case(
            "of three words that differ one counts",
            tiny_board(&[]),
            tiny_board(&[(3, 0x3FFE), (one, 0x3EFF), (two, 0x3FF3)]),
            (40, 0x0003, 1),
        ),
        wanted_case("over a reading", &TINY, 0x3E7F, Some(0x3FFF), one, 0x3F7F),
        wanted_case("past a reading", &TINY, 0x0000, None, two, 0x000C),
        wanted_case("an ID", &TINY, 0x0000, Some(0x3FFF), 16 + 3, 0x0000),
        wanted_case(
            "bits 14 and 15 are the image's",
            &TINY,
            0x8000,
            Some(0x7FFF),
            two,
            0x800C,
        ),
        wanted_case(
            "a mask's high bits have no say",
            &above,
            0x4000,
            Some(0xFFFF),
            one,
            0x7F00,
        ),
        under_case(&TINY, 23, 0x0000, 0x3FFF, 0x0100),
        under_case(&TINY, 24, 0x0000, 0x3FFF, 0x000C),
        under_case(&TINY, 24, 0x3FFF, 0x0000, 0x3FF3),
        under_case(&TINY, 22, 0x0000, 0x3FFF, 0x0000),
        under_case(&TINY, 25, 0xFFFF, 0x0000, 0xFFFF),
        under_case(&TINY, 23 + (1 << 32), 0x0000, 0x3FFF, 0x0000),
        under_case(&above, 23, 0x4000, 0xFFFF, 0x7F00),
    ]
}

/// The copy of TINY's blank board as HEX text.
pub const BLANK_COPY: &str = ":10000000FF3FFF3FFF3FFF3FFF3FFF3FFF3FFF3F00\n\
    :10001000FF3FFF3FFF3FFF3FFF3FFF3FFF3FFF3FF0\n\
    :020000040001F9\n:08000000FF3FFF3FFF3FFF3F00\n:02000E00FF3FB2\n:02001000FF3FB0\n:00000001FF\n";

/// The files of a program, and what it prints.
pub fn bench_case(what: &str, name: &str, files: &[&[u8]], text: &str) -> Case {
    let lent: Vec<u8> = (0..text.len() + 7).map(|i| i as u8 ^ 0xA5).collect();
    let mut out = lent.clone();
    out[..text.len()].copy_from_slice(text.as_bytes());
    let mut fields: Vec<Field> = files.iter().map(|f| f.to_vec().into()).collect();
    fields.push(lent.into());
    case(
        what,
        name,
        None,
        fields,
        vec![text.len().into(), out.into()],
    )
}

/// The sheet of TINY's blank board.
pub fn tiny_sheet() -> String {
    let blank: String = (0..2)
        .map(|l| format!("{:04X}{}\n", 8 * l, "\t3FFF".repeat(8)))
        .collect();
    let head = "\t3FFF".repeat(4);
    let last = format!("8000{head}\t3FFF\t2000\t2A00\t3FFF\t3FFF\n");
    format!("2A00\n{blank}{last}")
}

fn bench_cases() -> Vec<Case> {
    let board = tiny_sheet();
    let board = board.as_bytes();
    // 0009h and two IDs differ.
    let other = format!(
        "2A00\n0000{}\n0008\t3FFF\t0001{}\n8000\t3FFF\t0002\t0003\t3FFF\t0000\t0000\t0000\t3FFF\t3FFF\n",
        "\t3FFF".repeat(8),
        "\t3FFF".repeat(6)
    );
    let hex = CONFIGURED.as_bytes();
    let wrong_sum = ":00000001FE".as_bytes();
    let protected =
        String::from_utf8_lossy(board).replace("2A00\t3FFF\t3FFF\n", "2A00\t3F7F\t3FFF\n");
    let protected = protected.as_bytes();
    let spare = String::from_utf8_lossy(board).replace("2A00\t3FFF\t3FFF\n", "2A00\t3EFF\t3FF3\n");
    let written = String::from_utf8_lossy(protected).to_string();
    let came_back = "3FFF\n".repeat(21) + "2000\n2A00\n3FFF\n3FFF\n";
    let past_configuration = format!("00\t7FFE\n{}09\t0000\n", "06\t0000\n".repeat(9));
    vec![
        bench_case(
            "the whole listing",
            "bench.update",
            &[TINY_LINE, board, hex],
            LISTING,
        ),
        bench_case(
            "the listing by a file with a spare bit of 0",
            "bench.update",
            &[TINY_LINE, board, &one_word(1, 0x000E, 0x3E7F)],
            LISTING,
        ),
        bench_case(
            "a spare bit alone",
            "bench.update",
            &[TINY_LINE, board, &one_word(1, 0x000E, 0x3EFF)],
            "16\t0000\n",
        ),
        bench_case(
            "no table",
            "bench.update",
            &[b"", board, hex],
            "refused\t15\t0\t0\n",
        ),
        bench_case(
            "no sheet",
            "bench.update",
            &[TINY_LINE, b"", hex],
            "refused\t14\t0\t0\n",
        ),
        bench_case(
            "no file",
            "bench.update",
            &[TINY_LINE, board, b""],
            "refused\t10\t0\t0\n",
        ),
        bench_case(
            "a wrong sum",
            "bench.update",
            &[TINY_LINE, board, wrong_sum],
            "refused\t3\t1\t1\n",
        ),
        bench_case(
            "a word given twice",
            "bench.update",
            &[TINY_LINE, board, THIRD_AGAIN.as_bytes()],
            "refused\t9\t2\t18\n",
        ),
        bench_case(
            "a line that stops short",
            "bench.fresh",
            &[TINY_LINE, board, b":00000001F\n"],
            "refused\t2\t1\t11\n",
        ),
        bench_case(
            "an update of a protected board",
            "bench.update",
            &[TINY_LINE, protected, hex],
            "refused\t23\t0\t0\n",
        ),
        bench_case(
            "an unknown ID",
            "bench.checksum",
            &[TINY_LINE, b"3023\n"],
            "refused\t16\t0\t0\n",
        ),
        bench_case(
            "line 1 alone",
            "bench.checksum",
            &[TINY_LINE, b"2A00\n"],
            "refused\t14\t0\t0\n",
        ),
        bench_case(
            "blank TINY's sum",
            "bench.checksum",
            &[TINY_LINE, board],
            "7EE2\n",
        ),
        bench_case(
            "the same",
            "bench.verify",
            &[TINY_LINE, board, board],
            "0\n",
        ),
        bench_case(
            "three differ",
            "bench.verify",
            &[TINY_LINE, board, other.as_bytes()],
            "40\t0009\t3\n",
        ),
        bench_case(
            "a spare bit differs",
            "bench.verify",
            &[TINY_LINE, spare.as_bytes(), board],
            "0\n",
        ),
        bench_case(
            "protected",
            "bench.verify",
            &[TINY_LINE, protected, protected],
            "41\n",
        ),
        bench_case(
            "the listing played",
            "bench.trial",
            &[TINY_LINE, board, LISTING.as_bytes()],
            &written,
        ),
        bench_case(
            "the listing with a spare bit of 0 played",
            "bench.trial",
            &[TINY_LINE, board, LISTING.replace("7EFE", "7CFE").as_bytes()],
            &written,
        ),
        bench_case(
            "an unknown code",
            "bench.trial",
            &[TINY_LINE, board, b"16\t0000\n18\t0000\n"],
            "refused\t30\t2\t1\n",
        ),
        bench_case(
            "a payload on Begin",
            "bench.trial",
            &[TINY_LINE, board, b"08\t0002\n"],
            "refused\t31\t1\t1\n",
        ),
        bench_case(
            "Bulk Erase at 8009h",
            "bench.trial",
            &[TINY_LINE, board, past_configuration.as_bytes()],
            "refused\t33\t11\t1\n",
        ),
        bench_case(
            "small digits",
            "bench.trial",
            &[TINY_LINE, board, b"16\t0000\n02\t7efe\n"],
            "refused\t34\t2\t1\n",
        ),
        bench_case(
            "a whole copy",
            "bench.dump",
            &[TINY_LINE, board],
            BLANK_COPY,
        ),
        bench_case(
            "a copy of a protected board",
            "bench.dump",
            &[TINY_LINE, protected],
            "refused\t23\t0\t0\n",
        ),
        bench_case(
            "the words that came back",
            "bench.gather",
            &[TINY_LINE, b"2A00\n", came_back.as_bytes()],
            &String::from_utf8_lossy(board),
        ),
        bench_case(
            "a word lost",
            "bench.gather",
            &[TINY_LINE, b"2A00\n", &came_back.as_bytes()[5..]],
            "refused\t21\t0\t0\n",
        ),
    ]
}

fn cases() -> Vec<Case> {
    let mut all = hex_cases();
    all.extend(column_cases());
    all.extend(checksum_cases());
    all.push(latch_case());
    all.extend(spare_cases());
    all.extend(erases::cases());
    all.extend(bench_cases());
    all.extend(large::cases());
    all.extend(masked::cases());
    all.extend(moved::cases());
    let table: Vec<u8> = b"PIC16F1459\t3023\t8192\t32\t3EFF\t3FF3\n".to_vec();
    let mut found = vec![number(0)];
    found.extend(device_fields(&F1459));
    found.extend([number(0), number(10)]);
    all.push(case(
        "the family's line",
        "device.find_device",
        None,
        vec![table.into(), number(0x3023)],
        found,
    ));
    all.push(case(
        "a doubled address",
        "words.double",
        None,
        vec![number(32_775)],
        vec![number(65_550)],
    ));
    let none = vec![Vec::<u16>::new().into()];
    all.push(case(
        "no reading",
        "judge.checksum",
        Some(&TINY),
        none,
        vec![number(21), number(0)],
    ));
    all
}

/// The worked cases.
pub fn check(peer: &Peer, tally: &mut Tally) {
    hold_all(&cases(), "worked", peer, tally);
}

/// Cases: our own answers against what must come, then the command's.
pub fn hold_all(cases: &[Case], kind: &str, peer: &Peer, tally: &mut Tally) {
    let mut hold = |c: &Case, who: &str, answer: Option<&[u8]>| {
        let expected = line(c.request.call().name, &c.expected);
        tally.check(answer == Some(expected.as_slice()), || {
            let parts = difference(&c.request, &expected, answer);
            format!("{kind}, {who}: {}: {parts}", c.what)
        });
    };
    for c in cases {
        let own = line(c.request.call().name, &c.request.own().fields);
        hold(c, "our own", Some(&own));
    }
    if matches!(peer, Peer::Own) {
        return;
    }
    let requests: Vec<Request> = cases.iter().map(|c| c.request.clone()).collect();
    let mut rest = cases.iter();
    let ended = peer.ask(&requests, |_, answer| {
        hold(
            rest.next().expect("a case for each answer"),
            "the command's",
            answer,
        );
    });
    tally.check(ended.is_ok(), || ended.unwrap_err());
}

/// The device whose sizes the round trips use: now and then the largest that the programs take, or a larger one.
fn some_device(i: usize, rng: &mut Rng) -> Device {
    match i % 50 {
        0 => F1459,
        1 => device_of_size(256, rng),
        2 => large_device(rng),
        _ => device_of_size(8, rng),
    }
}

/// What is written is read back; what is planned does what is wanted; a run is its single steps.
pub fn round_trips(rng: &mut Rng, tally: &mut Tally) {
    for i in 0..200 {
        let d = some_device(i, rng);
        let board = reading_for(&d, false, rng);
        let image = image_for(&d, &board, rng);
        tally.check(is_image(d.p(), &image), || {
            "an image that is none".to_string()
        });
        texts_trip(&d, &board, &image, rng, tally);
        update_trip(&d, &board, &image, tally);
        fresh_trip(&d, &image, rng, tally);
        steps_trip(&d, &board, &image, rng, tally);
        rehearsal_trip(&d, &board, &image, rng, tally);
        forms_trip(&d, rng, tally);
    }
}

/// The device as a line of a table.
fn table_line(name: &[u8], d: &Device) -> Vec<u8> {
    let rest = format!(
        "\t{:04X}\t{}\t{}\t{:04X}\t{:04X}\t{:04X}\n",
        d.id, d.words, d.row, d.mask1, d.mask2, d.idmask
    );
    [name, rest.as_bytes()].concat()
}

/// Old to new to old gives the same bytes, and new to old to new too; both forms have the same words and the same ID.
fn forms_trip(d: &Device, rng: &mut Rng, tally: &mut Tally) {
    let board = reading_for(d, rng.chance(40), rng);
    let (called, id) = (name(rng), fitting(d, rng));
    let table = table_line(&called, d);
    let old = with_id(&sheet::text(d, &board), id);
    let new = with_id(&sheet::new_text(d, &called, &board), id);
    let moved = |form, text: &[u8]| moved_to(form, &table, text).unwrap_or_default();
    let there = moved(Form::New, &old);
    let back = moved(Form::Old, &new);
    tally.check(there == new && back == old, || {
        format!("a sheet moved: {d:?}")
    });
    let again = moved(Form::Old, &there) == old && moved(Form::New, &back) == new;
    tally.check(again, || format!("a sheet moved there and back: {d:?}"));
    let still = moved(Form::Old, &old) == old && moved(Form::New, &new) == new;
    tally.check(still, || format!("a sheet moved to its own form: {d:?}"));
    tally.check(new.len() == old.len() + called.len() + 6, || {
        format!("the lengths of both forms: {d:?}")
    });
    for text in [&old, &new] {
        let read = sheet::judged(d, &called, text);
        tally.check(read.as_ref() == Ok(&board), || {
            format!("a sheet of either form read: {d:?}")
        });
        let printed = [
            bench::newsheet(&table, text),
            bench::oldsheet(&table, text),
            bench::checksum(&table, text),
        ];
        let sum = format!("{:04X}\n", sheet::sum_of(d, &board)).into_bytes();
        let good = if d.words > OPENED_MAX {
            printed.iter().all(|p| p.number == 17)
        } else {
            printed.map(|p| p.text) == [new.clone(), old.clone(), sum]
        };
        tally.check(good, || {
            format!("a sheet of either form in the programs: {d:?}")
        });
    }
}

fn texts_trip(d: &Device, board: &[u16], image: &[u16], rng: &mut Rng, tally: &mut Tally) {
    let read = hex::image(d, &hex::text(d, image), hex::TEXT_MAX);
    tally.check(read.as_deref() == Ok(image), || {
        format!("HEX written and read: {d:?}")
    });
    let whole = bench::whole_image(d, board);
    let most = if d.words > OPENED_MAX {
        hex::TEXT_MAX
    } else {
        hex::PROGRAM_TEXT_MAX
    };
    let read = hex::image(d, &hex::text(d, &whole), most);
    tally.check(read == Ok(whole), || format!("a dump read: {d:?}"));
    let word = fitting(d, rng);
    for id in [d.id, word] {
        let read = sheet::reading(d, &with_id(&sheet::text(d, board), id));
        tally.check(read.as_deref() == Some(board), || {
            format!("a sheet written and read under {id:04X}: {d:?}")
        });
    }
    let size = sheet::text(d, board).len();
    tally.check(size == 5 + 45 * d.p() / 8 + 50, || {
        format!("a sheet's length: {size}")
    });
    let text = table_line(b"a b", d);
    let found = device::find(&text, word).map(|l| l.device);
    tally.check(found == Ok(*d), || {
        format!("a table's line: {:?}", cut(&text, 0))
    });
    let same = judge::verify(d, board, board);
    tally.check(same == (0, 0, 0), || {
        format!("a reading verified against itself: {same:?}")
    });
}

/// The cells after a whole run that must be sound, with the words read.
fn played(d: &Device, cells: &[u16], stream: &[u8], tally: &mut Tally) -> (Vec<u16>, Vec<u16>) {
    let mut cells = cells.to_vec();
    let mut words = vec![0; stream.len() / 3];
    let run = model::run(d, &mut cells, stream, u64::MAX, &mut words);
    let whole = run.number == 0 && run.steps as usize == stream.len() / 3;
    tally.check(whole, || format!("a planned stream is refused: {run:?}"));
    words.truncate(run.read);
    (cells, words)
}

fn update_trip(d: &Device, board: &[u16], image: &[u16], tally: &mut Tally) {
    if let Some(n) = streams::update_refusal(d, image, board) {
        tally.check(false, || format!("a sound update is refused with {n}"));
        return;
    }
    let wanted = streams::wanted_over(d, image, board);
    let stream = streams::update_stream(d, &wanted, board);
    tally.check(stream.len() / 3 <= streams::steps_bound(d), || {
        "too many steps".to_string()
    });
    let mut cells = board.to_vec();
    cells.extend([0x1234, 0x0567]);
    let (after, _) = played(d, &cells, &stream, tally);
    let mut end = wanted.clone();
    end.extend([0x1234, 0x0567]);
    tally.check(after == end, || {
        format!("an update does not end in what is wanted: {d:?}")
    });
    no_erase_too_many(d, &cells, &end, &stream, tally);
    let unprotected = !d.protected(&after);
    // A good board verifies against what the file says, all 14 bits of it.
    let said: Vec<u16> = (0..d.entries())
        .map(|i| {
            if image[i] == NOT_GIVEN {
                board[i]
            } else {
                image[i]
            }
        })
        .collect();
    let verdict = judge::verify(d, &said, &after[..d.entries()]);
    let good = (if unprotected { 0 } else { 41 }, 0, 0);
    tally.check(verdict == good, || {
        format!("an updated board fails verify: {d:?}, {verdict:?}")
    });
    let back = streams::read_back_stream(d);
    tally.check(back.len() / 3 == 2 * d.p() + 18, || {
        "read-back's steps".to_string()
    });
    let (_, words) = played(d, &after, &back, tally);
    let same = words.len() == d.entries()
        && words[d.p()..] == wanted[d.p()..]
        && (words[..d.p()] == wanted[..d.p()])
            == (unprotected || wanted[..d.p()].iter().all(|&w| w == 0));
    tally.check(same, || format!("a read-back is not the board: {d:?}"));
}

/// The erases of an update: one for each row, and one for the user IDs, that no write alone takes to what is wanted; and with any one
/// of them left out the stream ends elsewhere.
fn no_erase_too_many(d: &Device, cells: &[u16], end: &[u16], stream: &[u8], tally: &mut Tally) {
    let p = d.p();
    // A write leaves of a word what it has in common with the loaded one.
    let short = |of: &Range<usize>| of.clone().any(|i| cells[i] & end[i] != end[i]);
    let rows = (0..p).step_by(d.r()).map(|first| first..first + d.r());
    let needed = rows.chain(once(p..p + 4)).filter(short).count();
    let erases: Vec<usize> = (0..stream.len() / 3)
        .filter(|k| stream[3 * k] == model::ROW_ERASE)
        .collect();
    tally.check(erases.len() == needed, || {
        format!("{} erases, and {needed} are needed: {d:?}", erases.len())
    });
    // Of many some will do, the first and the last among them.
    let every = erases.len() / 6 + 1;
    let last = erases.last().copied();
    for k in erases.iter().copied().step_by(every).chain(last) {
        let mut fewer = stream.to_vec();
        fewer.drain(3 * k..3 * k + 3);
        let (after, _) = played(d, cells, &fewer, tally);
        tally.check(after != end, || {
            format!("an erase that can be left out: {d:?}")
        });
    }
}

fn fresh_trip(d: &Device, image: &[u16], rng: &mut Rng, tally: &mut Tally) {
    let mut cells = reading_for(d, rng.chance(50), rng);
    cells.extend([rng.word(), rng.word()]);
    let wanted = streams::wanted_blank(d, image);
    let stream = streams::fresh_stream(d, &wanted);
    tally.check(stream.len() / 3 <= streams::steps_bound(d), || {
        "too many steps".to_string()
    });
    let (after, _) = played(d, &cells, &stream, tally);
    let p = d.p();
    let mut end = wanted;
    end[p + 4..p + 7].copy_from_slice(&cells[p + 4..p + 7]);
    end.extend_from_slice(&cells[p + 9..]);
    tally.check(after == end, || {
        format!("a fresh stream does not end in what is wanted: {d:?}")
    });
}

/// A printed stream, played, leaves the sheet that was wanted, line 1 as it was; a board that is too large has none.
fn rehearsal_trip(d: &Device, board: &[u16], image: &[u16], rng: &mut Rng, tally: &mut Tally) {
    let table = table_line(b"a b", d);
    let old = with_id(&sheet::text(d, board), fitting(d, rng));
    // What is printed is of the old form, whatever the board's sheet is.
    let board = if rng.chance(50) {
        moved_to(Form::New, &table, &old).unwrap_or_default()
    } else {
        old.clone()
    };
    let file = hex::text(d, image);
    if d.words > OPENED_MAX {
        let number = bench::update(&table, &board, &file).number;
        tally.check(number == 17, || format!("no 17 but {number}: {d:?}"));
        return;
    }
    let stream = bench::update(&table, &board, &file).text;
    let left = bench::trial(&table, &board, &stream).text;
    let wanted = bench::wanted(&table, &board, &file);
    let same = left == wanted.text && left[..5] == old[..5];
    tally.check(wanted.number == 0 && same, || {
        format!("an update, rehearsed: {d:?}")
    });
    let stream = bench::fresh(&table, &board, &file).text;
    let left = bench::trial(&table, &board, &stream).text;
    let wanted = bench::wanted_fresh(&table, &board, &file);
    let same = left == wanted.text && left[..5] == old[..5];
    tally.check(wanted.number == 0 && same, || {
        format!("a fresh programming, rehearsed: {d:?}")
    });
}

/// A run with an allowance is entry and that many single steps.
fn steps_trip(d: &Device, board: &[u16], image: &[u16], rng: &mut Rng, tally: &mut Tally) {
    let stream = streams::update_stream(d, &streams::wanted_over(d, image, board), board);
    let allowance = rng.below(stream.len() / 3 + 1);
    let mut cells = board.to_vec();
    cells.extend([WORD_MAX; 2]);
    let mut single = cells.clone();
    let run = model::run(d, &mut cells, &stream, allowance as u64, &mut []);
    let mut registers = model::entry();
    let mut refused = 0;
    for s in stream.chunks(3).take(allowance) {
        let payload = u16::from_le_bytes([s[1], s[2]]);
        refused += model::step(d, &mut registers, s[0], payload, &mut [], &mut single);
    }
    let good =
        run == Run {
            number: 0,
            steps: allowance as u64,
            read: 0,
        } && refused == 0
            && cells == single;
    tally.check(good, || format!("a run is not its steps: {d:?}"));
}
