//! The largest requests of every kind. A command may keep the fields of a line on its stack, beside what its calls need there:
//! what is small tells nothing of that.

use crate::ask::Peer;
use crate::bench::{answer_text, stream_text, whole_image, TRIAL_LINES};
use crate::board::OPENED_MAX;
use crate::calls::{device_fields, parse, Request, CALLS, D};
use crate::device::{Device, LINES_MAX, PROGRAM_MAX};
use crate::field::{line, Field, Kind, BYTES_MAX, HEX_BYTES_MAX, LINE_MAX, WORDS_MAX};
use crate::hex::{self, PROGRAM_TEXT_MAX, TEXT_MAX};
use crate::model::{INCREMENT, LATCHES, READ, RESET};
use crate::sheet;
use crate::streams::{read_back_stream, steps_bound, update_stream, wanted_over};
use crate::tally::Tally;
use crate::words::{NOT_GIVEN, WORD_MAX};

/// As many as are asked at once.
const TOGETHER: usize = 24;

/// The largest device of all, with the most rows.
const LARGEST: Device = Device {
    id: 0x2A01,
    words: PROGRAM_MAX,
    row: 8,
    mask1: 0x3EFF,
    mask2: 0x3FF3,
    idmask: WORD_MAX,
};
/// The largest that the programs take.
const OPENED: Device = Device {
    words: OPENED_MAX,
    ..LARGEST
};

/// A name as long as can be.
const NAME: &[u8] = b"0123456789ABCDEF";

fn bytes(count: usize) -> Vec<u8> {
    (0..count).map(|i| (i % 251) as u8).collect()
}

fn entries(count: usize) -> Vec<u16> {
    (0..count).map(|i| (i % 65_521) as u16).collect()
}

/// Every list as long as its kind allows, from the first on or from the last, as far as the line goes.
fn full(call: usize, backwards: bool) -> Request {
    let c = &CALLS[call];
    let mut fields: Vec<Field> = c.kinds.iter().map(|_| Field::Num(0)).collect();
    if c.takes_record() {
        fields[..D].clone_from_slice(&device_fields(&LARGEST));
    }
    let lists = (0..c.kinds.len()).filter(|&i| !matches!(c.kinds[i], Kind::Num(_)));
    let mut lists: Vec<usize> = lists.collect();
    if backwards {
        lists.reverse();
    }
    for &i in &lists {
        // The LF is to have room too; but a character stands here now, which falls away.
        let left = LINE_MAX - line(c.name, &fields).len();
        let most = c.kinds[i].most();
        fields[i] = match c.kinds[i] {
            Kind::Bytes | Kind::HexBytes => bytes(most.min(left / 2)).into(),
            _ => entries(most.min(left / 4)).into(),
        };
    }
    Request { call, fields }
}

/// For each call that has a list; twice where its lists do not all go into a line.
fn all_full() -> Vec<Request> {
    let mut all = Vec::new();
    for (call, c) in CALLS.iter().enumerate() {
        let lists = c.kinds.iter().filter(|k| !matches!(k, Kind::Num(_)));
        if lists.count() > 0 {
            let (first, last) = (full(call, false), full(call, true));
            if first.fields != last.fields {
                all.push(last);
            }
            all.push(first);
        }
    }
    all
}

/// A board of zeros, its ID and configuration words apart, and an image that gives other words everywhere: each row and the user IDs
/// are erased, so that no update is longer.
fn all_different(d: &Device) -> (Vec<u16>, Vec<u16>) {
    let p = d.p();
    let mut board = vec![0; p + 4];
    board.extend([WORD_MAX, WORD_MAX, d.id, WORD_MAX, WORD_MAX]);
    let mut other: Vec<u16> = (0..p + 7).map(|i| (1 + i % 0x3FFE) as u16).collect();
    other.extend([1, 1]);
    (board, whole_image(d, &other))
}

/// A text with LFs behind it, up to a length.
fn padded(mut text: Vec<u8>, length: usize) -> Vec<u8> {
    text.resize(length, b'\n');
    text
}

fn asked(name: &str, d: &Device, lists: Vec<Field>) -> Request {
    Request::new(name, [device_fields(d), lists].concat())
}

/// The libraries' calls about the largest device, with lists that are sound and buffers that are long.
fn of_libraries() -> Vec<Request> {
    let d = &LARGEST;
    let (board, image) = all_different(d);
    let cells = [board.clone(), vec![0, 1]].concat();
    // Every second word, which takes the most records.
    let sparse: Vec<u16> = (0..d.entries())
        .map(|i| if i % 2 == 0 { image[i] } else { NOT_GIVEN })
        .collect();
    let wanted = wanted_over(d, &image, &board);
    let mut longest = update_stream(d, &wanted, &board);
    while longest.len() + 3 <= BYTES_MAX {
        longest.extend([INCREMENT, 0, 0]);
    }
    let (out, room) = (bytes(BYTES_MAX), entries(WORDS_MAX));
    let table = longest_table(d);
    let moved = |name: &str, text: Vec<u8>| {
        let fields = vec![table.clone().into(), text.into(), out.clone().into()];
        Request::new(name, fields)
    };
    let of_board = |name| asked(name, d, vec![image.clone().into(), board.clone().into()]);
    // The last one.
    let of_row = |name| {
        let k = d.words / d.row - 1;
        let fields = vec![image.clone().into(), board.clone().into(), k.into()];
        asked(name, d, fields)
    };
    let step = |name, code: u8| {
        let latches: Vec<u16> = vec![0x1234; LATCHES];
        let mut fields: Vec<Field> = vec![0x7FFFu16.into(), latches.into(), code.into()];
        fields.extend([0u16.into(), room.clone().into(), cells.clone().into()]);
        asked(name, d, fields)
    };
    vec![
        asked("judge.checksum", d, vec![board.clone().into()]),
        asked(
            "judge.verify",
            d,
            vec![wanted.clone().into(), board.clone().into()],
        ),
        asked(
            "sheet.read_sheet",
            d,
            vec![
                NAME.to_vec().into(),
                sheet::text(d, &wanted).into(),
                entries(d.entries()).into(),
            ],
        ),
        asked(
            "sheet.read_sheet",
            d,
            vec![
                NAME.to_vec().into(),
                sheet::new_text(d, NAME, &wanted).into(),
                entries(d.entries()).into(),
            ],
        ),
        asked(
            "sheet.write_sheet",
            d,
            vec![wanted.clone().into(), out.clone().into()],
        ),
        asked(
            "sheet.write_new_sheet",
            d,
            vec![
                NAME.to_vec().into(),
                wanted.clone().into(),
                out.clone().into(),
            ],
        ),
        moved("sheet.to_new", sheet::text(d, &wanted)),
        moved("sheet.to_new", sheet::new_text(d, NAME, &wanted)),
        moved("sheet.to_old", sheet::text(d, &wanted)),
        moved("sheet.to_old", sheet::new_text(d, NAME, &wanted)),
        asked(
            "ihex.read_hex",
            d,
            vec![
                padded(hex::text(d, &image), TEXT_MAX).into(),
                entries(d.entries()).into(),
            ],
        ),
        asked(
            "ihex.write_hex",
            d,
            vec![image.clone().into(), bytes(HEX_BYTES_MAX).into()],
        ),
        asked(
            "ihex.write_hex",
            d,
            vec![sparse.into(), bytes(HEX_BYTES_MAX).into()],
        ),
        step("target.step", READ),
        step("lent.step_on", INCREMENT),
        step("lent.step_method", READ),
        asked(
            "target.run",
            d,
            vec![
                cells.clone().into(),
                longest.into(),
                u64::MAX.into(),
                room.clone().into(),
            ],
        ),
        asked(
            "target.run",
            d,
            vec![
                cells.into(),
                read_back_stream(d).into(),
                u64::MAX.into(),
                room.into(),
            ],
        ),
        asked(
            "plan.update",
            d,
            vec![
                image.clone().into(),
                board.clone().into(),
                out.clone().into(),
            ],
        ),
        asked(
            "plan.fresh",
            d,
            vec![image.clone().into(), d.id.into(), out.clone().into()],
        ),
        asked("plan.read_back", d, vec![out.into()]),
        asked(
            "plan.wanted",
            d,
            vec![
                image.clone().into(),
                board.clone().into(),
                (d.entries() - 1).into(),
            ],
        ),
        of_row("plan.row_differs"),
        of_row("plan.row_rises"),
        of_board("plan.id_differs"),
        of_board("plan.id_rises"),
        of_board("plan.update_refusal"),
        asked(
            "plan.is_written",
            d,
            vec![
                image.clone().into(),
                board.clone().into(),
                8u64.into(),
                1u16.into(),
            ],
        ),
        asked("plan.fresh_refusal", d, vec![image.into(), d.id.into()]),
    ]
}

/// A table of as many lines as there can be, each as long as it can be, the last one the device's.
fn longest_table(d: &Device) -> Vec<u8> {
    let name = String::from_utf8_lossy(NAME);
    let line = |id: u16, words: u16, row: u16| {
        format!("{name}\t{id:04X}\t{words}\t{row}\t3EFF\t3FF3\t3FFF\n")
    };
    let others = 1..LINES_MAX as u16;
    let mut text: String = others.map(|id| line(id, PROGRAM_MAX, 32)).collect();
    text += &line(d.id, d.words, d.row);
    text.into_bytes()
}

/// The programs with the longest files that they take, and a buffer that is longer than what they print.
fn of_programs() -> Vec<Request> {
    let d = &OPENED;
    let (board, image) = all_different(d);
    let wanted = wanted_over(d, &image, &board);
    // The new form, which is longer.
    let (before, after) = (
        sheet::new_text(d, NAME, &board),
        sheet::new_text(d, NAME, &wanted),
    );
    let file = padded(hex::text(d, &image), PROGRAM_TEXT_MAX);
    let mut steps = vec![RESET, 0, 0];
    steps.extend([READ, 0, 0].repeat(TRIAL_LINES - 1));
    let stream = stream_text(&steps);
    let words = answer_text(&board);
    let table = longest_table(d);
    let program = |name: &str, third: Option<&Vec<u8>>| {
        let mut fields: Vec<Field> = vec![table.clone().into(), before.clone().into()];
        fields.extend(third.map(|file| Field::from(file.clone())));
        fields.push(bytes(BYTES_MAX).into());
        Request::new(name, fields)
    };
    vec![
        Request::new(
            "device.find_device",
            vec![table.clone().into(), d.id.into()],
        ),
        Request::new(
            "board.open_board",
            vec![
                table.clone().into(),
                before.clone().into(),
                0x5A5Au16.into(),
            ],
        ),
        program("bench.checksum", None),
        program("bench.newsheet", None),
        program("bench.oldsheet", None),
        program("bench.verify", Some(&after)),
        program("bench.readback", None),
        program("bench.update", Some(&file)),
        program("bench.fresh", Some(&file)),
        program("bench.wanted", Some(&file)),
        program("bench.wanted_fresh", Some(&file)),
        program("bench.trial", Some(&stream)),
        program("bench.gather", Some(&words)),
        program("bench.dump", None),
    ]
}

/// All of them are well formed, and answered as we do; those that are to be sound are not refused.
pub fn check(peer: &Peer, tally: &mut Tally) {
    for d in [&LARGEST, &OPENED] {
        let (board, image) = all_different(d);
        let steps = update_stream(d, &wanted_over(d, &image, &board), &board).len() / 3;
        tally.check(steps == steps_bound(d), || {
            format!("the longest update has {steps} steps: {d:?}")
        });
    }
    let sound = [of_libraries(), of_programs()].concat();
    for r in &sound {
        let number = r.own().class;
        let answered = r.call().classes == [0, 1];
        tally.check(answered || matches!(number, 0 | 40), || {
            format!("{}: the largest is refused with {number}", r.call().name)
        });
    }
    let requests = [all_full(), sound].concat();
    for r in &requests {
        let line = r.line();
        let formed = line.len() < LINE_MAX && parse(&line).is_ok();
        tally.check(formed, || {
            format!("{}: {} bytes are no request", r.call().name, line.len())
        });
    }
    for some in requests.chunks(TOGETHER) {
        let ended = peer.ask(some, |r, answer| tally.compare(r, answer));
        tally.check(ended.is_ok(), || ended.unwrap_err());
    }
}
