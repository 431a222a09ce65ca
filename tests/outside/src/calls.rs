//! Every call that can be asked: its name, the kinds of its fields, the numbers it can give, and our own answer.

use crate::device::{self, Device, Listed};
use crate::field::Kind::{self, Bytes, HexBytes, Latches, Num, Words};
use crate::field::{self, Field};
use crate::model::{self, Registers};
use crate::sheet::Form;
use crate::streams::Unjudged;
use crate::words as w;
use crate::{bench, board, hex, judge, print, sheet, streams};

/// The call that reads HEX text.
pub const HEX_READER: &str = "ihex.read_hex";
/// The call that plans an update.
pub const PLANNER: &str = "plan.update";

/// An answer's fields, and the number that it is counted under.
pub struct Reply {
    pub class: u32,
    pub fields: Vec<Field>,
}

pub struct Call {
    pub name: &'static str,
    pub kinds: &'static [Kind],
    /// The classes that the call can answer: refusal numbers; of a call without these, 0 and 1 as `CLASSES` says.
    pub classes: &'static [u32],
    pub own: fn(&[Field]) -> Reply,
}

impl Call {
    /// Whether its fields begin with a device record.
    pub fn takes_record(&self) -> bool {
        self.kinds.starts_with(&[Num(16); D])
    }

    /// Whether it moves a sheet between its forms, by a table.
    pub fn moves(&self) -> bool {
        ["sheet.to_new", "sheet.to_old"].contains(&self.name)
    }

    /// Whether it answers a number first, 15 before all others, for the table that is its first field.
    pub fn judges_table(&self) -> bool {
        let number_first = ["device.judge_table", "device.find_device"];
        let opens = self.name.starts_with("board.") && !self.takes_record();
        number_first.contains(&self.name) || opens || self.moves()
    }

    /// Whether it is about a record: one that it takes, or that a move finds.
    pub fn about_record(&self) -> bool {
        self.takes_record() || self.moves()
    }

    /// Whether it is about a device: a record, or program words and a list.
    pub fn about_device(&self) -> bool {
        self.about_record() || self.kinds == [Num(16), Words]
    }
}

/// What 0 and 1 mean for calls that give no refusal numbers.
pub const CLASSES: &str =
    "words.*, print.*, next_line, line_from, first_number, third_line: 0 found or done, 1 nothing there (no room); is_words, is_name, is_image, is_reading, is_protected, programmable, fits: the answer; \
     row_differs, row_rises, id_differs, id_rises, is_written: the answer; \
     under_mask: 0 a configuration word, 1 another entry; name_of: 0 the whole name, 1 less; plan.wanted: 0 given by the image, 1 not";

#[derive(Clone, Debug)]
pub struct Request {
    pub call: usize,
    pub fields: Vec<Field>,
}

impl Request {
    /// A request by the call's name, which must be in the table.
    pub fn new(name: &str, fields: Vec<Field>) -> Request {
        let call = CALLS
            .iter()
            .position(|c| c.name == name)
            .expect("a call of the table");
        Request { call, fields }
    }

    pub fn call(&self) -> &'static Call {
        &CALLS[self.call]
    }

    pub fn line(&self) -> Vec<u8> {
        field::line(self.call().name, &self.fields)
    }

    pub fn own(&self) -> Reply {
        (self.call().own)(&self.fields)
    }

    /// The table that it is about, if its call answers a number for it.
    pub fn table(&self) -> Option<&[u8]> {
        let judged = self.call().judges_table();
        judged.then(|| field::bytes(&self.fields, 0))
    }

    /// The image and the reading of a request that has them after its record.
    pub fn lists(&self) -> (&[u16], &[u16]) {
        (
            field::words(&self.fields, D),
            field::words(&self.fields, D + 1),
        )
    }

    /// The record that it is about, if its call takes one or finds one to move by.
    pub fn device(&self) -> Option<Device> {
        let f = &self.fields;
        if self.call().moves() {
            return Some(board::answered(field::bytes(f, 0), field::bytes(f, 1)).device);
        }
        self.call().takes_record().then(|| device_at(f))
    }
}

/// A request line without its LF, or why it is malformed.
pub fn parse(line: &[u8]) -> Result<Request, &'static str> {
    let mut parts = line.split(|&c| c == b' ');
    let name = parts.next().unwrap_or_default();
    let call = CALLS
        .iter()
        .position(|c| c.name.as_bytes() == name)
        .ok_or("no call has that name")?;
    let kinds = CALLS[call].kinds;
    let texts: Vec<&[u8]> = parts.collect();
    if texts.len() < kinds.len() {
        return Err("a field is missing");
    }
    if texts.len() > kinds.len() {
        return Err("a field too many");
    }
    let fields: Option<Vec<Field>> = texts
        .iter()
        .zip(kinds)
        .map(|(t, &k)| field::parse(t, k))
        .collect();
    Ok(Request {
        call,
        fields: fields.ok_or("a field is not of its kind")?,
    })
}

/// How many fields a record is, and so the place of the first after it.
pub const D: usize = 6;

fn device_at(f: &[Field]) -> Device {
    let n = |i| field::num(f, i) as u16;
    Device {
        id: n(0),
        words: n(1),
        row: n(2),
        mask1: n(3),
        mask2: n(4),
        idmask: n(5),
    }
}

pub fn device_fields(d: &Device) -> Vec<Field> {
    [d.id, d.words, d.row, d.mask1, d.mask2, d.idmask]
        .map(Field::from)
        .to_vec()
}

fn n16(f: &[Field], i: usize) -> u16 {
    field::num(f, i) as u16
}

fn n8(f: &[Field], i: usize) -> u8 {
    field::num(f, i) as u8
}

fn reply(class: u32, fields: Vec<Field>) -> Reply {
    Reply { class, fields }
}

/// An answer that is one number, or the convention for nothing.
fn or_none(found: Option<u64>, none: u64) -> Reply {
    reply(
        u32::from(found.is_none()),
        vec![found.unwrap_or(none).into()],
    )
}

/// A place that may be nowhere.
fn place(found: Option<u16>) -> Reply {
    reply(
        u32::from(found.is_none()),
        vec![u64::from(found.is_some()).into(), found.unwrap_or(0).into()],
    )
}

fn truth(b: bool) -> Reply {
    reply(u32::from(b), vec![u64::from(b).into()])
}

/// The answer that is a refusal's number alone, or 0.
fn refusal(number: Option<u32>) -> Reply {
    let number = number.unwrap_or(0);
    reply(number, vec![number.into()])
}

/// Record, image and reading, the first fields of a request.
fn unjudged(f: &[Field]) -> Unjudged<'_> {
    Unjudged {
        d: device_at(f),
        image: field::words(f, D),
        reading: field::words(f, D + 1),
    }
}

fn spelled(f: &[Field], count: usize, value: fn(u8) -> Option<u8>, none: u32) -> Reply {
    let found = w::spelled(field::bytes(f, 0), field::num(f, 1), count, value);
    or_none(found.map(u64::from), none.into())
}

fn put(f: &[Field], text: &[u8]) -> Reply {
    let mut out = field::bytes(f, 0).to_vec();
    let at = field::num(f, 1);
    let short = u128::from(at) + text.len() as u128 > out.len() as u128;
    w::put(&mut out, at, text);
    reply(u32::from(short), vec![out.into()])
}

/// Number, a value, and a lent buffer of bytes.
fn written(number: u32, value: usize, out: Vec<u8>) -> Reply {
    reply(number, vec![number.into(), value.into(), out.into()])
}

/// A text in the lent buffer, as far as there is room; its whole length.
fn laid(text: &[u8], out: &[u8]) -> Vec<Field> {
    let mut out = out.to_vec();
    let room = text.len().min(out.len());
    out[..room].copy_from_slice(&text[..room]);
    vec![text.len().into(), out.into()]
}

/// What a program prints, counted under its number.
fn shown(printed: &bench::Printed, out: &[u8]) -> Reply {
    reply(printed.number, laid(&printed.text, out))
}

/// A text by itself, counted by whether it has room.
fn put_text(text: &[u8], out: &[u8]) -> Reply {
    reply(u32::from(text.len() > out.len()), laid(text, out))
}

/// Number, record, and where the name stands.
fn listed(number: u32, line: &Listed) -> Reply {
    let mut fields = vec![number.into()];
    fields.extend(device_fields(&line.device));
    fields.extend([line.name.start.into(), line.name.len().into()]);
    reply(number, fields)
}

fn find_record(f: &[Field]) -> Reply {
    let (table, sheet) = (field::bytes(f, 0), field::bytes(f, 1));
    let number = board::line(table, sheet).err().unwrap_or(0);
    listed(number, &board::answered(table, sheet))
}

fn open_record(f: &[Field]) -> Reply {
    let (table, sheet) = (field::bytes(f, 0), field::bytes(f, 1));
    let number = board::record(table, sheet).err().map_or(0, |r| r.number);
    listed(number, &board::answered(table, sheet))
}

fn open_board(f: &[Field]) -> Reply {
    let (table, sheet) = (field::bytes(f, 0), field::bytes(f, 1));
    let mut buffer = vec![n16(f, 2); board::READING_MAX];
    let number = board::open(table, sheet, &mut buffer);
    let mut answer = listed(number, &board::answered(table, sheet));
    answer.fields.push(buffer.into());
    answer
}

fn find_device(f: &[Field]) -> Reply {
    match device::find(field::bytes(f, 0), n16(f, 1)) {
        Ok(line) => listed(0, &line),
        Err(number) => listed(number, &Listed::NONE),
    }
}

/// A sheet moved to a form, into a lent buffer.
fn moved(f: &[Field], form: Form) -> Reply {
    let mut out = field::bytes(f, 2).to_vec();
    let (number, length) = board::move_into(form, field::bytes(f, 0), field::bytes(f, 1), &mut out);
    written(number, length, out)
}

fn step(f: &[Field]) -> Reply {
    let mut latches = [0; model::LATCHES];
    latches.copy_from_slice(field::words(f, D + 1));
    let mut registers = Registers {
        counter: n16(f, D),
        latches,
    };
    let mut words = field::words(f, D + 4).to_vec();
    let mut cells = field::words(f, D + 5).to_vec();
    let d = device_at(f);
    let number = model::step(
        &d,
        &mut registers,
        n8(f, D + 2),
        n16(f, D + 3),
        &mut words,
        &mut cells,
    );
    let latches = registers.latches.to_vec();
    reply(
        number,
        vec![
            number.into(),
            registers.counter.into(),
            latches.into(),
            words.into(),
            cells.into(),
        ],
    )
}

fn run(f: &[Field]) -> Reply {
    let mut cells = field::words(f, D).to_vec();
    let mut words = field::words(f, D + 3).to_vec();
    let stream = field::bytes(f, D + 1);
    let run = model::run(
        &device_at(f),
        &mut cells,
        stream,
        field::num(f, D + 2),
        &mut words,
    );
    reply(
        run.number,
        vec![
            run.number.into(),
            run.steps.into(),
            run.read.into(),
            cells.into(),
            words.into(),
        ],
    )
}

/// The line that begins at a place, after the line of that number. At the text's end or past it there is none: an empty
/// one stands at the end, and place and number stay.
fn next_line(f: &[Field]) -> Reply {
    let (text, at, line) = (field::bytes(f, 0), field::num(f, 1), field::num(f, 2));
    let found = usize::try_from(at).ok().and_then(|i| hex::line_at(text, i));
    match found {
        Some((stop, next)) => {
            let number = (line + 1).min(u64::from(u32::MAX));
            reply(0, vec![at.into(), stop.into(), next.into(), number.into()])
        }
        None => {
            let end = text.len();
            reply(1, vec![end.into(), end.into(), at.into(), line.into()])
        }
    }
}

/// The number of the first line: 1, or 0 where the text has none.
fn first_number(f: &[Field]) -> Reply {
    let number: u32 = (!field::bytes(f, 0).is_empty()).into();
    reply(1 - number, vec![number.into()])
}

/// The third line, and past the last line an empty one at the text's end, with the number of the last and the place past it. Here the
/// text is split at its LFs, and no line is taken after another.
fn third_line(f: &[Field]) -> Reply {
    let text = field::bytes(f, 0);
    let mut pieces: Vec<&[u8]> = text.split(|&c| c == b'\n').collect();
    // Nothing after the last LF is no line.
    if pieces.last().is_some_and(|piece| piece.is_empty()) {
        pieces.pop();
    }
    let past = |lines: usize| -> usize { pieces[..lines].iter().map(|p| p.len() + 1).sum() };
    let count = pieces.len();
    let (start, stop, at) = if let Some(third) = pieces.get(2) {
        let length = third.strip_suffix(b"\r").unwrap_or(third).len();
        (past(2), past(2) + length, past(3))
    } else {
        (text.len(), text.len(), past(count))
    };
    reply(
        u32::from(count < 3),
        vec![start.into(), stop.into(), at.into(), count.min(3).into()],
    )
}

/// What a step is asked with: record, counter, latches, code, payload, words and cells.
const STEP: &[Kind] = &[
    Num(16),
    Num(16),
    Num(16),
    Num(16),
    Num(16),
    Num(16),
    Num(16),
    Latches,
    Num(8),
    Num(16),
    Words,
    Words,
];

const STEP_NUMBERS: &[u32] = &[0, 13, 30, 31, 32, 33, 35];

/// The table of calls.
pub static CALLS: &[Call] = &[
    Call {
        name: "words.double",
        kinds: &[Num(16)],
        classes: &[0],
        own: |f| reply(0, vec![w::double(n16(f, 0)).into()]),
    },
    Call {
        name: "words.halve",
        kinds: &[Num(64)],
        classes: &[0, 1],
        own: |f| place(w::halve(field::num(f, 0))),
    },
    Call {
        name: "words.entry_of",
        kinds: &[Num(16), Num(16), Num(8), Num(16)],
        classes: &[0, 1],
        own: |f| {
            let (base, words, tail) = (n16(f, 0), n16(f, 1), n8(f, 2));
            let found = w::entry_of(base, words, tail, n16(f, 3));
            or_none(found.map(|e| e as u64), w::no_entry(words, tail))
        },
    },
    Call {
        name: "words.address_of",
        kinds: &[Num(16), Num(16), Num(8), Num(64)],
        classes: &[0, 1],
        own: |f| {
            place(w::address_of(
                n16(f, 0),
                n16(f, 1),
                n8(f, 2),
                field::num(f, 3),
            ))
        },
    },
    Call {
        name: "words.digit",
        kinds: &[Num(8)],
        classes: &[0, 1],
        own: |f| or_none(w::digit(n8(f, 0)).map(u64::from), w::NO_DIGIT.into()),
    },
    Call {
        name: "words.capital",
        kinds: &[Num(8)],
        classes: &[0, 1],
        own: |f| or_none(w::capital(n8(f, 0)).map(u64::from), w::NO_DIGIT.into()),
    },
    Call {
        name: "words.digits",
        kinds: &[],
        classes: &[0],
        own: |_| {
            let value = |c: u8| w::digit(c).unwrap_or(w::NO_DIGIT as u8);
            reply(0, vec![(0..=255).map(value).collect::<Vec<u8>>().into()])
        },
    },
    Call {
        name: "words.byte",
        kinds: &[Bytes, Num(64)],
        classes: &[0, 1],
        own: |f| spelled(f, 2, w::digit, w::NO_BYTE),
    },
    Call {
        name: "words.word",
        kinds: &[Bytes, Num(64)],
        classes: &[0, 1],
        own: |f| spelled(f, 4, w::digit, w::NO_WORD),
    },
    Call {
        name: "words.capital_byte",
        kinds: &[Bytes, Num(64)],
        classes: &[0, 1],
        own: |f| spelled(f, 2, w::capital, w::NO_BYTE),
    },
    Call {
        name: "words.capital_word",
        kinds: &[Bytes, Num(64)],
        classes: &[0, 1],
        own: |f| spelled(f, 4, w::capital, w::NO_WORD),
    },
    Call {
        name: "words.put",
        kinds: &[Bytes, Num(64), Num(8)],
        classes: &[0, 1],
        own: |f| put(f, &[n8(f, 2)]),
    },
    Call {
        name: "words.put_byte",
        kinds: &[Bytes, Num(64), Num(8)],
        classes: &[0, 1],
        own: |f| put(f, &w::byte_text(n8(f, 2))),
    },
    Call {
        name: "words.put_word",
        kinds: &[Bytes, Num(64), Num(16)],
        classes: &[0, 1],
        own: |f| put(f, &w::word_text(n16(f, 2))),
    },
    Call {
        name: "words.decimal",
        kinds: &[Bytes, Num(32)],
        classes: &[0, 1],
        own: |f| {
            let bound = field::num(f, 1) as u32;
            let found = w::decimal(field::bytes(f, 0), bound);
            or_none(found.map(u64::from), w::no_decimal(bound))
        },
    },
    Call {
        name: "words.is_words",
        kinds: &[Words, Num(64)],
        classes: &[0, 1],
        own: |f| truth(w::is_words(field::words(f, 0), field::num(f, 1))),
    },
    Call {
        name: "words.find",
        kinds: &[Bytes, Num(64), Num(64), Num(8)],
        classes: &[0, 1],
        own: |f| {
            let (text, from, to) = (field::bytes(f, 0), field::num(f, 1), field::num(f, 2));
            or_none(
                w::find(text, from, to, n8(f, 3)),
                w::no_mark(text, from, to),
            )
        },
    },
    Call {
        name: "device.judge",
        kinds: &[Num(16), Num(16), Num(16), Num(16), Num(16), Num(16)],
        classes: &[0, 13],
        own: |f| {
            let number = if device_at(f).lawful() { 0 } else { 13 };
            reply(number, vec![number.into()])
        },
    },
    Call {
        name: "device.judge_table",
        kinds: &[Bytes],
        classes: &[0, 15],
        own: |f| {
            let number = if device::table(field::bytes(f, 0)).is_some() {
                0
            } else {
                15
            };
            reply(number, vec![number.into()])
        },
    },
    Call {
        name: "device.find_device",
        kinds: &[Bytes, Num(16)],
        classes: &[0, 15, 16],
        own: find_device,
    },
    Call {
        name: "device.is_name",
        kinds: &[Bytes],
        classes: &[0, 1],
        own: |f| truth(device::is_name(field::bytes(f, 0))),
    },
    Call {
        name: "device.is_image",
        kinds: &[Num(16), Words],
        classes: &[0, 1],
        own: |f| truth(device::is_image(usize::from(n16(f, 0)), field::words(f, 1))),
    },
    Call {
        name: "device.is_reading",
        kinds: &[Num(16), Words],
        classes: &[0, 1],
        own: |f| {
            truth(device::is_reading(
                usize::from(n16(f, 0)),
                field::words(f, 1),
            ))
        },
    },
    Call {
        name: "device.is_protected",
        kinds: &[Num(16), Words],
        classes: &[0, 1],
        own: |f| {
            truth(device::is_protected(
                usize::from(n16(f, 0)),
                field::words(f, 1),
            ))
        },
    },
    Call {
        name: "device.programmable",
        kinds: &[Num(16), Num(64)],
        classes: &[0, 1],
        own: |f| truth(device::programmable(n16(f, 0), field::num(f, 1))),
    },
    Call {
        name: "device.fits",
        kinds: &[
            Num(16),
            Num(16),
            Num(16),
            Num(16),
            Num(16),
            Num(16),
            Num(16),
        ],
        classes: &[0, 1],
        own: |f| truth(device_at(f).fits(n16(f, D))),
    },
    Call {
        name: "device.under_mask",
        kinds: &[
            Num(16),
            Num(16),
            Num(16),
            Num(16),
            Num(16),
            Num(16),
            Num(64),
            Num(16),
            Num(16),
        ],
        classes: &[0, 1],
        own: |f| {
            let (d, i) = (device_at(f), field::num(f, D));
            let past = i.checked_sub(u64::from(d.words));
            let word = d.under_mask(i as usize, n16(f, D + 1), n16(f, D + 2));
            reply(u32::from(!matches!(past, Some(7 | 8))), vec![word.into()])
        },
    },
    Call {
        name: "device.sound_of",
        kinds: &[Num(16), Num(16), Num(16), Num(16), Num(16), Num(16)],
        classes: &[0, 13],
        own: |f| {
            let d = device_at(f);
            let (number, held) = if d.lawful() {
                (0u32, d)
            } else {
                (13, Device::NONE)
            };
            let mut fields = vec![number.into()];
            fields.extend(device_fields(&held));
            reply(number, fields)
        },
    },
    Call {
        name: "device.name_of",
        kinds: &[Bytes, Num(64), Num(64)],
        classes: &[0, 1],
        own: |f| {
            let (text, at, length) = (field::bytes(f, 0), field::num(f, 1), field::num(f, 2));
            let name = device::name_of(text, at, length);
            reply(u32::from((name.len() as u64) < length), vec![name.into()])
        },
    },
    Call {
        name: "judge.checksum",
        kinds: &[Num(16), Num(16), Num(16), Num(16), Num(16), Num(16), Words],
        classes: &[0, 13, 21],
        own: |f| {
            let (number, sum) = match judge::checksum(&device_at(f), field::words(f, D)) {
                Ok(sum) => (0, sum),
                Err(number) => (number, 0),
            };
            reply(number, vec![number.into(), sum.into()])
        },
    },
    Call {
        name: "judge.verify",
        kinds: &[
            Num(16),
            Num(16),
            Num(16),
            Num(16),
            Num(16),
            Num(16),
            Words,
            Words,
        ],
        classes: &[0, 13, 21, 40, 41],
        own: |f| {
            let (number, address, count) =
                judge::verify(&device_at(f), field::words(f, D), field::words(f, D + 1));
            reply(number, vec![number.into(), address.into(), count.into()])
        },
    },
    Call {
        name: "sheet.read_sheet",
        kinds: &[
            Num(16),
            Num(16),
            Num(16),
            Num(16),
            Num(16),
            Num(16),
            Bytes,
            Bytes,
            Words,
        ],
        classes: &[0, 12, 13, 14, 18, 19],
        own: |f| {
            let mut buffer = field::words(f, D + 2).to_vec();
            let (name, text) = (field::bytes(f, D), field::bytes(f, D + 1));
            let number = sheet::read(&device_at(f), name, text, &mut buffer);
            reply(number, vec![number.into(), buffer.into()])
        },
    },
    Call {
        name: "sheet.read_id",
        kinds: &[Bytes],
        classes: &[0, 14],
        own: |f| {
            let first = sheet::first_line(field::bytes(f, 0));
            let number: u32 = if first.is_some() { 0 } else { 14 };
            let id = first.map_or(0, |first| first.id);
            reply(number, vec![number.into(), id.into()])
        },
    },
    Call {
        name: "sheet.write_sheet",
        kinds: &[
            Num(16),
            Num(16),
            Num(16),
            Num(16),
            Num(16),
            Num(16),
            Words,
            Bytes,
        ],
        classes: &[0, 13, 21, 26],
        own: |f| {
            let mut out = field::bytes(f, D + 1).to_vec();
            let (number, length) = sheet::write(&device_at(f), field::words(f, D), &mut out);
            written(number, length, out)
        },
    },
    Call {
        name: "sheet.write_new_sheet",
        kinds: &[
            Num(16),
            Num(16),
            Num(16),
            Num(16),
            Num(16),
            Num(16),
            Bytes,
            Words,
            Bytes,
        ],
        classes: &[0, 13, 21, 26],
        own: |f| {
            let mut out = field::bytes(f, D + 2).to_vec();
            let (name, reading) = (field::bytes(f, D), field::words(f, D + 1));
            let (number, length) = sheet::write_new(&device_at(f), name, reading, &mut out);
            written(number, length, out)
        },
    },
    Call {
        name: "sheet.to_new",
        kinds: &[Bytes, Bytes, Bytes],
        classes: &[0, 14, 15, 16, 18, 19, 26],
        own: |f| moved(f, Form::New),
    },
    Call {
        name: "sheet.to_old",
        kinds: &[Bytes, Bytes, Bytes],
        classes: &[0, 14, 15, 16, 18, 19, 26],
        own: |f| moved(f, Form::Old),
    },
    Call {
        name: HEX_READER,
        kinds: &[
            Num(16),
            Num(16),
            Num(16),
            Num(16),
            Num(16),
            Num(16),
            HexBytes,
            Words,
        ],
        classes: &[0, 1, 2, 3, 4, 5, 6, 7, 8, 9, 10, 11, 12, 13],
        own: |f| {
            let mut image = field::words(f, D + 1).to_vec();
            let r = hex::read(&device_at(f), field::bytes(f, D), &mut image);
            reply(
                r.number,
                vec![
                    r.number.into(),
                    r.line.into(),
                    r.column.into(),
                    image.into(),
                ],
            )
        },
    },
    Call {
        name: "ihex.write_hex",
        kinds: &[
            Num(16),
            Num(16),
            Num(16),
            Num(16),
            Num(16),
            Num(16),
            Words,
            HexBytes,
        ],
        classes: &[0, 13, 20, 26],
        own: |f| {
            let mut out = field::bytes(f, D + 1).to_vec();
            let (number, length) = hex::write(&device_at(f), field::words(f, D), &mut out);
            written(number, length, out)
        },
    },
    Call {
        name: "ihex.next_line",
        kinds: &[Bytes, Num(64), Num(32)],
        classes: &[0, 1],
        own: next_line,
    },
    Call {
        name: "ihex.line_from",
        kinds: &[Bytes, Num(64), Num(32)],
        classes: &[0, 1],
        own: next_line,
    },
    Call {
        name: "target.step",
        kinds: STEP,
        classes: STEP_NUMBERS,
        own: step,
    },
    Call {
        name: "target.run",
        kinds: &[
            Num(16),
            Num(16),
            Num(16),
            Num(16),
            Num(16),
            Num(16),
            Words,
            Bytes,
            Num(64),
            Words,
        ],
        classes: &[0, 13, 30, 31, 32, 33, 34, 35],
        own: run,
    },
    Call {
        name: PLANNER,
        kinds: &[
            Num(16),
            Num(16),
            Num(16),
            Num(16),
            Num(16),
            Num(16),
            Words,
            Words,
            Bytes,
        ],
        classes: &[0, 13, 20, 21, 22, 23, 24, 26],
        own: |f| {
            let mut out = field::bytes(f, D + 2).to_vec();
            let d = device_at(f);
            let (number, steps) =
                streams::update(&d, field::words(f, D), field::words(f, D + 1), &mut out);
            written(number, steps, out)
        },
    },
    Call {
        name: "plan.fresh",
        kinds: &[
            Num(16),
            Num(16),
            Num(16),
            Num(16),
            Num(16),
            Num(16),
            Words,
            Num(16),
            Bytes,
        ],
        classes: &[0, 13, 20, 22, 26],
        own: |f| {
            let mut out = field::bytes(f, D + 2).to_vec();
            let d = device_at(f);
            let (number, steps) = streams::fresh(&d, field::words(f, D), n16(f, D + 1), &mut out);
            written(number, steps, out)
        },
    },
    Call {
        name: "plan.read_back",
        kinds: &[Num(16), Num(16), Num(16), Num(16), Num(16), Num(16), Bytes],
        classes: &[0, 13, 26],
        own: |f| {
            let mut out = field::bytes(f, D).to_vec();
            let (number, steps) = streams::read_back(&device_at(f), &mut out);
            written(number, steps, out)
        },
    },
    Call {
        name: "plan.wanted",
        kinds: &[
            Num(16),
            Num(16),
            Num(16),
            Num(16),
            Num(16),
            Num(16),
            Words,
            Words,
            Num(64),
        ],
        classes: &[0, 1],
        own: |f| {
            let i = field::num(f, D + 2);
            let (image, reading) = (field::words(f, D), field::words(f, D + 1));
            let (given, word) = streams::wanted_at(&device_at(f), image, reading, i);
            reply(u32::from(!given), vec![word.into()])
        },
    },
    Call {
        name: "plan.row_differs",
        kinds: &[
            Num(16),
            Num(16),
            Num(16),
            Num(16),
            Num(16),
            Num(16),
            Words,
            Words,
            Num(16),
        ],
        classes: &[0, 1],
        own: |f| truth(unjudged(f).row_differs(n16(f, D + 2))),
    },
    Call {
        name: "plan.row_rises",
        kinds: &[
            Num(16),
            Num(16),
            Num(16),
            Num(16),
            Num(16),
            Num(16),
            Words,
            Words,
            Num(16),
        ],
        classes: &[0, 1],
        own: |f| truth(unjudged(f).row_rises(n16(f, D + 2))),
    },
    Call {
        name: "plan.id_differs",
        kinds: &[
            Num(16),
            Num(16),
            Num(16),
            Num(16),
            Num(16),
            Num(16),
            Words,
            Words,
        ],
        classes: &[0, 1],
        own: |f| truth(unjudged(f).id_differs()),
    },
    Call {
        name: "plan.id_rises",
        kinds: &[
            Num(16),
            Num(16),
            Num(16),
            Num(16),
            Num(16),
            Num(16),
            Words,
            Words,
        ],
        classes: &[0, 1],
        own: |f| truth(unjudged(f).id_rises()),
    },
    Call {
        name: "plan.is_written",
        kinds: &[
            Num(16),
            Num(16),
            Num(16),
            Num(16),
            Num(16),
            Num(16),
            Words,
            Words,
            Num(64),
            Num(16),
        ],
        classes: &[0, 1],
        own: |f| {
            let all_ids = n16(f, D + 3) != 0;
            truth(unjudged(f).is_written(field::num(f, D + 2), all_ids))
        },
    },
    Call {
        name: "plan.update_refusal",
        kinds: &[
            Num(16),
            Num(16),
            Num(16),
            Num(16),
            Num(16),
            Num(16),
            Words,
            Words,
        ],
        classes: &[0, 13, 20, 21, 22, 23, 24],
        own: |f| {
            let u = unjudged(f);
            refusal(streams::update_refusal(&u.d, u.image, u.reading))
        },
    },
    Call {
        name: "plan.fresh_refusal",
        kinds: &[
            Num(16),
            Num(16),
            Num(16),
            Num(16),
            Num(16),
            Num(16),
            Words,
            Num(16),
        ],
        classes: &[0, 13, 20, 22],
        own: |f| {
            let image = field::words(f, D);
            refusal(streams::fresh_refusal(&device_at(f), image, n16(f, D + 1)))
        },
    },
    Call {
        name: "print.refusal",
        kinds: &[Num(8), Num(32), Num(32), Bytes],
        classes: &[0, 1],
        own: |f| {
            let text = print::refusal(n8(f, 0).into(), field::num(f, 1), field::num(f, 2));
            put_text(&text, field::bytes(f, 3))
        },
    },
    Call {
        name: "print.sum",
        kinds: &[Num(16), Bytes],
        classes: &[0, 1],
        own: |f| put_text(&print::sum(n16(f, 0)), field::bytes(f, 1)),
    },
    Call {
        name: "print.verdict",
        kinds: &[Num(8), Num(16), Num(32), Bytes],
        classes: &[0, 1],
        own: |f| {
            let text = print::verdict(n8(f, 0).into(), n16(f, 1), field::num(f, 2));
            put_text(&text, field::bytes(f, 3))
        },
    },
    Call {
        name: "print.text",
        kinds: &[Bytes, Bytes],
        classes: &[0, 1],
        own: |f| put_text(field::bytes(f, 0), field::bytes(f, 1)),
    },
    Call {
        name: "board.find_record",
        kinds: &[Bytes, Bytes],
        classes: &[0, 14, 15, 16],
        own: find_record,
    },
    Call {
        name: "board.open_record",
        kinds: &[Bytes, Bytes],
        classes: &[0, 14, 15, 16, 17],
        own: open_record,
    },
    Call {
        name: "board.open_board",
        kinds: &[Bytes, Bytes, Num(16)],
        classes: &[0, 14, 15, 16, 17, 18, 19],
        own: open_board,
    },
    Call {
        name: "board.print_sheet",
        kinds: &[
            Num(16),
            Num(16),
            Num(16),
            Num(16),
            Num(16),
            Num(16),
            Num(16),
            Words,
            Bytes,
        ],
        classes: &[0, 13, 21, 26],
        own: |f| {
            let reading = field::words(f, D + 1);
            let printed = bench::print_sheet(&device_at(f), n16(f, D), reading);
            shown(&printed, field::bytes(f, D + 2))
        },
    },
    Call {
        name: "bench.checksum",
        kinds: &[Bytes, Bytes, Bytes],
        classes: &[0, 14, 15, 16, 17, 18, 19],
        own: |f| {
            shown(
                &bench::checksum(field::bytes(f, 0), field::bytes(f, 1)),
                field::bytes(f, 2),
            )
        },
    },
    Call {
        name: "bench.verify",
        kinds: &[Bytes, Bytes, Bytes, Bytes],
        classes: &[0, 14, 15, 16, 17, 18, 19, 40, 41],
        own: |f| {
            let printed = bench::verify(field::bytes(f, 0), field::bytes(f, 1), field::bytes(f, 2));
            shown(&printed, field::bytes(f, 3))
        },
    },
    Call {
        name: "bench.readback",
        kinds: &[Bytes, Bytes, Bytes],
        classes: &[0, 14, 15, 16, 17],
        own: |f| {
            shown(
                &bench::readback(field::bytes(f, 0), field::bytes(f, 1)),
                field::bytes(f, 2),
            )
        },
    },
    Call {
        name: "bench.update",
        kinds: &[Bytes, Bytes, Bytes, Bytes],
        classes: &[
            0, 1, 2, 3, 4, 5, 6, 7, 8, 9, 10, 11, 14, 15, 16, 17, 18, 19, 22, 23, 24,
        ],
        own: |f| {
            let printed = bench::update(field::bytes(f, 0), field::bytes(f, 1), field::bytes(f, 2));
            shown(&printed, field::bytes(f, 3))
        },
    },
    Call {
        name: "bench.fresh",
        kinds: &[Bytes, Bytes, Bytes, Bytes],
        classes: &[
            0, 1, 2, 3, 4, 5, 6, 7, 8, 9, 10, 11, 14, 15, 16, 17, 18, 19, 22,
        ],
        own: |f| {
            let printed = bench::fresh(field::bytes(f, 0), field::bytes(f, 1), field::bytes(f, 2));
            shown(&printed, field::bytes(f, 3))
        },
    },
    Call {
        name: "bench.wanted",
        kinds: &[Bytes, Bytes, Bytes, Bytes],
        classes: &[
            0, 1, 2, 3, 4, 5, 6, 7, 8, 9, 10, 11, 14, 15, 16, 17, 18, 19, 22, 23, 24,
        ],
        own: |f| {
            let printed = bench::wanted(field::bytes(f, 0), field::bytes(f, 1), field::bytes(f, 2));
            shown(&printed, field::bytes(f, 3))
        },
    },
    Call {
        name: "bench.wanted_fresh",
        kinds: &[Bytes, Bytes, Bytes, Bytes],
        classes: &[
            0, 1, 2, 3, 4, 5, 6, 7, 8, 9, 10, 11, 14, 15, 16, 17, 18, 19, 22,
        ],
        own: |f| {
            let printed =
                bench::wanted_fresh(field::bytes(f, 0), field::bytes(f, 1), field::bytes(f, 2));
            shown(&printed, field::bytes(f, 3))
        },
    },
    Call {
        name: "bench.trial",
        kinds: &[Bytes, Bytes, Bytes, Bytes],
        classes: &[0, 14, 15, 16, 17, 18, 19, 30, 31, 33, 34],
        own: |f| {
            let printed = bench::trial(field::bytes(f, 0), field::bytes(f, 1), field::bytes(f, 2));
            shown(&printed, field::bytes(f, 3))
        },
    },
    Call {
        name: "bench.gather",
        kinds: &[Bytes, Bytes, Bytes, Bytes],
        classes: &[0, 14, 15, 16, 17, 21],
        own: |f| {
            let printed = bench::gather(field::bytes(f, 0), field::bytes(f, 1), field::bytes(f, 2));
            shown(&printed, field::bytes(f, 3))
        },
    },
    Call {
        name: "bench.dump",
        kinds: &[Bytes, Bytes, Bytes],
        classes: &[0, 14, 15, 16, 17, 18, 19, 23],
        own: |f| {
            shown(
                &bench::dump(field::bytes(f, 0), field::bytes(f, 1)),
                field::bytes(f, 2),
            )
        },
    },
    Call {
        name: "bench.newsheet",
        kinds: &[Bytes, Bytes, Bytes],
        classes: &[0, 14, 15, 16, 17, 18, 19],
        own: |f| {
            shown(
                &bench::newsheet(field::bytes(f, 0), field::bytes(f, 1)),
                field::bytes(f, 2),
            )
        },
    },
    Call {
        name: "bench.oldsheet",
        kinds: &[Bytes, Bytes, Bytes],
        classes: &[0, 14, 15, 16, 17, 18, 19],
        own: |f| {
            shown(
                &bench::oldsheet(field::bytes(f, 0), field::bytes(f, 1)),
                field::bytes(f, 2),
            )
        },
    },
    Call {
        name: "lent.step_on",
        kinds: STEP,
        classes: STEP_NUMBERS,
        own: step,
    },
    Call {
        name: "lent.step_method",
        kinds: STEP,
        classes: STEP_NUMBERS,
        own: step,
    },
    Call {
        name: "lent.first_number",
        kinds: &[Bytes],
        classes: &[0, 1],
        own: first_number,
    },
    Call {
        name: "lent.third_line",
        kinds: &[Bytes],
        classes: &[0, 1],
        own: third_line,
    },
];
