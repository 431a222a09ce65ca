//! Intel HEX: reader and writer.

use crate::device::{is_image, Device};
use crate::refusal::Refusal;
use crate::words::{digit, NOT_GIVEN, WORD_MAX};

/// The longest text that the reader takes.
pub const TEXT_MAX: usize = 524_288;
/// The longest text that the programs take.
pub const PROGRAM_TEXT_MAX: usize = 65_536;

/// The line that begins at a place of the text: where it stops, the CR of its end apart, and where the next one begins.
/// Nothing at the text's end.
pub fn line_at(text: &[u8], at: usize) -> Option<(usize, usize)> {
    let rest = text.get(at..).filter(|rest| !rest.is_empty())?;
    let length = rest.iter().position(|&c| c == b'\n').unwrap_or(rest.len());
    let carriage = usize::from(rest[..length].ends_with(b"\r"));
    Some((at + length - carriage, at + length + 1))
}

struct Record {
    address: u16,
    kind: u8,
    data: Vec<u8>,
    sound: bool,
}

/// A colon and 2(LL+5) digits, or nothing (2).
fn record(line: &[u8]) -> Option<Record> {
    let digits = line.strip_prefix(b":")?;
    if digits.len() % 2 == 1 {
        return None;
    }
    let bytes: Vec<u8> = digits
        .chunks(2)
        .map(|two| Some(digit(two[0])? * 16 + digit(two[1])?))
        .collect::<Option<_>>()?;
    let length = usize::from(*bytes.first()?);
    if bytes.len() != length + 5 {
        return None;
    }
    let sum = bytes.iter().fold(0u8, |sum, &b| sum.wrapping_add(b));
    Some(Record {
        address: u16::from_be_bytes([bytes[1], bytes[2]]),
        kind: bytes[3],
        data: bytes[4..4 + length].to_vec(),
        sound: sum == 0,
    })
}

/// The column of the first character that cannot stand where it is, or the one past the end of a line that stops short;
/// nothing where the line is a record. Taken from the left, character by character, so that what comes first decides.
fn broken_at(line: &[u8]) -> Option<usize> {
    let mut length = 0;
    // The record's last column, which nobody knows before LL is read.
    let mut last = usize::MAX;
    for (i, &c) in line.iter().enumerate() {
        let column = i + 1;
        let value = match column {
            1 => (c == b':').then_some(0),
            _ if column > last => None,
            _ => digit(c),
        };
        let Some(value) = value else {
            return Some(column);
        };
        if column == 2 || column == 3 {
            length = 16 * length + usize::from(value);
        }
        if column == 3 {
            last = 2 * (length + 5) + 1;
        }
    }
    (line.len() < last).then_some(line.len() + 1)
}

/// The column of the first digit of a word's low byte, by the word's place in its record: colon, LL, address and type
/// stand before the first.
fn word_column(place: usize) -> usize {
    10 + 4 * place
}

/// The entry of the word at a byte address, if a file may give it.
fn entry(p: usize, byte: u64) -> Option<usize> {
    // Byte addresses of 2^32 and above halve to nothing here either: no word stands there.
    let word = usize::try_from(byte / 2).ok()?;
    match word {
        _ if word < p => Some(word),
        0x8000..=0x8003 | 0x8007 | 0x8008 => Some(p + word - 0x8000),
        _ => None,
    }
}

struct Reading {
    image: Vec<u16>,
    upper: u16,
    ended: bool,
}

/// Number and column of a line's refusal.
type Blame = (u32, usize);

impl Reading {
    fn data(&mut self, p: usize, record: &Record) -> Result<(), Blame> {
        let base = u64::from(self.upper) * 65_536 + u64::from(record.address);
        for (k, pair) in record.data.chunks(2).enumerate() {
            let word = u16::from_le_bytes([pair[0], pair[1]]);
            let column = word_column(k);
            let place = entry(p, base + 2 * k as u64).ok_or((7, column))?;
            if word > WORD_MAX {
                return Err((8, column));
            }
            if self.image[place] != NOT_GIVEN {
                return Err((9, column));
            }
            self.image[place] = word;
        }
        Ok(())
    }

    fn line(&mut self, p: usize, line: &[u8]) -> Result<(), Blame> {
        if line.is_empty() {
            return Ok(());
        }
        // What is wrong with the whole line stands at its first column.
        let whole = |number| Err((number, 1));
        if self.ended {
            return whole(11);
        }
        let Some(record) = record(line) else {
            let column = broken_at(line).expect("a line that is no record breaks somewhere");
            return Err((2, column));
        };
        if !record.sound {
            return whole(3);
        }
        let length = record.data.len();
        match record.kind {
            0x00 if record.address % 2 == 1 || length % 2 == 1 => whole(6),
            0x00 => self.data(p, &record),
            0x01 if length != 0 || record.address != 0 => whole(5),
            0x01 => {
                self.ended = true;
                Ok(())
            }
            0x04 if length != 2 || record.address != 0 => whole(5),
            0x04 => {
                self.upper = u16::from_be_bytes([record.data[0], record.data[1]]);
                Ok(())
            }
            _ => whole(4),
        }
    }
}

/// The image of a text for a lawful device, or the refusal.
pub fn image(d: &Device, text: &[u8], most: usize) -> Result<Vec<u16>, Refusal> {
    if text.len() > most {
        return Err(1.into());
    }
    let mut reading = Reading {
        image: vec![NOT_GIVEN; d.entries()],
        upper: 0,
        ended: false,
    };
    let (mut at, mut line) = (0, 0);
    while let Some((stop, next)) = line_at(text, at) {
        line += 1;
        reading
            .line(d.p(), &text[at..stop])
            .map_err(|(number, column)| Refusal {
                number,
                line,
                column,
            })?;
        at = next;
    }
    if reading.ended {
        Ok(reading.image)
    } else {
        Err(10.into())
    }
}

/// The reader as a call: 13, 12, 1, the lines' numbers, 10; number 0 where nothing is refused.
pub fn read(d: &Device, text: &[u8], buffer: &mut [u16]) -> Refusal {
    if !d.lawful() {
        return 13.into();
    }
    if buffer.len() != d.entries() {
        return 12.into();
    }
    match image(d, text, TEXT_MAX) {
        Ok(image) => {
            buffer.copy_from_slice(&image);
            0.into()
        }
        Err(refusal) => {
            buffer.fill(NOT_GIVEN);
            refusal
        }
    }
}

/// A record's line in capitals, with its LF.
pub fn record_text(address: u16, kind: u8, data: &[u8]) -> Vec<u8> {
    let mut bytes = vec![data.len() as u8];
    bytes.extend(address.to_be_bytes());
    bytes.push(kind);
    bytes.extend_from_slice(data);
    let sum = bytes.iter().fold(0u8, |sum, &b| sum.wrapping_add(b));
    bytes.push(sum.wrapping_neg());
    let mut line = String::from(":");
    for b in bytes {
        line.push_str(&format!("{b:02X}"));
    }
    line.push('\n');
    line.into_bytes()
}

/// The HEX text of an image.
pub fn text(d: &Device, image: &[u16]) -> Vec<u8> {
    let p = d.p();
    let given: Vec<(u32, u16)> = (0..image.len())
        .filter(|&i| image[i] != NOT_GIVEN)
        .map(|i| (2 * if i < p { i } else { 0x8000 + i - p } as u32, image[i]))
        .collect();
    let mut out = Vec::new();
    let mut upper = 0;
    let mut i = 0;
    while i < given.len() {
        let first = given[i].0;
        let mut data = Vec::new();
        // A run goes on while the next word is the neighbour and in the same block of 16 bytes.
        while i < given.len()
            && given[i].0 == first + data.len() as u32
            && given[i].0 / 16 == first / 16
        {
            data.extend(given[i].1.to_le_bytes());
            i += 1;
        }
        let half = (first >> 16) as u16;
        if half != upper {
            upper = half;
            out.extend(record_text(0, 4, &half.to_be_bytes()));
        }
        out.extend(record_text(first as u16, 0, &data));
    }
    out.extend(record_text(0, 1, &[]));
    out
}

/// The writer as a call: 13, 20, 26; number and length.
pub fn write(d: &Device, image: &[u16], out: &mut [u8]) -> (u32, usize) {
    if !d.lawful() {
        return (13, 0);
    }
    if !is_image(d.p(), image) {
        return (20, 0);
    }
    let text = text(d, image);
    if text.len() > out.len() {
        return (26, 0);
    }
    out[..text.len()].copy_from_slice(&text);
    (0, text.len())
}
