//! Board sheets of either form: reader and writers. The forms differ in line 1 alone.

use crate::device::{is_name, Device};
use crate::judge;
use crate::words::{capital_word, word_text, WORD_MAX};

/// The two forms of a sheet: line 1 is the ID alone, or ID, name and sum.
#[derive(Clone, Copy, Debug, PartialEq, Eq)]
pub enum Form {
    Old,
    New,
}

/// Line 1 of a sheet: the ID, and what the new form has behind it.
pub struct First<'a> {
    pub id: u16,
    pub named: Option<(&'a [u8], u16)>,
}

/// A line of four-digit fields: tabs between, LF at its end.
fn line(out: &mut Vec<u8>, fields: &[u16]) {
    for (i, &w) in fields.iter().enumerate() {
        if i > 0 {
            out.push(b'\t');
        }
        out.extend(word_text(w));
    }
    out.push(b'\n');
}

/// The lines after line 1.
fn lines_of_words(d: &Device, reading: &[u16]) -> Vec<u8> {
    let p = d.p();
    let mut out = Vec::new();
    for first in (0..p).step_by(8) {
        let mut fields = vec![first as u16];
        fields.extend_from_slice(&reading[first..first + 8]);
        line(&mut out, &fields);
    }
    let mut fields = vec![0x8000];
    fields.extend_from_slice(&reading[p..]);
    line(&mut out, &fields);
    out
}

/// Line 1 of the old form.
fn old_line(id: u16) -> Vec<u8> {
    format!("{id:04X}\n").into_bytes()
}

/// Line 1 of the new form.
pub fn new_line(id: u16, name: &[u8], sum: u16) -> Vec<u8> {
    let ends = [format!("{id:04X}\t"), format!("\t{sum:04X}\n")];
    [ends[0].as_bytes(), name, ends[1].as_bytes()].concat()
}

/// The sheet of a reading, with the record's ID on line 1.
pub fn text(d: &Device, reading: &[u16]) -> Vec<u8> {
    [old_line(d.id), lines_of_words(d, reading)].concat()
}

/// The same in the new form.
pub fn new_text(d: &Device, name: &[u8], reading: &[u16]) -> Vec<u8> {
    let first = new_line(d.id, name, sum_of(d, reading));
    [first, lines_of_words(d, reading)].concat()
}

/// The checksum of what is known to be a reading of a lawful record.
pub fn sum_of(d: &Device, reading: &[u16]) -> u16 {
    judge::checksum(d, reading).expect("a reading of a lawful record")
}

/// The first line of a text without its LF, and what stands behind that.
fn cut(text: &[u8]) -> Option<(&[u8], &[u8])> {
    let end = text.iter().position(|&c| c == b'\n')?;
    Some((&text[..end], &text[end + 1..]))
}

/// Line 1, or nothing where it is of neither form (14).
pub fn first_line(text: &[u8]) -> Option<First<'_>> {
    let fields: Vec<&[u8]> = cut(text)?.0.split(|&c| c == b'\t').collect();
    let named = match fields[1..] {
        [] => None,
        [name, sum] if is_name(name) => Some((name, capital_word(sum)?)),
        _ => return None,
    };
    let id = capital_word(fields[0]).filter(|&id| id <= WORD_MAX)?;
    Some(First { id, named })
}

/// The fields of one line with its LF taken off.
fn fields(line: &[u8]) -> Option<Vec<u16>> {
    line.split(|&c| c == b'\t').map(capital_word).collect()
}

/// The reading of a sheet, or nothing where it is malformed or its line 1 does not fit the device (14).
pub fn reading(d: &Device, text: &[u8]) -> Option<Vec<u16>> {
    if !d.fits(first_line(text)?.id) {
        return None;
    }
    let (_, rest) = cut(text)?;
    let mut lines = rest.strip_suffix(b"\n")?.split(|&c| c == b'\n');
    let mut reading = Vec::new();
    let mut row = |line: &[u8], address: u16, words: usize| -> Option<()> {
        let found = fields(line)?;
        let sound = found.len() == words + 1
            && found[0] == address
            && found[1..].iter().all(|&w| w <= WORD_MAX);
        reading.extend_from_slice(&found[1..]);
        sound.then_some(())
    };
    for first in (0..d.p()).step_by(8) {
        row(lines.next()?, first as u16, 8)?;
    }
    row(lines.next()?, 0x8000, 9)?;
    lines.next().is_none().then_some(reading)
}

/// The reading of a sheet of the record that has this name: 14, then 18 and 19, which the new form alone can give.
pub fn judged(d: &Device, name: &[u8], text: &[u8]) -> Result<Vec<u16>, u32> {
    let words = reading(d, text).ok_or(14u32)?;
    match first_line(text).and_then(|first| first.named) {
        Some((other, _)) if other != name => Err(18),
        Some((_, sum)) if sum != sum_of(d, &words) => Err(19),
        _ => Ok(words),
    }
}

/// The sheet with line 1 of a form, its ID kept and the other lines as they stand: 14, 18, 19.
pub fn in_form(form: Form, d: &Device, name: &[u8], text: &[u8]) -> Result<Vec<u8>, u32> {
    let words = judged(d, name, text)?;
    let id = first_line(text).ok_or(14u32)?.id;
    let (_, rest) = cut(text).ok_or(14u32)?;
    let first = match form {
        Form::Old => old_line(id),
        Form::New => new_line(id, name, sum_of(d, &words)),
    };
    Ok([first, rest.to_vec()].concat())
}

/// The reader as a call: 13, 12, 14, 18, 19; the buffer changes only where it answers 0.
pub fn read(d: &Device, name: &[u8], text: &[u8], buffer: &mut [u16]) -> u32 {
    if !d.lawful() || !is_name(name) {
        return 13;
    }
    if buffer.len() != d.entries() {
        return 12;
    }
    match judged(d, name, text) {
        Err(number) => number,
        Ok(words) => {
            buffer.copy_from_slice(&words);
            0
        }
    }
}

/// A text laid into a buffer whole, or not at all (26): number and length.
pub fn laid(text: &[u8], out: &mut [u8]) -> (u32, usize) {
    if text.len() > out.len() {
        return (26, 0);
    }
    out[..text.len()].copy_from_slice(text);
    (0, text.len())
}

/// The writer of the old form as a call: 13, 21, 26; number and length.
pub fn write(d: &Device, reading: &[u16], out: &mut [u8]) -> (u32, usize) {
    if !d.lawful() {
        return (13, 0);
    }
    if !d.is_reading(reading) {
        return (21, 0);
    }
    laid(&text(d, reading), out)
}

/// The writer of the new form as a call: 13 for record or name, 21, 26; number and length.
pub fn write_new(d: &Device, name: &[u8], reading: &[u16], out: &mut [u8]) -> (u32, usize) {
    if !d.lawful() || !is_name(name) {
        return (13, 0);
    }
    if !d.is_reading(reading) {
        return (21, 0);
    }
    laid(&new_text(d, name, reading), out)
}
