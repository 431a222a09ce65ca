//! What each program prints, from the content of its files.

use crate::board::{board, record, Opened, OPENED_MAX};
use crate::device::Device;
use crate::refusal::Refusal;
use crate::sheet::Form;
use crate::words::{capital, capital_word, spelled, NOT_GIVEN, WORD_MAX};
use crate::{hex, judge, model, print, sheet, streams};

/// The most lines of a printed stream that `trial` plays.
pub const TRIAL_LINES: usize = 32_768;

/// A program's text with the number it stands for (verify's 40 and 41 are numbers of an answer).
pub struct Printed {
    pub number: u32,
    pub text: Vec<u8>,
}

fn printed(result: Result<(u32, Vec<u8>), Refusal>) -> Printed {
    match result {
        Ok((number, text)) => Printed { number, text },
        Err(r) => Printed {
            number: r.number,
            text: print::refusal(r.number, r.line as u64, r.column as u64),
        },
    }
}

/// Code, tab, payload, a line a step.
pub fn stream_text(stream: &[u8]) -> Vec<u8> {
    stream
        .chunks(3)
        .flat_map(|s| format!("{:02X}\t{:02X}{:02X}\n", s[0], s[2], s[1]).into_bytes())
        .collect()
}

/// The sheet of words in the old form, with the ID on line 1 of the board's sheet: a `diff` of the two, both in the old
/// form, shows only words that change.
fn sheet_like(board: &[u8], d: &Device, words: &[u16]) -> Vec<u8> {
    let first = sheet::first_line(board).expect("an opened sheet has a line 1");
    sheet::text(&Device { id: first.id, ..*d }, words)
}

/// The longest sheet of a board that the programs take: the ID's line, one for each eight words, and the last.
const SHEET_MAX: usize = 5 + 45 * (OPENED_MAX as usize / 8) + 50;

/// The sheet of a reading with an ID of its own on line 1, refused by 13 and 21 under that ID, and by 26 where it is longer
/// than any of a board that the programs take.
pub fn print_sheet(d: &Device, id: u16, reading: &[u16]) -> Printed {
    let mut text = vec![0; SHEET_MAX];
    let (number, length) = sheet::write(&Device { id, ..*d }, reading, &mut text);
    text.truncate(length);
    printed(match number {
        0 => Ok((0, text)),
        _ => Err(number.into()),
    })
}

pub fn checksum(table: &[u8], sheet: &[u8]) -> Printed {
    printed(board(table, sheet).and_then(|Opened { d, reading, .. }| {
        let sum = judge::checksum(&d, &reading)?;
        Ok((0, print::sum(sum)))
    }))
}

pub fn verify(table: &[u8], sheet: &[u8], wanted: &[u8]) -> Printed {
    printed(board(table, sheet).and_then(|Opened { d, name, reading }| {
        let wanted = sheet::judged(&d, &name, wanted)?;
        let (number, address, count) = judge::verify(&d, &wanted, &reading);
        Ok((number, print::verdict(number, address, count as u64)))
    }))
}

/// The sheet itself in a form.
fn moved(form: Form, table: &[u8], sheet: &[u8]) -> Printed {
    printed(board(table, sheet).and_then(|Opened { d, name, .. }| {
        let text = sheet::in_form(form, &d, &name, sheet)?;
        Ok((0, text))
    }))
}

pub fn newsheet(table: &[u8], sheet: &[u8]) -> Printed {
    moved(Form::New, table, sheet)
}

pub fn oldsheet(table: &[u8], sheet: &[u8]) -> Printed {
    moved(Form::Old, table, sheet)
}

/// Reads the ID on line 1 of the sheet alone.
pub fn readback(table: &[u8], sheet: &[u8]) -> Printed {
    let listed = record(table, sheet);
    printed(listed.map(|l| (0, stream_text(&streams::read_back_stream(&l.device)))))
}

pub fn update(table: &[u8], sheet: &[u8], text: &[u8]) -> Printed {
    printed(board(table, sheet).and_then(|Opened { d, reading, .. }| {
        let image = hex::image(&d, text, hex::PROGRAM_TEXT_MAX)?;
        if let Some(number) = streams::update_refusal(&d, &image, &reading) {
            return Err(number.into());
        }
        let wanted = streams::wanted_over(&d, &image, &reading);
        Ok((
            0,
            stream_text(&streams::update_stream(&d, &wanted, &reading)),
        ))
    }))
}

pub fn fresh(table: &[u8], sheet: &[u8], text: &[u8]) -> Printed {
    printed(board(table, sheet).and_then(|Opened { d, reading, .. }| {
        let image = hex::image(&d, text, hex::PROGRAM_TEXT_MAX)?;
        if !d.fits(reading[d.p() + 6]) {
            return Err(22.into());
        }
        Ok((
            0,
            stream_text(&streams::fresh_stream(
                &d,
                &streams::wanted_blank(&d, &image),
            )),
        ))
    }))
}

/// The sheet that an update is to leave, or what the update refuses.
pub fn wanted(table: &[u8], sheet: &[u8], text: &[u8]) -> Printed {
    printed(board(table, sheet).and_then(|Opened { d, reading, .. }| {
        let image = hex::image(&d, text, hex::PROGRAM_TEXT_MAX)?;
        match streams::update_refusal(&d, &image, &reading) {
            Some(number) => Err(number.into()),
            None => Ok((
                0,
                sheet_like(sheet, &d, &streams::wanted_over(&d, &image, &reading)),
            )),
        }
    }))
}

/// The sheet that a fresh programming is to leave: 8004h to 8006h are the board's.
pub fn wanted_fresh(table: &[u8], sheet: &[u8], text: &[u8]) -> Printed {
    printed(board(table, sheet).and_then(|Opened { d, reading, .. }| {
        let image = hex::image(&d, text, hex::PROGRAM_TEXT_MAX)?;
        if !d.fits(reading[d.p() + 6]) {
            return Err(22.into());
        }
        let kept = d.p() + 4..d.p() + 7;
        let mut wanted = streams::wanted_blank(&d, &image);
        wanted[kept.clone()].copy_from_slice(&reading[kept]);
        Ok((0, sheet_like(sheet, &d, &wanted)))
    }))
}

/// A step of a printed line: two capital digits, a tab, four.
fn printed_step(line: &[u8]) -> Option<[u8; 3]> {
    if line.len() != 7 || line[2] != b'\t' {
        return None;
    }
    let code = spelled(line, 0, 2, capital)? as u8;
    let [low, high] = (spelled(line, 3, 4, capital)? as u16).to_le_bytes();
    Some([code, low, high])
}

/// A step is a line of a printed stream, and the whole line is to blame.
fn refused_line(number: u32, line: usize) -> Refusal {
    Refusal {
        number,
        line,
        column: 1,
    }
}

/// The steps of a printed stream; the first line that is none, or is one too many, is 34.
fn steps_of(text: &[u8]) -> Result<Vec<u8>, Refusal> {
    // After the last LF there is a line only if anything stands there.
    let body = text.strip_suffix(b"\n").unwrap_or(text);
    let mut stream = Vec::new();
    if text.is_empty() {
        return Ok(stream);
    }
    for (i, line) in body.split(|&c| c == b'\n').enumerate() {
        let step = printed_step(line).filter(|_| i < TRIAL_LINES);
        stream.extend(step.ok_or(refused_line(34, i + 1))?);
    }
    Ok(stream)
}

/// The sheet after a whole run; as in a run, the stream's form is judged before its first step.
pub fn trial(table: &[u8], sheet: &[u8], text: &[u8]) -> Printed {
    printed(board(table, sheet).and_then(|Opened { d, reading, .. }| {
        let stream = steps_of(text)?;
        let mut cells = reading;
        cells.extend([WORD_MAX; 2]);
        let mut words = vec![0; TRIAL_LINES];
        let run = model::run(&d, &mut cells, &stream, u64::MAX, &mut words);
        if run.number != 0 {
            return Err(refused_line(run.number, run.steps as usize + 1));
        }
        Ok((0, sheet_like(sheet, &d, &cells[..d.entries()])))
    }))
}

/// The image that gives every word which a file may give.
pub fn whole_image(d: &Device, reading: &[u16]) -> Vec<u16> {
    let mut image = reading.to_vec();
    image[d.p() + 4..d.p() + 7].fill(NOT_GIVEN);
    image
}

/// Nobody can see the program words of a protected board, so there is no copy of it.
pub fn dump(table: &[u8], sheet: &[u8]) -> Printed {
    printed(board(table, sheet).and_then(|Opened { d, reading, .. }| {
        if d.protected(&reading) {
            return Err(23.into());
        }
        Ok((0, hex::text(&d, &whole_image(&d, &reading))))
    }))
}

/// The words that a read-back answered, a line each, as they are typed.
pub fn answer_text(words: &[u16]) -> Vec<u8> {
    words
        .iter()
        .flat_map(|w| format!("{w:04X}\n").into_bytes())
        .collect()
}

/// Just a whole reading's words, each line ended by LF.
fn answered(d: &Device, text: &[u8]) -> Option<Vec<u16>> {
    let lines = text.strip_suffix(b"\n")?.split(|&c| c == b'\n');
    let words: Vec<u16> = lines.map(capital_word).collect::<Option<_>>()?;
    d.is_reading(&words).then_some(words)
}

/// Reads the ID on line 1 of the sheet alone; 21 where the words are not a reading.
pub fn gather(table: &[u8], sheet: &[u8], text: &[u8]) -> Printed {
    printed(record(table, sheet).and_then(|listed| {
        let d = listed.device;
        let words = answered(&d, text).ok_or(21)?;
        Ok((0, sheet_like(sheet, &d, &words)))
    }))
}
