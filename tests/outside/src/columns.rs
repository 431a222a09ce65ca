//! Every column of a line at which 2 can stand: lines cut at each length, and a bad character at each place. What must
//! come is told by how the line is made, and not by looking for it.

use crate::ask::Peer;
use crate::hex::record_text;
use crate::tally::Tally;
use crate::worked::{hold_all, refused_text, sound_text, Case, TINY};

/// The longest line that is a record: a colon and 2(255+5) digits.
const LONGEST: usize = 521;
/// Characters that stand nowhere past the colon: beside the digits, a colon again, blanks, CR, beyond ASCII.
const BAD: &[u8] = b"/:@G`gz \t\x00\x0B\r\x7F\x80\xB0\xE6\xFF";
/// Characters that cannot stand in the colon's place, of which some are digits.
const NO_COLON: &[u8] = b"0;9/AaFfSG \t\x00\r\xBA\xFF";

/// A record without its LF: so many data bytes, of type 00.
fn record(length: usize) -> Vec<u8> {
    let data: Vec<u8> = (0..length).map(|i| (7 * i + 1) as u8).collect();
    let mut line = record_text(0x0ACE, 0, &data);
    line.pop();
    line
}

/// The line, then the end record.
fn text(line: &[u8]) -> Vec<u8> {
    [line, b"\n:00000001FF\n"].concat()
}

fn broken(line: &[u8], column: usize) -> Case {
    refused_text(&TINY, &text(line), (2, 1, column as u32))
}

/// The longest record cut at every length, and one and two digits more.
fn lengths() -> Vec<Case> {
    let line = [record(255), b"00".to_vec()].concat();
    (0..=line.len())
        .map(|n| match n {
            // Nothing is left of it, and an empty line is skipped.
            0 => sound_text(&TINY, &text(&[])),
            // Whole, so that its odd count is looked at.
            LONGEST => refused_text(&TINY, &text(&line[..n]), (6, 1, 1)),
            _ => broken(&line[..n], n.min(LONGEST) + 1),
        })
        .collect()
}

/// A record with each of some characters in place of the one at a column, and put in before it.
fn spoilt(line: &[u8], column: usize, bad: &[u8]) -> Vec<Case> {
    let at = column - 1;
    bad.iter()
        .flat_map(|&c| {
            let instead = [&line[..at], &[c], &line[column..]].concat();
            let before = [&line[..at], &[c], &line[at..]].concat();
            [broken(&instead, column), broken(&before, column)]
        })
        .collect()
}

/// A bad character at every place of a record; in the longest one a character a place, in turn.
fn places(length: usize) -> Vec<Case> {
    let line = record(length);
    (1..=line.len())
        .flat_map(|column| {
            let bad = if column == 1 { NO_COLON } else { BAD };
            let one = &bad[column % bad.len()..][..1];
            spoilt(&line, column, if length == 255 { one } else { bad })
        })
        .collect()
}

/// Whatever comes after a whole record is too much, and what comes after that has no say.
fn behind(length: usize) -> Vec<Case> {
    let line = record(length);
    let column = line.len() + 1;
    [
        b"0".as_slice(),
        b"f",
        b"G",
        b":",
        b"\r\r",
        b"\r0",
        b"0G",
        b"G0",
        b"00\xFF",
        b"\x80",
    ]
    .iter()
    .map(|more| broken(&[&line, *more].concat(), column))
    .collect()
}

pub fn check(peer: &Peer, tally: &mut Tally) {
    let mut cases = lengths();
    for length in [0, 2, 255] {
        cases.extend(places(length));
        cases.extend(behind(length));
    }
    hold_all(&cases, "every column", peer, tally);
}
