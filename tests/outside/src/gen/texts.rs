//! Inputs for the calls on words, digits, decimals, addresses, lines and printed lines. Here 0 aims at something found or done, 1 at
//! nothing, or at no room.

use super::{lent, number, room};
use crate::field::Field;
use crate::print as own;
use crate::rng::Rng;

const CAPITALS: &[u8] = b"0123456789ABCDEF";
const EITHER: &[u8] = b"0123456789ABCDEFabcdef";
/// Just beside the digits, and far from them.
const BESIDE: &[u8] = b"/:@G`g\x00\xFF \t\n";

pub fn words(name: &str, aim: u32, rng: &mut Rng) -> Vec<Field> {
    let nothing = aim == 1;
    match name {
        "digits" => vec![],
        "double" => vec![number(16, rng).into()],
        "halve" => vec![halve(nothing, rng).into()],
        "entry_of" => entry_of(nothing, rng),
        "address_of" => address_of(nothing, rng),
        "digit" | "capital" => vec![digit(nothing, name == "capital", rng).into()],
        "byte" => digits(2, EITHER, nothing, rng),
        "word" => digits(4, EITHER, nothing, rng),
        "capital_byte" => digits(2, CAPITALS, nothing, rng),
        "capital_word" => digits(4, CAPITALS, nothing, rng),
        "put" => put(1, 8, nothing, rng),
        "put_byte" => put(2, 8, nothing, rng),
        "put_word" => put(4, 16, nothing, rng),
        "decimal" => decimal(nothing, rng),
        "find" => find(nothing, rng),
        // The classes of a yes or no are the answer itself.
        _ => is_words(aim == 1, rng),
    }
}

fn halve(nothing: bool, rng: &mut Rng) -> u64 {
    let even = 2 * number(16, rng);
    if !nothing {
        return even;
    }
    match rng.below(5) {
        0 => even + 1,
        1 => 131_072 + rng.below(6) as u64,
        // An even address that a narrower machine word would wrap.
        2 => (1 << rng.between(17, 63)) + even,
        3 => u64::MAX - rng.below(4) as u64,
        _ => number(64, rng) | 1,
    }
}

/// Base, program words and tail: mostly the family's.
fn shape(rng: &mut Rng) -> (u16, u16, u8) {
    if rng.chance(60) {
        let rows = match rng.below(4) {
            0 => rng.pick(&[1_024, 4_096]),
            1 => rng.between(1, 4_096),
            _ => rng.between(1, 1_024),
        };
        (0x8000, 8 * rows as u16, rng.pick(&[9, 11]))
    } else {
        (
            number(16, rng) as u16,
            number(16, rng) as u16,
            number(8, rng) as u8,
        )
    }
}

fn entry_of(nothing: bool, rng: &mut Rng) -> Vec<Field> {
    let (base, words, tail) = shape(rng);
    let past = base.wrapping_add(u16::from(tail));
    let address = match rng.below(6) {
        _ if nothing && rng.chance(50) => past.wrapping_add(rng.below(3) as u16),
        0 => words.wrapping_add(rng.below(2) as u16),
        1 => words.wrapping_sub(1),
        2 | 3 => base.wrapping_add(rng.below(usize::from(tail) + 1) as u16),
        4 => rng.below(usize::from(words).max(1)) as u16,
        _ => number(16, rng) as u16,
    };
    vec![base.into(), words.into(), tail.into(), address.into()]
}

fn address_of(nothing: bool, rng: &mut Rng) -> Vec<Field> {
    let (mut base, words, tail) = shape(rng);
    if rng.chance(15) {
        // So near the end that part of the tail has no address of 16 bits.
        base = 0xFFFF - rng.below(usize::from(tail) + 1) as u16;
    }
    let length = u64::from(words) + u64::from(tail);
    let entry = match rng.below(5) {
        _ if nothing && rng.chance(60) => length + rng.below(3) as u64,
        0 => u64::from(words) + rng.below(usize::from(tail) + 1) as u64,
        1 => u64::from(words).saturating_sub(rng.below(2) as u64),
        2 => rng.below(usize::from(words).max(1)) as u64,
        3 => length.saturating_sub(1),
        _ => number(64, rng),
    };
    vec![base.into(), words.into(), tail.into(), entry.into()]
}

fn digit(nothing: bool, capital: bool, rng: &mut Rng) -> u8 {
    match (nothing, capital) {
        (false, false) => rng.pick(EITHER),
        (false, true) => rng.pick(CAPITALS),
        (true, true) if rng.chance(30) => rng.pick(b"abcdef"),
        (true, _) if rng.chance(40) => rng.pick(BESIDE),
        _ => rng.byte(),
    }
}

fn digits(count: usize, set: &[u8], nothing: bool, rng: &mut Rng) -> Vec<Field> {
    let length = count + rng.below(12);
    let mut text: Vec<u8> = (0..length).map(|_| rng.pick(set)).collect();
    let mut at = rng.between(0, length - count) as u64;
    if nothing {
        match rng.below(4) {
            0 => at = (length - count + 1 + rng.below(count + 2)) as u64,
            1 => at = u64::MAX - rng.below(5) as u64,
            _ => {
                let bad = at as usize + rng.below(count);
                text[bad] = if rng.chance(30) {
                    rng.pick(b"af")
                } else {
                    rng.pick(BESIDE)
                };
            }
        }
    }
    vec![text.into(), at.into()]
}

fn put(count: usize, bits: u32, nothing: bool, rng: &mut Rng) -> Vec<Field> {
    let length = count + rng.below(12);
    let at = match rng.below(4) {
        _ if !nothing => rng.between(0, length - count) as u64,
        // Part of the text has room.
        0 | 1 => (length - count + 1 + rng.below(count + 1)) as u64,
        2 => u64::MAX - rng.below(5) as u64,
        _ => number(64, rng),
    };
    vec![
        lent(length, rng).into(),
        at.into(),
        number(bits, rng).into(),
    ]
}

fn decimal(nothing: bool, rng: &mut Rng) -> Vec<Field> {
    let bound = match rng.below(4) {
        0 => rng.pick(&[0, 1, 9, 10, 32, 64, 8_192, 32_768, 65_535]),
        1 => u32::MAX - rng.below(12) as u32,
        _ => number(32, rng) as u32,
    };
    let within = match rng.below(3) {
        0 => u64::from(bound) - rng.below(bound.min(3) as usize + 1) as u64,
        _ => rng.next() % (u64::from(bound) + 1),
    };
    let mut text = within.to_string().into_bytes();
    if nothing {
        text = match rng.below(8) {
            0 => Vec::new(),
            1 => [b"0".to_vec(), text].concat(),
            2 => (u64::from(bound) + 1 + rng.below(10) as u64)
                .to_string()
                .into_bytes(),
            // The number again after 16, 32 or 64 bits.
            3 => (u128::from(within) + (1 << rng.pick(&[16, 32, 64])))
                .to_string()
                .into_bytes(),
            4 => {
                let count = rng.between(8, 60);
                (0..count).map(|_| rng.pick(b"123456789")).collect()
            }
            5 => [rng.pick(&[b"+", b"-", b" ", b"0"]).to_vec(), text].concat(),
            _ => {
                let at = rng.below(text.len());
                text[at] = rng.pick(b"/:\x00 aF\xFF-");
                text
            }
        };
    }
    vec![text.into(), bound.into()]
}

/// A text, a part of it and a byte, which stands there at some place or at none, and often also before and behind the part. Where nothing
/// is found the part may be none, or lie past the text's end.
fn find(nothing: bool, rng: &mut Rng) -> Vec<Field> {
    let length = rng.between(1, 40);
    let mark = rng.pick(b"\t\n\x00\x7F\x80\xFF");
    let mut text: Vec<u8> = (0..length)
        .map(|_| match rng.below(4) {
            0 => mark,
            1 => mark ^ 1 << rng.below(8),
            _ => rng.byte(),
        })
        .collect();
    let at = rng.below(length);
    let mut from = rng.below(at + 1) as u64;
    let mut to = match rng.below(4) {
        0 => at as u64 + 1,
        1 => length as u64,
        2 => (length + rng.below(5)) as u64,
        _ => u64::MAX - rng.below(3) as u64,
    };
    if !nothing {
        text[at] = mark;
        return vec![text.into(), from.into(), to.into(), mark.into()];
    }
    match rng.below(6) {
        0 => to = from,
        1 => to = rng.below(from as usize + 1) as u64,
        2 => from = (length + rng.below(5)) as u64,
        3 => from = u64::MAX - rng.below(3) as u64,
        _ => {
            to = to.min((at + rng.below(9)) as u64);
            for (i, c) in text.iter_mut().enumerate() {
                if *c == mark && (from..to).contains(&(i as u64)) {
                    *c ^= 1 << rng.below(8);
                }
            }
        }
    }
    vec![text.into(), from.into(), to.into(), mark.into()]
}

fn is_words(yes: bool, rng: &mut Rng) -> Vec<Field> {
    let length = match rng.below(400) {
        0 => rng.between(32_760, 32_780),
        1..=12 => rng.below(9_000),
        _ => rng.below(40),
    };
    let mut list: Vec<u16> = (0..length).map(|_| rng.word()).collect();
    let mut n = length as u64;
    if !yes {
        match rng.below(4) {
            0 => n += 1,
            1 => n = n.wrapping_sub(1),
            2 => n += 1 << rng.pick(&[8, 16, 32]),
            _ if length > 0 => {
                let at = rng.pick(&[0, length - 1, length / 2]);
                list[at] = rng.pick(&[0x4000, 0x4001, 0x7FFF, 0x8000, 0xFFFF]);
            }
            _ => n = number(64, rng) | 1,
        }
    }
    vec![list.into(), n.into()]
}

/// What short lines are made of, their ends apart: a CR among it, since only one just before the end belongs to that.
const SHORT_LINES: &[u8] = b":0F\x0B\x09\r";
/// What may stand at a line's end: also two CRs, and a CR where no LF follows.
const ENDS: &[&[u8]] = &[b"\n", b"\n", b"\r\n", b"\r\n", b"\r\r\n"];

/// A text of so many short lines, and where each of them begins.
fn short_lines(count: usize, rng: &mut Rng) -> (Vec<u8>, Vec<usize>) {
    let mut text = Vec::new();
    let mut starts = Vec::new();
    for i in 0..count {
        starts.push(text.len());
        for _ in 0..rng.pick(&[0, 0, 1, 2, 5, 9, 17]) {
            text.push(rng.pick(SHORT_LINES));
        }
        let end = if i + 1 < count || rng.chance(60) {
            rng.pick(ENDS)
        } else {
            // The text's end is the line's end as well.
            rng.pick(&[b"\r".as_slice(), b"\r\r", b"", b":"])
        };
        text.extend(end);
    }
    (text, starts)
}

/// A text of short lines, or none.
pub fn first_number(nothing: bool, rng: &mut Rng) -> Vec<Field> {
    let lines = if nothing { 0 } else { rng.between(1, 8) };
    vec![short_lines(lines, rng).0.into()]
}

/// A text of three to five short lines, or of fewer.
pub fn third_line(nothing: bool, rng: &mut Rng) -> Vec<Field> {
    let lines = if nothing {
        rng.below(3)
    } else {
        rng.between(3, 5)
    };
    vec![short_lines(lines, rng).0.into()]
}

/// A text of short lines, a place in it (mostly where a line begins) or past it, and the number of the line before.
pub fn next_line(nothing: bool, rng: &mut Rng) -> Vec<Field> {
    let lines = rng.below(8) + usize::from(!nothing);
    let (text, starts) = short_lines(lines, rng);
    let at = match rng.below(3) {
        0 | 1 if !nothing => rng.pick(&starts) as u64,
        _ if !nothing => rng.below(text.len().max(1)) as u64,
        0 => text.len() as u64,
        1 => u64::MAX - rng.below(3) as u64,
        _ => text.len() as u64 + rng.below(9) as u64,
    };
    vec![text.into(), at.into(), number(32, rng).into()]
}

/// A number of so many bits, often one where a digit more begins.
fn count(bits: u32, rng: &mut Rng) -> u64 {
    if rng.chance(50) {
        return number(bits, rng);
    }
    let most = (1u64 << bits) - 1;
    let round = 10u64.pow(rng.below(10) as u32);
    (round - rng.below(2) as u64).min(most)
}

/// What a program's lines are made of, and a buffer with room for the line, or too short where that is aimed at.
pub fn print(name: &str, short: bool, rng: &mut Rng) -> Vec<Field> {
    let (mut fields, text): (Vec<Field>, Vec<u8>) = match name {
        "refusal" => {
            let (number, line, column) = (count(8, rng), count(32, rng), count(32, rng));
            let text = own::refusal(number as u32, line, column);
            (vec![number.into(), line.into(), column.into()], text)
        }
        "sum" => {
            let word = number(16, rng);
            (vec![word.into()], own::sum(word as u16))
        }
        "verdict" => {
            let number = match rng.below(4) {
                0 | 1 => 40,
                2 => rng.pick(&[0, 41]),
                _ => count(8, rng),
            };
            let (address, count) = (super::number(16, rng), count(32, rng));
            let text = own::verdict(number as u32, address as u16, count);
            (vec![number.into(), address.into(), count.into()], text)
        }
        _ => {
            let length = if rng.chance(95) {
                rng.between(1, 60)
            } else {
                rng.between(1, 3_000)
            };
            let text = lent(length, rng);
            (vec![text.clone().into()], text)
        }
    };
    let length = room(text.len(), short, rng);
    fields.push(lent(length, rng).into());
    fields
}
