//! Requests and answers as lines of fields: numbers, bytes, and words of 16 bits.

use crate::model::LATCHES;

/// The longest request line, with its LF.
pub const LINE_MAX: usize = 1_310_720;
/// The most bytes of a field.
pub const BYTES_MAX: usize = 262_144;
/// The most bytes of HEX text, and of the buffer for it, in the two calls that have them: the reader takes one fewer.
pub const HEX_BYTES_MAX: usize = 524_289;
pub const WORDS_MAX: usize = 65_536;

#[derive(Clone, Debug, PartialEq, Eq)]
pub enum Field {
    Num(u64),
    Bytes(Vec<u8>),
    Words(Vec<u16>),
}

/// What a call wants at a place of its request.
#[derive(Clone, Copy, Debug, PartialEq, Eq)]
pub enum Kind {
    /// A number of that many bits.
    Num(u32),
    Bytes,
    /// HEX text, or the buffer for it.
    HexBytes,
    Words,
    /// Exactly as many words as there are latches.
    Latches,
}

impl Kind {
    /// The most bytes or words of such a field; a number has neither.
    pub fn most(self) -> usize {
        match self {
            Kind::Num(_) => 0,
            Kind::Bytes => BYTES_MAX,
            Kind::HexBytes => HEX_BYTES_MAX,
            Kind::Words => WORDS_MAX,
            Kind::Latches => LATCHES,
        }
    }
}

impl From<u64> for Field {
    fn from(n: u64) -> Field {
        Field::Num(n)
    }
}

impl From<u32> for Field {
    fn from(n: u32) -> Field {
        Field::Num(u64::from(n))
    }
}

impl From<u16> for Field {
    fn from(n: u16) -> Field {
        Field::Num(u64::from(n))
    }
}

impl From<u8> for Field {
    fn from(n: u8) -> Field {
        Field::Num(u64::from(n))
    }
}

impl From<usize> for Field {
    fn from(n: usize) -> Field {
        Field::Num(n as u64)
    }
}

impl From<Vec<u8>> for Field {
    fn from(b: Vec<u8>) -> Field {
        Field::Bytes(b)
    }
}

impl From<Vec<u16>> for Field {
    fn from(w: Vec<u16>) -> Field {
        Field::Words(w)
    }
}

const DIGITS: &[u8; 16] = b"0123456789ABCDEF";

/// The field's text at the end of `line`.
pub fn put(line: &mut Vec<u8>, field: &Field) {
    match field {
        Field::Num(n) => line.extend_from_slice(n.to_string().as_bytes()),
        Field::Bytes(b) if b.is_empty() => line.push(b'-'),
        Field::Words(w) if w.is_empty() => line.push(b'-'),
        Field::Bytes(b) => {
            for x in b {
                line.push(DIGITS[usize::from(x >> 4)]);
                line.push(DIGITS[usize::from(x & 15)]);
            }
        }
        Field::Words(w) => {
            for x in w {
                for shift in [12, 8, 4, 0] {
                    line.push(DIGITS[usize::from((x >> shift) & 15)]);
                }
            }
        }
    }
}

/// A whole line without its LF.
pub fn line(name: &str, fields: &[Field]) -> Vec<u8> {
    let mut out = name.as_bytes().to_vec();
    for f in fields {
        out.push(b' ');
        put(&mut out, f);
    }
    out
}

/// The nibbles of a text of hex digits of either case, `unit` digits a value; `-` is none.
fn values(text: &[u8], unit: usize, most: usize) -> Option<Vec<u16>> {
    if text == b"-" {
        return Some(Vec::new());
    }
    if text.is_empty() || !text.len().is_multiple_of(unit) || text.len() / unit > most {
        return None;
    }
    text.chunks(unit)
        .map(|digits| {
            digits.iter().try_fold(0u16, |sum, &c| {
                let digit = (c as char).to_digit(16)?;
                Some(sum * 16 + digit as u16)
            })
        })
        .collect()
}

fn number(text: &[u8], bits: u32) -> Option<u64> {
    let lawful = !text.is_empty()
        && text.iter().all(u8::is_ascii_digit)
        && (text[0] != b'0' || text.len() == 1);
    if !lawful {
        return None;
    }
    let n: u64 = std::str::from_utf8(text).ok()?.parse().ok()?;
    (bits == 64 || n >> bits == 0).then_some(n)
}

/// A field of that kind, or nothing where the text is not one.
pub fn parse(text: &[u8], kind: Kind) -> Option<Field> {
    match kind {
        Kind::Num(bits) => number(text, bits).map(Field::Num),
        Kind::Bytes | Kind::HexBytes => {
            let bytes = values(text, 2, kind.most())?;
            Some(Field::Bytes(bytes.iter().map(|&b| b as u8).collect()))
        }
        Kind::Words => values(text, 4, kind.most()).map(Field::Words),
        Kind::Latches => {
            let words = values(text, 4, kind.most())?;
            (words.len() == LATCHES).then_some(Field::Words(words))
        }
    }
}

pub fn num(fields: &[Field], i: usize) -> u64 {
    match &fields[i] {
        Field::Num(n) => *n,
        other => panic!("field {i} is no number: {other:?}"),
    }
}

pub fn bytes(fields: &[Field], i: usize) -> &[u8] {
    match &fields[i] {
        Field::Bytes(b) => b,
        other => panic!("field {i} is not bytes: {other:?}"),
    }
}

pub fn words(fields: &[Field], i: usize) -> &[u16] {
    match &fields[i] {
        Field::Words(w) => w,
        other => panic!("field {i} is not words: {other:?}"),
    }
}
