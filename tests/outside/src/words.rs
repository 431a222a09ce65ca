//! Words of 14 bits, the two kinds of address, hex and decimal text.
//!
//! The paper says what these are for and not what they answer where there is nothing to answer; those
//! answers are conventions, named here in one place.

/// The largest word.
pub const WORD_MAX: u16 = 0x3FFF;
/// An image's entry for 'not given'.
pub const NOT_GIVEN: u16 = 0xFFFF;
/// The first word address of configuration space.
pub const CONFIG: u16 = 0x8000;

/// What `digit` and `capital` answer for a character that is no digit.
pub const NO_DIGIT: u32 = 16;
/// What the readers of two digits answer where there are none.
pub const NO_BYTE: u32 = 256;
/// What the readers of four digits answer where there are none.
pub const NO_WORD: u32 = 65_536;

/// The byte address of a word address.
pub fn double(a: u16) -> u32 {
    2 * u32::from(a)
}

/// The word address of a byte address, where it has one.
pub fn halve(b: u64) -> Option<u16> {
    if b % 2 == 1 {
        return None;
    }
    u16::try_from(b / 2).ok()
}

/// The entry of a word address in a list of `words` words and, from `base`, `tail` more.
pub fn entry_of(base: u16, words: u16, tail: u8, a: u16) -> Option<usize> {
    if a < words {
        return Some(usize::from(a));
    }
    let k = a.checked_sub(base)?;
    (k < u16::from(tail)).then(|| usize::from(words) + usize::from(k))
}

/// The word address of an entry of such a list; an address has 16 bits.
pub fn address_of(base: u16, words: u16, tail: u8, entry: u64) -> Option<u16> {
    if entry < u64::from(words) {
        return u16::try_from(entry).ok();
    }
    let k = entry - u64::from(words);
    if k >= u64::from(tail) {
        return None;
    }
    u16::try_from(u64::from(base) + k).ok()
}

/// The value of a hex digit of either case.
pub fn digit(c: u8) -> Option<u8> {
    match c {
        b'a'..=b'f' => Some(c - b'a' + 10),
        _ => capital(c),
    }
}

/// The value of a hex digit of which letters are capitals.
pub fn capital(c: u8) -> Option<u8> {
    match c {
        b'0'..=b'9' => Some(c - b'0'),
        b'A'..=b'F' => Some(c - b'A' + 10),
        _ => None,
    }
}

/// The number that `count` digits from `at` on spell, high digit first.
pub fn spelled(text: &[u8], at: u64, count: usize, value: fn(u8) -> Option<u8>) -> Option<u32> {
    let at = usize::try_from(at).ok()?;
    let end = at.checked_add(count)?;
    text.get(at..end)?
        .iter()
        .try_fold(0u32, |sum, &c| Some(sum * 16 + u32::from(value(c)?)))
}

/// A field of four capital hex digits, whole.
pub fn capital_word(text: &[u8]) -> Option<u16> {
    if text.len() != 4 {
        return None;
    }
    spelled(text, 0, 4, capital).map(|w| w as u16)
}

/// Puts a text at a place; what has no room falls away.
pub fn put(out: &mut [u8], at: u64, text: &[u8]) {
    for (k, &c) in text.iter().enumerate() {
        let place = u128::from(at) + k as u128;
        if let Some(slot) = usize::try_from(place).ok().and_then(|i| out.get_mut(i)) {
            *slot = c;
        }
    }
}

pub fn byte_text(b: u8) -> Vec<u8> {
    format!("{b:02X}").into_bytes()
}

pub fn word_text(w: u16) -> Vec<u8> {
    format!("{w:04X}").into_bytes()
}

/// A decimal without a leading zero that is at most `bound`.
pub fn decimal(text: &[u8], bound: u32) -> Option<u32> {
    if text.is_empty() || (text[0] == b'0' && text.len() > 1) {
        return None;
    }
    text.iter().try_fold(0u32, |sum, &c| {
        if !c.is_ascii_digit() {
            return None;
        }
        let next = u64::from(sum) * 10 + u64::from(c - b'0');
        (next <= u64::from(bound)).then_some(next as u32)
    })
}

/// Whether a list has that many words, all of 14 bits.
pub fn is_words(list: &[u16], n: u64) -> bool {
    list.len() as u64 == n && list.iter().all(|&w| w <= WORD_MAX)
}

/// What `entry_of` answers for an address that has no entry: the list's length, where no entry is.
pub fn no_entry(words: u16, tail: u8) -> u64 {
    u64::from(words) + u64::from(tail)
}

/// What `decimal` answers where there is none: one more than any that is lawful.
pub fn no_decimal(bound: u32) -> u64 {
    u64::from(bound) + 1
}

/// The first place of a byte that is at least `from`, below `to` and in the text.
pub fn find(text: &[u8], from: u64, to: u64, mark: u8) -> Option<u64> {
    let places = (0..).zip(text).filter(|&(at, &c)| c == mark && at >= from);
    places.map(|(at, _)| at).min().filter(|&at| at < to)
}

/// What `find` answers where the byte is not: where it stopped to look, which is where it began if nothing was to be looked at.
pub fn no_mark(text: &[u8], from: u64, to: u64) -> u64 {
    to.min(text.len() as u64).max(from)
}
