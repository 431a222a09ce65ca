//! The device record and its rules (13), the device table (15, 16), images.

use crate::words::{capital_word, decimal, NOT_GIVEN, WORD_MAX};
use std::ops::Range;

/// The most program words of a device.
pub const PROGRAM_MAX: u16 = 32_768;
/// The most lines of a table.
pub const LINES_MAX: usize = 64;
/// CP in configuration word 1: 0 means protected.
pub const CP: u16 = 1 << 7;

#[derive(Clone, Copy, Debug, PartialEq, Eq)]
pub struct Device {
    pub id: u16,
    pub words: u16,
    pub row: u16,
    pub mask1: u16,
    pub mask2: u16,
    pub idmask: u16,
}

impl Device {
    /// What a call answers where it has no record.
    pub const NONE: Device = Device {
        id: 0,
        words: 0,
        row: 0,
        mask1: 0,
        mask2: 0,
        idmask: 0,
    };

    /// P, as a length.
    pub fn p(&self) -> usize {
        usize::from(self.words)
    }

    /// R, as a length.
    pub fn r(&self) -> usize {
        usize::from(self.row)
    }

    /// How long a reading and an image are.
    pub fn entries(&self) -> usize {
        self.p() + 9
    }

    /// How long the cells are.
    pub fn cells(&self) -> usize {
        self.p() + 11
    }

    pub fn lawful(&self) -> bool {
        let words = [self.id, self.mask1, self.mask2, self.idmask];
        let row = matches!(self.row, 8 | 16 | 32);
        words.iter().all(|&w| w <= WORD_MAX)
            && row
            && self.mask1 & CP != 0
            && self.words >= self.row
            && self.words <= PROGRAM_MAX
            && self.words.is_multiple_of(self.row)
    }

    /// Whether a number is a word that has the ID's bits wherever the ID's mask has a 1. Nothing is judged: bits of ID and mask
    /// above the 14 count as any other.
    pub fn fits(&self, number: u16) -> bool {
        number <= WORD_MAX && (number ^ self.id) & self.idmask == 0
    }

    /// Whether some word fits both of two lawful devices: their IDs agree wherever both masks have a 1.
    pub fn clashes(&self, other: &Device) -> bool {
        (self.id ^ other.id) & self.idmask & other.idmask == 0
    }

    /// The mask of an entry: the record's at the two configuration words, every bit elsewhere.
    pub fn mask(&self, entry: usize) -> u16 {
        match entry.checked_sub(self.p()) {
            Some(7) => self.mask1,
            Some(8) => self.mask2,
            _ => WORD_MAX,
        }
    }

    /// The spare bits of an entry: those of a word that its mask has not.
    pub fn spare(&self, entry: usize) -> u16 {
        WORD_MAX & !self.mask(entry)
    }

    /// New bits under the mask of an entry, old ones in its spare bits. Nothing is judged, so numbers may have more than 14
    /// bits: those above are the new one's, and no mask's.
    pub fn under_mask(&self, entry: usize, new: u16, old: u16) -> u16 {
        let spare = self.spare(entry);
        (new & !spare) | (old & spare)
    }

    /// Whether a list is a reading of this device.
    pub fn is_reading(&self, list: &[u16]) -> bool {
        is_reading(self.p(), list)
    }

    /// Whether a reading, or cells, of this device is protected.
    pub fn protected(&self, list: &[u16]) -> bool {
        list[self.p() + 7] & CP == 0
    }
}

/// A line of the table: the record, and where the name stands.
pub struct Listed {
    pub device: Device,
    pub name: Range<usize>,
}

impl Listed {
    /// What a call answers where it has no line.
    pub const NONE: Listed = Listed {
        device: Device::NONE,
        name: 0..0,
    };
}

/// Whether bytes are a name as tables have them.
pub fn is_name(bytes: &[u8]) -> bool {
    (1..=16).contains(&bytes.len()) && bytes.iter().all(|c| (0x20..=0x7E).contains(c))
}

/// The name of that many bytes from a place of a table on: as much of it as the table has.
pub fn name_of(table: &[u8], at: u64, length: u64) -> Vec<u8> {
    let within = |&(i, _): &(u64, &u8)| i.checked_sub(at).is_some_and(|k| k < length);
    (0..).zip(table).filter(within).map(|(_, &c)| c).collect()
}

/// A line with its LF taken off: six fields, or seven with the ID's mask last.
fn table_line(line: &[u8], at: usize) -> Option<Listed> {
    let fields: Vec<&[u8]> = line.split(|&c| c == b'\t').collect();
    let (&[name, id, words, row, mask1, mask2], rest) = fields.split_first_chunk()?;
    let idmask = match rest {
        [] => WORD_MAX,
        [field] => capital_word(field)?,
        _ => return None,
    };
    if !is_name(name) {
        return None;
    }
    let device = Device {
        id: capital_word(id)?,
        words: decimal(words, u32::from(PROGRAM_MAX))? as u16,
        row: decimal(row, 32)? as u16,
        mask1: capital_word(mask1)?,
        mask2: capital_word(mask2)?,
        idmask,
    };
    device.lawful().then_some(Listed {
        device,
        name: at..at + name.len(),
    })
}

/// The lines of a text, or nothing where one of them breaks a rule by itself.
pub fn lines(text: &[u8]) -> Option<Vec<Listed>> {
    let mut listed: Vec<Listed> = Vec::new();
    let mut at = 0;
    while at < text.len() {
        let length = text[at..].iter().position(|&c| c == b'\n')?;
        listed.push(table_line(&text[at..at + length], at)?);
        at += length + 1;
    }
    Some(listed)
}

/// The lines of a table, or nothing where it is malformed. Any two are held against each other, neighbours or not.
pub fn table(text: &[u8]) -> Option<Vec<Listed>> {
    let listed = lines(text)?;
    let clash = listed.iter().enumerate().any(|(i, line)| {
        let mut before = listed[..i].iter();
        before.any(|l| l.device.clashes(&line.device))
    });
    let count = (1..=LINES_MAX).contains(&listed.len());
    (count && !clash).then_some(listed)
}

/// The table's line that a number fits, as the line has it: 15, then 16.
pub fn find(text: &[u8], number: u16) -> Result<Listed, u32> {
    let listed = table(text).ok_or(15u32)?;
    let fitting = |l: &Listed| l.device.fits(number);
    listed.into_iter().find(fitting).ok_or(16)
}

/// Whether a list is a reading with that many program words.
pub fn is_reading(words: usize, list: &[u16]) -> bool {
    list.len() == words + 9 && list.iter().all(|&w| w <= WORD_MAX)
}

/// Whether a list with that many program words has CP = 0; a word that is not there counts as 0.
pub fn is_protected(words: usize, list: &[u16]) -> bool {
    list.get(words + 7).is_none_or(|&w| w & CP == 0)
}

/// Whether an entry is a program word, a user ID or a configuration word.
pub fn programmable(words: u16, i: u64) -> bool {
    let past = i.checked_sub(u64::from(words));
    matches!(past, None | Some(0..=3) | Some(7..=8))
}

/// Whether a list is an image with that many program words.
pub fn is_image(words: usize, list: &[u16]) -> bool {
    list.len() == words + 9
        && list.iter().all(|&w| w <= WORD_MAX || w == NOT_GIVEN)
        && list[words + 4..words + 7].iter().all(|&w| w == NOT_GIVEN)
}
