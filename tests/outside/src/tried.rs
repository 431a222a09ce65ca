//! Whether some word fits two lines of a table, told by trying every word on every pair of lines. The rule that our own
//! implementation goes by is held against this, and so is what the command answers.

use crate::device::{lines, Device, LINES_MAX};

/// 16,384 words, a bit each.
type Words = [u64; 256];

/// The words that fit a line, each of them tried: not in the implementation's terms, and not by its rule.
fn fitting(d: &Device) -> Words {
    let mut words = [0; 256];
    for (high, bits) in words.iter_mut().enumerate() {
        for low in 0..64 {
            let word = (64 * high + low) as u16;
            let fits = word & d.idmask == d.id & d.idmask;
            *bits |= u64::from(fits) << low;
        }
    }
    words
}

/// A table of which every word was tried.
pub struct Tried {
    /// Whether the rule says the same of every pair of lines.
    pub as_ruled: bool,
    pub sound: bool,
}

pub fn table(text: &[u8]) -> Tried {
    let mut tried = Tried {
        as_ruled: true,
        sound: false,
    };
    // A line that is malformed by itself has no words to try.
    let Some(listed) = lines(text) else {
        return tried;
    };
    let words: Vec<Words> = listed.iter().map(|l| fitting(&l.device)).collect();
    tried.sound = (1..=LINES_MAX).contains(&listed.len());
    for i in 0..listed.len() {
        for k in 0..i {
            let both = words[i].iter().zip(&words[k]).any(|(a, b)| a & b != 0);
            tried.as_ruled &= both == listed[i].device.clashes(&listed[k].device);
            tried.sound &= !both;
        }
    }
    tried
}
