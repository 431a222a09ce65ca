//! Wanted, and the three streams: update, fresh, read-back.

use crate::device::{is_image, Device};
use crate::model::{
    BEGIN, BULK_ERASE, INCREMENT, LOAD_CONFIGURATION, LOAD_DATA, READ, RESET, ROW_ERASE,
};
use crate::words::{NOT_GIVEN, WORD_MAX};
use std::ops::Range;

/// Places of the user IDs and of the configuration words, counted from 8000h.
const IDS: [usize; 4] = [0, 1, 2, 3];
const CONFIGURATION: [usize; 2] = [7, 8];

/// A stream while it is written; the counter as it stands in the target, so that Increments go on from there.
struct Writer {
    bytes: Vec<u8>,
    counter: usize,
}

impl Writer {
    fn new() -> Writer {
        Writer {
            bytes: Vec::new(),
            counter: 0,
        }
    }

    fn order(&mut self, code: u8) {
        self.bytes.extend([code, 0, 0]);
    }

    fn reset(&mut self) {
        self.order(RESET);
        self.counter = 0;
    }

    fn load(&mut self, code: u8, word: u16) {
        self.bytes.push(code);
        self.bytes.extend((word * 2).to_le_bytes());
    }

    fn load_configuration(&mut self) {
        self.load(LOAD_CONFIGURATION, WORD_MAX);
        self.counter = 0x8000;
    }

    fn increments_to(&mut self, address: usize) {
        assert!(self.counter <= address, "an address cannot go down");
        while self.counter < address {
            self.order(INCREMENT);
            self.counter += 1;
        }
    }

    /// A row: its erase if asked for, its words, Begin.
    fn row(&mut self, first: usize, words: &[u16], erase: bool) {
        self.increments_to(first);
        if erase {
            self.order(ROW_ERASE);
        }
        for (k, &w) in words.iter().enumerate() {
            self.increments_to(first + k);
            self.load(LOAD_DATA, w);
        }
        self.order(BEGIN);
    }

    /// One word in configuration space.
    fn word(&mut self, k: usize, word: u16) {
        self.increments_to(0x8000 + k);
        self.load(LOAD_DATA, word);
        self.order(BEGIN);
    }

    fn read(&mut self, address: usize) {
        self.increments_to(address);
        self.order(READ);
    }
}

/// Wanted of one entry: what was there where the image is silent, and in the spare bits of what it gives.
fn wanted_word(d: &Device, entry: usize, image: u16, before: u16) -> u16 {
    if image == NOT_GIVEN {
        before
    } else {
        d.under_mask(entry, image, before)
    }
}

/// Wanted of an update: over the reading; 8004h to 8006h are never given.
pub fn wanted_over(d: &Device, image: &[u16], reading: &[u16]) -> Vec<u16> {
    image
        .iter()
        .zip(reading)
        .enumerate()
        .map(|(i, (&new, &old))| wanted_word(d, i, new, old))
        .collect()
}

/// Wanted of a fresh programming: over 3FFFh.
pub fn wanted_blank(d: &Device, image: &[u16]) -> Vec<u16> {
    wanted_over(d, image, &vec![WORD_MAX; image.len()])
}

/// What is known of an entry: the reading's word, 3FFFh past its end.
fn known_at(reading: &[u16], i: u64) -> u16 {
    entry_at(reading, i).unwrap_or(WORD_MAX)
}

fn entry_at(list: &[u16], i: u64) -> Option<u16> {
    usize::try_from(i).ok().and_then(|i| list.get(i).copied())
}

/// Whether the image gives an entry, and what is wanted there. Nothing is judged: past the image's end nothing is given.
pub fn wanted_at(d: &Device, image: &[u16], reading: &[u16], i: u64) -> (bool, u16) {
    let before = known_at(reading, i);
    match entry_at(image, i).filter(|&entry| entry != NOT_GIVEN) {
        Some(given) => (true, wanted_word(d, i as usize, given, before)),
        None => (false, before),
    }
}

/// A record, an image and a reading of which nothing is judged: what an update of them would ask of single words.
pub struct Unjudged<'a> {
    pub d: Device,
    pub image: &'a [u16],
    pub reading: &'a [u16],
}

impl Unjudged<'_> {
    /// What is wanted of an entry, and what is known of it.
    fn pair(&self, i: u64) -> (u16, u16) {
        let (_, wanted) = wanted_at(&self.d, self.image, self.reading, i);
        (wanted, known_at(self.reading, i))
    }

    fn differs(&self, i: u64) -> bool {
        let (wanted, known) = self.pair(i);
        wanted != known
    }

    fn rises(&self, i: u64) -> bool {
        let (wanted, known) = self.pair(i);
        rises(wanted, known)
    }

    /// The entries of program row `k`; the product does not wrap, and the row may lie past every list.
    fn row(&self, k: u16) -> Range<u64> {
        let (k, r) = (u64::from(k), u64::from(self.d.row));
        k * r..k * r + r
    }

    /// The entry of a word of configuration space.
    fn configuration(&self, k: u64) -> u64 {
        u64::from(self.d.words) + k
    }

    fn ids(&self) -> Range<u64> {
        self.configuration(0)..self.configuration(4)
    }

    pub fn row_differs(&self, k: u16) -> bool {
        self.row(k).any(|i| self.differs(i))
    }

    pub fn row_rises(&self, k: u16) -> bool {
        self.row(k).any(|i| self.rises(i))
    }

    pub fn id_differs(&self) -> bool {
        self.ids().any(|i| self.differs(i))
    }

    pub fn id_rises(&self) -> bool {
        self.ids().any(|i| self.rises(i))
    }

    /// Whether a word of configuration space is written.
    pub fn is_written(&self, k: u64, all_ids: bool) -> bool {
        match k {
            0..=3 => all_ids || self.differs(self.configuration(k)),
            7 | 8 => self.differs(self.configuration(k)),
            _ => false,
        }
    }
}

/// Whether a number has a 1 where another has a 0: no write gets there without an erase before it.
fn rises(wanted: u16, known: u16) -> bool {
    wanted & !known != 0
}

/// Whether one of these words rises.
fn some_rises(wanted: &[u16], known: &[u16]) -> bool {
    wanted.iter().zip(known).any(|(&w, &k)| rises(w, k))
}

pub fn update_stream(d: &Device, wanted: &[u16], reading: &[u16]) -> Vec<u8> {
    let (p, r) = (d.p(), d.r());
    let mut s = Writer::new();
    s.reset();
    for first in (0..p).step_by(r) {
        let row = first..first + r;
        let (new, old) = (&wanted[row.clone()], &reading[row]);
        if new != old {
            s.row(first, new, some_rises(new, old));
        }
    }
    let differs = |k: &usize| wanted[p + k] != reading[p + k];
    let ids = IDS.iter().any(differs);
    if ids || CONFIGURATION.iter().any(differs) {
        s.load_configuration();
        if ids {
            if some_rises(&wanted[p..p + 4], &reading[p..p + 4]) {
                s.order(ROW_ERASE);
            }
            for k in IDS {
                s.word(k, wanted[p + k]);
            }
        }
        for k in CONFIGURATION.into_iter().filter(differs) {
            s.word(k, wanted[p + k]);
        }
    }
    s.bytes
}

/// How many Row Erases a stream has.
pub fn row_erases(stream: &[u8]) -> usize {
    stream.chunks(3).filter(|s| s[0] == ROW_ERASE).count()
}

pub fn fresh_stream(d: &Device, wanted: &[u16]) -> Vec<u8> {
    let (p, r) = (d.p(), d.r());
    let mut s = Writer::new();
    s.load_configuration();
    s.order(BULK_ERASE);
    s.reset();
    for first in (0..p).step_by(r) {
        let row = &wanted[first..first + r];
        if row.iter().any(|&w| w != WORD_MAX) {
            s.row(first, row, false);
        }
    }
    let written: Vec<usize> = IDS
        .into_iter()
        .chain(CONFIGURATION)
        .filter(|k| wanted[p + k] != WORD_MAX)
        .collect();
    if !written.is_empty() {
        s.load_configuration();
        for k in written {
            s.word(k, wanted[p + k]);
        }
    }
    s.bytes
}

pub fn read_back_stream(d: &Device) -> Vec<u8> {
    let mut s = Writer::new();
    s.reset();
    for a in 0..d.p() {
        s.read(a);
    }
    s.load_configuration();
    for a in 0x8000..=0x8008 {
        s.read(a);
    }
    s.bytes
}

/// The most steps of an update or a fresh stream.
pub fn steps_bound(d: &Device) -> usize {
    2 * d.p() + 2 * d.p() / d.r() + 22
}

/// What refuses an update, room apart: 13, 20, 21, 22, 23, 24.
pub fn update_refusal(d: &Device, image: &[u16], reading: &[u16]) -> Option<u32> {
    if !d.lawful() {
        return Some(13);
    }
    if !is_image(d.p(), image) {
        return Some(20);
    }
    if !d.is_reading(reading) {
        return Some(21);
    }
    let p = d.p();
    if !d.fits(reading[p + 6]) {
        return Some(22);
    }
    if d.protected(reading) {
        return Some(23);
    }
    let wanted = wanted_over(d, image, reading);
    let raised = |k: usize| rises(wanted[p + k], reading[p + k]);
    CONFIGURATION.into_iter().any(raised).then_some(24)
}

/// What refuses a fresh programming, room apart: 13, 20, 22.
pub fn fresh_refusal(d: &Device, image: &[u16], id_word: u16) -> Option<u32> {
    if !d.lawful() {
        return Some(13);
    }
    if !is_image(d.p(), image) {
        return Some(20);
    }
    (!d.fits(id_word)).then_some(22)
}

/// A stream put into a lent buffer (26): number and steps.
fn put(stream: &[u8], out: &mut [u8]) -> (u32, usize) {
    if stream.len() > out.len() {
        return (26, 0);
    }
    out[..stream.len()].copy_from_slice(stream);
    (0, stream.len() / 3)
}

/// The update as a call: 26 last.
pub fn update(d: &Device, image: &[u16], reading: &[u16], out: &mut [u8]) -> (u32, usize) {
    if let Some(number) = update_refusal(d, image, reading) {
        return (number, 0);
    }
    let wanted = wanted_over(d, image, reading);
    put(&update_stream(d, &wanted, reading), out)
}

/// The fresh programming as a call: 26 last.
pub fn fresh(d: &Device, image: &[u16], id_word: u16, out: &mut [u8]) -> (u32, usize) {
    if let Some(number) = fresh_refusal(d, image, id_word) {
        return (number, 0);
    }
    put(&fresh_stream(d, &wanted_blank(d, image)), out)
}

/// The read-back as a call: 13, 26.
pub fn read_back(d: &Device, out: &mut [u8]) -> (u32, usize) {
    if !d.lawful() {
        return (13, 0);
    }
    put(&read_back_stream(d), out)
}
