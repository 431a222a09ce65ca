//! The target model: entry, a single step, a run.

use crate::device::Device;
use crate::words::WORD_MAX;

/// Latch places that are carried, whatever R is.
pub const LATCHES: usize = 32;

pub const LOAD_CONFIGURATION: u8 = 0x00;
pub const LOAD_DATA: u8 = 0x02;
pub const READ: u8 = 0x04;
pub const INCREMENT: u8 = 0x06;
pub const BEGIN: u8 = 0x08;
pub const BULK_ERASE: u8 = 0x09;
pub const ROW_ERASE: u8 = 0x11;
pub const RESET: u8 = 0x16;

#[derive(Clone, Debug, PartialEq, Eq)]
pub struct Registers {
    pub counter: u16,
    pub latches: [u16; LATCHES],
}

/// The registers after entry.
pub fn entry() -> Registers {
    Registers {
        counter: 0,
        latches: [WORD_MAX; LATCHES],
    }
}

/// The cell at a word address, where something exists.
fn cell(d: &Device, address: u16) -> Option<usize> {
    let a = usize::from(address);
    match a {
        _ if a < d.p() => Some(a),
        0x8000..=0x800A => Some(d.p() + a - 0x8000),
        _ => None,
    }
}

/// Whether the cells have their length and are words.
pub fn sound_cells(d: &Device, cells: &[u16]) -> bool {
    cells.len() == d.cells() && cells.iter().all(|&w| w <= WORD_MAX)
}

fn payload_is_good(code: u8, payload: u16) -> bool {
    match code {
        // A load's payload is the word times two.
        LOAD_CONFIGURATION | LOAD_DATA => payload.is_multiple_of(2) && payload / 2 <= WORD_MAX,
        _ => payload == 0,
    }
}

/// The first cell of the program row that the counter stands in; nothing outside program words.
fn row(d: &Device, counter: u16) -> Option<usize> {
    let a = usize::from(counter);
    (a < d.p()).then_some(a - a % d.r())
}

fn begin(d: &Device, registers: &mut Registers, cells: &mut [u16]) {
    let p = d.p();
    let counter = registers.counter;
    match counter {
        0x8000..=0x8003 | 0x8007 | 0x8008 => {
            let latch = registers.latches[usize::from(counter) % d.r()];
            let i = p + usize::from(counter - 0x8000);
            // Only a bit that is there goes to 0.
            let cleared = d.mask(i) & !latch;
            cells[i] &= !cleared;
        }
        _ => {
            if let Some(first) = row(d, counter).filter(|_| !d.protected(cells)) {
                for k in 0..d.r() {
                    cells[first + k] &= registers.latches[k];
                }
            }
        }
    }
    registers.latches = [WORD_MAX; LATCHES];
}

/// No configuration write: it sets spare bits too.
fn bulk_erase(d: &Device, counter: u16, cells: &mut [u16]) {
    let p = d.p();
    cells[..p].fill(WORD_MAX);
    cells[p + 7..p + 9].fill(WORD_MAX);
    if counter >= 0x8000 {
        cells[p..p + 4].fill(WORD_MAX);
    }
}

fn row_erase(d: &Device, counter: u16, cells: &mut [u16]) {
    let p = d.p();
    if (0x8000..=0x8008).contains(&counter) {
        cells[p..p + 4].fill(WORD_MAX);
    } else if let Some(first) = row(d, counter).filter(|_| !d.protected(cells)) {
        cells[first..first + d.r()].fill(WORD_MAX);
    }
}

/// What a step does with sound cells: the word read if any, or 30, 31, 33, 35 and nothing changed.
pub fn act(
    d: &Device,
    registers: &mut Registers,
    cells: &mut [u16],
    code: u8,
    payload: u16,
    room: bool,
) -> Result<Option<u16>, u32> {
    let known = [
        LOAD_CONFIGURATION,
        LOAD_DATA,
        READ,
        INCREMENT,
        BEGIN,
        BULK_ERASE,
        ROW_ERASE,
        RESET,
    ];
    if !known.contains(&code) {
        return Err(30);
    }
    if !payload_is_good(code, payload) {
        return Err(31);
    }
    let counter = registers.counter;
    match code {
        LOAD_CONFIGURATION => {
            registers.counter = 0x8000;
            registers.latches[0] = payload / 2;
        }
        LOAD_DATA => registers.latches[usize::from(counter) % d.r()] = payload / 2,
        READ => {
            if !room {
                return Err(35);
            }
            let hidden = usize::from(counter) < d.p() && d.protected(cells);
            let word = cell(d, counter).map_or(0, |i| cells[i]);
            return Ok(Some(if hidden { 0 } else { word }));
        }
        INCREMENT => {
            registers.counter = match counter {
                0x7FFF => 0x0000,
                0xFFFF => 0x8000,
                _ => counter + 1,
            }
        }
        BEGIN => begin(d, registers, cells),
        BULK_ERASE if counter > 0x8008 => return Err(33),
        BULK_ERASE => bulk_erase(d, counter, cells),
        ROW_ERASE => row_erase(d, counter, cells),
        _ => registers.counter = 0,
    }
    Ok(None)
}

/// A single step as a call: 13, 32, then 30, 31, 33, 35.
pub fn step(
    d: &Device,
    registers: &mut Registers,
    code: u8,
    payload: u16,
    words: &mut [u16],
    cells: &mut [u16],
) -> u32 {
    if !d.lawful() {
        return 13;
    }
    let latches_good = registers.latches[..d.r()].iter().all(|&w| w <= WORD_MAX);
    if !sound_cells(d, cells) || !latches_good {
        return 32;
    }
    match act(d, registers, cells, code, payload, !words.is_empty()) {
        Err(number) => number,
        Ok(read) => {
            if let Some(word) = read {
                words[0] = word;
            }
            0
        }
    }
}

#[derive(Debug, PartialEq, Eq)]
pub struct Run {
    pub number: u32,
    pub steps: u64,
    pub read: usize,
}

/// A trial run as a call: 13, 32, 34, then the steps in turn.
pub fn run(d: &Device, cells: &mut [u16], stream: &[u8], allowance: u64, words: &mut [u16]) -> Run {
    let refused = |number| Run {
        number,
        steps: 0,
        read: 0,
    };
    if !d.lawful() {
        return refused(13);
    }
    if !sound_cells(d, cells) {
        return refused(32);
    }
    if !stream.len().is_multiple_of(3) {
        return refused(34);
    }
    let mut registers = entry();
    let mut steps = 0;
    let mut read = 0;
    for three in stream.chunks(3) {
        if steps == allowance {
            break;
        }
        let payload = u16::from_le_bytes([three[1], three[2]]);
        let room = read < words.len();
        match act(d, &mut registers, cells, three[0], payload, room) {
            Err(number) => {
                // of a refusal's values only the steps completed are kept
                return Run {
                    number,
                    steps,
                    read: 0,
                };
            }
            Ok(Some(word)) => {
                words[read] = word;
                read += 1;
            }
            Ok(None) => {}
        }
        steps += 1;
    }
    Run {
        number: 0,
        steps,
        read,
    }
}
