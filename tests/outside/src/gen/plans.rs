//! Inputs for the model and for the planners.

use super::boards::{
    also, choosy, fallen, fitting, image_for, no_word, one_bit, other_word, place_of, reading_for,
    record, spoil_image, spoil_words,
};
use super::{lent, lent_words, number, room};
use crate::board::OPENED_MAX;
use crate::device::{Device, CP};
use crate::field::{Field, WORDS_MAX};
use crate::model::{
    BEGIN, BULK_ERASE, INCREMENT, LOAD_CONFIGURATION, LOAD_DATA, READ, RESET, ROW_ERASE,
};
use crate::rng::Rng;
use crate::streams as own;
use crate::words::{NOT_GIVEN, WORD_MAX};

const CODES: [u8; 8] = [
    LOAD_CONFIGURATION,
    LOAD_DATA,
    READ,
    INCREMENT,
    BEGIN,
    BULK_ERASE,
    ROW_ERASE,
    RESET,
];

/// A code that the paper's table has not: the maker's others among them, and known ones with high bits.
fn unknown_code(rng: &mut Rng) -> u8 {
    loop {
        let code = match rng.below(3) {
            0 => rng.pick(&[
                0x18, 0x0A, 0x01, 0x03, 0x05, 0x07, 0x10, 0x12, 0x14, 0x17, 0x19,
            ]),
            1 => rng.pick(&CODES) | rng.pick(&[0x20, 0x40, 0x80]),
            _ => rng.byte(),
        };
        if !CODES.contains(&code) {
            return code;
        }
    }
}

fn good_payload(code: u8, rng: &mut Rng) -> u16 {
    match code {
        LOAD_CONFIGURATION | LOAD_DATA if rng.chance(20) => 2 * WORD_MAX,
        LOAD_CONFIGURATION | LOAD_DATA => 2 * rng.word(),
        _ => 0,
    }
}

fn bad_payload(code: u8, rng: &mut Rng) -> u16 {
    match code {
        LOAD_CONFIGURATION | LOAD_DATA => match rng.below(3) {
            0 => good_payload(code, rng) | 1,
            1 => 0x8000 | rng.u16(),
            _ => rng.pick(&[0x7FFF, 0x8000, 0xFFFF, 0xFFFE, 1]),
        },
        _ => rng.pick(&[1, 2, 0x100, 0x7FFE, 0x8000, 0xFFFF]),
    }
}

/// A counter near a place where something begins or ends.
fn counter(d: &Device, rng: &mut Rng) -> u16 {
    match rng.below(9) {
        0..=2 => rng.below(d.p()) as u16,
        // The last row, and what comes after it.
        8 => d.words - 1 - rng.below(d.r()) as u16,
        3 => d.words + rng.below(2 * d.r()) as u16,
        4 | 5 => 0x8000 + rng.below(12) as u16,
        6 => rng.pick(&[0x7FFE, 0x7FFF, 0xFFFE, 0xFFFF, 0x8000, 0]),
        _ => rng.u16(),
    }
}

/// Cells of the device.
fn cells(d: &Device, rng: &mut Rng) -> Vec<u16> {
    let mut cells = reading_for(d, rng.chance(30), rng);
    cells.extend([rng.word(), rng.word()]);
    cells
}

fn step(aim: u32, d: Device, rng: &mut Rng) -> Vec<Field> {
    let mut cells = cells(&d, rng);
    // The latches past R are carried and never looked at.
    let mut latches: Vec<u16> = (0..32)
        .map(|k| if k < d.r() { rng.word() } else { rng.u16() })
        .collect();
    let mut code = if rng.chance(30) {
        BEGIN
    } else {
        rng.pick(&CODES)
    };
    let mut at = counter(&d, rng);
    match aim {
        30 => code = unknown_code(rng),
        33 => code = BULK_ERASE,
        35 => code = READ,
        // Of what a code alone can do wrong, something stands under a bad payload.
        31 if rng.chance(40) => code = rng.pick(&[BULK_ERASE, READ]),
        _ => {}
    }
    if aim == 33 || (aim == 31 && rng.chance(40)) {
        let far = rng.between(0x8009, 0xFFFF) as u16;
        at = rng.pick(&[0x8009, 0x800A, 0x800B, 0xFFFF, far]);
    } else if code == BULK_ERASE && aim == 0 {
        at = if rng.chance(50) {
            at & 0x7FFF
        } else {
            0x8000 + rng.below(9) as u16
        };
    }
    if code == INCREMENT && rng.chance(30) {
        at = rng.pick(&[0x7FFE, 0x7FFF, 0x8000, 0xFFFE, 0xFFFF]);
    }
    if code == BEGIN && rng.chance(50) {
        // A user ID or a configuration word; the latch has zeros where the mask has ones, where it has none, or anywhere.
        let k = rng.pick(&[0, 1, 2, 3, 7, 7, 7, 8, 8, 8]);
        let mask = d.mask(d.p() + k);
        at = 0x8000 + k as u16;
        latches[k % d.r()] = match rng.below(6) {
            0 => 0,
            1 => mask,
            2 => WORD_MAX & !mask,
            3 => mask & rng.word(),
            _ => rng.word(),
        };
        if rng.chance(50) {
            cells[d.p() + k] = WORD_MAX;
        }
    }
    let payload = if aim == 31 || also(aim, &[13, 32, 30], rng) {
        bad_payload(code, rng)
    } else {
        good_payload(code, rng)
    };
    if aim == 32 || also(aim, &[13], rng) {
        if rng.chance(50) {
            spoil_words(&mut cells, rng);
        } else {
            let k = if rng.chance(50) {
                d.r() - 1
            } else {
                rng.below(d.r())
            };
            latches[k] = rng.pick(&[0x4000, 0x7FFF, 0x8000, 0xFFFF]);
        }
    }
    let none = aim == 35 || also(aim, &[13, 32, 30, 31], rng);
    let words = if none { 0 } else { rng.between(1, 3) };
    let mut fields = record(&d, aim, rng);
    fields.extend([
        at.into(),
        latches.into(),
        code.into(),
        payload.into(),
        lent_words(words, rng).into(),
        cells.into(),
    ]);
    fields
}

fn push(stream: &mut Vec<u8>, code: u8, payload: u16) {
    stream.push(code);
    stream.extend(payload.to_le_bytes());
}

/// Words of configuration space written with anything, spare bits too, and read; an erase before it or within.
fn configuration_stream(rng: &mut Rng) -> Vec<u8> {
    let mut stream = Vec::new();
    let load = |code: u8, stream: &mut Vec<u8>, rng: &mut Rng| {
        let payload = good_payload(code, rng);
        push(stream, code, rng.pick(&[0, payload]));
    };
    for _ in 0..rng.between(1, 3) {
        load(LOAD_CONFIGURATION, &mut stream, rng);
        if rng.chance(40) {
            push(&mut stream, rng.pick(&[BULK_ERASE, ROW_ERASE]), 0);
        }
        for k in 0..=8 {
            // What is not loaded is what its latch has: 3FFFh, or an earlier load.
            if rng.chance(60) {
                load(LOAD_DATA, &mut stream, rng);
            }
            if rng.chance(if k < 7 { 30 } else { 70 }) {
                push(&mut stream, BEGIN, 0);
            }
            if rng.chance(20) {
                push(&mut stream, READ, 0);
            }
            push(&mut stream, INCREMENT, 0);
        }
    }
    stream
}

/// A stream of sound steps: a planned one, or steps at random that get about in the target.
pub fn sound_stream(d: &Device, rng: &mut Rng) -> Vec<u8> {
    let reading = reading_for(d, false, rng);
    let image = image_for(d, &reading, rng);
    match rng.below(8) {
        0 => return own::update_stream(d, &own::wanted_over(d, &image, &reading), &reading),
        1 => return own::fresh_stream(d, &own::wanted_blank(d, &image)),
        2 => return own::read_back_stream(d),
        3 => return configuration_stream(rng),
        _ => {}
    }
    let mut stream = Vec::new();
    // Far more often for a large device, whose last row is near there.
    if rng.chance(if d.words > OPENED_MAX { 40 } else { 1 }) {
        // All the way to where a space wraps.
        push(&mut stream, rng.pick(&[RESET, LOAD_CONFIGURATION]), 0);
        for _ in 0..rng.between(0x7FFA, 0x8002) {
            push(&mut stream, INCREMENT, 0);
        }
    }
    let mut config = 0;
    for _ in 0..rng.below(120) {
        let code = match rng.below(20) {
            0 => RESET,
            1 | 2 => LOAD_CONFIGURATION,
            3..=7 => LOAD_DATA,
            8 | 9 => READ,
            10 | 11 => BEGIN,
            12 => ROW_ERASE,
            13 if config <= 8 => BULK_ERASE,
            _ => INCREMENT,
        };
        // How far the counter may be into configuration space: Bulk Erase stays out of what is above 8008h.
        config = match code {
            RESET => 0,
            LOAD_CONFIGURATION => 0,
            INCREMENT => config + 1,
            _ => config,
        };
        push(&mut stream, code, good_payload(code, rng));
    }
    stream
}

/// Steps of which the last is refused with the number, whatever the target's state before.
pub fn bad_step(number: u32, rng: &mut Rng) -> Vec<u8> {
    let mut steps = Vec::new();
    match number {
        30 => {
            let code = unknown_code(rng);
            push(&mut steps, code, rng.pick(&[0, 0, 1, 0x7FFE]));
        }
        31 => {
            let code = rng.pick(&CODES);
            push(&mut steps, code, bad_payload(code, rng));
        }
        33 => {
            push(
                &mut steps,
                LOAD_CONFIGURATION,
                good_payload(LOAD_CONFIGURATION, rng),
            );
            for _ in 0..rng.between(9, 14) {
                push(&mut steps, INCREMENT, 0);
            }
            push(&mut steps, BULK_ERASE, 0);
        }
        _ => push(&mut steps, READ, 0),
    }
    steps
}

/// Puts steps in at a step's place.
pub fn put_in(stream: &mut Vec<u8>, steps: &[u8], rng: &mut Rng) -> usize {
    let place = 3 * rng.below(stream.len() / 3 + 1);
    stream.splice(place..place, steps.iter().copied());
    (place + steps.len()) / 3
}

fn reads(stream: &[u8]) -> usize {
    stream.chunks(3).filter(|s| s[0] == READ).count()
}

fn run(aim: u32, d: Device, rng: &mut Rng) -> Vec<Field> {
    let mut cells = cells(&d, rng);
    let mut stream = sound_stream(&d, rng);
    let mut through = stream.len() / 3;
    let wrong = match aim {
        30 | 31 | 33 | 35 => Some(aim),
        // An allowance that ends before the bad step.
        0 if rng.chance(20) => Some(rng.pick(&[30, 31, 33])),
        _ if also(aim, &[13, 32, 34], rng) => Some(rng.pick(&[30, 31, 33])),
        _ => None,
    };
    if let Some(number) = wrong {
        let steps = bad_step(number, rng);
        through = put_in(&mut stream, &steps, rng);
    }
    let read = reads(&stream);
    let words = match aim {
        35 => rng.below(read),
        0 if rng.chance(50) => read,
        _ => read + rng.below(6),
    };
    if aim == 34 || also(aim, &[13, 32], rng) {
        if rng.chance(50) || stream.is_empty() {
            let n = rng.pick(&[1, 2]);
            stream.extend(rng.bytes(n));
        } else {
            stream.truncate(stream.len() - rng.between(1, 2));
        }
    }
    let allowance = match (aim, wrong) {
        (0, Some(_)) => rng.below(through) as u64,
        (0, None) => match rng.below(5) {
            0 => through as u64,
            1 => u64::MAX,
            2 => (through + 1) as u64,
            _ => rng.below(through + 1) as u64,
        },
        (34, _) if rng.chance(30) => 0,
        (30 | 31 | 33, _) => through as u64 + rng.pick(&[0, 1, 1 << 32, u64::MAX / 2]),
        _ => u64::MAX,
    };
    if aim == 32 || also(aim, &[13], rng) {
        spoil_words(&mut cells, rng);
    }
    let mut fields = record(&d, aim, rng);
    let lent = lent_words(words, rng);
    fields.extend([cells.into(), stream.into(), allowance.into(), lent.into()]);
    fields
}

pub fn target(name: &str, aim: u32, d: Device, rng: &mut Rng) -> Vec<Field> {
    if name == "step" {
        step(aim, d, rng)
    } else {
        run(aim, d, rng)
    }
}

/// Makes the image want a configuration bit under the mask that the reading has not; CP apart, whose 0 is 23.
pub fn want_a_bit(d: &Device, image: &mut [u16], reading: &mut [u16], rng: &mut Rng) {
    let p = d.p();
    let bits: Vec<(usize, u16)> = [p + 7, p + 8]
        .into_iter()
        .flat_map(|i| (0..14).map(move |k| (i, 1 << k)))
        .filter(|&(i, bit)| d.mask(i) & bit != 0 && (i, bit) != (p + 7, CP))
        .collect();
    // A record whose masks have CP alone never gives 24.
    if bits.is_empty() {
        return;
    }
    let (at, bit) = rng.pick(&bits);
    reading[at] &= !bit;
    image[at] = (reading[at] & if rng.chance(50) { rng.word() } else { WORD_MAX }) | bit;
    if rng.chance(50) {
        image[at] ^= d.spare(at) & rng.word();
    }
}

fn update(aim: u32, mut d: Device, rng: &mut Rng) -> Vec<Field> {
    if aim == 22 {
        d = choosy(&d, rng);
    }
    let mut reading = reading_for(&d, false, rng);
    let mut image = image_for(&d, &reading, rng);
    let needed = own::update_stream(&d, &own::wanted_over(&d, &image, &reading), &reading).len();
    let short = aim == 26 || also(aim, &[13, 20, 21, 22, 23, 24], rng);
    let length = room(needed, short, rng);
    if aim == 24 || also(aim, &[13, 20, 21, 22, 23], rng) {
        want_a_bit(&d, &mut image, &mut reading, rng);
    }
    if aim == 23 || also(aim, &[13, 20, 21, 22], rng) {
        reading[d.p() + 7] &= !CP;
    }
    if aim == 22 || also(aim, &[13, 20, 21], rng) {
        let word = other_word(&d, rng);
        reading[d.p() + 6] = word.unwrap_or(reading[d.p() + 6]);
    }
    if aim == 21 || also(aim, &[13, 20], rng) {
        spoil_words(&mut reading, rng);
    }
    if aim == 20 || also(aim, &[13], rng) {
        spoil_image(&d, &mut image, rng);
    }
    let mut fields = record(&d, aim, rng);
    fields.extend([image.into(), reading.into(), lent(length, rng).into()]);
    fields
}

fn fresh(aim: u32, d: Device, rng: &mut Rng) -> Vec<Field> {
    let reading = reading_for(&d, rng.chance(50), rng);
    let mut image = image_for(&d, &reading, rng);
    let needed = own::fresh_stream(&d, &own::wanted_blank(&d, &image)).len();
    let short = aim == 26 || also(aim, &[13, 20, 22], rng);
    let length = room(needed, short, rng);
    let mut id_word = fitting(&d, rng);
    if aim == 22 || also(aim, &[13, 20], rng) {
        // Where every word fits, only what is no word does not.
        id_word = match (other_word(&d, rng), rng.below(10)) {
            (Some(word), 0..=5) => word,
            (_, 0..=8) => no_word(&d, rng),
            _ => number(16, rng) as u16,
        };
    }
    if aim == 20 || also(aim, &[13], rng) {
        spoil_image(&d, &mut image, rng);
    }
    let mut fields = record(&d, aim, rng);
    fields.extend([image.into(), id_word.into(), lent(length, rng).into()]);
    fields
}

/// An entry that the image gives, or one that it does not, also past either list's end. Nothing is judged: entries and masks may have
/// more bits than a word, and the record may have other program words than the lists.
fn wanted(aim: u32, mut d: Device, rng: &mut Rng) -> Vec<Field> {
    let mut reading = reading_for(&d, rng.chance(30), rng);
    let mut image = image_for(&d, &reading, rng);
    let mut at = if rng.chance(50) {
        d.p() + rng.pick(&[6, 7, 7, 7, 8, 8, 8])
    } else {
        rng.below(image.len())
    };
    if rng.chance(30) {
        (d.mask1, d.mask2) = (rng.u16(), rng.u16());
    }
    if rng.chance(20) {
        spoil_image(&d, &mut image, rng);
    }
    if rng.chance(30) {
        let i = rng.below(reading.len());
        reading[rng.pick(&[i, at])] = rng.u16();
    }
    if rng.chance(30) {
        let length = rng.below(reading.len() + 1);
        reading.truncate(length);
    }
    if rng.chance(20) {
        let length = rng.below(image.len() + 1);
        image.truncate(length);
        at = length.max(rng.below(d.entries()));
    }
    if aim == 0 {
        at %= image.len().max(1);
        let given = match rng.below(4) {
            0 => rng.u16() & 0xFFFE,
            1 => rng.pick(&[0, WORD_MAX, 0x4000, 0xFFFE]),
            _ => rng.word(),
        };
        match image.get_mut(at) {
            Some(entry) => *entry = given,
            None => image.push(given),
        }
    } else if let Some(entry) = image.get_mut(at) {
        *entry = NOT_GIVEN;
    }
    let i = if aim == 1 && rng.chance(10) {
        number(64, rng) | 1 << 20
    } else {
        at as u64
    };
    if d.words <= OPENED_MAX && rng.chance(20) {
        // The entry may be a configuration word by this record alone.
        let words = at.saturating_sub(rng.pick(&[7, 8])) as u16;
        let any = rng.u16();
        d.words = rng.pick(&[words, any]);
    }
    let mut fields = record(&d, 0, rng);
    fields.extend([image.into(), reading.into(), i.into()]);
    fields
}

/// Turns an entry so that it is wanted other than it is known: it falls in a bit, or rises in one. Nothing is judged, so the bit
/// may stand above the 14, and must where the reading has ended and 3FFFh is known.
fn turn_entry(
    d: &Device,
    image: &mut [u16],
    reading: &mut [u16],
    i: usize,
    up: bool,
    rng: &mut Rng,
) {
    let mask = d.mask(i) & WORD_MAX;
    let high = rng.pick(&[0x4000, 0x8000]);
    let Some(known) = reading.get_mut(i) else {
        image[i] = if up {
            WORD_MAX | high
        } else {
            fallen(WORD_MAX, rng)
        };
        return;
    };
    let bit = match one_bit(mask, rng) {
        0 => high,
        _ if rng.chance(10) => high,
        bit => bit,
    };
    let more = if rng.chance(30) { rng.word() } else { WORD_MAX };
    if up {
        *known &= !bit;
        image[i] = (*known & more) | bit;
    } else {
        *known |= bit;
        image[i] = *known & more & !bit;
    }
    // What is not given cannot differ: the entry loses another bit.
    if image[i] == NOT_GIVEN {
        image[i] = 0xFFFE;
    }
}

/// What an update asks of entries: none of them differs; or some differ, which all fall, or of which one rises at least.
fn ask_entries(
    d: &Device,
    image: &mut [u16],
    reading: &mut [u16],
    entries: &[usize],
    differs: bool,
    rises: bool,
    rng: &mut Rng,
) {
    for &i in entries {
        image[i] = if rng.chance(50) {
            NOT_GIVEN
        } else {
            reading.get(i).copied().unwrap_or(WORD_MAX)
        };
        // Spare bits alone: no difference.
        if d.spare(i) != 0 && image[i] != NOT_GIVEN && rng.chance(50) {
            image[i] ^= d.spare(i) & rng.word();
        }
    }
    if !differs || entries.is_empty() {
        return;
    }
    if !rises || rng.chance(60) {
        for _ in 0..rng.pick(&[1, 1, 2, entries.len()]) {
            let i = entries[place_of(entries.len(), rng)];
            turn_entry(d, image, reading, i, false, rng);
        }
    }
    if rises {
        for _ in 0..rng.pick(&[1, 1, 1, 2, entries.len()]) {
            let i = entries[place_of(entries.len(), rng)];
            turn_entry(d, image, reading, i, true, rng);
        }
    }
}

/// A row that has entries in a list of this length, most often one of the device; now and then the one or two behind them,
/// which have the IDs and the configuration words.
fn some_row(d: &Device, length: usize, rng: &mut Rng) -> u16 {
    let r = d.r().max(1);
    let (all, program) = (length.div_ceil(r), d.p() / r);
    let k = match rng.below(8) {
        0 => 0,
        1 => program.saturating_sub(1),
        2 => program,
        3 => program + 1,
        _ => rng.below(all.max(1)),
    };
    k.min(all.saturating_sub(1)) as u16
}

/// Rows and user IDs of which some word differs, or rises, or none. Nothing is judged: the record may have any P and R, the lists
/// any length and any numbers, and the row may stand anywhere.
fn asks(name: &str, yes: bool, mut d: Device, rng: &mut Rng) -> Vec<Field> {
    let mut reading = reading_for(&d, rng.chance(30), rng);
    let mut image = image_for(&d, &reading, rng);
    // A large record is to stay one.
    let small = d.words <= OPENED_MAX;
    if small && rng.chance(30) {
        let any = rng.u16();
        d.row = rng.pick(&[0, 1, 2, 3, 5, 7, 9, 24, 33, 64, 256, 0x8000, 65_535, any]);
    }
    if small && rng.chance(25) {
        let any = rng.below(image.len()) as u16;
        let far = rng.u16();
        let far = rng.pick(&[any, any, any, far, 65_535]);
        d.words = rng.pick(&[0, d.words - 1, d.words + 1, any, any, far]);
    }
    if small && rng.chance(30) {
        (d.mask1, d.mask2) = (rng.u16(), rng.u16());
    }
    if rng.chance(20) {
        image.extend(rng.entries(4));
        reading.extend(rng.entries(3));
    }
    if rng.chance(20) {
        reading.truncate(rng.below(reading.len() + 1));
    }
    if rng.chance(20) {
        image.truncate(rng.below(image.len() + 1));
    }
    let of_ids = name.starts_with("id_");
    let mut k = some_row(&d, image.len(), rng);
    if yes && !of_ids && d.row == 0 {
        // A row of no words never differs.
        d.row = rng.pick(&[1, 2, 8, 65_535]);
        k = some_row(&d, image.len(), rng);
    }
    let first = if of_ids {
        d.p()
    } else {
        usize::from(k) * d.r()
    };
    let count = if of_ids { 4 } else { d.r() };
    if yes && image.len() <= first {
        let length = first + rng.between(1, 4);
        image.resize(length.min(WORDS_MAX), NOT_GIVEN);
    }
    let end = image.len().min(first + count);
    let entries: Vec<usize> = (first.min(end)..end).collect();
    let rising = name.ends_with("rises");
    let (differs, rises) = match (yes, rising) {
        (true, true) => (true, true),
        (true, false) => (true, rng.chance(40)),
        (false, true) => (rng.chance(75), false),
        (false, false) => (false, false),
    };
    ask_entries(&d, &mut image, &mut reading, &entries, differs, rises, rng);
    if !yes && !of_ids && rng.chance(25) {
        // Far away, or a row that is another's after 16 bits: a product that wraps would tell of that one.
        let again = 65_536 / usize::from(d.row.max(1)) + usize::from(k);
        let any = rng.u16();
        k = rng.pick(&[any, 65_535, again as u16, again as u16]);
    }
    let mut fields = record(&d, 0, rng);
    fields.extend([image.into(), reading.into()]);
    if !of_ids {
        fields.push(k.into());
    }
    fields
}

/// Words of configuration space that are written, or not: an ID for all of them or for its own sake, a configuration word, and
/// what is never written however it differs.
fn written(yes: bool, mut d: Device, rng: &mut Rng) -> Vec<Field> {
    let mut reading = reading_for(&d, rng.chance(30), rng);
    let mut image = image_for(&d, &reading, rng);
    let small = d.words <= OPENED_MAX;
    if small && rng.chance(20) {
        let any = rng.below(image.len()) as u16;
        d.words = rng.pick(&[0, d.words - 1, d.words + 1, any]);
    }
    if small && rng.chance(30) {
        (d.mask1, d.mask2) = (rng.u16(), rng.u16());
    }
    let yes_all = rng.pick(&[1, 1, 2, 255, 256, 0x8000, 65_535]);
    let ids = rng.below(4) as u64;
    let configuration = rng.pick(&[7, 8]);
    let (k, all, differs) = match (yes, rng.below(6)) {
        (true, 0 | 1) => (ids, yes_all, rng.chance(50)),
        (true, 2 | 3) => (ids, 0, true),
        (true, _) => (configuration, rng.pick(&[0, yes_all]), true),
        (false, 0 | 1) => (ids, 0, false),
        (false, 2) => (configuration, rng.pick(&[0, yes_all]), false),
        (false, 3) => (rng.pick(&[4, 5, 6, 9, 10]), yes_all, true),
        // An ID or a configuration word again after 16, 32 or 64 bits, or far away.
        (false, 4) => {
            let again = (1 << rng.pick(&[8, 16, 32, 63])) + rng.pick(&[ids, configuration]);
            let around = 0u64.wrapping_sub(u64::from(d.words)).max(9);
            (rng.pick(&[again, again, around]), yes_all, rng.chance(50))
        }
        (false, _) => (number(64, rng).max(9), yes_all, rng.chance(50)),
    };
    let at = d.p() as u64 + k.min(10);
    if differs && image.len() as u64 <= at {
        image.resize(at as usize + 1, NOT_GIVEN);
    }
    if (at as usize) < image.len() {
        let up = rng.chance(50);
        let entries = [at as usize];
        ask_entries(&d, &mut image, &mut reading, &entries, differs, up, rng);
    }
    if rng.chance(15) {
        reading.truncate(rng.below(reading.len() + 1));
    }
    let mut fields = record(&d, 0, rng);
    fields.extend([image.into(), reading.into(), k.into(), Field::Num(all)]);
    fields
}

/// What is asked of a stream without the buffer for it.
fn without_room(mut fields: Vec<Field>) -> Vec<Field> {
    fields.pop();
    fields
}

pub fn plan(name: &str, aim: u32, d: Device, rng: &mut Rng) -> Vec<Field> {
    match name {
        "update" => update(aim, d, rng),
        "fresh" => fresh(aim, d, rng),
        "wanted" => wanted(aim, d, rng),
        "row_differs" | "row_rises" | "id_differs" | "id_rises" => asks(name, aim == 1, d, rng),
        "is_written" => written(aim == 1, d, rng),
        "update_refusal" => without_room(update(aim, d, rng)),
        "fresh_refusal" => without_room(fresh(aim, d, rng)),
        _ => {
            let needed = own::read_back_stream(&d).len();
            let short = aim == 26 || also(aim, &[13], rng);
            let length = room(needed, short, rng);
            let mut fields = record(&d, aim, rng);
            fields.push(lent(length, rng).into());
            fields
        }
    }
}
