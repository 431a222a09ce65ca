//! Inputs for the HEX reader and writer.

use super::boards::{also, image_for, reading_for, record, roomy_device, spoil_image};
use super::{lent, lent_words, room};
use crate::board::OPENED_MAX;
use crate::device::Device;
use crate::field::{Field, HEX_BYTES_MAX};
use crate::hex as own;
use crate::rng::Rng;
use crate::words::{CONFIG, NOT_GIVEN};

/// A line's text without its end.
type Line = Vec<u8>;

/// A record's line; digits of either case now and then.
fn record_line(address: u16, kind: u8, data: &[u8], rng: &mut Rng) -> Line {
    let mut line = own::record_text(address, kind, data);
    line.pop();
    if rng.chance(20) {
        for c in &mut line {
            if rng.chance(50) {
                c.make_ascii_lowercase();
            }
        }
    }
    line
}

fn data_of(words: &[u16]) -> Vec<u8> {
    words.iter().flat_map(|w| w.to_le_bytes()).collect()
}

/// The lines for words from a word address on: the upper half where it is not the one in force, then the data.
fn placed(word: u32, words: &[u16], upper: &mut Option<u16>, rng: &mut Rng) -> Vec<Line> {
    let byte = 2 * u64::from(word);
    let half = (byte >> 16) as u16;
    let mut lines = Vec::new();
    if *upper != Some(half) || rng.chance(3) {
        lines.push(record_line(0, 4, &half.to_be_bytes(), rng));
        *upper = Some(half);
    }
    lines.push(record_line(byte as u16, 0, &data_of(words), rng));
    lines
}

/// The data lines of an image, in pieces of any length and mostly in order.
fn image_lines(d: &Device, image: &[u16], rng: &mut Rng) -> Vec<Line> {
    let p = d.p();
    let address = |i: usize| if i < p { i } else { 0x8000 + i - p } as u32;
    // A record a word would make a large device's text too long.
    let least = if d.words > OPENED_MAX { 4 } else { 1 };
    let most = rng.pick(&[least, 4, 8, 8, MOST_WORDS]);
    let mut pieces: Vec<(u32, Vec<u16>)> = Vec::new();
    for i in (0..image.len()).filter(|&i| image[i] != NOT_GIVEN) {
        match pieces.last_mut() {
            Some((first, words))
                if *first + words.len() as u32 == address(i)
                    && words.len() < most
                    && rng.chance(95) =>
            {
                words.push(image[i]);
            }
            _ => pieces.push((address(i), vec![image[i]])),
        }
    }
    if rng.chance(30) {
        for i in 1..pieces.len() {
            pieces.swap(i, rng.below(i + 1));
        }
    }
    let mut upper = Some(0);
    let mut lines = Vec::new();
    for (first, words) in pieces {
        lines.extend(placed(first, &words, &mut upper, rng));
        if rng.chance(2) {
            // Data of no length gives nothing, wherever it stands.
            let nowhere = rng.u16() & 0xFFFE;
            lines.push(record_line(nowhere, 0, &[], rng));
        }
    }
    lines
}

/// Characters that are no digits: beside them, blanks, beyond ASCII, and a CR, which is one where it is not the line's last.
const NO_DIGITS: &[u8] = b"/:@G`g \t\x00\r\x7F\x80\xFF";
/// The most data words of a record.
const MOST_WORDS: usize = 127;

/// A character that is no digit.
fn no_digit(rng: &mut Rng) -> u8 {
    let any = rng.byte();
    if rng.chance(30) && any != b'\n' && !any.is_ascii_hexdigit() {
        any
    } else {
        rng.pick(NO_DIGITS)
    }
}

fn digits(count: usize, rng: &mut Rng) -> Line {
    (0..count)
        .map(|_| rng.pick(b"0123456789ABCDEFabcdef"))
        .collect()
}

/// Data bytes of a record: often few, often any count, now and then as many as there can be.
fn data_length(rng: &mut Rng) -> usize {
    match rng.below(10) {
        0..=2 => 2 * rng.below(5),
        3 | 4 => 255 - rng.below(2),
        _ => rng.below(256),
    }
}

/// Damages a line so that it should be no record; what it was before has no say.
fn spoil_record(line: &mut Line, rng: &mut Rng) {
    let end = line.len();
    match rng.below(20) {
        0 => {
            line.remove(0);
        }
        1 => line[0] = rng.pick(b";.0 :\t"),
        2 => line.insert(0, rng.pick(b" 0:\t")),
        3..=6 => line[rng.below(end)] = no_digit(rng),
        7 => line[rng.between(1, 2).min(end - 1)] = no_digit(rng),
        8 => line.insert(rng.below(end + 1), no_digit(rng)),
        9 => line.insert(rng.below(end + 1), rng.pick(b"0F")),
        10 => line.push(rng.pick(b"0F \r")),
        11 => {
            let count = rng.between(1, 300);
            line.extend(digits(count, rng));
        }
        12 => line.extend(rng.pick(&[b"00".as_slice(), b"\r\r", b"\r0", b":0"])),
        13 => line.truncate(end - 1),
        14 => line.truncate(end.saturating_sub(2)),
        15 | 16 => line.truncate(rng.between(1, end)),
        17 => line.truncate(rng.between(1, 10)),
        18 if end > 2 => {
            let other = digits(2, rng);
            line.splice(1..3, other);
        }
        _ if end > 2 => {
            let length = [b"00".as_slice(), b"01", b"FF", b"10", b"7F"];
            line.splice(1..3, rng.pick(&length).iter().copied());
        }
        _ => line.push(b' '),
    }
}

/// A line that is not a record: a colon and any number of digits, or a record that is damaged in a place or several.
fn no_record(rng: &mut Rng) -> Line {
    let mut line = if rng.chance(15) {
        let count = rng.below(540);
        [b":".to_vec(), digits(count, rng)].concat()
    } else {
        let length = data_length(rng);
        let data = rng.bytes(length);
        let (address, kind) = (rng.u16(), rng.pick(&[0, 0, 1, 4, 2]));
        record_line(address, kind, &data, rng)
    };
    for _ in 0..rng.pick(&[1, 1, 2, 3]) {
        if !line.is_empty() {
            spoil_record(&mut line, rng);
        }
    }
    if own_kind(&line) == Some(2) {
        line
    } else {
        b":".to_vec()
    }
}

/// What our own reader says of one line by itself.
fn own_kind(line: &[u8]) -> Option<u32> {
    let d = Device {
        id: 0,
        words: 8,
        row: 8,
        mask1: 0x80,
        mask2: 0,
        idmask: 0,
    };
    own::image(&d, line, own::TEXT_MAX)
        .err()
        .map(|refusal| refusal.number)
}

/// A word address that no file may give, and how many lawful words stand just before it.
fn nowhere(d: &Device, rng: &mut Rng) -> (u32, u32) {
    let p = u32::from(d.words);
    // Where configuration space follows at once, a record that runs past the program words is refused at 8004h.
    let meet = d.words == CONFIG;
    let first = if meet { 0x8004 } else { p };
    match rng.below(18) {
        _ if meet && rng.chance(50) => (first, MOST_WORDS as u32 - 1),
        0..=6 => (first, first.min(MOST_WORDS as u32 - 1)),
        7 => (0x8004, 4),
        8 => (0x8009, 2),
        9 => (0x8005, 0),
        10 => (0x8006, 0),
        11 => (0x800A + rng.below(4) as u32, 0),
        // The same addresses again 64 Ki words on, as one would see that keeps 16 bits of them.
        12 => (
            0x1_0000 * rng.between(1, 0x7FFF) as u32 + rng.below(d.p()) as u32,
            0,
        ),
        13 => (0x1_8000 + rng.pick(&[0, 3, 7, 8]), 0),
        14 => (0x7FFF_FFFF - rng.below(8) as u32, 0),
        _ if meet => (0x8009 + rng.below(0x100) as u32, 0),
        // The word before 64 KiB: a record may run on into configuration space.
        15 => (0x7FFF, 0),
        _ => (rng.between(d.p(), 0x7FFF) as u32, 0),
    }
}

/// Words one after another that a file may give: the address of the first, and how many. A record of that many has any of
/// them in any place.
fn neighbours(d: &Device, rng: &mut Rng) -> (u32, usize) {
    if rng.chance(20) {
        return rng.pick(&[
            (0x8000, 4),
            (0x8001, 3),
            (0x8003, 1),
            (0x8007, 2),
            (0x8008, 1),
        ]);
    }
    if d.words == CONFIG && rng.chance(60) {
        // Across 64 KiB: the last program words, and user IDs.
        let ids = rng.between(1, 4);
        let program = rng.between(1, MOST_WORDS - ids);
        return (u32::from(CONFIG) - program as u32, program + ids);
    }
    let most = d.p().min(MOST_WORDS);
    let count = rng.pick(&[1, 2, 3, most, most, most, most, most]).min(most);
    (rng.between(0, d.p() - count) as u32, count)
}

/// A place in a list of that length: the first, the last, or any.
fn place_in(count: usize, rng: &mut Rng) -> usize {
    match rng.below(6) {
        0 => 0,
        1 => count - 1,
        _ => rng.below(count),
    }
}

/// Words of which all before a place are sound; what stands after it is not looked at.
fn sound_up_to(place: usize, count: usize, rng: &mut Rng) -> Vec<u16> {
    (0..count)
        .map(|k| if k <= place { rng.word() } else { rng.u16() })
        .collect()
}

/// Lines of which the last should be refused with the number; some of the later refusals are in it as well.
fn bad_lines(d: &Device, number: u32, rng: &mut Rng) -> Vec<Line> {
    let bytes = |most: usize, rng: &mut Rng| {
        let n = rng.below(most + 1);
        rng.bytes(n)
    };
    let mut no_upper = None;
    match number {
        2 => vec![no_record(rng)],
        3 => {
            let data = bytes(6, rng);
            let (address, kind) = (rng.u16(), rng.pick(&[0, 0, 1, 4, 2, 255]));
            let line = own::record_text(address, kind, &data);
            let sum = crate::words::spelled(&line, line.len() as u64 - 3, 2, crate::words::digit);
            let sum = (sum.expect("a sum") as u8).wrapping_add(rng.between(1, 255) as u8);
            vec![[&line[..line.len() - 3], format!("{sum:02X}").as_bytes()].concat()]
        }
        4 => {
            let kind = if rng.chance(70) {
                rng.pick(&[2, 3, 5])
            } else {
                rng.between(5, 255) as u8
            };
            let data = bytes(5, rng);
            vec![record_line(rng.u16(), kind, &data, rng)]
        }
        5 => {
            let kind = rng.pick(&[1, 4]);
            let usual: usize = if kind == 1 { 0 } else { 2 };
            let (address, length) = match rng.below(3) {
                0 => (rng.between(1, 0xFFFF) as u16, usual),
                1 => (0, rng.pick(&[1, 3, 4, 255])),
                _ => (rng.pick(&[1, 0x100, 0x8000]), 2 - usual),
            };
            let data = rng.bytes(length);
            vec![record_line(address, kind, &data, rng)]
        }
        6 => {
            let mut address = rng.u16();
            let most = rng.pick(&[7, 7, 7, 254]);
            let mut data = bytes(most, rng);
            if rng.chance(50) {
                address |= 1;
            } else if data.len() % 2 == 0 {
                data.push(0);
            }
            vec![record_line(address, 0, &data, rng)]
        }
        7 => {
            let (bad, before) = nowhere(d, rng);
            let back = rng.below(before as usize + 1);
            let after = rng.pick(&[1, 2, 3, MOST_WORDS]).min(MOST_WORDS - back);
            let mut words = sound_up_to(back, back + after, rng);
            // Nor is the word itself looked at, which has no place.
            words[back] = rng.u16();
            placed(bad - back as u32, &words, &mut no_upper, rng)
        }
        8 => {
            let (first, count) = neighbours(d, rng);
            let place = place_in(count, rng);
            let mut words = sound_up_to(place, count, rng);
            words[place] = rng.pick(&[0x4000, 0x4001, 0x8000, 0xFFFE, 0xFFFF]);
            placed(first, &words, &mut no_upper, rng)
        }
        _ => {
            // 9: the same word twice, of whatever values; the second time in any place of a record.
            let (first, count) = neighbours(d, rng);
            let place = place_in(count, rng);
            let again = rng.between(1, count - place);
            let given: Vec<u16> = (0..again).map(|_| rng.word()).collect();
            let mut lines = placed(first + place as u32, &given, &mut no_upper, rng);
            let words = sound_up_to(place, count, rng);
            let second = placed(first, &words, &mut no_upper, rng);
            if rng.chance(50) {
                lines.push(Vec::new());
            }
            lines.extend(second);
            lines
        }
    }
}

/// Lines put together with ends of either kind, empty lines among them.
fn join(lines: &[Line], rng: &mut Rng) -> Vec<u8> {
    let carriage = rng.pick(&[0, 0, 100, 50]);
    let empty = rng.pick(&[0, 0, 10]);
    let mut text = Vec::new();
    for (i, line) in lines.iter().enumerate() {
        while rng.chance(empty) {
            text.extend(rng.pick(&[b"\n".as_slice(), b"\r\n"]));
        }
        text.extend(line);
        if rng.chance(carriage) {
            text.push(b'\r');
        }
        if i + 1 < lines.len() || rng.chance(80) {
            text.push(b'\n');
        }
    }
    text
}

/// Empty lines at the text's front, or behind, up to a whole length.
fn pad(text: Vec<u8>, length: usize, rng: &mut Rng) -> Vec<u8> {
    let filler = vec![b'\n'; length.saturating_sub(text.len())];
    if rng.chance(50) || !text.ends_with(b"\n") {
        [filler, text].concat()
    } else {
        [text, filler].concat()
    }
}

/// A text that the reader should answer with the number; `most` is the longest it may have, `room` what its field holds.
pub fn text(
    d: &Device,
    image: &[u16],
    aim: u32,
    most: usize,
    room: usize,
    rng: &mut Rng,
) -> Vec<u8> {
    let mut lines = image_lines(d, image, rng);
    // A text that is too long may have a bad line as well.
    let fault = match aim {
        1 if rng.chance(30) => rng.between(2, 9) as u32,
        _ => aim,
    };
    if (2..=9).contains(&fault) {
        // A refused word often comes first, where no other word of its record has been given yet.
        let first = (7..=9).contains(&fault) && rng.chance(60);
        let at = if first { 0 } else { rng.below(lines.len() + 1) };
        let bad = bad_lines(d, fault, rng);
        lines.splice(at..at, bad);
        if rng.chance(30) {
            // A second fault behind the first.
            let number = rng.between(2, 9) as u32;
            lines.extend(bad_lines(d, number, rng));
        }
    }
    if aim != 10 {
        lines.push(record_line(0, 1, &[], rng));
    }
    if aim == 11 {
        for _ in 0..rng.below(3) {
            lines.push(Vec::new());
        }
        let number = rng.between(2, 9) as u32;
        match rng.below(4) {
            0 => lines.push(record_line(0, 1, &[], rng)),
            1 => lines.push(
                rng.pick(&[b" ".as_slice(), b":", b"\r", b"\0", b"x", b"\t"])
                    .to_vec(),
            ),
            2 => lines.extend(bad_lines(d, number, rng)),
            _ => lines.push(record_line(0, 0, &[], rng)),
        }
        if lines.last().is_some_and(|l| l == b"\r") {
            // Two of them before the line's end: the first is a character of the line.
            lines.push(b"\r\r".to_vec());
        }
    }
    let text = join(&lines, rng);
    // The longer they are, the more seldom.
    let seldom = 300 * most / own::PROGRAM_TEXT_MAX;
    match rng.below(seldom) {
        _ if aim == 1 && rng.chance(70) => pad(text, most + 1, rng),
        _ if aim == 1 => {
            let length = rng.between(most + 1, room.min(most + 600));
            pad(text, length, rng)
        }
        0 => pad(text, most, rng),
        1 => pad(text, most - 1, rng),
        2 => {
            let length = rng.between(1, most);
            pad(text, length, rng)
        }
        _ => text,
    }
}

pub fn ihex(name: &str, aim: u32, d: Device, rng: &mut Rng) -> Vec<Field> {
    if name == "next_line" || name == "line_from" {
        return super::texts::next_line(aim == 1, rng);
    }
    let d = match aim {
        7..=9 if d.words <= OPENED_MAX && rng.chance(60) => roomy_device(rng),
        _ => d,
    };
    let reading = reading_for(&d, rng.chance(30), rng);
    let mut image = image_for(&d, &reading, rng);
    if d.words == CONFIG && !(7..=9).contains(&aim) && rng.chance(70) {
        // Words on both sides of 64 KiB, so that records run across.
        let first = d.p() - rng.between(1, MOST_WORDS);
        let end = d.p() + rng.between(1, 4);
        image[first..end].fill_with(|| rng.word());
    }
    let mut fields = record(&d, aim, rng);
    if name == "read_hex" {
        let text_aim = match aim {
            12 | 13 if rng.chance(3) => 1,
            12 | 13 => rng.pick(&[0, 0, 2, 10]),
            _ => aim,
        };
        let text = text(&d, &image, text_aim, own::TEXT_MAX, HEX_BYTES_MAX, rng);
        let mut length = d.entries();
        if aim == 12 || also(aim, &[13], rng) {
            length = rng.pick(&[0, 9, length - 1, length + 1, length + 2, d.p()]);
        }
        fields.extend([text.into(), lent_words(length, rng).into()]);
        return fields;
    }
    let needed = own::text(&d, &image).len();
    let short = aim == 26 || also(aim, &[13, 20], rng);
    let length = room(needed, short, rng);
    if aim == 20 || also(aim, &[13], rng) {
        spoil_image(&d, &mut image, rng);
    }
    fields.extend([image.into(), lent(length, rng).into()]);
    fields
}
