//! Inputs about boards: devices, tables, readings, images, sheets.

use super::{lent, lent_words, number, room};
use crate::board::OPENED_MAX;
use crate::calls::device_fields;
use crate::device::{is_name, lines, Device, CP, LINES_MAX, PROGRAM_MAX};
use crate::field::Field;
use crate::rng::Rng;
use crate::sheet as own;
use crate::words::{NOT_GIVEN, WORD_MAX};

/// A mask: the family's, or one far from it, with any number of spare bits.
fn mask(family: u16, rng: &mut Rng) -> u16 {
    match rng.below(10) {
        0..=2 => family,
        3..=6 => rng.word(),
        7 => rng.word() & rng.word() & rng.word(),
        8 => rng.word() | rng.word() | rng.word(),
        _ => rng.pick(&[0, WORD_MAX]),
    }
}

/// A mask of the ID: often whole; without the low five bits, as a maker's that has the revision there; without one bit, with one
/// alone or none; any.
fn id_mask(rng: &mut Rng) -> u16 {
    match rng.below(12) {
        0..=4 => WORD_MAX,
        5 => 0,
        6 | 7 => 0x3FE0,
        8 | 9 => WORD_MAX ^ (1 << rng.below(14)),
        10 => 1 << rng.below(14),
        _ => rng.word(),
    }
}

/// A lawful device with at most so many rows; `rows` is not 0.
pub fn device_of_size(rows: usize, rng: &mut Rng) -> Device {
    let row = rng.pick(&[8u16, 16, 32]);
    let most = rows.min(usize::from(PROGRAM_MAX / row));
    let words = row * rng.between(1, most) as u16;
    Device {
        id: rng.word(),
        words,
        row,
        mask1: mask(0x3EFF, rng) | CP,
        mask2: mask(0x3FF3, rng),
        idmask: id_mask(rng),
    }
}

/// A word that fits the device: its bits outside the ID's mask are the ID's, the opposite, all of one kind or any.
pub fn fitting(d: &Device, rng: &mut Rng) -> u16 {
    let any = rng.word();
    let free = rng.pick(&[d.id, d.id, !d.id, 0, WORD_MAX, any, any, any]);
    WORD_MAX & ((d.id & d.idmask) | (free & !d.idmask))
}

/// A bit of a mask of words; 0 where it has none.
pub fn one_bit(mask: u16, rng: &mut Rng) -> u16 {
    let bits: Vec<u16> = (0..14)
        .map(|k| 1 << k)
        .filter(|bit| mask & bit != 0)
        .collect();
    if bits.is_empty() {
        0
    } else {
        rng.pick(&bits)
    }
}

/// A word that does not fit the device, often for one bit alone; nothing where every word fits.
pub fn other_word(d: &Device, rng: &mut Rng) -> Option<u16> {
    let one = one_bit(d.idmask, rng);
    let more = rng.word() & d.idmask & !one;
    let turned = one | if rng.chance(30) { more } else { 0 };
    (turned != 0).then(|| fitting(d, rng) ^ turned)
}

/// A number that is no word: one that fits but for what it has above 3FFFh.
pub fn no_word(d: &Device, rng: &mut Rng) -> u16 {
    fitting(d, rng) | rng.pick(&[0x4000, 0x8000, 0xC000])
}

/// The device with some bit in its ID's mask, so that there are words that do not fit it.
pub fn choosy(d: &Device, rng: &mut Rng) -> Device {
    let mut d = *d;
    if d.idmask == 0 {
        d.idmask = 1 << rng.below(14);
    }
    d
}

/// A lawful device whose program space holds the longest record, and is not much larger.
pub fn roomy_device(rng: &mut Rng) -> Device {
    let d = device_of_size(1, rng);
    let rows = rng.between(128, 256) / usize::from(d.row);
    Device {
        words: d.row * rows as u16,
        ..d
    }
}

/// A lawful device that the programs take, mostly a small one, now and then their largest.
pub fn program_device(rng: &mut Rng) -> Device {
    match rng.below(200) {
        0 => Device {
            words: OPENED_MAX,
            ..device_of_size(1, rng)
        },
        1..=6 => device_of_size(64, rng),
        _ => device_of_size(5, rng),
    }
}

/// The device with more program words than the programs take: often as many as there can be, at times the first number
/// above theirs.
pub fn enlarged(d: &Device, rng: &mut Rng) -> Device {
    let rows = |words: u16| usize::from(words / d.row);
    let (least, most) = (rows(OPENED_MAX) + 1, rows(PROGRAM_MAX));
    let rows = match rng.below(8) {
        0..=3 => most,
        4 => most - 1,
        5 => least,
        _ => rng.between(least, most),
    };
    Device {
        words: d.row * rows as u16,
        ..*d
    }
}

/// A lawful device of more words than the programs take.
pub fn large_device(rng: &mut Rng) -> Device {
    enlarged(&device_of_size(1, rng), rng)
}

/// A lawful device; a large one seldom, since its lists are long.
pub fn any_device(rng: &mut Rng) -> Device {
    if rng.below(1_000) == 0 {
        large_device(rng)
    } else {
        program_device(rng)
    }
}

/// A lawful device of any size, for where nothing but its record is asked: a large one costs no more there.
fn device_of_any_size(rng: &mut Rng) -> Device {
    if rng.chance(25) {
        large_device(rng)
    } else {
        program_device(rng)
    }
}

/// The device with a rule or more broken.
pub fn unlawful(d: &Device, rng: &mut Rng) -> Device {
    let mut bad = *d;
    while bad.lawful() {
        for _ in 0..rng.between(1, 2) {
            match rng.below(10) {
                0 => bad.id = rng.pick(&[0x4000, 0x4001, 0x8000, 0xFFFF]) | rng.word(),
                1 => bad.row = rng.pick(&[0, 1, 2, 4, 7, 9, 24, 31, 33, 48, 64, 256, 65_535]),
                2 => bad.words = 0,
                3 => bad.words = bad.words.wrapping_add(rng.between(1, 7) as u16),
                // Above the most words, by a row or by far; the last two are no multiples of R.
                4 => {
                    let next = PROGRAM_MAX + d.row;
                    bad.words = rng.pick(&[
                        next, next, 40_000, 40_960, 49_152, 65_504, 65_528, 32_769, 8_193,
                    ])
                }
                5 => bad.mask1 &= !CP,
                6 => bad.mask1 |= 0x4000 << rng.below(2),
                7 => bad.mask2 |= 0x4000 << rng.below(2),
                8 => bad.idmask |= rng.pick(&[0x4000, 0x8000, 0xC000]),
                // P below R, and a multiple of every smaller power of two.
                _ => bad.words = bad.row / 2,
            }
        }
    }
    bad
}

/// A reading of the device, its word 8006h one that fits, protected or not: blank or nearly, of any words, or of words with
/// few zeros or with many; at times each eight words in their own way.
pub fn reading_for(d: &Device, protected: bool, rng: &mut Rng) -> Vec<u16> {
    let p = d.p();
    let mixed = rng.chance(25);
    let mut kind = rng.below(7);
    let mut reading: Vec<u16> = (0..d.entries())
        .map(|i| {
            if mixed && i % 8 == 0 {
                kind = rng.below(7);
            }
            match kind {
                0 => WORD_MAX,
                1 if rng.chance(80) => WORD_MAX,
                2 => rng.word() | rng.word() | rng.word(),
                3 => rng.word() & rng.word() & rng.word(),
                4 if rng.chance(80) => 0,
                _ => rng.word(),
            }
        })
        .collect();
    reading[p + 6] = fitting(d, rng);
    if protected {
        reading[p + 7] &= !CP;
    } else {
        reading[p + 7] |= CP;
    }
    reading
}

/// How the given words of a row, or the user IDs, turn from those that are read.
#[derive(Clone, Copy, Debug, PartialEq, Eq)]
pub enum Turn {
    /// In any way.
    Any,
    /// Not at all.
    Same,
    /// Ones go to 0 and no bit goes to 1.
    Fall,
    /// The same in one bit of one word.
    FallOnce,
    /// Zeros go to 1.
    Rise,
    /// All fall but one, the first, the last or any, which rises in one bit; it may fall in others.
    RiseOnce,
}

impl Turn {
    fn some(rng: &mut Rng) -> Turn {
        rng.pick(&[
            Turn::Any,
            Turn::Any,
            Turn::Same,
            Turn::Fall,
            Turn::Fall,
            Turn::FallOnce,
            Turn::Rise,
            Turn::RiseOnce,
            Turn::RiseOnce,
        ])
    }
}

/// A word that falls from another in one bit; the same where that has none.
pub fn fallen(word: u16, rng: &mut Rng) -> u16 {
    word & !one_bit(word, rng)
}

/// A word that rises from another in one bit, and at times falls in others; the same where that has all.
fn risen(word: u16, rng: &mut Rng) -> u16 {
    let kept = if rng.chance(30) { rng.word() } else { WORD_MAX };
    match one_bit(WORD_MAX & !word, rng) {
        0 => word,
        bit => (word & kept) | bit,
    }
}

/// A place of a list, often its first or its last.
pub fn place_of(length: usize, rng: &mut Rng) -> usize {
    let any = rng.below(length);
    rng.pick(&[0, length - 1, any, any])
}

/// New entries for these words, as they turn: so many of a hundred are given, and so many of those are as read.
pub fn turned(old: &[u16], turn: Turn, given: usize, same: usize, rng: &mut Rng) -> Vec<u16> {
    let once = matches!(turn, Turn::FallOnce | Turn::RiseOnce) && rng.chance(given.max(30));
    let mut new: Vec<u16> = old
        .iter()
        .map(|&w| match turn {
            _ if !rng.chance(given) => NOT_GIVEN,
            Turn::Same | Turn::FallOnce => w,
            _ if rng.chance(same) => w,
            Turn::Any if rng.chance(20) => WORD_MAX,
            Turn::Any => rng.word(),
            Turn::Rise => w | rng.word(),
            Turn::Fall | Turn::RiseOnce if rng.chance(50) => fallen(w, rng),
            Turn::Fall | Turn::RiseOnce => w & rng.word(),
        })
        .collect();
    if once && given > 0 {
        let at = place_of(old.len(), rng);
        new[at] = match turn {
            Turn::FallOnce => fallen(old[at], rng),
            _ => risen(old[at], rng),
        };
    }
    new
}

/// An image over a reading: silent, sparse or full; given words often the reading's own. Rows and user IDs turn all in one way,
/// or each in its own.
pub fn image_for(d: &Device, reading: &[u16], rng: &mut Rng) -> Vec<u16> {
    let p = d.p();
    let given = rng.pick(&[0, 2, 20, 60, 100]);
    let same = rng.pick(&[0, 50, 95]);
    let all = rng.chance(40).then(|| Turn::some(rng));
    let mut image = Vec::new();
    for old in reading[..p].chunks(d.r()).chain([&reading[p..p + 4]]) {
        let turn = all.unwrap_or_else(|| Turn::some(rng));
        image.extend(turned(old, turn, given, same, rng));
    }
    image.resize(d.entries(), NOT_GIVEN);
    // Configuration words that an update may want: under the mask no bit set that the reading has not, and spare bits as they come.
    for i in [p + 7, p + 8] {
        let spare = d.spare(i);
        let kept = match rng.below(6) {
            0 => continue,
            1 | 2 => reading[i],
            _ => reading[i] & rng.word(),
        };
        image[i] = (kept & !spare) | (spare_bits(reading[i], rng) & spare);
    }
    image
}

/// Spare bits over those of a word: its own, the opposite, all of one kind, or any.
fn spare_bits(word: u16, rng: &mut Rng) -> u16 {
    match rng.below(6) {
        0 => word,
        1 => !word,
        2 => 0,
        3 => WORD_MAX,
        _ => rng.word(),
    }
}

/// Other spare bits in the configuration words: no difference that counts.
pub fn other_spare(d: &Device, list: &mut [u16], rng: &mut Rng) {
    for i in [d.p() + 7, d.p() + 8] {
        list[i] = (list[i] & !d.spare(i)) | (spare_bits(list[i], rng) & d.spare(i));
    }
}

/// One bit turned in a word that is judged: a difference that counts. Nothing where the mask has no bit.
pub fn other_bit(d: &Device, list: &mut [u16], at: usize, rng: &mut Rng) {
    list[at] ^= one_bit(d.mask(at), rng);
}

/// The image with something that no image has.
pub fn spoil_image(d: &Device, image: &mut Vec<u16>, rng: &mut Rng) {
    let at = rng.below(image.len());
    match rng.below(5) {
        0 => image[at] = rng.pick(&[0x4000, 0x7FFF, 0x8000, 0xFFFE]),
        1 | 2 => {
            let k = d.p() + rng.between(4, 6);
            image[k] = rng.word();
        }
        3 => image.push(NOT_GIVEN),
        _ => {
            image.pop();
        }
    }
}

/// The list with a length or a word that no reading has.
pub fn spoil_words(list: &mut Vec<u16>, rng: &mut Rng) {
    let at = if rng.chance(50) {
        rng.below(list.len())
    } else {
        rng.pick(&[0, list.len() - 1])
    };
    match rng.below(4) {
        0 => list.push(rng.word()),
        1 => {
            list.pop();
        }
        2 if rng.chance(20) => list.clear(),
        _ => list[at] = rng.pick(&[0x4000, 0x4001, 0x7FFF, 0x8000, 0xFFFF]),
    }
}

/// A name of any length, at times the longest or the shortest, of blanks alone, or one that looks like another field of a
/// sheet.
pub fn name(rng: &mut Rng) -> Vec<u8> {
    let any = rng.between(1, 16);
    let length = rng.pick(&[1, 16, any, any]);
    match rng.below(12) {
        0 => vec![b' '; length],
        1 => format!("{:04X}", rng.u16()).into_bytes(),
        _ => (0..length).map(|_| rng.between(0x20, 0x7E) as u8).collect(),
    }
}

/// Bytes that are no name: none, too many, or with one that no name has.
pub fn no_name(rng: &mut Rng) -> Vec<u8> {
    let mut bytes = name(rng);
    let at = rng.below(bytes.len());
    match rng.below(4) {
        0 => bytes.clear(),
        1 => bytes.resize(rng.pick(&[17, 17, 18, 32, 33, 272]), b'x'),
        _ => bytes[at] = rng.pick(b"\x00\t\n\r\x1F\x7F\x80\xA0\xFF"),
    }
    bytes
}

/// A name that is not this one: it differs in a character, in its length, or is another's.
fn other_name(name: &[u8], others: &[Vec<u8>], rng: &mut Rng) -> Vec<u8> {
    loop {
        let mut other = name.to_vec();
        let at = rng.below(name.len());
        match rng.below(8) {
            0 => other[at] ^= 1 << rng.below(6),
            1 => other[at] ^= 0x20,
            2 => {
                other.pop();
            }
            3 => other.push(rng.pick(b" 0x~")),
            4 => other.insert(0, rng.pick(b" 0T")),
            5 if !others.is_empty() => other = others[rng.below(others.len())].clone(),
            6 => other.resize(16, b' '),
            _ => other = self::name(rng),
        }
        if other != name && is_name(&other) {
            return other;
        }
    }
}

/// A sum that is not the reading's: one beside it, with its bytes turned around, or made by a rule that is nearly the
/// right one.
fn other_sum(d: &Device, reading: &[u16], rng: &mut Rng) -> u16 {
    let sum = own::sum_of(d, reading);
    let p = d.p();
    let add = |words: &[u16]| words.iter().fold(0u16, |all, &w| all.wrapping_add(w));
    loop {
        let other = match rng.below(12) {
            0 => sum.wrapping_add(1),
            1 => sum.wrapping_sub(1),
            2 => sum ^ (1 << rng.below(16)),
            3 => sum.swap_bytes(),
            4 => sum & WORD_MAX,
            // Spare bits counted too.
            5 => add(&reading[..p]).wrapping_add(add(&reading[p + 7..])),
            // All the words.
            6 => add(reading),
            // Program words, protected or not, with the masks of the record.
            7 => add(&reading[..p])
                .wrapping_add(reading[p + 7] & d.mask1)
                .wrapping_add(reading[p + 8] & d.mask2),
            // The configuration words alone.
            8 => (reading[p + 7] & d.mask1).wrapping_add(reading[p + 8] & d.mask2),
            9 => sum.wrapping_add(d.id),
            10 => 0,
            _ => rng.u16(),
        };
        if other != sum {
            return other;
        }
    }
}

/// How line 1 of a sheet is to be, its ID apart.
#[derive(Clone, Copy, Debug, PartialEq, Eq)]
pub enum Head {
    /// Of either form, with the right name and the right sum.
    Sound,
    /// Of the new form with another name (18), and often another sum.
    OtherName,
    /// Of the new form with another sum (19).
    OtherSum,
    /// Any of these, since nothing comes of it.
    Any,
}

impl Head {
    /// What suits the number that is aimed at: what comes after that may lie under it.
    pub fn for_aim(aim: u32) -> Head {
        match aim {
            18 => Head::OtherName,
            19 => Head::OtherSum,
            12..=17 => Head::Any,
            _ => Head::Sound,
        }
    }
}

/// A sound sheet of the old form with such a line 1, its ID kept; `others` are names that are not the device's own.
pub fn headed(
    d: &Device,
    name: &[u8],
    others: &[Vec<u8>],
    text: &[u8],
    head: Head,
    rng: &mut Rng,
) -> Vec<u8> {
    let head = match head {
        Head::Any => rng.pick(&[Head::Sound, Head::OtherName, Head::OtherSum]),
        head => head,
    };
    if head == Head::Sound && rng.chance(40) {
        return text.to_vec();
    }
    let id = own::first_line(text).expect("a line 1").id;
    let reading = own::reading(d, text).expect("a sound sheet");
    let shown = if head == Head::OtherName {
        other_name(name, others, rng)
    } else {
        name.to_vec()
    };
    let wrong = head == Head::OtherSum || (head == Head::OtherName && rng.chance(50));
    let sum = if wrong {
        other_sum(d, &reading, rng)
    } else {
        own::sum_of(d, &reading)
    };
    [own::new_line(id, &shown, sum), text[5..].to_vec()].concat()
}

/// The same by a table: the name is the one that it has for the sheet's ID, or any where it has none.
pub fn headed_by(table: &[u8], d: &Device, text: &[u8], head: Head, rng: &mut Rng) -> Vec<u8> {
    let listed = lines(table).unwrap_or_default();
    let id = own::first_line(text).expect("a line 1").id;
    let mut known = name(rng);
    let mut others = Vec::new();
    for l in listed {
        let this = table[l.name].to_vec();
        if l.device.fits(id) {
            known = this;
        } else {
            others.push(this);
        }
    }
    headed(d, &known, &others, text, head, rng)
}

/// A line of six fields where that will do, or of seven.
fn table_line(name: &[u8], d: &Device, rng: &mut Rng) -> Vec<u8> {
    let mut rest = format!(
        "\t{:04X}\t{}\t{}\t{:04X}\t{:04X}",
        d.id, d.words, d.row, d.mask1, d.mask2
    );
    if d.idmask != WORD_MAX || rng.chance(50) {
        rest += &format!("\t{:04X}", d.idmask);
    }
    [name, rest.as_bytes(), b"\n"].concat()
}

/// The ID's bits wherever both masks have a 1, and any others: some word fits the device and this ID under the other mask.
fn agreeing(d: &Device, idmask: u16, rng: &mut Rng) -> u16 {
    let both = d.idmask & idmask;
    (d.id & both) | (rng.word() & !both)
}

/// A device that no word fits together with one of these; often a single bit parts it from one of them. Nothing where none is
/// found soon.
fn beside(listed: &[Device], rng: &mut Rng) -> Option<Device> {
    for _ in 0..30 {
        // Also larger than the programs take: only the board's own line counts for that.
        let mut other = device_of_any_size(rng);
        if rng.chance(40) {
            let near = rng.pick(listed);
            let bit = one_bit(near.idmask & other.idmask, rng);
            other.id = agreeing(&near, other.idmask, rng) ^ bit;
        }
        if !listed.iter().any(|l| l.clashes(&other)) {
            return Some(other);
        }
    }
    None
}

/// The devices of a sound table with this one among them.
fn table_devices(d: &Device, rng: &mut Rng) -> Vec<Device> {
    let count = match rng.below(8) {
        0 => LINES_MAX,
        1 => rng.between(1, LINES_MAX - 1),
        _ => rng.between(1, 4),
    };
    let mut listed = vec![*d];
    while listed.len() < count {
        let Some(other) = beside(&listed, rng) else {
            break;
        };
        listed.push(other);
    }
    let place = rng.below(listed.len());
    listed.swap(0, place);
    listed
}

/// The lines of a table; at times with names as long as can be, or one name for all or for half of them.
fn table_lines(listed: &[Device], rng: &mut Rng) -> Vec<Vec<u8>> {
    let (same, often) = match rng.below(10) {
        0 | 1 => (b"0123456789ABCDEF".to_vec(), 100),
        2 => (name(rng), 50),
        _ => (Vec::new(), 0),
    };
    let mut line = |d| {
        let name = if rng.chance(often) {
            same.clone()
        } else {
            name(rng)
        };
        table_line(&name, d, rng)
    };
    listed.iter().map(&mut line).collect()
}

pub fn table_with(d: &Device, rng: &mut Rng) -> Vec<u8> {
    let listed = table_devices(d, rng);
    table_lines(&listed, rng).concat()
}

/// A sound table of which a word fits no line: in the device's place stands one that a bit or more part from it.
pub fn table_without(d: &Device, word: u16, rng: &mut Rng) -> Vec<u8> {
    let mut other = choosy(d, rng);
    other.id = word;
    other.id = other_word(&other, rng).expect("a mask with a bit");
    let mut listed = table_devices(&other, rng);
    listed.retain(|l| !l.fits(word));
    table_lines(&listed, rng).concat()
}

/// A device that some word fits together with this one, mostly under another ID; at times no bit is in both masks.
fn clashing(d: &Device, rng: &mut Rng) -> Device {
    let mut other = device_of_any_size(rng);
    other.idmask = match rng.below(5) {
        0 => WORD_MAX & !d.idmask,
        1 => rng.word(),
        _ => other.idmask,
    };
    Device {
        id: agreeing(d, other.idmask, rng),
        ..other
    }
}

/// A table of sound lines of which some word fits two, wherever these stand.
fn clash_table(d: &Device, rng: &mut Rng) -> Vec<u8> {
    let mut listed = table_devices(d, rng);
    // Two whole masks clash in one way alone.
    let masked: Vec<Device> = listed
        .iter()
        .copied()
        .filter(|l| l.idmask != WORD_MAX)
        .collect();
    let one = if masked.is_empty() || rng.chance(30) {
        rng.pick(&listed)
    } else {
        rng.pick(&masked)
    };
    listed.truncate(LINES_MAX - 1);
    if !listed.contains(&one) {
        listed[0] = one;
    }
    listed.insert(rng.below(listed.len() + 1), clashing(&one, rng));
    table_lines(&listed, rng).concat()
}

/// A table line's field replaced.
fn with_field(line: &[u8], field: usize, text: &[u8]) -> Vec<u8> {
    let body = &line[..line.len() - 1];
    let mut fields: Vec<&[u8]> = body.split(|&c| c == b'\t').collect();
    fields[field] = text;
    [fields.join(&b'\t'), b"\n".to_vec()].concat()
}

/// A table line's six fields, and others behind them.
fn with_more(line: &[u8], more: &[&[u8]]) -> Vec<u8> {
    let body = &line[..line.len() - 1];
    let mut fields: Vec<&[u8]> = body.split(|&c| c == b'\t').take(6).collect();
    fields.extend(more);
    [fields.join(&b'\t'), b"\n".to_vec()].concat()
}

/// A table that is malformed in one of the ways that the paper's rules name.
pub fn bad_table(d: &Device, rng: &mut Rng) -> Vec<u8> {
    if rng.chance(35) {
        return clash_table(d, rng);
    }
    let listed = table_devices(d, rng);
    let mut lines = table_lines(&listed, rng);
    let at = rng.below(lines.len());
    let line = lines[at].clone();
    match rng.below(23) {
        0 => return Vec::new(),
        1 => {
            // One line too many, each of them sound.
            let mut ids = Vec::new();
            while ids.len() < 65 {
                let id = rng.word();
                if !ids.contains(&id) {
                    ids.push(id);
                }
            }
            let whole = Device {
                idmask: WORD_MAX,
                ..*d
            };
            return ids
                .iter()
                .flat_map(|&id| table_line(b"x", &Device { id, ..whole }, rng))
                .collect();
        }
        2 => {
            let twice = rng.below(lines.len() + 1);
            let id = line.split(|&c| c == b'\t').nth(1).expect("an ID").to_vec();
            let other = table_line(b"again", &device_of_any_size(rng), rng);
            lines.insert(twice, with_field(&other, 1, &id));
        }
        3 => {
            let last = lines.last_mut().expect("a line");
            last.pop();
        }
        4 => lines[at] = [&line[..line.len() - 1], b"\r\n"].concat(),
        5 => lines[at] = with_field(&line, rng.pick(&[1, 4, 5]), b"3eff"),
        6 => {
            let field = rng.pick(&[2, 3]);
            let old = line
                .split(|&c| c == b'\t')
                .nth(field)
                .expect("a decimal")
                .to_vec();
            lines[at] = with_field(&line, field, &[b"0".to_vec(), old].concat());
        }
        7 => lines[at] = with_field(&line, 0, b""),
        8 => lines[at] = with_field(&line, 0, b"seventeen letters"),
        9 => lines[at] = with_field(&line, 0, &[b'a', rng.pick(&[0x1F, 0x7F, 0x80, 0xFF, 13])]),
        10 => {
            let tab = line.iter().position(|&c| c == b'\t').expect("a tab");
            lines[at].remove(tab);
        }
        11 => {
            let tab = line.iter().rposition(|&c| c == b'\t').expect("a tab");
            lines[at].insert(tab, b'\t');
        }
        12 => lines[at] = [&line[..line.len() - 1], b"\t\n"].concat(),
        13 | 14 => lines[at] = table_line(&name(rng), &unlawful(d, rng), rng),
        15 => {
            // P again after 15, 16, 32 or 64 bits, and R after 8 or as many.
            let (field, number, bits) = if rng.chance(50) {
                (2, d.words, rng.pick(&[15, 16, 32, 64]))
            } else {
                (3, d.row, rng.pick(&[8, 16, 32, 64]))
            };
            let again = u128::from(number) + (1u128 << bits);
            lines[at] = with_field(&line, field, again.to_string().as_bytes());
        }
        16 => {
            let text: &[u8] =
                rng.pick(&[b"300".as_slice(), b"03000", b"", b"3 00", b"G000", b"300:"]);
            lines[at] = with_field(&line, rng.pick(&[1, 4, 5]), text);
        }
        17 => {
            let text: &[u8] = rng.pick(&[
                b"".as_slice(),
                b"+8",
                b" 8",
                b"8 ",
                b"8.",
                b"/8",
                b"8:",
                b"A",
            ]);
            lines[at] = with_field(&line, rng.pick(&[2, 3]), text);
        }
        18 => lines.insert(at, b"\n".to_vec()),
        19 | 20 => {
            let text: &[u8] = rng.pick(&[
                b"".as_slice(),
                b"",
                b"4000",
                b"7FFF",
                b"8000",
                b"FFFF",
                b"3fff",
                b"3fe0",
                b"3FF",
                b"03FFF",
                b"3FFF0",
                b"3FFF ",
                b" 3FF",
                b"3FF:",
                b"G000",
                b"3FFF\r",
            ]);
            lines[at] = with_more(&line, &[text]);
        }
        // An eighth field behind a sound seventh, and a ninth.
        21 => {
            let text: &[u8] = rng.pick(&[b"".as_slice(), b"3FFF", b"0000", b"x"]);
            let fields = [b"3FFF".as_slice(), text, b"3FFF"];
            lines[at] = with_more(&line, &fields[..rng.between(2, 3)]);
        }
        _ => lines.push(rng.pick(&[b"x".as_slice(), b"\n", b"\t", b"\0"]).to_vec()),
    }
    lines.concat()
}

pub fn device(name: &str, aim: u32, d: Device, rng: &mut Rng) -> Vec<Field> {
    let d = match name {
        "is_image" | "is_reading" | "is_protected" => d,
        _ => device_of_any_size(rng),
    };
    match name {
        "is_name" if aim == 1 => vec![self::name(rng).into()],
        "is_name" => vec![no_name(rng).into()],
        "judge" | "sound_of" if aim == 13 => device_fields(&unlawful(&d, rng)),
        "judge" | "sound_of" => device_fields(&d),
        "name_of" => name_of(&table_with(&d, rng), aim == 1, rng),
        "judge_table" if aim == 15 => vec![bad_table(&d, rng).into()],
        "judge_table" => vec![table_with(&d, rng).into()],
        "find_device" => {
            // What is looked for has 16 bits, and a number above 3FFFh fits no line.
            if aim == 16 && rng.chance(25) {
                return vec![table_with(&d, rng).into(), no_word(&d, rng).into()];
            }
            let word = fitting(&d, rng);
            let table = match aim {
                15 => bad_table(&d, rng),
                16 => table_without(&d, word, rng),
                _ => table_with(&d, rng),
            };
            vec![table.into(), word.into()]
        }
        "is_reading" => is_reading(d, aim == 1, rng),
        "is_protected" => {
            let mut list = reading_for(&d, aim == 1, rng);
            match rng.below(4) {
                // Cells are looked at in the same way; a list that ends before the word is protected.
                0 => list.push(0x3fff),
                1 if aim == 1 => list.truncate(rng.below(d.p() + 8)),
                _ => (),
            }
            vec![d.words.into(), list.into()]
        }
        "programmable" => {
            let (words, i) = place(&d, aim == 1, rng);
            vec![words.into(), i.into()]
        }
        "under_mask" => under_mask(&d, aim == 1, rng),
        "fits" => fits(&d, aim == 1, rng),
        _ => is_image(d, aim == 1, rng),
    }
}

/// A place of a table and a length: a line's name, any other part, or one that reaches or lies past the end.
fn name_of(table: &[u8], past: bool, rng: &mut Rng) -> Vec<Field> {
    let mut names: Vec<_> = lines(table)
        .expect("sound lines")
        .into_iter()
        .map(|l| l.name)
        .collect();
    let name = names.swap_remove(rng.below(names.len()));
    let end = table.len();
    let (at, length) = match rng.below(4) {
        0 if past => (name.start as u64, u64::MAX - rng.below(3) as u64),
        1 if past => (u64::MAX - rng.below(3) as u64, rng.between(1, 16) as u64),
        2 if past => ((end + rng.below(3)) as u64, rng.between(1, 16) as u64),
        _ if past => {
            let at = rng.below(end);
            (at as u64, (end - at + rng.between(1, 5)) as u64)
        }
        0 => {
            let at = rng.below(end + 1);
            (at as u64, rng.below(end - at + 1) as u64)
        }
        1 => {
            let at = rng.below(end + 1);
            (at as u64, (end - at) as u64)
        }
        // Nothing of it is asked, at a place where nothing is.
        2 if rng.chance(30) => (number(64, rng), 0),
        _ => (name.start as u64, name.len() as u64),
    };
    vec![table.to_vec().into(), at.into(), length.into()]
}

/// A configuration word's entry, or another one, with any masks and any numbers; often they are words.
fn under_mask(d: &Device, elsewhere: bool, rng: &mut Rng) -> Vec<Field> {
    let mut d = *d;
    if rng.chance(30) {
        d.words = number(16, rng) as u16;
    }
    if rng.chance(30) {
        (d.mask1, d.mask2) = (rng.u16(), rng.u16());
    }
    let p = u64::from(d.words);
    let i = match rng.below(4) {
        _ if !elsewhere => p + rng.pick(&[7, 8]),
        0 => p + rng.pick(&[0, 3, 6, 9, 10]),
        1 => rng.below(d.p() + 7) as u64,
        // P+7 or P+8 again after 16 or 32 bits.
        2 => p + rng.pick(&[7, 8]) + (1 << rng.pick(&[16, 32])),
        _ => p + 9 + (number(64, rng) >> 1),
    };
    let (new, old) = match rng.below(4) {
        0 => (0, WORD_MAX),
        1 => (WORD_MAX, 0),
        2 => (rng.word(), rng.word()),
        _ => (rng.u16(), rng.u16()),
    };
    let mut fields = device_fields(&d);
    fields.extend([i.into(), new.into(), old.into()]);
    fields
}

/// A record that is not judged, and a number that fits it or does not: one that is no word, that another field has, or any.
fn fits(d: &Device, yes: bool, rng: &mut Rng) -> Vec<Field> {
    let mut d = *d;
    let high = rng.pick(&[0x4000, 0x8000, 0xC000]);
    let word = fitting(&d, rng);
    // A bit that no word has, in the ID and in the mask.
    let none = !yes && rng.chance(20);
    match rng.below(8) {
        _ if none => (d.id, d.idmask) = (d.id | high, d.idmask | high),
        // ID bits outside the mask have no say, these neither.
        0 => d.id |= high,
        // A word has zeros there, as the ID has.
        1 => d.idmask |= high,
        2 => d = unlawful(&d, rng),
        _ => {}
    }
    let number = match rng.below(6) {
        _ if yes || none => word,
        0 | 1 => no_word(&d, rng),
        2 => rng.pick(&[d.id, d.words, d.row, d.mask1, d.mask2, d.idmask]),
        3 => number(16, rng) as u16,
        _ => other_word(&d, rng).unwrap_or(word | high),
    };
    let mut fields = device_fields(&d);
    fields.push(number.into());
    fields
}

/// Program words, and an entry that can be programmed or cannot.
fn place(d: &Device, yes: bool, rng: &mut Rng) -> (u16, u64) {
    let words = if rng.chance(30) {
        number(16, rng) as u16
    } else {
        d.words
    };
    let p = usize::from(words);
    let i = match (yes, rng.below(3)) {
        (true, 0) if p > 0 => rng.below(p),
        (true, 1) => p + rng.below(4),
        (true, _) => p + 7 + rng.below(2),
        (false, 0) => p + 4 + rng.below(3),
        (false, 1) => p + 9 + rng.below(12),
        (false, _) => return (words, p as u64 + 9 + (number(64, rng) >> 1)),
    };
    (words, i as u64)
}

fn is_reading(mut d: Device, yes: bool, rng: &mut Rng) -> Vec<Field> {
    if d.words <= OPENED_MAX && rng.chance(20) {
        d.words = rng.below(50) as u16;
    }
    let mut reading = reading_for(&d, false, rng);
    if !yes {
        spoil_words(&mut reading, rng);
    }
    vec![d.words.into(), reading.into()]
}

fn is_image(mut d: Device, yes: bool, rng: &mut Rng) -> Vec<Field> {
    if d.words <= OPENED_MAX && rng.chance(20) {
        // The call is about a list's form: any number of program words will do.
        d.words = if rng.chance(90) {
            rng.below(50) as u16
        } else {
            rng.below(12_000) as u16
        };
    }
    let reading = reading_for(&d, false, rng);
    let mut image = image_for(&d, &reading, rng);
    if !yes {
        spoil_image(&d, &mut image, rng);
        if rng.chance(10) {
            d.words = number(16, rng) as u16;
        }
    }
    vec![d.words.into(), image.into()]
}

/// The record's fields, unlawful where 13 is aimed at.
pub fn record(d: &Device, aim: u32, rng: &mut Rng) -> Vec<Field> {
    record_if(d, aim == 13, rng)
}

fn record_if(d: &Device, broken: bool, rng: &mut Rng) -> Vec<Field> {
    device_fields(&if broken { unlawful(d, rng) } else { *d })
}

/// Whether a later refusal is laid under the one that is aimed at, so that their order shows.
pub fn also(aim: u32, earlier: &[u32], rng: &mut Rng) -> bool {
    earlier.contains(&aim) && rng.chance(30)
}

pub fn judge(name: &str, aim: u32, d: Device, rng: &mut Rng) -> Vec<Field> {
    let protected =
        aim == 41 || (aim != 0 && rng.chance(40)) || (name == "checksum" && rng.chance(50));
    let mut reading = reading_for(&d, protected, rng);
    let mut fields = record(&d, aim, rng);
    let spoilt = aim == 21 || also(aim, &[13], rng);
    if name == "checksum" {
        if spoilt {
            spoil_words(&mut reading, rng);
        }
        fields.push(reading.into());
        return fields;
    }
    let mut wanted = reading.clone();
    let p = d.p();
    // What is not judged may differ always; what is judged only for 40.
    for k in 4..7 {
        if rng.chance(30) {
            wanted[p + k] = rng.word();
        }
    }
    if protected && rng.chance(60) {
        let i = rng.below(p);
        wanted[i] = rng.word();
    }
    if aim == 40 {
        let count = rng.pick(&[1, 1, 2, 5, p]);
        for _ in 0..count {
            let at = if count == 1 && rng.chance(30) {
                // The last of all, so that nothing stands behind what only seems to differ before it.
                p + 8
            } else if protected || rng.chance(30) {
                p + rng.pick(&[0, 1, 2, 3, 7, 8])
            } else {
                rng.below(p)
            };
            other_bit(&d, &mut wanted, at, rng);
        }
    }
    // Beside differences that count, and where there are none.
    if rng.chance(60) {
        other_spare(&d, &mut wanted, rng);
    }
    if spoilt {
        if rng.chance(50) {
            spoil_words(&mut reading, rng);
        } else {
            spoil_words(&mut wanted, rng);
        }
    }
    fields.extend([wanted.into(), reading.into()]);
    fields
}

/// Where line 2 of a sheet begins.
pub fn line_2(text: &[u8]) -> usize {
    let end = text.iter().position(|&c| c == b'\n');
    end.expect("a line's end") + 1
}

/// A sheet malformed in one of the ways that its fixed form leaves. Line 1 is kept, or becomes one of the old form.
pub fn bad_sheet(d: &Device, text: &[u8], rng: &mut Rng) -> Vec<u8> {
    let mut bad = text.to_vec();
    let begin = line_2(text);
    // The place of a word's first digit: after an address, or after a tab.
    let starts: Vec<usize> = (begin..text.len())
        .filter(|&i| text[i - 1] == b'\t')
        .collect();
    match rng.below(14) {
        0 => {
            let at = rng.between(begin, text.len() - 1);
            bad[at] = rng.pick(b"\t\n\r aGg:0F\xFF\x00");
        }
        1 => {
            let at = rng.pick(&starts);
            bad[at] = rng.pick(b"48F");
        }
        2 => {
            bad.pop();
        }
        3 => bad.push(rng.pick(b"\n\r0 \x00")),
        4 => {
            // An address of a line.
            let line = begin + 45 * rng.between(0, d.p() / 8);
            let at = line + rng.below(4);
            bad[at] = if bad[at] == b'1' { b'2' } else { b'1' };
        }
        5 => {
            let at = begin + 45 * rng.below(d.p() / 8);
            bad.drain(at..at + 45);
        }
        6 => {
            let at = begin + 45 * rng.below(d.p() / 8);
            let line = bad[at..at + 45].to_vec();
            bad.splice(at..at, line);
        }
        7 => {
            let at = bad.iter().rposition(|&c| c == b'\n').expect("a line's end");
            bad.insert(at, b'\r');
        }
        8 if rng.chance(10) => bad.resize(rng.pick(&[65_536, 65_537, 70_000]), b'0'),
        8 => bad.truncate(rng.between(begin, text.len() - 1)),
        9 => {
            let at = rng.pick(&starts) + rng.below(4);
            bad[at] = rng.pick(b"abcdef/:@G`g");
        }
        10 => {
            let at = rng.pick(&starts) - 1;
            bad[at] = b' ';
        }
        // Line 1 once more, of either form.
        11 => {
            let again = if rng.chance(50) {
                text[..begin].to_vec()
            } else {
                [&text[..4], b"\n"].concat()
            };
            bad.splice(begin..begin, again);
        }
        // LF behind the ID, so that name and sum are line 2; of the old form its LF twice.
        12 if text[4] == b'\t' => bad[4] = b'\n',
        12 => bad.insert(4, b'\n'),
        _ => {
            let at = rng.pick(&starts);
            bad.insert(at, b'0');
        }
    }
    bad
}

/// A first line of neither form.
pub fn bad_first_line(text: &[u8], rng: &mut Rng) -> Vec<u8> {
    let mut bad = text.to_vec();
    if text[4] == b'\t' && rng.chance(75) {
        return bad_new_line(text, rng);
    }
    match rng.below(9) {
        0 => bad[0] = rng.pick(b"456789ABCDEF"),
        // The ID, and a bit above 3FFFh.
        7 | 8 => {
            let id = own::first_line(text).map_or(0, |first| first.id);
            bad = with_id(text, id | rng.pick(&[0x4000, 0x8000, 0xC000]));
        }
        1 => {
            let at = rng.below(4);
            bad[at] = rng.pick(b"abcdef/:@G`g \t\n");
        }
        2 if text[4] == b'\t' => bad[4] = rng.pick(b"\r 0"),
        2 => bad[4] = rng.pick(b"\r \t0"),
        3 => {
            bad.remove(0);
        }
        4 => bad.insert(4, rng.pick(b"\r 0\t")),
        5 => bad.truncate(rng.below(5)),
        _ => bad.insert(0, rng.pick(b"\n 0")),
    }
    bad
}

/// A first line of the new form with something wrong behind its ID.
fn bad_new_line(text: &[u8], rng: &mut Rng) -> Vec<u8> {
    let begin = line_2(text);
    let (line, rest) = (&text[..begin - 1], &text[begin..]);
    let fields: Vec<&[u8]> = line.split(|&c| c == b'\t').collect();
    let (id, name, sum) = (fields[0], fields[1], fields[2]);
    let wrong = no_name(rng);
    // The sum itself in small letters where it has any.
    let mut small = sum.to_ascii_lowercase();
    if small == sum {
        small = rng.pick(&[b"7ee2", b"00a0", b"fFFF", b"FFFf"]).to_vec();
    }
    let mut spelt = sum.to_vec();
    match rng.below(8) {
        0 => spelt.clear(),
        1 => {
            spelt.pop();
        }
        2 => {
            spelt.remove(0);
        }
        3 => spelt.push(rng.pick(b"0 \r\x00")),
        4 => spelt.insert(0, rng.pick(b"0 +")),
        5 => spelt.truncate(rng.below(4)),
        _ => spelt[rng.below(4)] = rng.pick(b"/:@G`g \r+\x00"),
    }
    let at = rng.below(name.len());
    let parted = [&name[..at], b"\t", &name[at..]].concat();
    let broken = [&name[..at], b"\n", &name[at..]].concat();
    let fields: Vec<&[u8]> = match rng.below(18) {
        // Two fields, or four and more.
        0 => vec![id, name],
        1 => vec![id, sum],
        2 => vec![id, name, sum, b""],
        3 => vec![id, name, sum, sum],
        4 => vec![id, name, name, sum],
        5 => vec![id, b"", name, sum],
        6 => vec![id, &parted, sum],
        // Three in another order.
        7 => vec![id, sum, name],
        8 => vec![name, id, sum],
        // The name.
        9 => vec![id, b"", sum],
        10 | 11 => vec![id, &wrong, sum],
        12 => vec![id, &broken, sum],
        // The sum.
        13 => vec![id, name, &small],
        14 | 15 => vec![id, name, &spelt],
        _ => vec![id, name, sum],
    };
    let mut bad = fields.join(&b'\t');
    if fields == [id, name, sum] {
        // What stands between the fields and at the end.
        let second = 5 + name.len();
        match rng.below(5) {
            0 => bad.push(rng.pick(b"\r \t0")),
            1 => bad[second] = rng.pick(b"\n\r 0,"),
            2 => bad[4] = rng.pick(b"\r 0,"),
            // Cut, or run together with line 2.
            3 => {
                bad.truncate(rng.below(line.len() + 1));
                return bad;
            }
            _ => return [line, rest].concat(),
        }
    }
    [bad.as_slice(), b"\n", rest].concat()
}

/// A whole sheet with another ID on line 1.
pub fn with_id(text: &[u8], id: u16) -> Vec<u8> {
    [format!("{id:04X}").into_bytes(), text[4..].to_vec()].concat()
}

/// The fields of a record and its name, one of which or both are wrong where 13 is aimed at.
fn record_and_name(d: &Device, name: &[u8], aim: u32, rng: &mut Rng) -> Vec<Field> {
    let (record, named) = rng.pick(&[(true, false), (false, true), (false, true), (true, true)]);
    let mut fields = record_if(d, aim == 13 && record, rng);
    fields.push(if aim == 13 && named {
        no_name(rng).into()
    } else {
        name.to_vec().into()
    });
    fields
}

pub fn sheet(name: &str, aim: u32, d: Device, rng: &mut Rng) -> Vec<Field> {
    let mut reading = reading_for(&d, rng.chance(30), rng);
    if rng.chance(20) {
        // 8006h is not held against the record here.
        reading[d.p() + 6] = rng.word();
    }
    // Line 1 need only fit, and is not held against 8006h.
    let mut text = with_id(&own::text(&d, &reading), fitting(&d, rng));
    let called = self::name(rng);
    match name {
        "read_id" => {
            text = headed(&d, &called, &[], &text, Head::Any, rng);
            if rng.chance(70) {
                text.truncate(line_2(&text) + rng.below(3));
            }
            if rng.chance(30) {
                text.extend(lent(5, rng));
            }
            if aim == 14 {
                text = bad_first_line(&text, rng);
            }
            vec![text.into()]
        }
        "read_sheet" => {
            let mut fields = record_and_name(&d, &called, aim, rng);
            text = headed(&d, &called, &[], &text, Head::for_aim(aim), rng);
            if aim == 14 || also(aim, &[13, 12], rng) {
                text = match rng.below(6) {
                    0 | 4 => bad_first_line(&text, rng),
                    5 => with_id(&text, no_word(&d, rng)),
                    1 => with_id(&text, other_word(&d, rng).unwrap_or(no_word(&d, rng))),
                    _ => bad_sheet(&d, &text, rng),
                };
            }
            let mut length = d.entries();
            if aim == 12 || also(aim, &[13], rng) {
                length = rng.pick(&[0, 9, length - 1, length + 1, length + 2, d.p()]);
            }
            fields.extend([text.into(), lent_words(length, rng).into()]);
            fields
        }
        _ => {
            let mut fields = if name == "write_new_sheet" {
                text = own::new_text(&d, &called, &reading);
                record_and_name(&d, &called, aim, rng)
            } else {
                record(&d, aim, rng)
            };
            let short = aim == 26 || also(aim, &[13, 21], rng);
            let length = room(text.len(), short, rng);
            if aim == 21 || also(aim, &[13], rng) {
                spoil_words(&mut reading, rng);
            }
            fields.extend([reading.into(), lent(length, rng).into()]);
            fields
        }
    }
}

/// A reading that is printed as a sheet with an ID of its own on line 1; 26 is of a device that the programs do not take.
pub fn printed_sheet(aim: u32, d: Device, rng: &mut Rng) -> Vec<Field> {
    let mut d = d;
    if aim == 26 || also(aim, &[13, 21], rng) {
        d = enlarged(&d, rng);
    }
    let mut id = rng.word();
    let mut reading = reading_for(&d, rng.chance(30), rng);
    let length = room(own::text(&d, &reading).len(), rng.chance(30), rng);
    if aim == 21 || also(aim, &[13], rng) {
        spoil_words(&mut reading, rng);
    }
    if aim == 13 {
        d = unlawful(&d, rng);
        // The record's own ID has no say.
        if (Device { id, ..d }).lawful() {
            id |= 0x4000;
        }
    } else if rng.chance(20) {
        d.id = number(16, rng) as u16;
    }
    let mut fields = device_fields(&d);
    fields.extend([id.into(), reading.into(), lent(length, rng).into()]);
    fields
}
