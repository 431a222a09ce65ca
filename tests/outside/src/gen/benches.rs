//! Inputs for what the programs print, and for the boards that they open.

use super::boards::{
    also, bad_first_line, bad_sheet, bad_table, choosy, enlarged, fitting, headed_by, image_for,
    line_2, no_word, other_bit, other_spare, other_word, program_device, reading_for, table_with,
    table_without, with_id, Head,
};
use super::plans::{bad_step, put_in, sound_stream, want_a_bit};
use super::{hexes, lent, number, room};
use crate::bench as own;
use crate::board::moved_to;
use crate::calls::Request;
use crate::device::{Device, CP};
use crate::field::{Field, BYTES_MAX};
use crate::hex::PROGRAM_TEXT_MAX;
use crate::model::{INCREMENT, READ, RESET};
use crate::rng::Rng;
use crate::sheet::{self, Form};

/// A number of the program that comes after 17, or 0.
fn after_17(name: &str, rng: &mut Rng) -> u32 {
    let call = Request::new(&format!("bench.{name}"), Vec::new()).call();
    let mut numbers = call.classes.to_vec();
    numbers.retain(|n| !(15..=17).contains(n));
    rng.pick(&numbers)
}

/// Whether the program makes a stream for the board, or what one leaves: only these hold 8006h against the record.
fn makes_stream(name: &str) -> bool {
    matches!(name, "update" | "fresh" | "wanted" | "wanted_fresh")
}

pub fn bench(name: &str, aim: u32, rng: &mut Rng) -> Vec<Field> {
    let mut d = program_device(rng);
    // A board that is too large has files of a small one, sound or not: no program looks at them.
    let large = aim == 17;
    let aim = if large { after_17(name, rng) } else { aim };
    if aim == 22 {
        d = choosy(&d, rng);
    }
    let protected = match (name, aim) {
        ("update" | "wanted", 0 | 24) => false,
        ("update" | "wanted" | "dump", 23) | (_, 41) => true,
        ("verify" | "dump", 0) => false,
        _ => rng.chance(30),
    };
    let mut reading = reading_for(&d, protected, rng);
    // 14, 18 and 19 are of the wanted sheet alone, of the board's alone, or of both.
    let of_wanted = name == "verify" && matches!(aim, 14 | 18 | 19) && rng.chance(50);
    let wanted = wanted_words(&d, &reading, aim == 40, rng);
    // The third file is made with the reading still sound, and may change it to suit.
    let mut third = match name {
        _ if makes_stream(name) => Some(hex_file(&d, &mut reading, aim, rng)),
        "trial" => Some(stream_file(&d, aim, rng)),
        "gather" => Some(words_file(&d, &reading, aim, rng)),
        _ => None,
    };
    if aim == 22
        || (aim != 0 && aim < 12 && rng.chance(20))
        || (matches!(name, "update" | "wanted") && also(aim, &[14, 15, 16, 18, 19], rng))
        || (!makes_stream(name) && rng.chance(20))
    {
        let word = other_word(&d, rng);
        reading[d.p() + 6] = word.unwrap_or(reading[d.p() + 6]);
    }
    // Line 1 fits, as 8006h mostly does; nothing makes them the same word.
    let id = fitting(&d, rng);
    let text = with_id(&sheet::text(&d, &reading), id);
    let (table, board) = if large {
        too_large(&d, &text, aim == 14, rng)
    } else {
        let alone = matches!(name, "readback" | "gather");
        let aim = if of_wanted { 0 } else { aim };
        first_files(&d, id, &text, aim, alone, rng)
    };
    if name == "verify" {
        // Whatever the wanted sheet has, the board's comes first.
        let aim = match aim {
            14..=19 if !of_wanted && rng.chance(60) => rng.pick(&[14, 18, 19]),
            _ if of_wanted => aim,
            _ => 0,
        };
        third = Some(wanted_file(&d, &table, &wanted, aim, rng));
    }
    let mut fields: Vec<Field> = vec![table.clone().into(), board.clone().into()];
    let file = third.clone().unwrap_or_default();
    let printed = match name {
        "checksum" => own::checksum(&table, &board),
        "verify" => own::verify(&table, &board, &file),
        "newsheet" => own::newsheet(&table, &board),
        "oldsheet" => own::oldsheet(&table, &board),
        "readback" => own::readback(&table, &board),
        "update" => own::update(&table, &board, &file),
        "fresh" => own::fresh(&table, &board, &file),
        "wanted" => own::wanted(&table, &board, &file),
        "wanted_fresh" => own::wanted_fresh(&table, &board, &file),
        "trial" => own::trial(&table, &board, &file),
        "gather" => own::gather(&table, &board, &file),
        _ => own::dump(&table, &board),
    };
    let short = rng.chance(25);
    let length = room(printed.text.len(), short, rng);
    fields.extend(third.map(Field::from));
    fields.push(lent(length, rng).into());
    fields
}

/// Table and sheet to be opened, and what the buffer holds before.
pub fn board(name: &str, aim: u32, rng: &mut Rng) -> Vec<Field> {
    let mut d = program_device(rng);
    if rng.chance(30) {
        // A first line that is malformed reads as 0, which fits then.
        d.id &= !d.idmask;
    }
    let mut reading = reading_for(&d, rng.chance(30), rng);
    if rng.chance(20) {
        reading[d.p() + 6] = rng.word();
    }
    let id = fitting(&d, rng);
    let text = with_id(&sheet::text(&d, &reading), id);
    let alone = matches!(name, "find_record" | "open_record");
    let (table, board) = if aim == 17 || (name == "find_record" && aim == 0 && rng.chance(20)) {
        too_large(&d, &text, rng.chance(30), rng)
    } else {
        first_files(&d, id, &text, aim, alone, rng)
    };
    let mut fields: Vec<Field> = vec![table.into(), board.into()];
    if !alone {
        fields.push(number(16, rng).into());
    }
    fields
}

/// A table and a sheet of the device to be moved, and room for it.
pub fn moves(form: Form, aim: u32, d: Device, rng: &mut Rng) -> Vec<Field> {
    let mut reading = reading_for(&d, rng.chance(30), rng);
    if rng.chance(20) {
        reading[d.p() + 6] = rng.word();
    }
    let id = fitting(&d, rng);
    let text = with_id(&sheet::text(&d, &reading), id);
    let (table, board) = first_files(&d, id, &text, aim, false, rng);
    let short = aim == 26 || also(aim, &[14, 15, 16, 18, 19], rng);
    let needed = moved_to(form, &table, &board).map_or(text.len(), |new| new.len());
    let length = room(needed, short, rng);
    vec![table.into(), board.into(), lent(length, rng).into()]
}

/// A table that has the board as too large a device, and its sheet, or what begins like one.
fn too_large(d: &Device, text: &[u8], bad_rest: bool, rng: &mut Rng) -> (Vec<u8>, Vec<u8>) {
    let large = enlarged(d, rng);
    let table = table_with(&large, rng);
    let text = headed_by(&table, d, text, Head::Any, rng);
    let first = text[..line_2(&text)].to_vec();
    let board = match rng.below(40) {
        // A sound sheet of so large a board: seldom, since it is long.
        0 => {
            let text = sheet::text(&large, &reading_for(&large, rng.chance(30), rng));
            headed_by(&table, &large, &text, Head::Any, rng)
        }
        1..=8 => first,
        9..=12 => [first, lent(40, rng)].concat(),
        _ if bad_rest => bad_sheet(d, &text, rng),
        _ => text,
    };
    (table, board)
}

/// Table and sheet, with 14, 15, 16, 18 or 19 in them where that is aimed at; `id` is what the sheet has on line 1.
fn first_files(
    d: &Device,
    id: u16,
    text: &[u8],
    aim: u32,
    line_alone: bool,
    rng: &mut Rng,
) -> (Vec<u8>, Vec<u8>) {
    // What comes before 17 comes for a large board as well.
    let any_size = if rng.chance(40) { enlarged(d, rng) } else { *d };
    // In a sheet of which line 1 alone is read the first line may be malformed, and no more.
    let bad_line = aim == 14 && (line_alone || rng.chance(40));
    let table = match aim {
        15 => bad_table(&any_size, rng),
        16 => table_without(&any_size, id, rng),
        14 if bad_line && rng.chance(30) => table_without(&any_size, id, rng),
        14 if bad_line => table_with(&any_size, rng),
        _ => table_with(d, rng),
    };
    // Nor are name and sum anything to a program that reads the ID alone.
    let head = if line_alone {
        Head::Any
    } else {
        Head::for_aim(aim)
    };
    let text = headed_by(&table, d, text, head, rng);
    let board = match aim {
        15 if rng.chance(30) => bad_first_line(&text, rng),
        16 if rng.chance(40) => bad_sheet(d, &text, rng),
        14 if bad_line => bad_first_line(&text, rng),
        14 => bad_sheet(d, &text, rng),
        15 | 16 => text,
        // What follows line 1 is nothing to a program that reads line 1 alone.
        _ if line_alone && rng.chance(40) => bad_sheet(d, &text, rng),
        _ => text,
    };
    (table, board)
}

fn hex_file(d: &Device, reading: &mut [u16], aim: u32, rng: &mut Rng) -> Vec<u8> {
    let mut image = image_for(d, reading, rng);
    if aim == 24 || also(aim, &[22, 23, 14, 16, 18, 19], rng) {
        want_a_bit(d, &mut image, reading, rng);
        // So that nothing but the bit refuses.
        if aim == 24 {
            reading[d.p() + 7] |= CP;
        }
    }
    let lines = match aim {
        1..=11 => aim,
        14..=19 if rng.chance(30) => rng.pick(&[2, 3, 10]),
        _ => 0,
    };
    hexes::text(d, &image, lines, PROGRAM_TEXT_MAX, BYTES_MAX, rng)
}

/// What is wanted of a board: nothing else that is judged, or what differs in a word or more.
fn wanted_words(d: &Device, reading: &[u16], differs: bool, rng: &mut Rng) -> Vec<u16> {
    let p = d.p();
    let mut wanted = reading.to_vec();
    if d.protected(reading) && rng.chance(50) {
        let i = rng.below(p);
        wanted[i] = rng.word();
    }
    wanted[p + rng.between(4, 6)] = rng.word();
    if differs {
        for _ in 0..rng.pick(&[1, 1, 3, 30]) {
            let judged = if d.protected(reading) { p } else { 0 };
            let at = if rng.chance(20) {
                p + 8
            } else if rng.chance(40) {
                p + rng.pick(&[0, 1, 2, 3, 7, 8])
            } else {
                rng.below(p).max(judged)
            };
            other_bit(d, &mut wanted, at, rng);
        }
    }
    if rng.chance(60) {
        other_spare(d, &mut wanted, rng);
    }
    wanted
}

/// The wanted sheet, by the board's table, with 14, 18 or 19 in it where that is aimed at.
fn wanted_file(d: &Device, table: &[u8], wanted: &[u16], aim: u32, rng: &mut Rng) -> Vec<u8> {
    // Its line 1 need only fit, too.
    let text = with_id(&sheet::text(d, wanted), fitting(d, rng));
    let text = headed_by(table, d, &text, Head::for_aim(aim), rng);
    if aim != 14 {
        return text;
    }
    match rng.below(4) {
        0 => bad_first_line(&text, rng),
        1 => with_id(&text, other_word(d, rng).unwrap_or(no_word(d, rng))),
        _ => bad_sheet(d, &text, rng),
    }
}

/// A printed stream's line that is not two and four capital hex digits.
fn bad_line(line: &[u8], rng: &mut Rng) -> Vec<u8> {
    let mut bad = line.to_vec();
    match rng.below(9) {
        0 => bad.clear(),
        1 => bad[2] = b' ',
        2 => {
            let at = rng.pick(&[0, 1, 3, 4, 5, 6]);
            bad[at] = rng.pick(b"abcdef/:@G`g \t\r");
        }
        3 => bad.push(rng.pick(b"\r 0\t")),
        4 => {
            bad.pop();
        }
        5 => bad.insert(0, rng.pick(b"0 \t")),
        6 => {
            bad.remove(2);
        }
        7 => bad.insert(2, b'\t'),
        _ => bad.truncate(rng.below(7)),
    }
    bad
}

/// Words that came back; a line in them that is none, a word above 3FFF, or some too few or too many, is 21.
fn words_file(d: &Device, reading: &[u16], aim: u32, rng: &mut Rng) -> Vec<u8> {
    let mut words = reading.to_vec();
    if rng.chance(20) {
        // 8006h is not held against the record here.
        words[d.p() + 6] = rng.word();
    }
    let spoilt = aim == 21 || also(aim, &[14, 15, 16], rng);
    if spoilt && rng.chance(40) {
        match rng.below(4) {
            0 => words.truncate(rng.below(words.len())),
            1 => {
                words.remove(rng.below(d.entries()));
            }
            2 => words.insert(rng.below(d.entries() + 1), rng.word()),
            _ => words[rng.below(d.entries())] |= 1 << rng.between(14, 15),
        }
        return own::answer_text(&words);
    }
    let mut text = own::answer_text(&words);
    if spoilt {
        let at = 5 * rng.below(d.entries());
        match rng.below(8) {
            0 => text[at + rng.below(4)] = rng.pick(b"abcdef/:@G`g \t\r"),
            1 => text[at + 4] = rng.pick(b"\r\t 0"),
            2 => text.insert(at + rng.below(5), rng.pick(b"0 \t\r\n")),
            3 => {
                text.remove(at + rng.below(5));
            }
            4 => {
                text.pop();
            }
            5 => text.push(rng.pick(b"\n\r0 ")),
            6 => text.clear(),
            // A word's line once more, so that no line is wrong by itself.
            _ => {
                let line = text[at..at + 5].to_vec();
                text.extend(line);
            }
        }
    }
    text
}

fn stream_file(d: &Device, aim: u32, rng: &mut Rng) -> Vec<u8> {
    let mut stream = sound_stream(d, rng);
    // The trial's most lines; more of them do not fit a request.
    if rng.chance(1) && aim == 0 {
        stream.splice(0..0, [RESET, 0, 0]);
        // Reads too: each of them takes room somewhere.
        let filler = rng.pick(&[INCREMENT, READ]);
        while stream.len() < 3 * own::TRIAL_LINES {
            stream.extend([filler, 0, 0]);
        }
    }
    // Room for the bad lines that are put in below.
    let most = if aim == 0 {
        own::TRIAL_LINES
    } else {
        own::TRIAL_LINES - 40
    };
    stream.truncate(3 * most);
    if matches!(aim, 30 | 31 | 33) || also(aim, &[14, 15, 16, 18, 19, 34], rng) {
        let number = if (30..34).contains(&aim) {
            aim
        } else {
            rng.pick(&[30, 31, 33])
        };
        let steps = bad_step(number, rng);
        put_in(&mut stream, &steps, rng);
    }
    let text = own::stream_text(&stream);
    let mut lines: Vec<Vec<u8>> = text.chunks(8).map(|l| l[..7].to_vec()).collect();
    if aim == 34 || also(aim, &[14, 15, 16, 18, 19], rng) {
        let at = rng.below(lines.len() + 1);
        let bad = bad_line(b"06\t0000", rng);
        lines.insert(at, bad);
        if rng.chance(20) {
            let bad = bad_line(b"02\t3FFE", rng);
            lines.push(bad);
        }
    }
    let mut out = lines.join(&b'\n');
    // The last line may stand without its LF.
    if !lines.is_empty() && (rng.chance(85) || aim == 34) {
        out.push(b'\n');
    }
    out
}
