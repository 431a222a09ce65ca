//! The ID under its mask, worked out by hand: the words that fit, tables of which a word fits two lines, sheets, streams and
//! programs of a board whose line 1 and word 8006h are neither the record's ID nor the same.

use crate::calls::device_fields;
use crate::device::Device;
use crate::field::Field;
use crate::words::NOT_GIVEN;
use crate::worked::{bench_case, case, number, tiny_sheet, Case, END, TINY, TINY_LINE};

/// The ID and its mask are the maker's, the rest is TINY's.
pub const MCP: Device = Device {
    id: 0x2F82,
    idmask: 0x3FE0,
    ..TINY
};
pub const MCP_LINE: &[u8] = b"MCP19111\t2F82\t16\t8\t3EFF\t3FF3\t3FE0\n";

/// TINY with another ID and mask.
fn tiny(id: u16, idmask: u16) -> Device {
    Device { id, idmask, ..TINY }
}

fn record_cases() -> Vec<Case> {
    let judged = |idmask: u16, answer: u32| {
        let what = format!("an ID's mask of {idmask:04X}h");
        let d = tiny(0x2A00, idmask);
        case(
            &what,
            "device.judge",
            Some(&d),
            vec![],
            vec![number(answer)],
        )
    };
    let fits = |d: Device, word: u16, answer: u32| {
        let what = format!("{word:04X}h for {:04X}h under {:04X}h", d.id, d.idmask);
        let asked = vec![word.into()];
        case(&what, "device.fits", Some(&d), asked, vec![number(answer)])
    };
    vec![
        judged(0x3FFF, 0),
        judged(0x0000, 0),
        judged(0x4000, 13),
        judged(0xFFFF, 13),
        fits(MCP, 0x2F80, 1),
        fits(MCP, 0x2F82, 1),
        fits(MCP, 0x2F9F, 1),
        fits(MCP, 0x2F7F, 0),
        fits(MCP, 0x2FA0, 0),
        fits(MCP, 0x6F82, 0),
        fits(MCP, 0xAF82, 0),
        fits(TINY, 0x2A00, 1),
        fits(TINY, 0x2A01, 0),
        fits(tiny(0x2A00, 0x0000), 0x3FFF, 1),
        fits(tiny(0x2A00, 0x0000), 0x0000, 1),
        fits(tiny(0x2A00, 0x0000), 0x4000, 0),
        fits(tiny(0x2A00, 0x0000), 0xFFFF, 0),
        // The record is not judged: what it has above 14 bits counts as any other bit.
        fits(tiny(0xEA00, 0x3FFF), 0x2A00, 1),
        fits(tiny(0xEA00, 0x3FFF), 0xEA00, 0),
        fits(tiny(0x2A00, 0xFFFF), 0x2A00, 1),
        fits(tiny(0x6A00, 0x7FFF), 0x2A00, 0),
        fits(Device::NONE, 0x1234, 1),
    ]
}

fn table_cases() -> Vec<Case> {
    let line = |id: &str, mask: &str| format!("D\t{id}\t16\t8\t3EFF\t3FF3{mask}\n");
    let tables: [(String, u32); 27] = [
        (line("2A00", "\t"), 15),
        (line("2A00", "\t4000"), 15),
        (line("2A00", "\tFFFF"), 15),
        (line("2A00", "\t3fff"), 15),
        (line("2A00", "\t3FF"), 15),
        (line("2A00", "\t03FFF"), 15),
        (line("2A00", "\t3FFF\t"), 15),
        (line("2A00", "\t3FFF\t3FFF"), 15),
        (line("2A00", "\t3FFF"), 0),
        (line("2A00", "\t3FE0"), 0),
        (line("2A1F", "\t3FE0"), 0),
        (line("2A00", "\t0000"), 0),
        (line("3020", "\t3FE0") + &line("3023", ""), 15),
        (line("3023", "") + &line("3020", "\t3FE0"), 15),
        (line("3020", "\t3FFE") + &line("3022", ""), 0),
        (line("3020", "\t3FFE") + &line("3021", ""), 15),
        (line("0001", "\t0001") + &line("0002", "\t0002"), 15),
        (line("0001", "\t0001") + &line("0002", "\t0003"), 0),
        (line("2A00", "\t3F00") + &line("2A00", "\t00FF"), 15),
        (line("2A00", "\t3F00") + &line("15FF", "\t00FF"), 15),
        (line("2A00", "\t3FFF") + &line("2A00", ""), 15),
        (line("2A00", "\t3FFF") + &line("2A01", ""), 0),
        (line("2A00", "\t0000") + &line("3023", ""), 15),
        (line("3023", "") + &line("2A00", "\t0000"), 15),
        // Lines 1 and 3, which are no neighbours.
        (
            line("3020", "\t3FE0") + &line("3040", "\t3FE0") + &line("303F", "\t3FF0"),
            15,
        ),
        (
            line("3020", "\t3FE0") + &line("3040", "\t3FE0") + &line("3060", "\t3FF0"),
            0,
        ),
        (
            line("3020", "\t3FE0") + &line("3040", "\t3FE0") + &line("3040", "\t3FF0"),
            15,
        ),
    ];
    let judged = |(text, answer): &(String, u32)| {
        let what = format!("the table {text:?}");
        let asked = vec![text.clone().into_bytes().into()];
        case(
            &what,
            "device.judge_table",
            None,
            asked,
            vec![number(*answer)],
        )
    };
    let mut all: Vec<Case> = tables.iter().map(judged).collect();
    let table = [TINY_LINE, MCP_LINE].concat();
    let mut found = |word: u16, answer: u32, d: &Device, place: u32, length: u32| {
        let mut expected = vec![number(answer)];
        expected.extend(device_fields(d));
        expected.extend([number(place), number(length)]);
        all.push(case(
            &format!("{word:04X}h in a table"),
            "device.find_device",
            None,
            vec![table.clone().into(), word.into()],
            expected,
        ));
    };
    // 25 bytes of TINY's line stand before the name.
    for word in [0x2F80, 0x2F82, 0x2F84, 0x2F9F] {
        found(word, 0, &MCP, 25, 8);
    }
    found(0x2A00, 0, &TINY, 0, 4);
    for word in [0x2FA0, 0x2F7F, 0x6F82, 0xAF82, 0x2A01, 0x6A00] {
        found(word, 16, &Device::NONE, 0, 0);
    }
    all
}

/// A blank sheet with this on line 1 and at 8006h.
pub fn sheet(first: &str, word: &str) -> Vec<u8> {
    let text = tiny_sheet().replace("\t2A00\t", &format!("\t{word}\t"));
    format!("{first}{}", &text[4..]).into_bytes()
}

/// The words of such a sheet.
pub fn reading(word: u16) -> Vec<u16> {
    let mut words = vec![0x3FFF; TINY.entries()];
    (words[21], words[22]) = (0x2000, word);
    words
}

fn sheet_cases() -> Vec<Case> {
    let lent: Vec<u16> = vec![0x5A5A; MCP.entries()];
    let read = |d: &Device, first: &str, answer: u32| {
        let left = if answer == 0 {
            reading(0x2F85)
        } else {
            lent.clone()
        };
        case(
            &format!("a sheet with {first} on line 1"),
            "sheet.read_sheet",
            Some(d),
            vec![
                b"MCP19111".to_vec().into(),
                sheet(first, "2F85").into(),
                lent.clone().into(),
            ],
            vec![number(answer), left.into()],
        )
    };
    let text = sheet("2F82", "2F85");
    let all = tiny(0x2A00, 0x0000);
    vec![
        read(&MCP, "2F82", 0),
        read(&MCP, "2F84", 0),
        read(&MCP, "2F9F", 0),
        read(&MCP, "2FA0", 14),
        read(&MCP, "6F82", 14),
        read(&all, "3FFF", 0),
        read(&all, "4000", 14),
        case(
            "a sheet written: the record's ID",
            "sheet.write_sheet",
            Some(&MCP),
            vec![reading(0x2F85).into(), vec![0xA5u8; text.len()].into()],
            vec![number(0), text.len().into(), text.into()],
        ),
    ]
}

/// Streams of nothing: Reset alone, or what a fresh programming begins with.
fn stream_cases() -> Vec<Case> {
    let image: Vec<u16> = vec![NOT_GIVEN; MCP.entries()];
    let planned = |name: &str, d: &Device, word: u16, answer: u32| {
        let (asked, stream): (Field, &[u8]) = if name == "plan.update" {
            (reading(word).into(), &[0x16, 0, 0])
        } else {
            (word.into(), &[0x00, 0xFE, 0x7F, 0x09, 0, 0, 0x16, 0, 0])
        };
        let mut out = vec![0xA5u8; 12];
        let mut steps = 0;
        if answer == 0 {
            out[..stream.len()].copy_from_slice(stream);
            steps = stream.len() / 3;
        }
        let fields = vec![image.clone().into(), asked, vec![0xA5u8; 12].into()];
        let expected = vec![number(answer), steps.into(), out.into()];
        case(&format!("{word:04X}h"), name, Some(d), fields, expected)
    };
    let all = tiny(0x2A00, 0x0000);
    let mut cases = Vec::new();
    for name in ["plan.update", "plan.fresh"] {
        cases.push(planned(name, &MCP, 0x2F85, 0));
        cases.push(planned(name, &MCP, 0x2F82, 0));
        cases.push(planned(name, &MCP, 0x2FA0, 22));
        cases.push(planned(name, &all, 0x3FFF, 0));
    }
    cases.push(planned("plan.fresh", &MCP, 0x6F82, 22));
    cases.push(planned("plan.fresh", &all, 0x4000, 22));
    cases
}

/// The records beside the numbers, and the programs.
fn program_cases() -> Vec<Case> {
    let table = [TINY_LINE, MCP_LINE].concat();
    let opened = |first: &str, answer: u32, d: &Device, place: u32, length: u32| {
        let mut expected = vec![number(answer)];
        expected.extend(device_fields(d));
        expected.extend([number(place), number(length)]);
        let files = vec![table.clone().into(), sheet(first, "2F85").into()];
        case(first, "board.open_record", None, files, expected)
    };
    let mut all = vec![
        opened("2F84", 0, &MCP, 25, 8),
        opened("2FA0", 16, &Device::NONE, 0, 0),
        opened("6F82", 14, &Device::NONE, 0, 0),
    ];
    let board = sheet("2F84", "2F85");
    let text = String::from_utf8_lossy(&board).to_string();
    let end = END.as_bytes();
    let words = "3FFF\n".repeat(21) + "2000\n2F85\n3FFF\n3FFF\n";
    let mut held = |what: &str, name: &str, sheet: &[u8], third: Option<&[u8]>, text: &str| {
        let mut files: Vec<&[u8]> = vec![&table, sheet];
        files.extend(third);
        all.push(bench_case(what, name, &files, text));
    };
    held(
        "of nothing",
        "bench.update",
        &board,
        Some(end),
        "16\t0000\n",
    );
    for name in ["bench.wanted", "bench.wanted_fresh"] {
        held("line 1 of the board", name, &board, Some(end), &text);
    }
    held(
        "line 1 of the board",
        "bench.trial",
        &board,
        Some(b""),
        &text,
    );
    let came = words.as_bytes();
    held(
        "line 1 of the board",
        "bench.gather",
        &board,
        Some(came),
        &text,
    );
    for name in [
        "bench.update",
        "bench.fresh",
        "bench.wanted",
        "bench.wanted_fresh",
    ] {
        let other = sheet("2F84", "2FA0");
        held("8006h", name, &other, Some(end), "refused\t22\t0\t0\n");
        let above = sheet("6F82", "2F85");
        held("line 1", name, &above, Some(end), "refused\t14\t0\t0\n");
        let unknown = sheet("2FA0", "2F85");
        held("line 1", name, &unknown, Some(end), "refused\t16\t0\t0\n");
    }
    let wanted = sheet("2F9F", "2F82");
    held(
        "another line 1 that fits",
        "bench.verify",
        &board,
        Some(&wanted),
        "0\n",
    );
    let other = sheet("2FA0", "2F82");
    held(
        "one that does not",
        "bench.verify",
        &board,
        Some(&other),
        "refused\t14\t0\t0\n",
    );
    held("blank", "bench.checksum", &board, None, "7EE2\n");
    all
}

pub fn cases() -> Vec<Case> {
    let mut all = record_cases();
    all.extend(table_cases());
    all.extend(sheet_cases());
    all.extend(stream_cases());
    all.extend(program_cases());
    all
}
