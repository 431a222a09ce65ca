//! Devices of more than 8,192 program words, worked out by hand: the largest that there can be, where program space ends just
//! before 8000h, and 17 of the programs, which take no such board.

use crate::calls::device_fields;
use crate::device::Device;
use crate::field::Field;
use crate::hex::record_text;
use crate::words::NOT_GIVEN;
use crate::worked::{
    bench_case, case, hex_case, number, refused_text, sound_text, tiny_sheet, Case, CONFIGURED,
    END, LISTING, TINY, TINY_LINE,
};

const BIG: Device = Device {
    id: 0x2A01,
    words: 32_768,
    row: 32,
    mask1: 0x3EFF,
    mask2: 0x3FF3,
    idmask: 0x3FFF,
};
const BIG_LINE: &[u8] = b"BIG\t2A01\t32768\t32\t3EFF\t3FF3\n";
/// The longest HEX text that is read.
const LONGEST: usize = 524_288;
/// What a program prints for a board that is too large.
const TOO_LARGE: &str = "refused\t17\t0\t0\n";

fn big(words: u16, row: u16) -> Device {
    Device { words, row, ..BIG }
}

/// The rules of a record, and of a table's line.
fn rule_cases() -> Vec<Case> {
    let lawful = [
        (32_768, 32),
        (32_768, 16),
        (32_768, 8),
        (32_760, 8),
        (8_200, 8),
        (8_224, 32),
    ];
    let broken = [
        (32_776, 8),
        (32_784, 16),
        (32_800, 32),
        (32_760, 16),
        (40_000, 32),
        (65_528, 8),
    ];
    let judged = |sound: bool| {
        move |(words, row): (u16, u16)| {
            let what = format!("P = {words}, R = {row}");
            let line = format!("BIG\t2A01\t{words}\t{row}\t3EFF\t3FF3\n").into_bytes();
            let answer = |refusal| vec![number(if sound { 0 } else { refusal })];
            let record = Some(&big(words, row));
            [
                case(&what, "device.judge", record, vec![], answer(13)),
                case(
                    &what,
                    "device.judge_table",
                    None,
                    vec![line.into()],
                    answer(15),
                ),
            ]
        }
    };
    let mut all: Vec<Case> = lawful.into_iter().flat_map(judged(true)).collect();
    all.extend(broken.into_iter().flat_map(judged(false)));
    // 25 bytes of TINY's line stand before the name.
    let mut found = vec![number(0)];
    found.extend(device_fields(&BIG));
    found.extend([number(25), number(3)]);
    all.push(case(
        "BIG in a table",
        "device.find_device",
        None,
        vec![[TINY_LINE, BIG_LINE].concat().into(), number(0x2A01)],
        found,
    ));
    all
}

/// A record of program words up to 7FFFh and words from 8000h on, without wrap: 1, 2 and so on.
fn across(program: usize, configuration: usize) -> Vec<u16> {
    (1..=program + configuration).map(|k| k as u16).collect()
}

/// The line of such words.
fn across_line(program: usize, words: &[u16]) -> Vec<u8> {
    let data: Vec<u8> = words.iter().flat_map(|w| w.to_le_bytes()).collect();
    record_text((0x1_0000 - 2 * program) as u16, 0, &data)
}

fn with_end(lines: &[Vec<u8>]) -> Vec<u8> {
    [lines.concat(), END.as_bytes().to_vec()].concat()
}

/// The column of a word by its place in a record.
fn column(place: usize) -> u32 {
    10 + 4 * place as u32
}

/// Records across 64 KiB.
fn across_cases() -> Vec<Case> {
    let p = BIG.p();
    let mut all = vec![
        // The request's own, written out.
        hex_case(
            &BIG,
            b":04FFFE003412560063\n:00000001FF\n",
            (0, 0, 0),
            &[(0x7FFF, 0x1234), (p, 0x0056)],
        ),
        refused_text(
            &big(32_736, 32),
            b":04FFFE003412560063\n:00000001FF\n",
            (7, 1, 10),
        ),
        refused_text(
            &big(8_192, 32),
            b":04FFFE003412560063\n:00000001FF\n",
            (7, 1, 10),
        ),
        // The same place a whole 64 KiB on is nothing's.
        refused_text(
            &BIG,
            b":020000040001F9\n:04FFFE003412560063\n:00000001FF\n",
            (7, 2, 10),
        ),
    ];
    for (program, configuration) in [(1, 1), (1, 4), (8, 2), (126, 1), (123, 4), (127, 0)] {
        let words = across(program, configuration);
        let given: Vec<(usize, u16)> = (p - program..).zip(words.iter().copied()).collect();
        let text = with_end(&[across_line(program, &words)]);
        all.push(hex_case(&BIG, &text, (0, 0, 0), &given));
    }
    // 7: the fifth word from 8000h on is 8004h.
    for program in [1, 2, 64, 122] {
        let text = with_end(&[across_line(program, &across(program, 5))]);
        all.push(refused_text(&BIG, &text, (7, 1, column(program + 4))));
    }
    // 7: the first word past P, of a record that runs on to 8001h.
    for (words, row) in [(32_760, 8), (32_752, 16), (32_736, 32)] {
        let program = 0x8000 - usize::from(words) + 2;
        let text = with_end(&[across_line(program, &across(program, 2))]);
        all.push(refused_text(&big(words, row), &text, (7, 1, column(2))));
    }
    for place in 0..9 {
        // 8: a word above 3FFFh, in either space.
        let mut words = across(5, 4);
        words[place] = 0x4000;
        let text = with_end(&[across_line(5, &words)]);
        all.push(refused_text(&BIG, &text, (8, 1, column(place))));
        // 9: a word given before, by a record of its own.
        let (upper, offset) = if place < 5 {
            (0, 0xFFF6 + 2 * place)
        } else {
            (1, 2 * (place - 5))
        };
        let lines = [
            record_text(0, 4, &[0, upper]),
            record_text(offset as u16, 0, &[0x34, 0x12]),
            record_text(0, 4, &[0, 0]),
            across_line(5, &across(5, 4)),
        ];
        all.push(refused_text(&BIG, &with_end(&lines), (9, 4, column(place))));
    }
    all
}

/// The longest texts: the end record, and LFs before or behind.
fn length_cases() -> Vec<Case> {
    let behind = |length: usize| [END.as_bytes(), &vec![b'\n'; length - END.len()]].concat();
    let before = |length: usize| [&vec![b'\n'; length - END.len()], END.as_bytes()].concat();
    let left: Vec<u16> = vec![0x1234; TINY.entries() - 1];
    vec![
        sound_text(&TINY, &behind(LONGEST)),
        sound_text(&BIG, &before(LONGEST)),
        refused_text(&TINY, &behind(LONGEST + 1), (1, 0, 0)),
        refused_text(&BIG, &before(LONGEST + 1), (1, 0, 0)),
        // 1 comes before what a line has, and after 12.
        refused_text(&TINY, &vec![b'x'; LONGEST + 1], (1, 0, 0)),
        refused_text(&TINY, &vec![b'x'; LONGEST], (2, 1, 1)),
        case(
            "12 before 1",
            "ihex.read_hex",
            Some(&TINY),
            vec![behind(LONGEST + 1).into(), left.clone().into()],
            vec![number(12), number(0), number(0), left.into()],
        ),
    ]
}

/// What is answered beside a buffer that is just filled by it.
fn filled(
    what: &str,
    name: &str,
    d: &Device,
    lists: Vec<Field>,
    value: usize,
    out: Vec<u8>,
) -> Case {
    let lent: Vec<u8> = out.iter().map(|b| !b).collect();
    let mut fields = lists;
    fields.push(lent.into());
    let expected = vec![number(0), value.into(), out.into()];
    case(what, name, Some(d), fields, expected)
}

/// HEX text of two words, which are neighbours in two blocks.
fn text_case() -> Case {
    let mut image = vec![NOT_GIVEN; BIG.entries()];
    image[0x7FFF] = 0x1234;
    image[0x8000] = 0x0056;
    let text = ":02FFFE003412BB\n:020000040001F9\n:020000005600A8\n:00000001FF\n";
    filled(
        "HEX text on both sides of 64 KiB",
        "ihex.write_hex",
        &BIG,
        vec![image.into()],
        60,
        text.into(),
    )
}

/// Steps as code and payload, one after another.
fn stream(steps: &[(u8, u16)]) -> Vec<u8> {
    steps
        .iter()
        .flat_map(|(code, payload)| [*code, *payload as u8, (*payload >> 8) as u8])
        .collect()
}

/// A board of one word all through, but for its ID and its configuration words, and an image that gives other words everywhere: no
/// program word is 0000h or 3FFFh.
fn all_different(d: &Device, word: u16) -> (Vec<u16>, Vec<u16>) {
    let p = d.p();
    let mut board = vec![word; p + 4];
    board.extend([0x3FFF, 0x3FFF, d.id, 0x3FFF, 0x3FFF]);
    let mut image: Vec<u16> = (0..p).map(|a| (1 + a % 0x3FFE) as u16).collect();
    image.extend([0x0001, 0x0002, 0x0003, 0x0004]);
    image.extend([NOT_GIVEN; 3]);
    image.extend([0x0000, 0x0000]);
    (board, image)
}

/// The updates of it: every row, both configuration words with their spare bits as read. From words of 0000h every row is erased, and
/// the user IDs are; from words of 3FFFh none is.
fn update_cases() -> [Case; 2] {
    let d = big(32_768, 8);
    let planned = |what: &str, word: u16, erase: bool, count: usize| {
        let (board, image) = all_different(&d, word);
        let mut steps = vec![(0x16, 0)];
        for (a, &word) in image[..d.p()].iter().enumerate() {
            if a > 0 {
                steps.push((0x06, 0));
            }
            if erase && a % 8 == 0 {
                steps.push((0x11, 0));
            }
            steps.push((0x02, 2 * word));
            if a % 8 == 7 {
                steps.push((0x08, 0));
            }
        }
        steps.push((0x00, 0x7FFE));
        if erase {
            steps.push((0x11, 0));
        }
        for id in [0x0002, 0x0004, 0x0006] {
            steps.extend([(0x02, id), (0x08, 0), (0x06, 0)]);
        }
        steps.extend([(0x02, 0x0008), (0x08, 0)]);
        steps.extend([(0x06, 0); 4]);
        steps.extend([(0x02, 2 * 0x0100), (0x08, 0), (0x06, 0)]);
        steps.extend([(0x02, 2 * 0x000C), (0x08, 0)]);
        let lists = vec![image.into(), board.into()];
        filled(what, "plan.update", &d, lists, count, stream(&steps))
    };
    [
        planned(
            "every word of the largest device updated from 0000h, as many steps as there can be",
            0x0000,
            true,
            73_750,
        ),
        // 4,096 rows and the user IDs have no erase.
        planned(
            "every word of the largest device updated from 3FFFh",
            0x3FFF,
            false,
            69_653,
        ),
    ]
}

fn read_back_case() -> Case {
    let mut steps = vec![(0x16, 0)];
    for a in 0..32_768 {
        if a > 0 {
            steps.push((0x06, 0));
        }
        steps.push((0x04, 0));
    }
    steps.extend([(0x00, 0x7FFE), (0x04, 0)]);
    for _ in 0x8001..=0x8008 {
        steps.extend([(0x06, 0), (0x04, 0)]);
    }
    filled(
        "read-back",
        "plan.read_back",
        &BIG,
        vec![],
        65_554,
        stream(&steps),
    )
}

/// The sheet of a board that has a word of its own at each address, written, read and moved, in both forms. It is
/// protected: its sum is 0007h, the masked 8007h, and 0123h, the IDs' nibbles.
fn sheet_cases() -> Vec<Case> {
    let words: Vec<u16> = (0..32_777).map(|i| (i % 0x4000) as u16).collect();
    let mut rest = String::from("\n");
    for (line, eight) in words[..32_768].chunks(8).enumerate() {
        rest += &format!("{:04X}", 8 * line);
        for word in eight {
            rest += &format!("\t{word:04X}");
        }
        rest += "\n";
    }
    rest += "8000\t0000\t0001\t0002\t0003\t0004\t0005\t0006\t0007\t0008\n";
    let lent: Vec<u16> = words.iter().map(|w| !w).collect();
    let sheet = |first: &str| format!("{first}{rest}").into_bytes();
    let (old, new) = (sheet("2A01"), sheet("2A01\tBIG\t012A"));
    let big = || -> Field { b"BIG".to_vec().into() };
    let read = |what: &str, text: &[u8], answer: u32| {
        let left = if answer == 0 { &words } else { &lent };
        case(
            what,
            "sheet.read_sheet",
            Some(&BIG),
            vec![big(), text.to_vec().into(), lent.clone().into()],
            vec![number(answer), left.clone().into()],
        )
    };
    let mut all = vec![
        read("a sheet of 184,375 bytes read", &old, 0),
        read("a sheet of the new form read", &new, 0),
        read("another name", &sheet("2A01\tBIGG\t012A"), 18),
        read("another sum", &sheet("2A01\tBIG\t012B"), 19),
        filled(
            "a sheet written",
            "sheet.write_sheet",
            &BIG,
            vec![words.clone().into()],
            184_375,
            old.clone(),
        ),
        filled(
            "a sheet of the new form written",
            "sheet.write_new_sheet",
            &BIG,
            vec![big(), words.clone().into()],
            184_384,
            new.clone(),
        ),
    ];
    for (name, text) in [("sheet.to_new", &new), ("sheet.to_old", &old)] {
        for from in [&old, &new] {
            let lent: Vec<u8> = text.iter().map(|b| !b).collect();
            all.push(case(
                "a sheet of the largest device moved",
                name,
                None,
                vec![
                    [TINY_LINE, BIG_LINE].concat().into(),
                    from.clone().into(),
                    lent.into(),
                ],
                vec![number(0), text.len().into(), text.clone().into()],
            ));
        }
    }
    all
}

/// A step at a counter, with every latch of another word: the counter, the words read and the cells that change. Every cell
/// is 2AAAh before, so that it is not protected.
fn step_case(
    code: u8,
    counter: u16,
    next: u16,
    read: Option<u16>,
    changed: &[(usize, u16)],
) -> Case {
    let latches: Vec<u16> = (0..32).map(|k| 0x3F00 + k).collect();
    let left = if code == 0x08 {
        vec![0x3FFF; 32]
    } else {
        latches.clone()
    };
    let cells = vec![0x2AAA; BIG.cells()];
    let mut after = cells.clone();
    for &(entry, word) in changed {
        after[entry] = word;
    }
    let fields = vec![
        counter.into(),
        latches.into(),
        code.into(),
        number(0),
        vec![0x5A5Au16].into(),
        cells.into(),
    ];
    let words = vec![read.unwrap_or(0x5A5A)];
    let expected = vec![
        number(0),
        next.into(),
        left.into(),
        words.into(),
        after.into(),
    ];
    let what = format!("code {code:02X}h at {counter:04X}h");
    case(&what, "target.step", Some(&BIG), fields, expected)
}

/// The model where program space ends and configuration space begins.
fn step_cases() -> Vec<Case> {
    // The last row is 7FE0h to 7FFFh: 2AAAh AND 3F00h + k.
    let written: Vec<(usize, u16)> = (0..32)
        .map(|k| (0x7FE0 + k, 0x2A00 + (0xAA & k as u16)))
        .collect();
    let erased: Vec<(usize, u16)> = (0x7FE0..0x8000).map(|a| (a, 0x3FFF)).collect();
    let ids: Vec<(usize, u16)> = (0x8000..0x8004).map(|a| (a, 0x3FFF)).collect();
    vec![
        step_case(0x08, 0x7FFF, 0x7FFF, None, &written),
        step_case(0x11, 0x7FFF, 0x7FFF, None, &erased),
        step_case(0x04, 0x7FFF, 0x7FFF, Some(0x2AAA), &[]),
        step_case(0x06, 0x7FFF, 0x0000, None, &[]),
        step_case(0x08, 0x8000, 0x8000, None, &[(0x8000, 0x2A00)]),
        step_case(0x11, 0x8000, 0x8000, None, &ids),
        step_case(0x04, 0x8000, 0x8000, Some(0x2AAA), &[]),
    ]
}

/// The sum of a blank board, and a verdict on one of which every word differs that is judged.
fn judge_cases() -> [Case; 2] {
    let blank = vec![0x3FFFu16; 32_777];
    let zero = vec![0x0000u16; 32_777];
    [
        // 32,768 times 3FFFh is 8000h, and the two masks are 7EF2h more.
        case(
            "a blank board's sum",
            "judge.checksum",
            Some(&BIG),
            vec![blank.clone().into()],
            vec![number(0), number(0xFEF2)],
        ),
        case(
            "every word differs",
            "judge.verify",
            Some(&BIG),
            vec![zero.into(), blank.into()],
            vec![number(40), number(0), number(32_774)],
        ),
    ]
}

/// The programs that read table and sheet, and those that read a third file.
const OF_TWO: [&str; 5] = [
    "bench.checksum",
    "bench.readback",
    "bench.dump",
    "bench.newsheet",
    "bench.oldsheet",
];
const OF_THREE: [&str; 7] = [
    "bench.verify",
    "bench.update",
    "bench.fresh",
    "bench.wanted",
    "bench.wanted_fresh",
    "bench.trial",
    "bench.gather",
];

/// 17 of every program: after 15, 14 for line 1 and 16, and before all else.
fn program_cases() -> Vec<Case> {
    let both = [TINY_LINE, BIG_LINE].concat();
    let malformed = [TINY_LINE, b"BIG\t2A01\t32768\t32\t3eff\t3FF3\n"].concat();
    // A first line that is malformed reads as ID 0, which is no reason to look at this device.
    let zero = [TINY_LINE, b"ZERO\t0000\t32768\t32\t3EFF\t3FF3\n"].concat();
    let above = b"MORE\t2A01\t8200\t8\t3EFF\t3FF3\n".to_vec();
    let rest = tiny_sheet().replacen("2A00", "2A01", 1);
    let files: [(&str, &[u8], &[u8], &str); 12] = [
        ("line 1 alone", &both, b"2A01\n", TOO_LARGE),
        ("the new form", &both, b"2A01\tBIG\t0000\n", TOO_LARGE),
        ("another name", &both, b"2A01\tBIX\t0000\nx", TOO_LARGE),
        (
            "14 first, sum",
            &both,
            b"2A01\tBIG\t000\n",
            "refused\t14\t0\t0\n",
        ),
        ("any rest", &both, b"2A01\nx", TOO_LARGE),
        ("too few words", &both, rest.as_bytes(), TOO_LARGE),
        ("8,200 words", &above, b"2A01\n", TOO_LARGE),
        ("15 first", &malformed, b"2A01\n", "refused\t15\t0\t0\n"),
        ("14 first", &both, b"2A1\n", "refused\t14\t0\t0\n"),
        ("14 first, ID 0", &zero, b"2A1\n", "refused\t14\t0\t0\n"),
        ("14 first, no sheet", &zero, b"", "refused\t14\t0\t0\n"),
        ("16 first", &both, b"2A02\n", "refused\t16\t0\t0\n"),
    ];
    let mut all = Vec::new();
    for (what, table, sheet, text) in files {
        for name in OF_TWO {
            all.push(bench_case(what, name, &[table, sheet], text));
        }
        for name in OF_THREE {
            // A third file that is not there, and one that is nothing.
            for third in [b"".as_slice(), b"x"] {
                all.push(bench_case(what, name, &[table, sheet, third], text));
            }
        }
    }
    // 8,192 words are not too many: what comes next is told.
    let most = b"MOST\t2A01\t8192\t32\t3EFF\t3FF3\n";
    for name in ["bench.checksum", "bench.dump"] {
        let refused = "refused\t14\t0\t0\n";
        all.push(bench_case("8,192 words", name, &[most, b"2A01\n"], refused));
    }
    all.push(bench_case(
        "8,192 words",
        "bench.gather",
        &[most, b"2A01\n", b""],
        "refused\t21\t0\t0\n",
    ));
    // A larger line beside the board's own is no matter.
    let board = tiny_sheet();
    let board = board.as_bytes();
    let hex = CONFIGURED.as_bytes();
    all.push(bench_case(
        "the whole listing, a large device in the table",
        "bench.update",
        &[&both, board, hex],
        LISTING,
    ));
    all.push(bench_case(
        "blank TINY's sum, a large device in the table",
        "bench.checksum",
        &[&both, board],
        "7EE2\n",
    ));
    all
}

/// The record beside 17 is the one that is found, by itself without 17, and the reading stays.
fn board_cases() -> [Case; 3] {
    let files: Vec<Field> = vec![
        [TINY_LINE, BIG_LINE].concat().into(),
        b"2A01\n0000".to_vec().into(),
    ];
    // 25 bytes of TINY's line stand before the name.
    let mut record = vec![number(17)];
    record.extend(device_fields(&BIG));
    record.extend([number(25), number(3)]);
    let mut opened = files.clone();
    opened.push(number(0x5A5A));
    let mut found = record.clone();
    found[0] = number(0);
    let mut board = record.clone();
    board.push(vec![0x5A5Au16; 8_201].into());
    [
        case("BIG's line 1", "board.find_record", None, files.clone(), found),
        case("BIG's line 1", "board.open_record", None, files, record),
        case("BIG's line 1", "board.open_board", None, opened, board),
    ]
}

pub fn cases() -> Vec<Case> {
    let mut all = rule_cases();
    all.extend(across_cases());
    all.extend(length_cases());
    all.extend([text_case(), read_back_case()]);
    all.extend(update_cases());
    all.extend(sheet_cases());
    all.extend(step_cases());
    all.extend(judge_cases());
    all.extend(program_cases());
    all.extend(board_cases());
    all
}
