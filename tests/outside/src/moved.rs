//! Sheets with their sum, worked out by hand: what line 1 may be and what comes of it in every call and program, the
//! moves between the two forms, and every place of line 1 with every character in it.

use crate::calls::device_fields;
use crate::device::Device;
use crate::field::Field;
use crate::masked::{self, MCP, MCP_LINE};
use crate::worked::{
    bench_case, case, number, tiny_sheet, Case, BLANK_COPY, END, LISTING, TINY, TINY_LINE,
};

/// TINY's line and MCP19111's, whose name begins at 25.
fn table() -> Vec<u8> {
    [TINY_LINE, MCP_LINE].concat()
}

/// TINY's blank board with this on line 1.
fn tiny(first: &str) -> Vec<u8> {
    masked::sheet(first, "2A00")
}

/// MCP19111's blank board with this on line 1, and 2F85 at 8006h.
fn mcp(first: &str) -> Vec<u8> {
    masked::sheet(first, "2F85")
}

/// A board of TINY with these on its last line: four IDs, 8007h and 8008h; all program words are 3FFF.
fn tiny_with(first: &str, ids: [&str; 4], configuration: [&str; 2]) -> Vec<u8> {
    let blank = String::from_utf8(tiny(first)).expect("plain text");
    let before = blank.len() - "3FFF\t3FFF\t3FFF\t3FFF\t3FFF\t2000\t2A00\t3FFF\t3FFF\n".len();
    let [one, two] = configuration;
    let ids = ids.join("\t");
    format!(
        "{}{ids}\t3FFF\t2000\t2A00\t{one}\t{two}\n",
        &blank[..before]
    )
    .into_bytes()
}

/// The protected board of the maker's fourth example.
fn protected(first: &str) -> Vec<u8> {
    tiny_with(first, ["000E", "0008", "0005", "0008"], ["3F7F", "3FFF"])
}

/// A text without its last LF.
fn cut(text: Vec<u8>) -> Vec<u8> {
    text[..text.len() - 1].to_vec()
}

/// What is answered about a sheet: by the reader under TINY and its name, by the moves, and by what needs the ID alone.
struct Judged {
    sheet: Vec<u8>,
    read: u32,
    moved: u32,
    id_alone: u32,
}

impl Judged {
    /// A sheet whose name or sum is wrong, or its lines after the first.
    fn wrong(sheet: Vec<u8>, number: u32) -> Judged {
        Judged {
            sheet,
            read: number,
            moved: number,
            id_alone: 0,
        }
    }

    /// A sheet whose line 1 is of neither form.
    fn malformed(first: &str) -> Judged {
        Judged {
            sheet: tiny(first),
            read: 14,
            moved: 14,
            id_alone: 14,
        }
    }

    /// A sheet whose ID fits no line of the table.
    fn unknown(sheet: Vec<u8>) -> Judged {
        Judged {
            sheet,
            read: 14,
            moved: 16,
            id_alone: 16,
        }
    }
}

/// Sheets of TINY that are refused.
fn refused() -> Vec<Judged> {
    let mut all = vec![
        Judged::wrong(tiny("2A00\tTINX\t7EE3"), 18),
        Judged::wrong(tiny("2A00\tTINX\t7EE2"), 18),
        Judged::wrong(tiny("2A00\tTIN\t7EE2"), 18),
        Judged::wrong(tiny("2A00\tTINYY\t7EE2"), 18),
        Judged::wrong(tiny("2A00\tTINY \t7EE2"), 18),
        Judged::wrong(tiny("2A00\t TINY\t7EE2"), 18),
        Judged::wrong(tiny("2A00\ttiny\t7EE2"), 18),
        Judged::wrong(tiny("2A00\t \t7EE2"), 18),
        Judged::wrong(tiny("2A00\t0123456789ABCDEF\t7EE2"), 18),
        // The name of the table's other line.
        Judged::wrong(tiny("2A00\tMCP19111\t7EE2"), 18),
        Judged::wrong(tiny("2A00\tTINY\t7EE3"), 19),
        Judged::wrong(tiny("2A00\tTINY\t7EE1"), 19),
        Judged::wrong(tiny("2A00\tTINY\t0000"), 19),
        Judged::wrong(tiny("2A00\tTINY\tFFFF"), 19),
        // Both configuration words whole: 3FFFh twice for 3EFFh and 3FF3h.
        Judged::wrong(tiny("2A00\tTINY\t7FEE"), 19),
        // Protected: the sum of a board that is not; the IDs' nibbles from the last on.
        Judged::wrong(protected("2A00\tTINY\t7E62"), 19),
        Judged::wrong(protected("2A00\tTINY\t0400"), 19),
        Judged::wrong(cut(tiny("2A00\tTINX\t7EE3")), 14),
        Judged::wrong(cut(tiny("2A00\tTINY\t7EE3")), 14),
        Judged::wrong(cut(tiny("2A00\tTINY\t7EE2")), 14),
        // Line 1 alone, line 1 twice, and a line 1 of the old form before name and sum.
        Judged::wrong(b"2A00\tTINY\t7EE2\n".to_vec(), 14),
        Judged::wrong(tiny("2A00\tTINY\t7EE2\n2A00\tTINY\t7EE2"), 14),
        Judged::wrong(tiny("2A00\tTINY\t7EE2\n2A00"), 14),
        Judged::wrong(tiny("2A00\nTINY\t7EE2"), 14),
        Judged::unknown(tiny("2A01\tTINY\t7EE2")),
        Judged::unknown(tiny("2A01\tTINX\t7EE3")),
        Judged::unknown(cut(tiny("2A01\tTINY\t7EE2"))),
    ];
    let malformed = [
        "2A00\tTINY",
        "2A00\t7EE2",
        "2A00\t",
        "2A00\t\t",
        "2A00\tTINY\t",
        "2A00\tTINY\t7ee2",
        "2A00\tTINY\t7eE2",
        "2A00\tTINY\t7EE",
        "2A00\tTINY\t07EE2",
        "2A00\tTINY\t7EE20",
        "2A00\tTINY\t7EE2 ",
        "2A00\tTINY\t 7EE2",
        "2A00\tTINY\t7EG2",
        "2A00\tTINY\t7EE2\t",
        "2A00\tTINY\t7EE2\t7EE2",
        "2A00\tTI\tNY\t7EE2",
        "2A00\t\tTINY\t7EE2",
        "2A00\t\t7EE2",
        "2A00\t0123456789ABCDEFG\t7EE2",
        "2A00\tTI\u{1F}NY\t7EE2",
        "2A00\tTI\u{7F}NY\t7EE2",
        "2A00\tTI\u{E9}NY\t7EE2",
        "2A00\tTINY\r\t7EE2",
        "2A00\tTINY\t7EE2\r",
        "2A00\tTI\nNY\t7EE2",
        "2A00\tTINY\n7EE2",
        "2A00 TINY\t7EE2",
        "2A00\tTINY 7EE2",
        "2A00 \tTINY\t7EE2",
        "2A0\tTINY\t7EE2",
        "02A00\tTINY\t7EE2",
        "2a00\tTINY\t7EE2",
        "4000\tTINY\t7EE2",
        "6A00\tTINY\t7EE2",
        "AA00\tTINY\t7EE2",
        "TINY\t2A00\t7EE2",
        "\tTINY\t7EE2",
        "\n2A00\tTINY\t7EE2",
    ];
    all.extend(malformed.map(Judged::malformed));
    // Cut inside line 1, and just before its LF.
    for length in 0..="2A00\tTINY\t7EE2".len() {
        let mut cut = Judged::malformed("2A00\tTINY\t7EE2");
        cut.sheet.truncate(length);
        all.push(cut);
    }
    all
}

fn refusal(number: u32) -> String {
    format!("refused\t{number}\t0\t0\n")
}

fn shown(text: &[u8]) -> String {
    text.iter().map(|&c| char::from(c)).collect()
}

/// The words of a sheet that is known to be sound: the fields after line 1, addresses apart.
fn words_of(sheet: &[u8]) -> Vec<u16> {
    let text = std::str::from_utf8(sheet).expect("plain text");
    let words = text.lines().skip(1).flat_map(|l| l.split('\t').skip(1));
    words
        .map(|w| u16::from_str_radix(w, 16).expect("a word"))
        .collect()
}

/// A sheet read under a record and its name.
fn read_case(what: &str, d: &Device, name: &[u8], sheet: &[u8], answer: u32) -> Case {
    let lent: Vec<u16> = vec![0x5A5A; d.entries()];
    let left = if answer == 0 {
        words_of(sheet)
    } else {
        lent.clone()
    };
    case(
        what,
        "sheet.read_sheet",
        Some(d),
        vec![name.to_vec().into(), sheet.to_vec().into(), lent.into()],
        vec![number(answer), left.into()],
    )
}

fn read_id_case(sheet: &[u8], answer: u32, id: u16) -> Case {
    case(
        &shown(&sheet[..sheet.len().min(24)]),
        "sheet.read_id",
        None,
        vec![sheet.to_vec().into()],
        vec![number(answer), id.into()],
    )
}

/// A sheet moved: with room for seven bytes more, or refused.
fn move_case(
    what: &str,
    name: &str,
    table: &[u8],
    sheet: &[u8],
    moved: Result<&[u8], u32>,
) -> Case {
    let text = moved.unwrap_or_default();
    let lent: Vec<u8> = (0..text.len() + 7).map(|i| i as u8 ^ 0xC3).collect();
    let mut out = lent.clone();
    out[..text.len()].copy_from_slice(text);
    case(
        what,
        name,
        None,
        vec![table.to_vec().into(), sheet.to_vec().into(), lent.into()],
        vec![
            number(moved.err().unwrap_or(0)),
            text.len().into(),
            out.into(),
        ],
    )
}

/// A board opened: beside any number stands the line that is found for the ID, of a malformed line 1 for 0.
fn open_cases(
    what: &str,
    sheet: &[u8],
    id_alone: u32,
    all: u32,
    line: Option<(&Device, u32, u32)>,
) -> [Case; 2] {
    let (d, place, length) = line.unwrap_or((&Device::NONE, 0, 0));
    let mut listed = device_fields(d);
    listed.extend([number(place), number(length)]);
    let files: Vec<Field> = vec![table().into(), sheet.to_vec().into()];
    let mut filled = files.clone();
    filled.push(number(0x1111));
    let mut buffer = vec![0x1111u16; 8_201];
    if all == 0 {
        let words = words_of(sheet);
        buffer[..words.len()].copy_from_slice(&words);
    }
    let record = [vec![number(id_alone)], listed.clone()].concat();
    let board = [vec![number(all)], listed, vec![buffer.into()]].concat();
    [
        case(what, "board.open_record", None, files, record),
        case(what, "board.open_board", None, filled, board),
    ]
}

/// The programs that judge the whole sheet of the board, with a third file that is sound, and nothing.
const WHOLE: [(&str, Option<&str>); 9] = [
    ("bench.checksum", None),
    ("bench.newsheet", None),
    ("bench.oldsheet", None),
    ("bench.dump", None),
    ("bench.update", Some(END)),
    ("bench.fresh", Some(END)),
    ("bench.wanted", Some(END)),
    ("bench.wanted_fresh", Some(END)),
    ("bench.trial", Some("")),
];

/// The words of TINY's blank board, as they are typed.
fn typed() -> String {
    "3FFF\n".repeat(21) + "2000\n2A00\n3FFF\n3FFF\n"
}

/// The read-back of TINY or MCP19111, as it is printed.
fn read_back() -> String {
    let reads = |count: usize| ["04\t0000\n"].repeat(count).join("06\t0000\n");
    format!("16\t0000\n{}00\t7FFE\n{}", reads(16), reads(9))
}

/// Every call and every program about a sheet that is refused, or of which the ID alone is needed.
fn refused_cases() -> Vec<Case> {
    let (table, sound, typed) = (table(), tiny("2A00"), typed());
    let mut all = Vec::new();
    for Judged {
        sheet,
        read,
        moved,
        id_alone,
    } in refused()
    {
        let what = shown(&sheet[..sheet.len().min(30)]);
        // Line 1 is sound by itself also where its ID is in no line of the table.
        let (answer, id) = match id_alone {
            0 => (0, 0x2A00),
            16 => (0, 0x2A01),
            _ => (14, 0),
        };
        all.push(read_id_case(&sheet, answer, id));
        all.push(read_case(&what, &TINY, b"TINY", &sheet, read));
        for name in ["sheet.to_new", "sheet.to_old"] {
            all.push(move_case(&what, name, &table, &sheet, Err(moved)));
        }
        let line = (id_alone == 0).then_some((&TINY, 0, 4));
        all.extend(open_cases(&what, &sheet, id_alone, moved, line));
        for (name, third) in WHOLE {
            // A file that is refused comes after the sheet.
            for third in third.map_or(vec![None], |file| vec![Some(file), Some("x")]) {
                let mut files: Vec<&[u8]> = vec![&table, &sheet];
                files.extend(third.map(str::as_bytes));
                all.push(bench_case(&what, name, &files, &refusal(moved)));
            }
        }
        // The board's comes before the wanted one's, which is judged as the board's record has it.
        for wanted in [sound.as_slice(), b"x"] {
            let files: [&[u8]; 3] = [&table, &sheet, wanted];
            all.push(bench_case(&what, "bench.verify", &files, &refusal(moved)));
        }
        let files: [&[u8]; 3] = [&table, &sound, &sheet];
        all.push(bench_case(&what, "bench.verify", &files, &refusal(read)));
        // What needs the ID alone gives no 18, no 19 and no 14 for the rest.
        let (back, gathered) = match id_alone {
            0 => (read_back(), shown(&tiny("2A00"))),
            number => (refusal(number), refusal(number)),
        };
        all.push(bench_case(
            &what,
            "bench.readback",
            &[&table, &sheet],
            &back,
        ));
        let files: [&[u8]; 3] = [&table, &sheet, typed.as_bytes()];
        all.push(bench_case(&what, "bench.gather", &files, &gathered));
    }
    all
}

/// A sheet in both forms, with its record and its name.
struct Both {
    old: Vec<u8>,
    new: Vec<u8>,
    d: Device,
    name: &'static str,
    /// Where the name stands in the table.
    place: u32,
    sum: &'static str,
}

fn both() -> [Both; 4] {
    [
        Both {
            old: tiny("2A00"),
            new: tiny("2A00\tTINY\t7EE2"),
            d: TINY,
            name: "TINY",
            place: 0,
            sum: "7EE2",
        },
        Both {
            old: protected("2A00"),
            new: protected("2A00\tTINY\t66CA"),
            d: TINY,
            name: "TINY",
            place: 0,
            sum: "66CA",
        },
        Both {
            old: mcp("2F84"),
            new: mcp("2F84\tMCP19111\t7EE2"),
            d: MCP,
            name: "MCP19111",
            place: 25,
            sum: "7EE2",
        },
        Both {
            old: mcp("2F82"),
            new: mcp("2F82\tMCP19111\t7EE2"),
            d: MCP,
            name: "MCP19111",
            place: 25,
            sum: "7EE2",
        },
    ]
}

/// Every call and every program about a sheet that is sound in either form.
fn sound_cases() -> Vec<Case> {
    let table = table();
    let mut all = Vec::new();
    for b in both() {
        let lengths = (b.old.len(), b.new.len());
        assert_eq!(lengths, (145, 151 + b.name.len()), "both forms' lengths");
        let id = u16::from_str_radix(&shown(&b.old[..4]), 16).expect("an ID");
        let words = words_of(&b.old);
        let is_protected = b.sum == "66CA";
        for sheet in [&b.old, &b.new] {
            let what = shown(&sheet[..30]);
            all.push(read_id_case(sheet, 0, id));
            all.push(read_case(&what, &b.d, b.name.as_bytes(), sheet, 0));
            let line = Some((&b.d, b.place, b.name.len() as u32));
            all.extend(open_cases(&what, sheet, 0, 0, line));
            let moves = [("new", b.new.as_slice()), ("old", b.old.as_slice())];
            for (form, text) in moves {
                let call = format!("sheet.to_{form}");
                all.push(move_case(&what, &call, &table, sheet, Ok(text)));
                all.extend(room_cases(&call, &table, sheet, text));
                let program = format!("bench.{form}sheet");
                all.push(bench_case(&what, &program, &[&table, sheet], &shown(text)));
            }
            let two: [&[u8]; 2] = [&table, sheet];
            let sum = format!("{}\n", b.sum);
            all.push(bench_case(&what, "bench.checksum", &two, &sum));
            all.push(bench_case(&what, "bench.readback", &two, &read_back()));
            let copy = if is_protected {
                refusal(23)
            } else {
                BLANK_COPY.to_string()
            };
            all.push(bench_case(&what, "bench.dump", &two, &copy));
            let (planned, left) = if is_protected {
                (refusal(23), refusal(23))
            } else {
                ("16\t0000\n".to_string(), shown(&b.old))
            };
            let mut of_three = |name: &str, third: &[u8], text: &str| {
                all.push(bench_case(&what, name, &[&table, sheet, third], text));
            };
            let end = END.as_bytes();
            of_three("bench.update", end, &planned);
            of_three("bench.wanted", end, &left);
            of_three("bench.fresh", end, "00\t7FFE\n09\t0000\n16\t0000\n");
            // All is erased but 8004h to 8006h: the blank board again, in the old form.
            let erased = if is_protected {
                shown(&tiny("2A00"))
            } else {
                shown(&b.old)
            };
            of_three("bench.wanted_fresh", end, &erased);
            of_three("bench.trial", b"", &shown(&b.old));
            let typed: String = words.iter().map(|w| format!("{w:04X}\n")).collect();
            of_three("bench.gather", typed.as_bytes(), &shown(&b.old));
            let verdict = if is_protected { "41\n" } else { "0\n" };
            of_three("bench.verify", &b.old, verdict);
            of_three("bench.verify", &b.new, verdict);
        }
        let mut written = device_fields(&b.d);
        written.extend([b.name.as_bytes().to_vec().into(), words.into()]);
        // The writer has the record's ID, whatever line 1 was.
        let mut text = b.new.clone();
        text[..4].copy_from_slice(format!("{:04X}", b.d.id).as_bytes());
        all.extend(written_cases(&written, &text));
    }
    all
}

/// A buffer with just enough room, with a byte too few, and none.
fn room_cases(name: &str, table: &[u8], sheet: &[u8], text: &[u8]) -> [Case; 3] {
    [text.len(), text.len() - 1, 0].map(|room| {
        let lent: Vec<u8> = vec![0xA5; room];
        let (answer, length, out) = if room == text.len() {
            (0, room, text.to_vec())
        } else {
            (26, 0, lent.clone())
        };
        case(
            &format!("a sheet moved into {room} bytes"),
            name,
            None,
            vec![table.to_vec().into(), sheet.to_vec().into(), lent.into()],
            vec![number(answer), length.into(), out.into()],
        )
    })
}

/// The writer of the new form: with room to spare, just enough, a byte too few.
fn written_cases(fields: &[Field], text: &[u8]) -> Vec<Case> {
    let needed = text.len();
    [needed + 5, needed, needed - 1, 0]
        .into_iter()
        .map(|room| {
            let mut out: Vec<u8> = vec![0xA5; room];
            let mut asked = fields.to_vec();
            asked.push(out.clone().into());
            let (answer, length) = if room < needed {
                (26, 0)
            } else {
                out[..needed].copy_from_slice(text);
                (0, needed)
            };
            case(
                &format!("a sheet of {needed} bytes written into {room}"),
                "sheet.write_new_sheet",
                None,
                asked,
                vec![number(answer), length.into(), out.into()],
            )
        })
        .collect()
}

/// Names: which bytes are one, and what a record with another gets.
fn name_cases() -> Vec<Case> {
    let is = |bytes: &[u8], answer: bool| {
        case(
            &format!("the name {bytes:?}"),
            "device.is_name",
            None,
            vec![bytes.to_vec().into()],
            vec![number(answer.into())],
        )
    };
    let mut all: Vec<Case> = (0..40)
        .map(|n| is(&vec![b'A'; n], (1..=16).contains(&n)))
        .collect();
    for length in [1, 2, 16] {
        for place in 0..length {
            for c in 0..=255u8 {
                let mut bytes = vec![b'n'; length];
                bytes[place] = c;
                all.push(is(&bytes, (0x20..=0x7E).contains(&c)));
            }
        }
    }
    let long = vec![b'A'; 17];
    let none: [&[u8]; 8] = [
        b"", &long, b"T\x1F", b"T\x7F", b"T\tY", b"TINY\n", b"\0", b"\xFFY",
    ];
    let (old, new) = (tiny("2A00"), tiny("2A00\tTINY\t7EE2"));
    let blank = words_of(&old);
    let lent: Vec<u8> = vec![0xA5; 200];
    for name in none {
        // 13 before 12, 14, 18 and 19, and before 21 and 26; the old form needs no name, and has it judged.
        for sheet in [&old, &new, &tiny("2A00\tTINX\t7EE3"), &tiny("x")] {
            all.push(read_case("13 for a name", &TINY, name, sheet, 13));
        }
        let short: Vec<u16> = vec![0x5A5A; 24];
        all.push(case(
            "13 for a name before 12",
            "sheet.read_sheet",
            Some(&TINY),
            vec![
                name.to_vec().into(),
                old.clone().into(),
                short.clone().into(),
            ],
            vec![number(13), short.clone().into()],
        ));
        for (words, out) in [
            (blank.clone(), lent.clone()),
            (short.clone(), lent.clone()),
            (blank.clone(), Vec::new()),
        ] {
            all.push(case(
                "13 for a name",
                "sheet.write_new_sheet",
                Some(&TINY),
                vec![name.to_vec().into(), words.into(), out.clone().into()],
                vec![number(13), number(0), out.into()],
            ));
        }
    }
    // 12 before 14, 18 and 19.
    for sheet in [
        tiny("x"),
        tiny("2A00\tTINX\t7EE3"),
        tiny("2A00\tTINY\t7EE3"),
    ] {
        let short: Vec<u16> = vec![0x5A5A; 24];
        all.push(case(
            "12 first",
            "sheet.read_sheet",
            Some(&TINY),
            vec![b"TINY".to_vec().into(), sheet.into(), short.clone().into()],
            vec![number(12), short.into()],
        ));
    }
    // 21 before 26.
    let above: Vec<u16> = vec![0x4000; 25];
    all.push(case(
        "21 first",
        "sheet.write_new_sheet",
        Some(&TINY),
        vec![
            b"TINY".to_vec().into(),
            above.into(),
            Vec::<u8>::new().into(),
        ],
        vec![number(21), number(0), Vec::<u8>::new().into()],
    ));
    all
}

/// Names of every kind in a table and on line 1: the longest, with blanks around, like an ID or a sum; and a name that
/// two lines have.
fn table_name_cases() -> Vec<Case> {
    let mut all = Vec::new();
    for name in [
        "0123456789ABCDEF",
        " a b ",
        " ",
        "~",
        "2A00",
        "7EE2",
        "A\\B\"#",
    ] {
        let line = format!("{name}\t2A00\t16\t8\t3EFF\t3FF3\n").into_bytes();
        let other = format!("{name}\t2A01\t24\t8\t3FFF\t3FFF\n").into_bytes();
        let (old, new) = (tiny("2A00"), tiny(&format!("2A00\t{name}\t7EE2")));
        for table in [
            line.clone(),
            [line.clone(), other.clone()].concat(),
            [other, line].concat(),
        ] {
            for sheet in [&old, &new] {
                all.push(move_case(name, "sheet.to_new", &table, sheet, Ok(&new)));
                all.push(move_case(name, "sheet.to_old", &table, sheet, Ok(&old)));
            }
        }
        all.push(read_case(name, &TINY, name.as_bytes(), &new, 0));
        all.push(read_case(name, &TINY, b"TINY", &new, 18));
    }
    all
}

/// A blank board under other masks: 16 times 3FFFh, 00FFh and 0FF0h are 10DFh.
fn mask_cases() -> Vec<Case> {
    let odd = Device {
        mask1: 0x00FF,
        mask2: 0x0FF0,
        ..TINY
    };
    let table = b"ODD\t2A00\t16\t8\t00FF\t0FF0\n";
    let (old, new) = (tiny("2A00"), tiny("2A00\tODD\t10DF"));
    let mut fields = device_fields(&odd);
    fields.extend([b"ODD".to_vec().into(), words_of(&old).into()]);
    let mut all = written_cases(&fields, &new);
    all.extend([
        move_case("other masks", "sheet.to_new", table, &old, Ok(&new)),
        move_case("other masks", "sheet.to_old", table, &new, Ok(&old)),
        read_case("other masks", &odd, b"ODD", &new, 0),
        read_case("other masks", &TINY, b"ODD", &new, 19),
    ]);
    all
}

/// Sums of every digit: a protected board whose configuration words are 0000 has its IDs' nibbles for a sum.
fn sum_cases() -> Vec<Case> {
    let table = table();
    let mut all = mask_cases();
    let sums = [
        "0000", "0001", "0123", "4567", "89AB", "CDEF", "FEDC", "8000", "FFFF",
    ];
    for sum in sums {
        let ids: Vec<String> = sum.chars().map(|c| format!("3FA{c}")).collect();
        let ids = [0, 1, 2, 3].map(|k| ids[k].as_str());
        let board = |first: &str| tiny_with(first, ids, ["0000", "0000"]);
        let (old, new) = (board("2A00"), board(&format!("2A00\tTINY\t{sum}")));
        all.push(move_case(sum, "sheet.to_new", &table, &old, Ok(&new)));
        all.push(move_case(sum, "sheet.to_old", &table, &new, Ok(&old)));
        all.push(read_case(sum, &TINY, b"TINY", &new, 0));
        for other in sums.iter().filter(|&&other| other != sum) {
            let wrong = board(&format!("2A00\tTINY\t{other}"));
            all.push(read_case(other, &TINY, b"TINY", &wrong, 19));
        }
    }
    all
}

/// The order of the moves' numbers: each before all that come after it.
fn order_cases() -> Vec<Case> {
    let sound = table();
    let malformed = [TINY_LINE, b"MCP19111\t2F82\t16\t8\t3EFF\t3FF3\t3fe0\n"].concat();
    let wrong_name = tiny("2A00\tTINX\t7EE3");
    let files: [(&[u8], Vec<u8>, u32); 10] = [
        (b"", tiny("2A00"), 15),
        (&malformed, tiny("2A00"), 15),
        (&malformed, tiny("2A00\tTINY"), 15),
        (&malformed, tiny("2A01\tTINY\t7EE2"), 15),
        (&malformed, wrong_name.clone(), 15),
        (&sound, tiny("2A01\tTINY"), 14),
        (&sound, b"2A01\tTINY\t7EE2\nx".to_vec(), 16),
        (&sound, cut(wrong_name.clone()), 14),
        (&sound, wrong_name, 18),
        (&sound, tiny("2A00\tTINY\t7EE3"), 19),
    ];
    let mut all = Vec::new();
    for (table, sheet, answer) in files {
        for name in ["sheet.to_new", "sheet.to_old"] {
            // Before 26, too.
            for room in [0, 300] {
                let out: Vec<u8> = vec![0xA5; room];
                all.push(case(
                    &format!("{answer} first"),
                    name,
                    None,
                    vec![
                        table.to_vec().into(),
                        sheet.clone().into(),
                        out.clone().into(),
                    ],
                    vec![number(answer), number(0), out.into()],
                ));
            }
        }
    }
    // 17 of the programs comes after 16 and before the rest: BIG's line, and what begins like its sheet.
    let big = [TINY_LINE, b"BIG\t2A01\t32768\t32\t3EFF\t3FF3\n"].concat();
    for first in ["2A01", "2A01\tBIG\t0000", "2A01\tBIX\t7EE3"] {
        let sheet = tiny(first);
        for name in ["bench.newsheet", "bench.oldsheet"] {
            all.push(bench_case(first, name, &[&big, &sheet], &refusal(17)));
        }
        // The moves have no 17: the rest is not BIG's.
        for name in ["sheet.to_new", "sheet.to_old"] {
            all.push(move_case(first, name, &big, &sheet, Err(14)));
        }
    }
    all
}

/// The listing of the paper by a board of the new form, and what playing it leaves; words that differ from wanted ones.
fn listing_cases() -> Vec<Case> {
    let (new, played) = (
        tiny("2A00\tTINY\t7EE2"),
        tiny_sheet().replace("2A00\t3FFF\t3FFF\n", "2A00\t3F7F\t3FFF\n"),
    );
    let (table, file) = (table(), crate::worked::CONFIGURED.as_bytes());
    let left = |name: &str, third: &[u8], text: &str| {
        bench_case(
            "a board of the new form",
            name,
            &[&table, &new, third],
            text,
        )
    };
    // One ID differs; its sum is a blank board's, since it has no say there.
    let other = tiny_with(
        "2A00\tTINY\t7EE2",
        ["3FFF", "0001", "3FFF", "3FFF"],
        ["3FFF", "3FFF"],
    );
    let wrong = tiny_with(
        "2A00\tTINY\t7EE3",
        ["3FFF", "0001", "3FFF", "3FFF"],
        ["3FFF", "3FFF"],
    );
    vec![
        left("bench.update", file, LISTING),
        left("bench.trial", LISTING.as_bytes(), &played),
        left("bench.wanted", file, &played),
        left("bench.verify", &other, "40\t8001\t1\n"),
        left("bench.verify", &wrong, &refusal(19)),
        left("bench.verify", &mcp("2F82\tMCP19111\t7EE2"), &refusal(14)),
        left("bench.verify", &tiny("2A00\tMCP19111\t7EE2"), &refusal(18)),
    ]
}

/// What becomes of line 1.
#[derive(Clone, Copy, PartialEq)]
enum Place {
    Same,
    Id(u16),
    Name,
    Sum,
    /// Line 1 is sound, and what follows it is not.
    Rest,
    Bad,
}

/// Characters that mean something to line 1, and their neighbours.
const TELLING: &[u8] = b"\t\n\r 0123489:/@AEFGTafg`~!\x00\x08\x0B\x1F\x7F\x80\xFF";
const FIRST: &[u8] = b"2A00\tTINY\t7EE2\n";

/// A character in the place of another of line 1, told by the place: ID, tab, name, tab, sum, LF.
fn replaced(place: usize, c: u8) -> Place {
    let digit = (c as char).to_digit(16).filter(|_| !c.is_ascii_lowercase());
    let mut id = *b"2A00";
    match place {
        _ if FIRST[place] == c => Place::Same,
        0 if digit.is_some_and(|v| v > 3) => Place::Bad,
        0..=3 if digit.is_some() => {
            id[place] = c;
            Place::Id(u16::from_str_radix(&shown(&id), 16).expect("four digits"))
        }
        4 if c == b'\n' => Place::Rest,
        5..=8 if (0x20..=0x7E).contains(&c) => Place::Name,
        10..=13 if digit.is_some() => Place::Sum,
        _ => Place::Bad,
    }
}

/// A character put before another of line 1: a name grows, or a line 1 ends early or at its end.
fn put_before(place: usize, c: u8) -> Place {
    match place {
        5..=9 if (0x20..=0x7E).contains(&c) => Place::Name,
        4 | 14 if c == b'\n' => Place::Rest,
        _ => Place::Bad,
    }
}

/// Line 1 with every character at every place, in the place of another and before it: by itself, and before the rest of
/// a blank board's sheet.
fn place_cases() -> Vec<Case> {
    let mut lines: Vec<(Vec<u8>, Place, bool)> = Vec::new();
    for place in 0..FIRST.len() {
        for c in 0..=255u8 {
            let telling = TELLING.contains(&c);
            let mut line = FIRST.to_vec();
            line[place] = c;
            lines.push((line, replaced(place, c), telling));
            let mut line = FIRST.to_vec();
            line.insert(place, c);
            lines.push((line, put_before(place, c), telling));
        }
        let mut line = FIRST.to_vec();
        line.remove(place);
        let named = (5..=8).contains(&place);
        lines.push((line, if named { Place::Name } else { Place::Bad }, true));
    }
    let table = table();
    let blank = tiny("2A00");
    let mut all = Vec::new();
    for (line, becomes, telling) in lines {
        let (answer, id) = match becomes {
            Place::Bad => (14, 0),
            Place::Id(id) => (0, id),
            _ => (0, 0x2A00),
        };
        all.push(read_id_case(&line, answer, id));
        if !telling {
            continue;
        }
        let sheet = [&line, &blank[5..]].concat();
        let what = shown(&line);
        let (read, moved) = match becomes {
            Place::Same => (0, 0),
            Place::Id(_) => (14, 16),
            Place::Name => (18, 18),
            Place::Sum => (19, 19),
            Place::Rest | Place::Bad => (14, 14),
        };
        all.push(read_case(&what, &TINY, b"TINY", &sheet, read));
        let text = |text| if moved == 0 { Ok(text) } else { Err(moved) };
        let (new, old) = (text(sheet.as_slice()), text(blank.as_slice()));
        all.push(move_case(&what, "sheet.to_new", &table, &sheet, new));
        all.push(move_case(&what, "sheet.to_old", &table, &sheet, old));
        let printed = if moved == 0 {
            "7EE2\n".to_string()
        } else {
            refusal(moved)
        };
        let files: [&[u8]; 2] = [&table, &sheet];
        all.push(bench_case(&what, "bench.checksum", &files, &printed));
    }
    all
}

pub fn cases() -> Vec<Case> {
    let mut all = sound_cases();
    all.extend(refused_cases());
    all.extend(name_cases());
    all.extend(table_name_cases());
    all.extend(sum_cases());
    all.extend(order_cases());
    all.extend(listing_cases());
    all.extend(place_cases());
    all
}
