//! Fewer erases, worked out by hand: updates of TINY whose rows and user IDs fall only or rise, and the calls that tell which do. Where
//! a word is not named it is 3FFFh before and after.

use crate::device::Device;
use crate::field::Field;
use crate::words::NOT_GIVEN;
use crate::worked::{case, number, tiny_board, Case, TINY};

/// Code and payload.
type Step = (u8, u16);
/// An entry, what is read there and what is given.
type Change = (usize, u16, u16);

const RESET: Step = (0x16, 0);
const INCREMENT: Step = (0x06, 0);
const ERASE: Step = (0x11, 0);
const BEGIN: Step = (0x08, 0);
const CONFIGURATION: Step = (0x00, 0x7FFE);
/// The entry of 8000h.
const ID: usize = 16;

/// The eight loads of a row that has these words, Increments between, and Begin.
fn row(words: &[(usize, u16)]) -> Vec<Step> {
    let mut loads = [0x3FFF; 8];
    for &(k, word) in words {
        loads[k] = word;
    }
    let mut steps = Vec::new();
    for (k, word) in loads.into_iter().enumerate() {
        if k > 0 {
            steps.push(INCREMENT);
        }
        steps.push((0x02, 2 * word));
    }
    steps.push(BEGIN);
    steps
}

/// The four user IDs written.
fn ids(words: [u16; 4]) -> Vec<Step> {
    let mut steps = Vec::new();
    for (k, word) in words.into_iter().enumerate() {
        if k > 0 {
            steps.push(INCREMENT);
        }
        steps.extend([(0x02, 2 * word), BEGIN]);
    }
    steps
}

/// TINY's image that gives these words, and its reading.
fn lists(changes: &[Change]) -> (Vec<u16>, Vec<u16>) {
    let mut image = vec![NOT_GIVEN; TINY.entries()];
    let mut read = Vec::new();
    for &(entry, old, new) in changes {
        image[entry] = new;
        read.push((entry, old));
    }
    (image, tiny_board(&read))
}

/// An update in full: its changes, its steps, how many these are and how many of them Row Erases.
struct Update {
    what: &'static str,
    changes: Vec<Change>,
    steps: Vec<Step>,
    count: usize,
    erases: usize,
}

/// Pieces of a stream, one after another.
fn joined(pieces: &[&[Step]]) -> Vec<Step> {
    pieces.concat()
}

/// As many Increments as are between the first words of two rows.
const NEXT_ROW: [Step; 8] = [INCREMENT; 8];

/// The examples of the rule.
fn examples() -> Vec<Update> {
    vec![
        Update {
            what: "0003h falls",
            changes: vec![(3, 0x3FFF, 0x1234)],
            steps: joined(&[&[RESET], &row(&[(3, 0x1234)])]),
            count: 17,
            erases: 0,
        },
        Update {
            what: "000Bh falls",
            changes: vec![(11, 0x3FFF, 0x1234)],
            steps: joined(&[&[RESET], &NEXT_ROW, &row(&[(3, 0x1234)])]),
            count: 25,
            erases: 0,
        },
        Update {
            what: "0003h rises",
            changes: vec![(3, 0x1200, 0x1234)],
            steps: joined(&[&[RESET, ERASE], &row(&[(3, 0x1234)])]),
            count: 18,
            erases: 1,
        },
        Update {
            what: "000Bh rises",
            changes: vec![(11, 0x1200, 0x1234)],
            steps: joined(&[&[RESET], &NEXT_ROW, &[ERASE], &row(&[(3, 0x1234)])]),
            count: 26,
            erases: 1,
        },
        Update {
            what: "0003h rises, 000Bh falls",
            changes: vec![(3, 0x1200, 0x1234), (11, 0x3FFF, 0x0000)],
            steps: joined(&[
                &[RESET, ERASE],
                &row(&[(3, 0x1234)]),
                &[INCREMENT],
                &row(&[(3, 0x0000)]),
            ]),
            count: 35,
            erases: 1,
        },
        Update {
            what: "8000h falls",
            changes: vec![(ID, 0x3FFF, 0x000E)],
            // Written out whole.
            steps: vec![
                (0x16, 0x0000),
                (0x00, 0x7FFE),
                (0x02, 0x001C),
                (0x08, 0x0000),
                (0x06, 0x0000),
                (0x02, 0x7FFE),
                (0x08, 0x0000),
                (0x06, 0x0000),
                (0x02, 0x7FFE),
                (0x08, 0x0000),
                (0x06, 0x0000),
                (0x02, 0x7FFE),
                (0x08, 0x0000),
            ],
            count: 13,
            erases: 0,
        },
        Update {
            what: "8000h falls, 8001h rises",
            changes: vec![
                (ID, 0x000E, 0x000C),
                (ID + 1, 0x0008, 0x0009),
                (ID + 2, 0x0005, NOT_GIVEN),
                (ID + 3, 0x0008, 0x0008),
            ],
            steps: joined(&[
                &[RESET, CONFIGURATION, ERASE],
                &ids([0x000C, 0x0009, 0x0005, 0x0008]),
            ]),
            count: 14,
            erases: 1,
        },
    ]
}

/// Each row, and the user IDs as one, is judged by itself, and by all of its words.
fn others() -> Vec<Update> {
    let blank = [0x3FFF; 4];
    let mut fourth = blank;
    fourth[3] = 0x0003;
    vec![
        Update {
            what: "only the last word of row 0 rises, in its lowest bit; all others fall",
            changes: (0..7)
                .map(|k| (k, 0x3FFF, 0x2AAA))
                .chain([(7, 0x0002, 0x0003)])
                .collect(),
            steps: {
                let mut words: Vec<(usize, u16)> = (0..7).map(|k| (k, 0x2AAA)).collect();
                words.push((7, 0x0003));
                joined(&[&[RESET, ERASE], &row(&words)])
            },
            count: 18,
            erases: 1,
        },
        Update {
            what: "only the first word of row 1 rises, in its highest bit; row 0 falls",
            changes: vec![(7, 0x0003, 0x0002), (8, 0x1FFF, 0x3FFF), (9, 0x3FFF, 0)],
            steps: joined(&[
                &[RESET],
                &row(&[(7, 0x0002)]),
                &[INCREMENT, ERASE],
                &row(&[(1, 0)]),
            ]),
            count: 35,
            erases: 1,
        },
        Update {
            what: "a word falls in one bit and rises in another",
            changes: vec![(5, 0x3FFE, 0x3FFD)],
            steps: joined(&[&[RESET, ERASE], &row(&[(5, 0x3FFD)])]),
            count: 18,
            erases: 1,
        },
        Update {
            what: "zeros that stay are no rise: they are loaded as they are",
            changes: vec![(2, 0, NOT_GIVEN), (3, 0x3FFF, 0x1234), (4, 0x0155, 0x0155)],
            steps: joined(&[&[RESET], &row(&[(2, 0), (3, 0x1234), (4, 0x0155)])]),
            count: 17,
            erases: 0,
        },
        Update {
            what: "both rows and the user IDs rise, both configuration words fall",
            changes: vec![
                (0, 0, 1),
                (15, 0, 1),
                (ID + 2, 0, 1),
                (ID + 7, 0x3FFF, 0x3F7F),
                (ID + 8, 0x3FFF, 0x1FFF),
            ],
            steps: joined(&[
                &[RESET, ERASE],
                &row(&[(0, 1)]),
                &[INCREMENT, ERASE],
                &row(&[(7, 1)]),
                &[CONFIGURATION, ERASE],
                &ids([0x3FFF, 0x3FFF, 1, 0x3FFF]),
                &[INCREMENT; 4],
                &[(0x02, 0x7EFE), BEGIN, INCREMENT, (0x02, 0x3FFE), BEGIN],
            ]),
            count: 58,
            erases: 3,
        },
        Update {
            what: "the same, and all of them fall",
            changes: vec![
                (0, 0x3FFF, 1),
                (15, 0x3FFF, 1),
                (ID + 2, 0x3FFF, 1),
                (ID + 7, 0x3FFF, 0x3F7F),
                (ID + 8, 0x3FFF, 0x1FFF),
            ],
            steps: joined(&[
                &[RESET],
                &row(&[(0, 1)]),
                &[INCREMENT],
                &row(&[(7, 1)]),
                &[CONFIGURATION],
                &ids([0x3FFF, 0x3FFF, 1, 0x3FFF]),
                &[INCREMENT; 4],
                &[(0x02, 0x7EFE), BEGIN, INCREMENT, (0x02, 0x3FFE), BEGIN],
            ]),
            count: 55,
            erases: 0,
        },
        Update {
            what: "the user IDs rise, and no row does",
            changes: vec![(3, 0x3FFF, 0x1234), (ID, 0, 1)],
            steps: joined(&[
                &[RESET],
                &row(&[(3, 0x1234)]),
                &[CONFIGURATION, ERASE],
                &ids([1, 0x3FFF, 0x3FFF, 0x3FFF]),
            ]),
            count: 30,
            erases: 1,
        },
        Update {
            what: "a row rises, and the user IDs fall",
            changes: vec![(3, 0x1200, 0x1234), (ID, 0x3FFF, 1)],
            steps: joined(&[
                &[RESET, ERASE],
                &row(&[(3, 0x1234)]),
                &[CONFIGURATION],
                &ids([1, 0x3FFF, 0x3FFF, 0x3FFF]),
            ]),
            count: 30,
            erases: 1,
        },
        Update {
            what: "only the fourth ID rises, in one bit; no other differs",
            changes: vec![(ID + 3, 0x0002, 0x0003)],
            steps: joined(&[&[RESET, CONFIGURATION, ERASE], &ids(fourth)]),
            count: 14,
            erases: 1,
        },
        Update {
            what: "only the fourth ID differs, and it falls",
            changes: vec![(ID + 3, 0x0007, 0x0003)],
            steps: joined(&[&[RESET, CONFIGURATION], &ids(fourth)]),
            count: 13,
            erases: 0,
        },
        Update {
            what: "8004h to 8006h have zeros, and rise never",
            changes: vec![(ID + 4, 0, NOT_GIVEN), (ID + 1, 0x3FFF, 0)],
            steps: joined(&[&[RESET, CONFIGURATION], &ids([0x3FFF, 0, 0x3FFF, 0x3FFF])]),
            count: 13,
            erases: 0,
        },
    ]
}

/// The update planned into a buffer that has a byte more than it needs, just enough, and one too few.
fn planned(update: &Update) -> [Case; 3] {
    let erases = update.steps.iter().filter(|&&s| s == ERASE).count();
    assert_eq!(
        (update.steps.len(), erases),
        (update.count, update.erases),
        "{}: the steps written out are not so many",
        update.what
    );
    let stream: Vec<u8> = update
        .steps
        .iter()
        .flat_map(|&(code, payload)| [code, payload as u8, (payload >> 8) as u8])
        .collect();
    let (image, reading) = lists(&update.changes);
    let room = 3 * update.count;
    [room + 1, room, room - 1].map(|length| {
        let lent: Vec<u8> = (0..length).map(|i| i as u8 ^ 0xA5).collect();
        let mut out = lent.clone();
        let refused = length < room;
        if !refused {
            out[..room].copy_from_slice(&stream);
        }
        case(
            &format!("{}, in {length} bytes", update.what),
            "plan.update",
            Some(&TINY),
            vec![image.clone().into(), reading.clone().into(), lent.into()],
            vec![
                number(if refused { 26 } else { 0 }),
                if refused { 0 } else { update.count }.into(),
                out.into(),
            ],
        )
    })
}

/// What is asked of a row, and of the user IDs: whether it differs, and whether it rises.
fn asked(
    what: &str,
    d: &Device,
    lists: (&[u16], &[u16]),
    k: Option<u16>,
    answers: [bool; 2],
) -> [Case; 2] {
    let names = match k {
        Some(_) => ["plan.row_differs", "plan.row_rises"],
        None => ["plan.id_differs", "plan.id_rises"],
    };
    [0, 1].map(|i| {
        let mut fields: Vec<Field> = vec![lists.0.to_vec().into(), lists.1.to_vec().into()];
        fields.extend(k.map(Field::from));
        let answer = number(answers[i].into());
        case(what, names[i], Some(d), fields, vec![answer])
    })
}

/// No word differs; one does, and none rises; one rises.
const NO: [bool; 2] = [false, false];
const FALLS: [bool; 2] = [true, false];
const RISES: [bool; 2] = [true, true];

fn row_cases() -> Vec<Case> {
    let mut all = Vec::new();
    let mut tiny = |what: &str, changes: &[Change], k: u16, answers| {
        let (image, reading) = lists(changes);
        all.extend(asked(what, &TINY, (&image, &reading), Some(k), answers));
    };
    tiny("nothing given", &[], 0, NO);
    tiny("what is read is given", &[(3, 0x1200, 0x1200)], 0, NO);
    tiny("a word of row 0 falls", &[(3, 0x3FFF, 0x1234)], 0, FALLS);
    tiny("row 1 is another", &[(3, 0x3FFF, 0x1234)], 1, NO);
    tiny("the first rises", &[(0, 0x1200, 0x1234)], 0, RISES);
    tiny("the last rises", &[(7, 0x3FFE, 0x3FFF)], 0, RISES);
    tiny("row 1, its first rises", &[(8, 0x1FFF, 0x3FFF)], 1, RISES);
    tiny("row 1, its last falls", &[(15, 0x0001, 0x0000)], 1, FALLS);
    let both = [(8, 0x3FFF, 0x0000), (15, 0x0000, 0x0001)];
    tiny("one falls and one rises", &both, 1, RISES);
    tiny("that is row 1", &both, 0, NO);
    // Row 2 of TINY are the IDs, 8004h to 8006h and 8007h, row 3 is 8008h: as entries are wanted, so here.
    tiny("an ID in row 2", &[(16, 0x0008, 0x0009)], 2, RISES);
    tiny(
        "8007h in row 2, a spare bit",
        &[(23, 0x3EFF, 0x3FFF)],
        2,
        NO,
    );
    tiny("8007h in row 2", &[(23, 0x3DFF, 0x3FFF)], 2, RISES);
    tiny("8008h in row 3", &[(24, 0x3FFF, 0x3FF0)], 3, FALLS);
    tiny("8008h in row 3, spare bits", &[(24, 0x3FFF, 0x3FF3)], 3, NO);
    tiny("row 4 is past the end", &[(24, 0x3FFF, 0x0000)], 4, NO);
    tiny("row 8193 is not row 1", &[(8, 0x0000, 0x0001)], 8_193, NO);
    tiny("the last row there is", &[(8, 0x0000, 0x0001)], 65_535, NO);
    // Numbers above 14 bits, as they stand.
    tiny("4000h over 3FFFh", &[(3, 0x3FFF, 0x4000)], 0, RISES);
    tiny("3FFFh over 7FFFh", &[(3, 0x7FFF, 0x3FFF)], 0, FALLS);
    tiny("FFFEh over FFFDh", &[(3, 0xFFFD, 0xFFFE)], 0, RISES);

    let with_row = |row| Device { row, ..TINY };
    let mut any = |what: &str, d: &Device, image: &[u16], reading: &[u16], k, answers| {
        all.extend(asked(what, d, (image, reading), Some(k), answers));
    };
    let (image, reading) = lists(&[(0, 0x3FFF, 0x0000), (15, 0x0000, 0x0001)]);
    any("R = 0", &with_row(0), &image, &reading, 0, NO);
    any("R = 1", &with_row(1), &image, &reading, 0, FALLS);
    any("R = 1, row 15", &with_row(1), &image, &reading, 15, RISES);
    any("R = 1, row 16", &with_row(1), &image, &reading, 16, NO);
    any("R = 15", &with_row(15), &image, &reading, 0, FALLS);
    any("R = 15, row 1", &with_row(15), &image, &reading, 1, RISES);
    any("R = 65535", &with_row(65_535), &image, &reading, 0, RISES);
    any("R = 65535", &with_row(65_535), &image, &reading, 65_535, NO);
    any("no lists", &TINY, &[], &[], 0, NO);
    any("no image", &TINY, &[], &[0; 25], 0, NO);
    any("no reading, 0000h", &TINY, &[0], &[], 0, FALLS);
    any("no reading, 3FFFh", &TINY, &[0x3FFF], &[], 0, NO);
    any("no reading, 4000h", &TINY, &[0x4000], &[], 0, RISES);
    any("a short image", &TINY, &[0xFFFF, 1], &[0; 8], 0, RISES);
    any("a short reading", &TINY, &[0xFFFF, 1], &[0], 0, FALLS);
    // P has no say but for the two masks.
    let zero = Device { words: 0, ..TINY };
    let spare = [0xFFFF, 0xFFFF, 0xFFFF, 0xFFFF, 0xFFFF, 0xFFFF, 0xFFFF, 1];
    any("P = 0", &zero, &[1], &[0], 0, RISES);
    any(
        "P = 0, 0001h under mask 1",
        &zero,
        &spare,
        &[0; 8],
        0,
        RISES,
    );
    let spare = spare.map(|w| if w == 1 { 0x0100 } else { w });
    any("P = 0, 0100h under mask 1", &zero, &spare, &[0; 8], 0, NO);
    all
}

fn id_cases() -> Vec<Case> {
    let mut all = Vec::new();
    let mut tiny = |what: &str, changes: &[Change], answers| {
        let (image, reading) = lists(changes);
        all.extend(asked(what, &TINY, (&image, &reading), None, answers));
    };
    tiny("nothing given", &[], NO);
    tiny("the first falls", &[(ID, 0x3FFF, 0x000E)], FALLS);
    tiny("the first rises", &[(ID, 0x0000, 0x0001)], RISES);
    tiny("the fourth rises", &[(ID + 3, 0x1FFF, 0x3FFF)], RISES);
    tiny("the fourth falls", &[(ID + 3, 0x0001, 0x0000)], FALLS);
    let both = [(ID, 0x000E, 0x000C), (ID + 1, 0x0008, 0x0009)];
    tiny("one falls and one rises", &both, RISES);
    tiny("0000h to 000Fh are none", &[(15, 0x0000, 0x0001)], NO);
    tiny("8004h is none", &[(ID + 4, 0x0000, 0x0001)], NO);
    tiny("8007h is none", &[(ID + 7, 0x0080, 0x3FFF)], NO);
    tiny("4000h over 3FFFh", &[(ID + 2, 0x3FFF, 0x4000)], RISES);
    let mut any = |what: &str, d: &Device, image: &[u16], reading: &[u16], answers| {
        all.extend(asked(what, d, (image, reading), None, answers));
    };
    let (image, reading) = lists(&[(ID, 0x0000, 0x0001)]);
    for (words, answers) in [(12, NO), (13, RISES), (16, RISES), (17, NO), (65_535, NO)] {
        let d = Device { words, ..TINY };
        any(&format!("P = {words}"), &d, &image, &reading, answers);
    }
    let zero = Device { words: 0, ..TINY };
    any("P = 0, no lists", &zero, &[], &[], NO);
    any("P = 0, no reading", &zero, &[0xFFFF, 0], &[], FALLS);
    any("P = 0, no reading, 4000h", &zero, &[0x4000], &[], RISES);
    any("P = 0, a short image", &zero, &[0xFFFF], &[0; 9], NO);
    // The largest P and a list that reaches its first ID.
    let last = Device {
        words: 65_535,
        ..TINY
    };
    let long = [vec![NOT_GIVEN; 65_535], vec![0x0001]].concat();
    any("P = 65535", &last, &long, &[], FALLS);
    all
}

fn written_cases() -> Vec<Case> {
    let mut all = Vec::new();
    let mut tiny = |changes: &[Change], k: u64, all_ids: u16, answer: u32| {
        let (image, reading) = lists(changes);
        all.push(case(
            &format!("word {k} of configuration space, {all_ids}, {changes:?}"),
            "plan.is_written",
            Some(&TINY),
            vec![image.into(), reading.into(), k.into(), all_ids.into()],
            vec![number(answer)],
        ));
    };
    for k in 0..4u64 {
        let at = ID + k as usize;
        tiny(&[], k, 0, 0);
        tiny(&[], k, 1, 1);
        tiny(&[(at, 0x3FFF, 0x0001)], k, 0, 1);
        tiny(&[(at, 0x0000, 0x0001)], k, 1, 1);
        tiny(&[(at, 0x0001, 0x0001)], k, 0, 0);
    }
    for all_ids in [2, 256, 0x8000, 65_535] {
        tiny(&[], 3, all_ids, 1);
    }
    for k in [4, 5, 6, 9, 10, 1 << 16, (1 << 32) + 7, u64::MAX] {
        tiny(&[], k, 1, 0);
    }
    for k in [4, 5, 6] {
        tiny(&[(ID + k as usize, 0x3FFF, 0x0001)], k, 1, 0);
    }
    for all_ids in [0, 1] {
        tiny(&[], 7, all_ids, 0);
        tiny(&[(ID + 7, 0x3FFF, 0x3F7F)], 7, all_ids, 1);
        tiny(&[(ID + 7, 0x3FFF, 0x3F7F)], 8, all_ids, 0);
        tiny(&[(ID + 7, 0x3FFF, 0x3EFF)], 7, all_ids, 0);
        tiny(&[(ID + 8, 0x3FFF, 0x1FFF)], 8, all_ids, 1);
        tiny(&[(ID + 8, 0x0000, 0x3FFF)], 8, all_ids, 1);
    }
    all
}

fn refusal_cases() -> Vec<Case> {
    let mut all = Vec::new();
    let (silent, blank) = lists(&[]);
    let unlawful = Device {
        mask1: 0x3E7F,
        ..TINY
    };
    let mut update = |d: &Device, image: &[u16], reading: &[u16], answer: u32| {
        let fields = vec![image.to_vec().into(), reading.to_vec().into()];
        let what = format!("an update's {answer}");
        let expected = vec![number(answer)];
        all.push(case(
            &what,
            "plan.update_refusal",
            Some(d),
            fields,
            expected,
        ));
    };
    let no_image = &silent[1..];
    let no_reading = tiny_board(&[(3, 0x4000), (ID + 6, 0x2A01)]);
    let other = tiny_board(&[(ID + 6, 0x2A01), (ID + 7, 0x3F7F)]);
    let protected = tiny_board(&[(ID + 7, 0x3F7F), (ID + 8, 0)]);
    let cleared = tiny_board(&[(ID + 8, 0x3FFE)]);
    let mut sets = silent.clone();
    sets[ID + 8] = 0x3FFF;
    update(&TINY, &silent, &blank, 0);
    update(&TINY, &sets, &blank, 0);
    update(&unlawful, no_image, &no_reading, 13);
    update(&TINY, no_image, &no_reading, 20);
    update(&TINY, &sets, &no_reading, 21);
    update(&TINY, &sets, &other, 22);
    update(&TINY, &sets, &protected, 23);
    update(&TINY, &sets, &cleared, 24);
    update(&TINY, &silent, &cleared, 0);
    let (rising, zeros) = lists(&[(0, 0, 1), (ID, 0, 1)]);
    update(&TINY, &rising, &zeros, 0);
    let mut fresh = |d: &Device, image: &[u16], id_word: u16, answer: u32| {
        let what = format!("a fresh programming's {answer}");
        all.push(case(
            &what,
            "plan.fresh_refusal",
            Some(d),
            vec![image.to_vec().into(), id_word.into()],
            vec![number(answer)],
        ));
    };
    fresh(&TINY, &sets, 0x2A00, 0);
    fresh(&unlawful, no_image, 0x2A01, 13);
    fresh(&TINY, no_image, 0x2A01, 20);
    fresh(&TINY, &silent, 0x2A01, 22);
    fresh(&TINY, &silent, 0x6A00, 22);
    all
}

pub fn cases() -> Vec<Case> {
    let mut all = Vec::new();
    for update in examples().iter().chain(&others()) {
        all.extend(planned(update));
    }
    all.extend(row_cases());
    all.extend(id_cases());
    all.extend(written_cases());
    all.extend(refusal_cases());
    all
}
