//! What was compared: how often it agreed, which numbers were seen, and the first few differences.

use crate::board::OPENED_MAX;
use crate::calls::{Request, CALLS, HEX_READER, PLANNER};
use crate::streams::wanted_over;
use crate::tried;
use std::collections::{BTreeMap, BTreeSet};

/// Differences that are shown in full; the others are counted.
const SHOWN: u64 = 12;
/// How often each number of each call must be seen.
pub const SEEN_AT_LEAST: u64 = 100;
/// At how many different columns each number that can stand at many must be seen: 2 at every column of a line up to 522,
/// 7, 8 and 9 at each of 127 words.
const COLUMNS_AT_LEAST: [(u32, usize); 4] = [(2, 300), (7, 80), (8, 80), (9, 80)];
/// The field of the HEX reader's answer that has the column.
const COLUMN: usize = 2;
/// How often each call that takes a record, or finds one to move a sheet by, must be asked about a sound one of more
/// words than the programs take.
const LARGE_AT_LEAST: u64 = 5;
/// How many updates that are not refused must have each kind of row, and of user IDs: the words only fall, some rise, and just one bit
/// rises.
const TURNS_AT_LEAST: [u64; 6] = [100, 100, 50, 100, 100, 50];
/// The longest part of a field that a message shows.
const CUT: usize = 72;

pub struct Tally {
    pub passed: u64,
    pub failed: u64,
    failed_of: BTreeMap<&'static str, u64>,
    seen: BTreeMap<(usize, u32), u64>,
    columns: BTreeMap<u32, BTreeSet<u64>>,
    large: BTreeMap<usize, u64>,
    /// Of updates that are not refused: those with a row that only falls, with one that rises, with one of which just one bit rises, and
    /// the same of the user IDs.
    turns: [u64; 6],
}

/// A text cut to what a message can bear.
pub fn cut(text: &[u8], from: usize) -> String {
    let from = from.min(text.len()).saturating_sub(CUT / 2);
    let end = (from + CUT).min(text.len());
    let before = if from > 0 { "..." } else { "" };
    let after = if end < text.len() {
        format!("... ({} long)", text.len())
    } else {
        String::new()
    };
    format!(
        "{before}{}{after}",
        String::from_utf8_lossy(&text[from..end])
    )
}

impl Tally {
    pub fn new() -> Tally {
        Tally {
            passed: 0,
            failed: 0,
            failed_of: BTreeMap::new(),
            seen: BTreeMap::new(),
            columns: BTreeMap::new(),
            large: BTreeMap::new(),
            turns: [0; 6],
        }
    }

    pub fn check(&mut self, good: bool, message: impl FnOnce() -> String) {
        if good {
            self.passed += 1;
        } else {
            self.failed += 1;
            if self.failed <= SHOWN {
                println!("FAILED {}", message());
            }
        }
    }

    /// One answer held against our own; nothing is an answer that did not come.
    pub fn compare(&mut self, request: &Request, answer: Option<&[u8]>) {
        let name = request.call().name;
        let own = request.own();
        *self.seen.entry((request.call, own.class)).or_default() += 1;
        if request
            .device()
            .is_some_and(|d| d.lawful() && d.words > OPENED_MAX)
        {
            *self.large.entry(request.call).or_default() += 1;
        }
        if name == HEX_READER {
            let columns = self.columns.entry(own.class).or_default();
            columns.insert(crate::field::num(&own.fields, COLUMN));
        }
        if name == PLANNER && own.class == 0 {
            self.count_turns(request);
        }
        let expected = crate::field::line(name, &own.fields);
        let same = answer == Some(expected.as_slice());
        if !same {
            *self.failed_of.entry(name).or_default() += 1;
        }
        self.check(same, || difference(request, &expected, answer));
        if let Some(text) = request.table() {
            self.try_table(name, text, answer);
        }
    }

    /// The kinds of rows and of user IDs that an update has, by how many bits rise in them.
    fn count_turns(&mut self, request: &Request) {
        let d = request.device().expect("a record");
        let (image, reading) = request.lists();
        let wanted = wanted_over(&d, image, reading);
        let p = d.p();
        let kinds = |from: usize, to: usize| {
            let differs = wanted[from..to] != reading[from..to];
            let risen: u32 = (from..to)
                .map(|i| (wanted[i] & !reading[i]).count_ones())
                .sum();
            [differs && risen == 0, risen > 0, risen == 1]
        };
        let mut of_rows = [false; 3];
        for first in (0..p).step_by(d.r()) {
            for (seen, kind) in of_rows.iter_mut().zip(kinds(first, first + d.r())) {
                *seen |= kind;
            }
        }
        let all = of_rows.into_iter().chain(kinds(p, p + 4));
        for (count, seen) in self.turns.iter_mut().zip(all) {
            *count += u64::from(seen);
        }
    }

    /// A table's answer, and the rule that our own goes by, held against what trying every word says of it.
    fn try_table(&mut self, name: &str, text: &[u8], answer: Option<&[u8]>) {
        let tried = tried::table(text);
        self.check(tried.as_ruled, || {
            format!("the rule of two lines that clash: {:?}", cut(text, 0))
        });
        let number = answer.and_then(|a| a.split(|&c| c == b' ').nth(1));
        let said = number.map(|n| n != b"15");
        self.check(said == Some(tried.sound), || {
            format!("{name}: every word tried on {:?}", cut(text, 0))
        });
    }

    /// The table of calls and numbers; a number that was seen too seldom is a failure.
    pub fn report(&mut self, asked: &dyn Fn(&str) -> bool) {
        println!("\nanswers seen, call by number ({})", crate::calls::CLASSES);
        for (i, call) in CALLS.iter().enumerate().filter(|(_, c)| asked(c.name)) {
            let mut line = format!("{:<21}", call.name);
            for (&(_, class), count) in self.seen.range((i, 0)..=(i, u32::MAX)) {
                line.push_str(&format!(" {class}:{count}"));
            }
            println!("{line}");
        }
        for (i, call) in CALLS.iter().enumerate().filter(|(_, c)| asked(c.name)) {
            for &class in call.classes {
                let count = self.seen.get(&(i, class)).copied().unwrap_or(0);
                self.check(count >= SEEN_AT_LEAST, || {
                    format!("{} gave {class} only {count} times", call.name)
                });
            }
            let others: Vec<u32> = self
                .seen
                .range((i, 0)..=(i, u32::MAX))
                .map(|(&(_, class), _)| class)
                .filter(|class| !call.classes.contains(class))
                .collect();
            self.check(others.is_empty(), || {
                format!("{} gave numbers that it has not: {others:?}", call.name)
            });
        }
        if asked(HEX_READER) {
            self.report_columns();
        }
        self.report_large(asked);
        if asked(PLANNER) {
            self.report_turns();
        }
        if !self.failed_of.is_empty() {
            println!("\nanswers that differ, by call");
            for (name, count) in &self.failed_of {
                println!("{name:<21} {count}");
            }
        }
    }

    /// How many different columns each number was seen at; too few are a failure.
    fn report_columns(&mut self) {
        let of = |number| self.columns.get(&number).map_or(0, BTreeSet::len);
        let counts = COLUMNS_AT_LEAST.map(|(number, least)| (number, least, of(number)));
        let line = counts.map(|(number, _, count)| format!(" {number}:{count}"));
        println!(
            "different columns seen of {HEX_READER}, by number{}",
            line.concat()
        );
        for (number, least, count) in counts {
            self.check(count >= least, || {
                format!("{HEX_READER} gave {number} at only {count} different columns")
            });
        }
    }

    /// How many updates had each kind of row and of user IDs; too few are a failure.
    fn report_turns(&mut self) {
        let [falls, rises, one, id_falls, id_rises, id_one] = self.turns;
        println!(
            "updates with a row that only falls {falls}, that rises {rises}, in one bit {one}; \
             with IDs that only fall {id_falls}, that rise {id_rises}, in one bit {id_one}"
        );
        for (count, least) in self.turns.into_iter().zip(TURNS_AT_LEAST) {
            self.check(count >= least, || {
                format!("{PLANNER} had a kind of row or IDs only {count} times")
            });
        }
    }

    /// How often each call was asked about a sound record of more words than the programs take; too seldom is a failure.
    fn report_large(&mut self, asked: &dyn Fn(&str) -> bool) {
        let counts: Vec<(&str, u64)> = CALLS
            .iter()
            .enumerate()
            .filter(|(_, c)| c.about_record() && asked(c.name))
            .map(|(i, c)| (c.name, self.large.get(&i).copied().unwrap_or(0)))
            .collect();
        let line: String = counts.iter().map(|(n, k)| format!(" {n}:{k}")).collect();
        println!("asked about devices of more than {OPENED_MAX} words, by call{line}");
        for (name, count) in counts {
            self.check(count >= LARGE_AT_LEAST, || {
                format!("{name} was asked about a large device only {count} times")
            });
        }
    }
}

/// A message about two answers, each field of the request cut, and the answers shown from where they part.
pub fn difference(request: &Request, expected: &[u8], answer: Option<&[u8]>) -> String {
    let mut text = format!("{}\n", request.call().name);
    for (i, field) in request.fields.iter().enumerate() {
        let mut shown = Vec::new();
        crate::field::put(&mut shown, field);
        text.push_str(&format!("    field {i}: {}\n", cut(&shown, 0)));
    }
    let Some(answer) = answer else {
        return text + "    no answer came";
    };
    let mine: Vec<&[u8]> = expected.split(|&c| c == b' ').collect();
    let theirs: Vec<&[u8]> = answer.split(|&c| c == b' ').collect();
    for i in 0..mine.len().max(theirs.len()) {
        let (a, b) = (mine.get(i).copied(), theirs.get(i).copied());
        let mark = if a == b { ' ' } else { '*' };
        let (a, b) = (a.unwrap_or(b"(none)"), b.unwrap_or(b"(none)"));
        let parts = a.iter().zip(b).position(|(x, y)| x != y).unwrap_or(0);
        text.push_str(&format!(
            "  {mark} expected {}\n  {mark} got      {}\n",
            cut(a, parts),
            cut(b, parts)
        ));
    }
    text.trim_end().to_string()
}
