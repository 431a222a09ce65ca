//! An implementation of its own of every call that can be asked, held against the command that is given.

mod ask;
mod bench;
mod board;
mod calls;
mod columns;
mod cuts;
mod device;
mod erases;
mod fewest;
mod field;
mod form;
mod gen;
mod hex;
mod judge;
mod large;
mod largest;
mod masked;
mod model;
mod moved;
mod print;
mod refusal;
mod rng;
mod sheet;
mod streams;
mod tally;
mod tried;
mod words;
mod worked;

use ask::Peer;
use calls::{Call, Request, CALLS, HEX_READER, PLANNER};
use gen::Manner;
use rng::Rng;
use std::process::ExitCode;
use std::time::Duration;
use tally::Tally;

const USAGE: &str = "\
outside [options] COMMAND [ARGS...]   hold COMMAND's answers against our own
outside [options] --self              the worked cases, round trips, the search and cuts on our own implementation
outside --mock                        answer requests on standard input with our own implementation

  --seed N            the seed of all inputs
  --cases N           free inputs a call, beside those aimed at its numbers
  --cuts N            cut runs
  --long              the long form: 20,000 cases, 100,000 cuts
  --only NAME         only the calls whose name begins so; no cuts, no malformed requests
  --patience SECONDS  how long the command may do nothing before it is killed: 120";

/// Inputs aimed at each number of each call: above the hundred that must be seen, since an aim can miss.
const AIMED: usize = 125;
/// Inputs aimed at some numbers. 1 of the HEX reader is long and cannot miss; of those that can stand at many columns of a line
/// there are enough that most columns are met. Of tables there are enough that lines clash in every way, or nearly do, of sheets
/// that line 1 is malformed in every way, and of updates that rows and user IDs fall and rise in every way.
const AIMED_AT: [(&str, u32, usize); 10] = [
    (PLANNER, 0, 750),
    (HEX_READER, 1, 100),
    (HEX_READER, 2, 2_500),
    (HEX_READER, 7, 1_000),
    (HEX_READER, 8, 1_000),
    (HEX_READER, 9, 1_000),
    ("device.judge_table", 0, 500),
    ("device.judge_table", 15, 1_000),
    ("sheet.read_id", 0, 500),
    ("sheet.read_id", 14, 1_000),
];
/// Inputs for large devices, of each number: few, since they are long.
const LARGE: usize = 3;
/// Of the HEX reader more for those that a record across 64 KiB can have.
const LARGE_HEX: usize = 24;
/// A batch's most requests, and about how many bytes it may have.
const BATCH: usize = 20_000;
const BATCH_BYTES: usize = 32 << 20;

struct Options {
    seed: u64,
    cases: usize,
    cuts: usize,
    own: bool,
    mock: bool,
    only: String,
    patience: Duration,
    command: Vec<String>,
}

fn options() -> Result<Options, String> {
    let mut o = Options {
        seed: 0x7153_A117,
        cases: 1_500,
        cuts: 3_000,
        own: false,
        mock: false,
        only: String::new(),
        patience: Duration::from_secs(120),
        command: Vec::new(),
    };
    let mut words = std::env::args().skip(1);
    while let Some(word) = words.next() {
        let mut value = || words.next().ok_or(format!("{word} wants a value"));
        let number = |text: String| text.parse::<u64>().map_err(|e| format!("{text}: {e}"));
        match word.as_str() {
            "--seed" => o.seed = number(value()?)?,
            "--cases" => o.cases = number(value()?)? as usize,
            "--cuts" => o.cuts = number(value()?)? as usize,
            "--only" => o.only = value()?,
            "--patience" => o.patience = Duration::from_secs(number(value()?)?),
            "--long" => (o.cases, o.cuts) = (20_000, 100_000),
            "--self" => o.own = true,
            "--mock" => o.mock = true,
            _ if word.starts_with('-') => return Err(format!("no option {word}")),
            _ => {
                o.command = std::iter::once(word).chain(words.by_ref()).collect();
            }
        }
    }
    if o.command.is_empty() && !o.own && !o.mock {
        return Err("no command".to_string());
    }
    if !CALLS.iter().any(|c| c.name.starts_with(&o.only)) {
        return Err(format!("no call has a name that begins with {}", o.only));
    }
    if o.patience.is_zero() {
        return Err("--patience wants at least one second".to_string());
    }
    Ok(o)
}

/// Requests gathered to a batch before they are asked.
struct Asker<'a> {
    peer: &'a Peer,
    tally: &'a mut Tally,
    batch: Vec<Request>,
    bytes: usize,
}

impl Asker<'_> {
    fn put(&mut self, request: Request) {
        self.bytes += request.line().len();
        self.batch.push(request);
        if self.batch.len() >= BATCH || self.bytes >= BATCH_BYTES {
            self.flush();
        }
    }

    fn flush(&mut self) {
        let tally = &mut *self.tally;
        let ended = self
            .peer
            .ask(&self.batch, |r, answer| tally.compare(r, answer));
        tally.check(ended.is_ok(), || ended.unwrap_err());
        self.batch.clear();
        self.bytes = 0;
    }
}

/// A manner for a free input: half of them damaged in one place or several.
fn manner(call: usize, rng: &mut Rng) -> Manner {
    match rng.below(20) {
        0..=4 => Manner::Aimed(rng.pick(CALLS[call].classes)),
        5..=10 => Manner::Damaged(1),
        11..=15 => Manner::Damaged(rng.between(2, 6)),
        16 | 17 => Manner::Aimed(0),
        _ => Manner::Random,
    }
}

/// How many inputs are aimed at a number of a call.
fn aims(call: &str, class: u32) -> usize {
    let special = AIMED_AT
        .iter()
        .find(|(name, number, _)| (*name, *number) == (call, class));
    special.map_or(AIMED, |(.., count)| *count)
}

/// How many of them are for a large device, beside the others.
fn large_aims(call: &Call, class: u32) -> usize {
    match class {
        _ if !call.about_device() => 0,
        0 | 7..=9 if call.name == HEX_READER => LARGE_HEX,
        _ => LARGE,
    }
}

fn compare_all(o: &Options, peer: &Peer, tally: &mut Tally) {
    let mut rng = Rng::new(o.seed);
    let mut asker = Asker {
        peer,
        tally,
        batch: Vec::new(),
        bytes: 0,
    };
    for name in ["words.digit", "words.capital"] {
        if name.starts_with(&o.only) {
            (0..=255u8).for_each(|c| asker.put(Request::new(name, vec![c.into()])));
        }
    }
    for (i, call) in CALLS
        .iter()
        .enumerate()
        .filter(|(_, c)| c.name.starts_with(&o.only))
    {
        if peer.hung() {
            return;
        }
        for &class in call.classes {
            for _ in 0..aims(call.name, class) {
                asker.put(gen::request(i, Manner::Aimed(class), &mut rng));
            }
            for _ in 0..large_aims(call, class) {
                asker.put(gen::request(i, Manner::Large(class), &mut rng));
            }
        }
        for _ in 0..o.cases {
            let manner = manner(i, &mut rng);
            asker.put(gen::request(i, manner, &mut rng));
        }
    }
    asker.flush();
}

fn main() -> ExitCode {
    let o = match options() {
        Ok(o) => o,
        Err(why) => {
            eprintln!("{why}\n\n{USAGE}");
            return ExitCode::from(2);
        }
    };
    if o.mock {
        return ExitCode::from(u8::from(!ask::mock()));
    }
    println!("seed {}, {} cases a call, {} cuts", o.seed, o.cases, o.cuts);
    let peer = if o.own {
        Peer::Own
    } else {
        Peer::command(o.command.clone(), o.patience)
    };
    let mut tally = Tally::new();
    worked::check(&peer, &mut tally);
    if HEX_READER.starts_with(&o.only) && !peer.hung() {
        columns::check(&peer, &mut tally);
    }
    worked::round_trips(&mut Rng::new(o.seed ^ 1), &mut tally);
    if PLANNER.starts_with(&o.only) {
        fewest::check(&mut Rng::new(o.seed ^ 3), &mut tally);
    }
    if !o.own && !peer.hung() {
        compare_all(&o, &peer, &mut tally);
        tally.report(&|name| name.starts_with(&o.only));
    }
    if !o.only.is_empty() {
        println!(
            "--only {}: malformed requests and cuts are left out",
            o.only
        );
    } else if !peer.hung() {
        form::check(&peer, &mut tally);
        largest::check(&peer, &mut tally);
        cuts::check(&peer, o.cuts, &mut Rng::new(o.seed ^ 2), &mut tally);
    }
    if peer.hung() {
        println!(
            "the command did nothing for {} seconds and was killed; nothing more was asked of it",
            o.patience.as_secs()
        );
    }
    println!("{} passed, {} failed", tally.passed, tally.failed);
    ExitCode::from(u8::from(tally.failed > 0))
}
