//! Pulling the plug: streams cut at every step, run again, cut again, and at last run whole.
//!
//! All runs and streams are the command's; each answer is held against our own too.

use crate::ask::Peer;
use crate::calls::{device_fields, Request, PLANNER};
use crate::device::Device;
use crate::field::{parse, Kind};
use crate::gen::{device_of_size, image_for, lent, lent_words, reading_for, turned, Turn};
use crate::model::{BEGIN, BULK_ERASE, INCREMENT, LOAD_CONFIGURATION, LOAD_DATA, RESET, ROW_ERASE};
use crate::rng::Rng;
use crate::streams::{steps_bound, wanted_blank, wanted_over};
use crate::tally::Tally;

/// Streams that go through the waves together.
const TOGETHER: usize = 24;
/// The most program words of a device here.
const WORDS_MOST: usize = 64;
/// Random sets of changed bits, beside none and all.
const SETS: usize = 3;

/// A stream with the board that it is for.
struct Plan {
    device: Device,
    request: Request,
    /// The cells before the first run.
    first: Vec<u16>,
    /// The cells that the stream has to end in.
    end: Vec<u16>,
    /// Which cells the stream does not speak of.
    kept: Vec<bool>,
    /// The bits of the cells that no cut of an update may change. Bulk Erase sets them all, so a fresh programming has none.
    spare: Vec<u16>,
    stream: Vec<u8>,
    /// The kind of each Begin of an update that writes a row or a user ID.
    begins: Vec<Option<Written>>,
    /// The cells after each count of steps of an unbroken run.
    after: Vec<Vec<u16>>,
}

/// What a Begin of an update writes, and how.
#[derive(Clone, Copy, Debug, PartialEq, Eq)]
enum Written {
    ErasedRow,
    Row,
    ErasedIds,
    Ids,
}

/// The kinds as they are counted.
const KINDS: [(Written, &str); 4] = [
    (Written::ErasedRow, "a row with an erase"),
    (Written::Row, "a row without"),
    (Written::ErasedIds, "IDs with an erase"),
    (Written::Ids, "IDs without"),
];
/// In how many streams each kind must be met, and how many cuts must fall inside a Begin of it that was changing cells. Where fewer
/// cut runs are asked for than this many, nothing is asked of them.
const STREAMS_AT_LEAST: usize = 5;
const CUTS_AT_LEAST: usize = 100;
const FROM_CUT_RUNS: usize = 3_000;

/// How often each kind was met.
#[derive(Default)]
struct Met {
    streams: [usize; 4],
    cuts: [usize; 4],
}

impl Met {
    fn stream(&mut self, plan: &Plan) {
        for (i, (kind, _)) in KINDS.iter().enumerate() {
            self.streams[i] += usize::from(plan.begins.contains(&Some(*kind)));
        }
    }

    /// A cut at a step that was changing these cells to those.
    fn cut(&mut self, plan: &Plan, step: usize, before: &[u16], after: &[u16]) {
        let kind = plan.begins[step].filter(|_| before != after);
        if let Some(i) = KINDS.iter().position(|(k, _)| Some(*k) == kind) {
            self.cuts[i] += 1;
        }
    }

    fn report(&self, cut_runs: usize, tally: &mut Tally) {
        let line = |counts: &[usize; 4]| -> String {
            let each = KINDS.iter().zip(counts);
            let each: Vec<String> = each.map(|((_, what), n)| format!("{what} {n}")).collect();
            each.join(", ")
        };
        println!(
            "updates with {}; cuts inside a Begin of {}",
            line(&self.streams),
            line(&self.cuts)
        );
        if cut_runs < FROM_CUT_RUNS {
            return;
        }
        let counts = self.streams.iter().map(|&n| (n, STREAMS_AT_LEAST));
        for (n, least) in counts.chain(self.cuts.iter().map(|&n| (n, CUTS_AT_LEAST))) {
            tally.check(n >= least, || {
                format!("rows or IDs of a kind were met only {n} times of {least}")
            });
        }
    }
}

/// The kind of each step of an update.
fn begins(stream: &[u8]) -> Vec<Option<Written>> {
    let mut counter = 0;
    let mut erased = false;
    let mut kinds = Vec::new();
    for step in stream.chunks(3) {
        let mut kind = None;
        match step[0] {
            RESET => counter = 0,
            LOAD_CONFIGURATION => counter = 0x8000,
            INCREMENT => counter += 1,
            ROW_ERASE => erased = true,
            BEGIN if counter < 0x8000 => {
                kind = Some(if erased {
                    Written::ErasedRow
                } else {
                    Written::Row
                });
                // An erase is of the one row that is written next, or of all four IDs.
                erased = false;
            }
            BEGIN if counter <= 0x8003 => {
                kind = Some(if erased {
                    Written::ErasedIds
                } else {
                    Written::Ids
                });
            }
            _ => {}
        }
        kinds.push(kind);
    }
    kinds
}

/// A board that was cut at least once and waits for the next run.
struct Torn {
    plan: usize,
    cells: Vec<u16>,
    /// Further cuts that it has to bear.
    more: usize,
}

/// Which cells an update leaves alone: rows, IDs and configuration words in which nothing differs, and what can't be written.
fn kept_by_update(d: &Device, first: &[u16], end: &[u16]) -> Vec<bool> {
    let (p, r) = (d.p(), d.r());
    let same = |from: usize, to: usize| first[from..to] == end[from..to];
    (0..d.cells())
        .map(|i| match i {
            _ if i < p => same(i - i % r, i - i % r + r),
            _ if i < p + 4 => same(p, p + 4),
            _ if i == p + 7 || i == p + 8 => same(i, i + 1),
            _ => true,
        })
        .collect()
}

/// Makes words fall only, or rise, from words that can do both.
fn turn_words(image: &mut [u16], reading: &mut [u16], rng: &mut Rng) {
    reading.iter_mut().for_each(|w| *w = rng.word());
    let turn = rng.pick(&[Turn::Fall, Turn::Fall, Turn::Rise, Turn::RiseOnce]);
    image.copy_from_slice(&turned(reading, turn, 80, 20, rng));
}

fn plan(rng: &mut Rng) -> Plan {
    let device = loop {
        let d = device_of_size(8, rng);
        if d.p() <= WORDS_MOST && (d.p() <= 24 || rng.chance(40)) {
            break d;
        }
    };
    let d = &device;
    let p = d.p();
    let update = rng.chance(65);
    // A fresh programming is for any target, protected or not.
    let protected = !update && rng.chance(50);
    let mut reading = reading_for(d, protected, rng);
    let mut image = image_for(d, &reading, rng);
    if update {
        // A row and the user IDs that fall only, or rise: with an erase and without, often in one stream.
        let first = d.r() * rng.below(p / d.r());
        for words in [first..first + d.r(), p..p + 4] {
            if rng.chance(90) {
                turn_words(&mut image[words.clone()], &mut reading[words], rng);
            }
        }
    }
    let mut first = reading.clone();
    first.extend([rng.word(), rng.word()]);
    let mut end = if update {
        wanted_over(d, &image, &reading)
    } else {
        wanted_blank(d, &image)
    };
    end[p + 4..p + 7].copy_from_slice(&reading[p + 4..p + 7]);
    end.extend_from_slice(&first[p + 9..]);
    let kept = if update {
        kept_by_update(d, &first, &end)
    } else {
        (0..d.cells())
            .map(|i| i >= p + 9 || (p + 4..p + 7).contains(&i))
            .collect()
    };
    let spare = (0..d.cells())
        .map(|i| if update { d.spare(i) } else { 0 })
        .collect();
    let room = 3 * steps_bound(d);
    let mut fields = device_fields(d);
    let id_word = reading[p + 6];
    fields.push(image.into());
    fields.push(if update {
        reading.into()
    } else {
        id_word.into()
    });
    fields.push(lent(room, rng).into());
    let name = if update { PLANNER } else { "plan.fresh" };
    let request = Request::new(name, fields);
    Plan {
        device,
        request,
        first,
        end,
        kept,
        spare,
        stream: Vec::new(),
        begins: Vec::new(),
        after: Vec::new(),
    }
}

/// A run of the plan's stream from those cells.
fn run(plan: &Plan, cells: &[u16], allowance: usize, rng: &mut Rng) -> Request {
    let mut fields = device_fields(&plan.device);
    fields.push(cells.to_vec().into());
    fields.push(plan.stream.clone().into());
    fields.push(allowance.into());
    fields.push(lent_words(2, rng).into());
    Request::new("target.run", fields)
}

/// Number, steps and cells of a run's answer; nothing where it is no such answer.
fn run_answer(answer: Option<&[u8]>) -> Option<(u64, u64, Vec<u16>)> {
    let parts: Vec<&[u8]> = answer?.split(|&c| c == b' ').collect();
    let number = |i: usize| match parse(parts.get(i)?, Kind::Num(64))? {
        crate::field::Field::Num(n) => Some(n),
        _ => None,
    };
    let cells = match parse(parts.get(4)?, Kind::Words)? {
        crate::field::Field::Words(w) => w,
        _ => return None,
    };
    Some((number(1)?, number(2)?, cells))
}

/// The stream of a planner's answer.
fn stream_answer(answer: Option<&[u8]>) -> Option<Vec<u8>> {
    let parts: Vec<&[u8]> = answer?.split(|&c| c == b' ').collect();
    if parts.get(1)? != b"0" {
        return None;
    }
    let steps: usize = std::str::from_utf8(parts.get(2)?).ok()?.parse().ok()?;
    match parse(parts.get(3)?, Kind::Bytes)? {
        crate::field::Field::Bytes(b) => b.get(..3 * steps).map(<[u8]>::to_vec),
        _ => None,
    }
}

/// Asks runs; each answer is compared, must be sound, and its cells are handed back.
fn runs(peer: &Peer, requests: &[Request], tally: &mut Tally) -> Vec<Option<(u64, Vec<u16>)>> {
    let mut found = Vec::new();
    let ended = peer.ask(requests, |r, answer| {
        tally.compare(r, answer);
        let run = run_answer(answer).filter(|(number, ..)| *number == 0);
        found.push(run.map(|(_, steps, cells)| (steps, cells)));
    });
    tally.check(ended.is_ok(), || ended.unwrap_err());
    found
}

/// Cells between two states: of the bits that differ, those that `choose` picks have changed.
fn between(before: &[u16], after: &[u16], mut choose: impl FnMut() -> u16) -> Vec<u16> {
    before
        .iter()
        .zip(after)
        .map(|(&b, &a)| b ^ ((b ^ a) & choose()))
        .collect()
}

/// The states that a cut at a step may leave: none, all, and some random sets of the changing bits.
fn cut_states(before: &[u16], after: &[u16], rng: &mut Rng) -> Vec<Vec<u16>> {
    if before == after {
        return vec![before.to_vec()];
    }
    let mut states = vec![before.to_vec(), after.to_vec()];
    for i in 0..SETS {
        states.push(between(before, after, || match i {
            0 => rng.u16(),
            // Mostly changed, and mostly not.
            1 => rng.u16() | rng.u16() | rng.u16(),
            _ => rng.u16() & rng.u16() & rng.u16(),
        }));
    }
    states
}

/// Whether every word that the stream does not speak of is the first state's.
fn keeps(plan: &Plan, cells: &[u16]) -> bool {
    cells.len() == plan.first.len()
        && cells
            .iter()
            .zip(&plan.first)
            .zip(&plan.kept)
            .all(|((c, f), kept)| !kept || c == f)
}

/// Whether every spare bit of an update is the first state's.
fn spares(plan: &Plan, cells: &[u16]) -> bool {
    cells.len() == plan.first.len()
        && cells
            .iter()
            .zip(&plan.first)
            .zip(&plan.spare)
            .all(|((c, f), spare)| (c ^ f) & spare == 0)
}

/// What must hold of the cells after every cut.
fn check_cut(plan: &Plan, cells: &[u16], tally: &mut Tally) {
    tally.check(keeps(plan, cells), || {
        format!(
            "a cut changed a word that the stream does not speak of: {:?}",
            plan.device
        )
    });
    tally.check(spares(plan, cells), || {
        format!("a cut changed a spare bit: {:?}", plan.device)
    });
}

/// The stream with other spare bits in what it loads for 8007h and 8008h: none of them may reach a cell.
fn turn_spare_loads(d: &Device, stream: &mut [u8], rng: &mut Rng) {
    let mut counter = 0;
    for step in stream.chunks_mut(3) {
        match step[0] {
            RESET => counter = 0,
            LOAD_CONFIGURATION => counter = 0x8000,
            INCREMENT => counter += 1,
            LOAD_DATA if counter >= 0x8000 => {
                let spare = d.spare(d.p() + counter - 0x8000);
                let [low, high] = (2 * (spare & rng.word())).to_le_bytes();
                step[1] ^= low;
                step[2] ^= high;
            }
            _ => {}
        }
    }
}

/// A step for a later cut: mostly one that can change something.
fn later_step(plan: &Plan, rng: &mut Rng) -> usize {
    let steps = plan.stream.len() / 3;
    let changing: Vec<usize> = (0..steps)
        .filter(|k| [BEGIN, BULK_ERASE, ROW_ERASE].contains(&plan.stream[3 * k]))
        .collect();
    if changing.is_empty() || rng.chance(30) {
        rng.below(steps)
    } else {
        rng.pick(&changing)
    }
}

/// Streams planned and run unbroken with every allowance.
fn unbroken(peer: &Peer, plans: &mut Vec<Plan>, rng: &mut Rng, tally: &mut Tally) {
    let requests: Vec<Request> = plans.iter().map(|p| p.request.clone()).collect();
    let mut streams = Vec::new();
    let ended = peer.ask(&requests, |r, answer| {
        tally.compare(r, answer);
        streams.push(stream_answer(answer));
    });
    tally.check(ended.is_ok(), || ended.unwrap_err());
    for (plan, stream) in plans.iter_mut().zip(&streams) {
        plan.stream = stream.clone().unwrap_or_default();
        plan.begins = if plan.request.call().name == PLANNER {
            begins(&plan.stream)
        } else {
            vec![None; plan.stream.len() / 3]
        };
        if rng.chance(30) {
            turn_spare_loads(&plan.device, &mut plan.stream, rng);
        }
    }
    // A plan that was refused is a difference already, and there is nothing to run.
    plans.retain(|p| !p.stream.is_empty());
    let mut requests = Vec::new();
    for plan in plans.iter() {
        for k in 0..=plan.stream.len() / 3 {
            requests.push(run(plan, &plan.first, k, rng));
        }
    }
    let mut answers = runs(peer, &requests, tally).into_iter();
    for plan in plans.iter_mut() {
        let steps = plan.stream.len() / 3;
        let found: Option<Vec<_>> = answers.by_ref().take(steps + 1).collect();
        let whole = found.filter(|f| (0..=steps).all(|k| f[k].0 == k as u64));
        plan.after = whole
            .map(|f| f.into_iter().map(|(_, c)| c).collect())
            .unwrap_or_default();
        let end = plan.after.last() == Some(&plan.end);
        tally.check(end, || {
            format!(
                "an unbroken run does not end in what is wanted: {:?}",
                plan.device
            )
        });
    }
    plans.retain(|p| !p.after.is_empty());
}

/// One more cut of each torn board that has to bear one.
fn cut_again(
    peer: &Peer,
    plans: &[Plan],
    torn: &mut [Torn],
    met: &mut Met,
    rng: &mut Rng,
    tally: &mut Tally,
) -> usize {
    let waiting: Vec<usize> = (0..torn.len()).filter(|&i| torn[i].more > 0).collect();
    let mut requests = Vec::new();
    let mut cut_at = Vec::new();
    for &i in &waiting {
        let plan = &plans[torn[i].plan];
        let step = later_step(plan, rng);
        cut_at.push(step);
        for allowance in [step, step + 1] {
            requests.push(run(plan, &torn[i].cells, allowance, rng));
        }
    }
    let answers = runs(peer, &requests, tally);
    for ((&i, step), pair) in waiting.iter().zip(cut_at).zip(answers.chunks(2)) {
        torn[i].more -= 1;
        if let [Some((_, before)), Some((_, after))] = pair {
            met.cut(&plans[torn[i].plan], step, before, after);
            let states = cut_states(before, after, rng);
            torn[i].cells = states[rng.below(states.len())].clone();
            check_cut(&plans[torn[i].plan], &torn[i].cells, tally);
        }
    }
    waiting.len()
}

/// The first cuts: each step of each stream, with several sets of bits.
fn first_cuts(plans: &[Plan], met: &mut Met, rng: &mut Rng, tally: &mut Tally) -> Vec<Torn> {
    let mut torn = Vec::new();
    for (i, plan) in plans.iter().enumerate() {
        met.stream(plan);
        for (step, pair) in plan.after.windows(2).enumerate() {
            for cells in cut_states(&pair[0], &pair[1], rng) {
                met.cut(plan, step, &pair[0], &pair[1]);
                check_cut(plan, &cells, tally);
                torn.push(Torn {
                    plan: i,
                    cells,
                    more: rng.below(3),
                });
            }
        }
    }
    torn
}

/// The whole run at last: the cells of the unbroken one.
fn whole_runs(peer: &Peer, plans: &[Plan], torn: &[Torn], rng: &mut Rng, tally: &mut Tally) {
    let requests: Vec<Request> = torn
        .iter()
        .map(|t| {
            run(
                &plans[t.plan],
                &t.cells,
                plans[t.plan].stream.len() / 3,
                rng,
            )
        })
        .collect();
    let answers = runs(peer, &requests, tally);
    for (t, answer) in torn.iter().zip(&answers) {
        let plan = &plans[t.plan];
        let (steps, cells) = answer.clone().unwrap_or_default();
        let good = steps as usize == plan.stream.len() / 3
            && Some(&cells) == plan.after.last()
            && keeps(plan, &cells)
            && spares(plan, &cells);
        tally.check(good, || {
            format!("a run after a cut ends elsewhere: {:?}", plan.device)
        });
    }
}

/// At least so many cut runs, whole streams at a time.
pub fn check(peer: &Peer, wanted: usize, rng: &mut Rng, tally: &mut Tally) {
    let (mut cut_runs, mut cuts, mut streams, mut steps) = (0, 0, 0, 0);
    let mut met = Met::default();
    // A command that answers nothing gives no runs to cut: its failures are counted, and that is the end.
    let mut idle = 0;
    while cut_runs < wanted && idle < 3 {
        let mut plans: Vec<Plan> = (0..TOGETHER).map(|_| plan(rng)).collect();
        unbroken(peer, &mut plans, rng, tally);
        let mut torn = first_cuts(&plans, &mut met, rng, tally);
        cuts += torn.len();
        for _ in 0..2 {
            cuts += cut_again(peer, &plans, &mut torn, &mut met, rng, tally);
        }
        whole_runs(peer, &plans, &torn, rng, tally);
        cut_runs += torn.len();
        streams += plans.len();
        steps += plans.iter().map(|p| p.stream.len() / 3).sum::<usize>();
        idle = if torn.is_empty() { idle + 1 } else { 0 };
    }
    println!("\n{cut_runs} cut runs with {cuts} cuts, at every one of {steps} steps of {streams} streams");
    met.report(cut_runs, tally);
    tally.check(cut_runs >= wanted, || {
        format!("only {cut_runs} cut runs of {wanted}")
    });
}
