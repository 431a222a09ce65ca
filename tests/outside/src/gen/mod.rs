//! Inputs from a seed: for each call sound ones, ones aimed at a refusal, damaged ones, random ones.

mod benches;
mod boards;
mod hexes;
mod plans;
mod texts;

use crate::calls::{Request, CALLS};
use crate::device::Device;
use crate::field::{Field, Kind, LINE_MAX};
use crate::rng::Rng;
use crate::sheet::Form;
use boards::any_device;

pub use boards::{
    device_of_size, fitting, image_for, large_device, name, reading_for, turned, with_id, Turn,
};

/// How an input is made.
#[derive(Clone, Copy, Debug)]
pub enum Manner {
    /// Built so that the call should answer that number.
    Aimed(u32),
    /// The same, for a device of more words than the programs take.
    Large(u32),
    /// Built for a number of the call, then damaged in that many places.
    Damaged(usize),
    /// Nothing but random fields.
    Random,
}

/// A request for the call with that index in the table.
pub fn request(call: usize, manner: Manner, rng: &mut Rng) -> Request {
    let kinds = CALLS[call].kinds;
    let fields = match manner {
        Manner::Aimed(aim) => aimed(call, aim, any_device(rng), rng),
        Manner::Large(aim) => aimed(call, aim, large_device(rng), rng),
        Manner::Damaged(places) => {
            // Mostly sound input, so that the damage decides.
            let aim = if rng.chance(70) {
                0
            } else {
                rng.pick(CALLS[call].classes)
            };
            let mut fields = aimed(call, aim, any_device(rng), rng);
            for _ in 0..places {
                damage(&mut fields, kinds, rng);
            }
            fields
        }
        Manner::Random => kinds.iter().map(|&k| random(k, rng)).collect(),
    };
    let request = Request { call, fields };
    assert!(
        request.line().len() < LINE_MAX,
        "a request line is too long"
    );
    request
}

/// The fields of a request for the device, if the call is about one. The programs' boards have devices of their own, since
/// a large one is refused before anything else is looked at.
fn aimed(call: usize, aim: u32, d: Device, rng: &mut Rng) -> Vec<Field> {
    let name = CALLS[call].name;
    let (group, rest) = name.split_once('.').expect("a name in two parts");
    match group {
        "words" => texts::words(rest, aim, rng),
        "device" => boards::device(rest, aim, d, rng),
        "judge" => boards::judge(rest, aim, d, rng),
        "sheet" if rest == "to_new" => benches::moves(Form::New, aim, d, rng),
        "sheet" if rest == "to_old" => benches::moves(Form::Old, aim, d, rng),
        "sheet" => boards::sheet(rest, aim, d, rng),
        "ihex" => hexes::ihex(rest, aim, d, rng),
        "target" => plans::target(rest, aim, d, rng),
        "plan" => plans::plan(rest, aim, d, rng),
        "print" => texts::print(rest, aim == 1, rng),
        "board" if rest == "print_sheet" => boards::printed_sheet(aim, d, rng),
        "board" => benches::board(rest, aim, rng),
        "lent" if rest == "first_number" => texts::first_number(aim == 1, rng),
        "lent" if rest == "third_line" => texts::third_line(aim == 1, rng),
        "lent" => plans::target("step", aim, d, rng),
        _ => benches::bench(rest, aim, rng),
    }
}

/// A lent buffer: a pattern that no call leaves by chance.
pub fn lent(n: usize, rng: &mut Rng) -> Vec<u8> {
    rng.bytes(n)
}

pub fn lent_words(n: usize, rng: &mut Rng) -> Vec<u16> {
    rng.entries(n)
}

/// A length for a lent output: an exact fit, some room more, or too short where that is aimed at.
fn room(needed: usize, short: bool, rng: &mut Rng) -> usize {
    if short {
        return match rng.below(3) {
            _ if needed == 0 => 0,
            0 => needed - 1,
            1 => needed - rng.between(1, needed.min(9)),
            _ => rng.below(needed),
        };
    }
    match rng.below(3) {
        0 => needed,
        1 => needed + rng.between(1, 9),
        _ => needed + rng.below(200),
    }
}

/// A number of so many bits, often near an edge.
fn number(bits: u32, rng: &mut Rng) -> u64 {
    let most = if bits == 64 {
        u64::MAX
    } else {
        (1 << bits) - 1
    };
    let n = match rng.below(4) {
        0 => rng.below(12) as u64,
        1 => most - rng.below(3) as u64,
        2 => rng.next() >> rng.below(64),
        _ => rng.next(),
    };
    n & most
}

fn random(kind: Kind, rng: &mut Rng) -> Field {
    // Mostly short, since long random input is refused at its beginning.
    let n = if rng.chance(90) {
        rng.below(64)
    } else {
        rng.below(2_000)
    };
    match kind {
        Kind::Num(bits) => number(bits, rng).into(),
        Kind::Bytes | Kind::HexBytes => rng.bytes(n).into(),
        Kind::Words => rng.entries(n).into(),
        Kind::Latches => rng.entries(kind.most()).into(),
    }
}

/// Damages one place of one field; mostly not a number, or a record's six would take most of the damage.
fn damage(fields: &mut [Field], kinds: &[Kind], rng: &mut Rng) {
    if fields.is_empty() {
        return;
    }
    let lists: Vec<usize> = (0..kinds.len())
        .filter(|&i| !matches!(kinds[i], Kind::Num(_)))
        .collect();
    let i = if lists.is_empty() || rng.chance(25) {
        rng.below(fields.len())
    } else {
        rng.pick(&lists)
    };
    match (&mut fields[i], kinds[i]) {
        (Field::Num(n), Kind::Num(bits)) => damage_number(n, bits, rng),
        (Field::Bytes(b), kind) => damage_bytes(b, kind.most(), rng),
        (Field::Words(w), kind) => damage_words(w, kind, rng),
        (other, kind) => panic!("{other:?} is not of kind {kind:?}"),
    }
}

fn damage_number(n: &mut u64, bits: u32, rng: &mut Rng) {
    let most = if bits == 64 {
        u64::MAX
    } else {
        (1 << bits) - 1
    };
    *n = match rng.below(4) {
        0 => n.wrapping_add(1),
        1 => n.wrapping_sub(1),
        2 => *n ^ 1 << rng.below(bits as usize),
        _ => number(bits, rng),
    } & most;
}

/// Characters that mean something to one of the texts, and their neighbours.
const TELLING: &[u8] = b"\t\n\r :0123789AFGafg/@`\x00\x1F~\x7F\x80\xFF";

fn damage_bytes(b: &mut Vec<u8>, most: usize, rng: &mut Rng) {
    let at = rng.below(b.len() + 1);
    let new = if rng.chance(60) {
        rng.pick(TELLING)
    } else {
        rng.byte()
    };
    let grow = b.len() < most;
    match rng.below(9) {
        0 | 1 if at < b.len() => b[at] = new,
        2 if at < b.len() => b[at] ^= 1 << rng.below(8),
        3 if at < b.len() => {
            b.remove(at);
        }
        4 => b.truncate(at),
        5 if b.len() > 1 => {
            let i = rng.below(b.len() - 1);
            b.swap(i, i + 1);
        }
        6 if !b.is_empty() => {
            // A line, or some other piece, twice.
            let end = (at + rng.below(50)).min(b.len());
            let piece = b[at.min(end)..end].to_vec();
            if b.len() + piece.len() <= most {
                b.splice(at..at, piece);
            }
        }
        7 if grow => b.push(new),
        _ if grow => b.insert(at, new),
        _ => b.clear(),
    }
}

fn damage_words(w: &mut Vec<u16>, kind: Kind, rng: &mut Rng) {
    let fixed = kind == Kind::Latches;
    let new = match rng.below(3) {
        0 => rng.pick(&[
            0, 1, 0x3FFE, 0x3FFF, 0x4000, 0x4001, 0x7FFF, 0x8000, 0xFFFE, 0xFFFF,
        ]),
        1 => rng.word(),
        _ => rng.u16(),
    };
    let at = rng.below(w.len() + 1);
    let inside = at < w.len();
    match rng.below(8) {
        0 | 1 if inside => w[at] = new,
        2 | 3 if inside => w[at] ^= 1 << rng.below(16),
        4 if !fixed && inside => {
            w.remove(at);
        }
        5 if !fixed && w.len() < kind.most() => w.insert(at, new),
        6 if !fixed => w.truncate(at),
        _ if inside => w[at] = w[at].wrapping_add(1),
        _ => {}
    }
}
