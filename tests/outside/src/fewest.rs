//! The fewest Row Erases, found by search: from a reading's cells every sequence of steps without Bulk Erase is followed as long as it
//! leads to states that were not met with fewer Row Erases, so that at the end the least number is known for all cells that can be
//! reached. It must be the rule's: one for each program row, and one for the user IDs, in which some word rises; and the stream's.
//!
//! Boards have two rows and the user IDs. So that all states can be met, a word has one bit or two in use, CP's among them; the others
//! are ones in every cell and every load. The steps are our own model's, which takes rows of one and two words as well.

use crate::device::Device;
use crate::model::{
    act, Registers, BEGIN, BULK_ERASE, INCREMENT, LATCHES, LOAD_CONFIGURATION, LOAD_DATA, RESET,
    ROW_ERASE,
};
use crate::rng::Rng;
use crate::streams::{row_erases, update_stream};
use crate::tally::Tally;
use crate::words::WORD_MAX;

const CP: u16 = 1 << 7;

/// A board, which of its bits are in use, and how many readings are searched from.
struct Board {
    what: &'static str,
    device: Device,
    bits: &'static [u16],
    /// The latches that are loaded with anything; the others stay blank.
    latches: &'static [usize],
    /// As many readings, or all that are not protected if there are no more.
    readings: usize,
}

const fn device(words: u16, row: u16, mask1: u16, mask2: u16) -> Device {
    Device {
        id: 0x2A00,
        words,
        row,
        mask1,
        mask2,
        idmask: WORD_MAX,
    }
}

const BOARDS: [Board; 5] = [
    Board {
        what: "rows of 1 word, 1 bit",
        device: device(2, 1, 0x3FFF, 0x3FFF),
        bits: &[CP],
        latches: &[0],
        readings: usize::MAX,
    },
    Board {
        what: "rows of 2 words, 1 bit",
        device: device(4, 2, 0x3EFF, 0x3FF3),
        bits: &[CP],
        latches: &[0, 1],
        readings: usize::MAX,
    },
    Board {
        what: "rows of 1 word, 2 bits",
        device: device(2, 1, CP, 0x0000),
        bits: &[CP, 0x0001],
        latches: &[0],
        readings: 24,
    },
    Board {
        what: "TINY, 3 words a row, 1 bit",
        device: device(16, 8, 0x3EFF, 0x3FF3),
        bits: &[CP],
        latches: &[0, 3, 7],
        readings: 48,
    },
    Board {
        what: "TINY, 2 words a row, 2 bits",
        device: device(16, 8, CP, 0x0000),
        bits: &[CP, 0x2000],
        latches: &[0, 7],
        readings: 8,
    },
];

/// Of all steps the first is Row Erase, and the last Bulk Erase.
const ERASE: usize = 0;

/// All states of a board, each a number: which place the counter stands at, then the latches' bits, then the cells'.
struct Space<'a> {
    board: &'a Board,
    /// The bits that can be other than 1: of cells, then of latches.
    cells: Vec<(usize, u16)>,
    latches: Vec<(usize, u16)>,
    /// Where the counter may stand: every program word and one place past them, 8000h to 8008h and one place past them.
    places: Vec<u16>,
    steps: Vec<(u8, u16)>,
    /// Where each step leads from each state.
    next: Vec<u32>,
}

impl<'a> Space<'a> {
    fn new(board: &'a Board) -> Space<'a> {
        let d = &board.device;
        let (p, r) = (d.p(), d.r());
        let mut cells = Vec::new();
        for i in (0..p + 4).chain([p + 7, p + 8]) {
            let address = if i < p { i } else { 0x8000 + i - p };
            if board.latches.contains(&(address % r)) {
                let bits = board.bits.iter().filter(|&b| d.mask(i) & b != 0);
                cells.extend(bits.map(|&b| (i, b)));
            }
        }
        let latches = board.latches.iter();
        let latches: Vec<(usize, u16)> = latches
            .flat_map(|&k| board.bits.iter().map(move |&b| (k, b)))
            .collect();
        let places = (0..=d.words).chain(0x8000..=0x8009).collect();
        let words = (0..1u32 << board.bits.len()).map(|set| {
            let cleared = (0..board.bits.len()).filter(|k| set >> k & 1 == 1);
            cleared.fold(WORD_MAX, |word, k| word & !board.bits[k])
        });
        let words: Vec<u16> = words.collect();
        let mut steps = vec![(ROW_ERASE, 0), (BEGIN, 0), (INCREMENT, 0), (RESET, 0)];
        for code in [LOAD_CONFIGURATION, LOAD_DATA] {
            steps.extend(words.iter().map(|w| (code, 2 * w)));
        }
        steps.push((BULK_ERASE, 0));
        let mut space = Space {
            board,
            cells,
            latches,
            places,
            steps,
            next: Vec::new(),
        };
        space.next = space.all_steps();
        space
    }

    /// How many states there are.
    fn count(&self) -> usize {
        self.places.len() << (self.cells.len() + self.latches.len())
    }

    /// The cells of a state, or of a number for cells alone.
    fn cells_of(&self, state: u32) -> Vec<u16> {
        let d = &self.board.device;
        let mut cells = vec![WORD_MAX; d.cells()];
        cells[d.p() + 5] = 0x2000;
        cells[d.p() + 6] = d.id;
        for (k, &(i, bit)) in self.cells.iter().enumerate() {
            if state >> k & 1 == 0 {
                cells[i] &= !bit;
            }
        }
        cells
    }

    fn target_of(&self, state: u32) -> (Registers, Vec<u16>) {
        let (c, l) = (self.cells.len(), self.latches.len());
        let mut latches = [WORD_MAX; LATCHES];
        for (k, &(i, bit)) in self.latches.iter().enumerate() {
            if state >> (c + k) & 1 == 0 {
                latches[i] &= !bit;
            }
        }
        let counter = self.places[(state >> (c + l)) as usize];
        (Registers { counter, latches }, self.cells_of(state))
    }

    /// The state of a target; nothing where the counter stands at no place of ours. Whatever else is not as it must be stops us.
    fn state_of(&self, registers: &Registers, cells: &[u16]) -> Option<u32> {
        let place = self.places.iter().position(|&a| a == registers.counter)?;
        let mut state = place as u32;
        for &(i, bit) in self.latches.iter().rev() {
            state = state << 1 | u32::from(registers.latches[i] & bit != 0);
        }
        for &(i, bit) in self.cells.iter().rev() {
            state = state << 1 | u32::from(cells[i] & bit != 0);
        }
        let (same, board) = self.target_of(state);
        assert!(
            same == *registers && board == cells,
            "a step leaves the states that are searched: {}",
            self.board.what
        );
        Some(state)
    }

    /// Where each step leads from each state; a step that is left out leads to the state itself. Left out are Increments to no place
    /// of ours, loads of a latch that stays blank, and Bulk Erase where it is refused. Read changes nothing.
    fn all_steps(&self) -> Vec<u32> {
        let d = &self.board.device;
        let mut next = Vec::with_capacity(self.count() * self.steps.len());
        for state in 0..self.count() as u32 {
            for &(code, payload) in &self.steps {
                let (mut registers, mut cells) = self.target_of(state);
                let latch = usize::from(registers.counter) % d.r();
                let loads = code == LOAD_DATA && !self.board.latches.contains(&latch);
                let done = act(d, &mut registers, &mut cells, code, payload, false);
                let state_after = match done {
                    Ok(_) if !loads => self.state_of(&registers, &cells),
                    _ => None,
                };
                next.push(state_after.unwrap_or(state));
            }
        }
        next
    }

    /// For each number for cells the least Row Erases that lead there from a reading's, with Bulk Erase or without; nothing where no
    /// steps do. Every state that is met is counted.
    fn least(&self, reading: u32, bulk: bool, met: &mut Met) -> Vec<Option<u8>> {
        let (c, l) = (self.cells.len(), self.latches.len());
        let mut least = vec![None; 1 << c];
        let mut seen = vec![false; self.count()];
        let count = self.steps.len();
        let last = if bulk { count } else { count - 1 };
        let cp = (self.board.device.p() + 7, CP);
        let cp = self.cells.iter().position(|&cell| cell == cp);
        // Entry: counter 0, every latch 3FFFh.
        let mut now = vec![reading | ((1 << l) - 1) << c];
        let mut erases = 0;
        while !now.is_empty() {
            // All that can be reached with so many, and then what one more leads to.
            let mut later = Vec::new();
            while let Some(state) = now.pop() {
                if std::mem::replace(&mut seen[state as usize], true) {
                    continue;
                }
                least[state as usize & ((1 << c) - 1)].get_or_insert(erases);
                met.states += 1;
                met.protected += u64::from(cp.is_some_and(|k| state >> k & 1 == 0));
                let from = state as usize * count;
                later.push(self.next[from + ERASE]);
                let free = &self.next[from + ERASE + 1..from + last];
                now.extend(free.iter().filter(|&&s| !seen[s as usize]));
            }
            now = later;
            now.retain(|&s| !seen[s as usize]);
            erases += 1;
        }
        least
    }

    /// The numbers for cells of readings that are not protected.
    fn readings(&self, rng: &mut Rng) -> Vec<u32> {
        let d = &self.board.device;
        let all = 0..1u32 << self.cells.len();
        let mut open: Vec<u32> = all.filter(|&n| !d.protected(&self.cells_of(n))).collect();
        let most = self.board.readings.min(open.len());
        // The first, which has zeros wherever it can, and any others.
        for i in 1..most {
            let j = rng.between(i, open.len() - 1);
            open.swap(i, j);
        }
        open.truncate(most);
        open
    }
}

/// How many states searches have met, and how many of them were protected.
#[derive(Default)]
struct Met {
    states: u64,
    protected: u64,
}

/// What was compared: pairs, how many of them need 0 to 3 Row Erases, and how many are refused with 24, since no steps lead there.
#[derive(Default)]
struct Compared {
    erases: [u64; 4],
    refused: u64,
    met: Met,
}

/// Whether some word of a range has a 1 where it is read 0.
fn rises(wanted: &[u16], reading: &[u16]) -> bool {
    wanted.iter().zip(reading).any(|(w, r)| (w | r) != *r)
}

/// The rule: how many Row Erases an update has, or nothing where it wants a configuration bit that reads 0.
fn ruled(d: &Device, wanted: &[u16], reading: &[u16]) -> Option<u8> {
    let p = d.p();
    let rise = |from: usize, to: usize| rises(&wanted[from..to], &reading[from..to]);
    if rise(p + 7, p + 9) {
        return None;
    }
    let rows = (0..p).step_by(d.r()).filter(|&i| rise(i, i + d.r()));
    Some(rows.count() as u8 + u8::from(rise(p, p + 4)))
}

/// Where our own stream ends, and how many Row Erases it has.
fn streamed(d: &Device, wanted: &[u16], reading: &[u16]) -> (Vec<u16>, u8) {
    let stream = update_stream(d, wanted, reading);
    let mut cells = reading.to_vec();
    let mut registers = crate::model::entry();
    for s in stream.chunks(3) {
        let payload = u16::from_le_bytes([s[1], s[2]]);
        let done = act(d, &mut registers, &mut cells, s[0], payload, false);
        assert!(done.is_ok(), "a step of an update is refused");
    }
    (cells, row_erases(&stream) as u8)
}

/// Searches from one reading, and compares every board that there is as the wanted one.
fn compare(space: &Space, reading: u32, compared: &mut Compared, tally: &mut Tally) {
    let d = &space.board.device;
    let least = space.least(reading, false, &mut compared.met);
    let known = space.cells_of(reading);
    for (wanted, found) in least.into_iter().enumerate() {
        let cells = space.cells_of(wanted as u32);
        let rule = ruled(d, &cells, &known);
        let attained = match rule {
            Some(erases) => {
                compared.erases[usize::from(erases)] += 1;
                streamed(d, &cells, &known) == (cells.clone(), erases)
            }
            None => {
                compared.refused += 1;
                true
            }
        };
        tally.check(found == rule && attained, || {
            format!(
                "{}: from {known:04X?} to {cells:04X?} the least Row Erases are {found:?}, by the rule {rule:?}",
                space.board.what
            )
        });
    }
}

/// With Bulk Erase no wanted board needs a Row Erase, whatever the rule says: how many boards, and for how many it says more.
fn with_bulk(space: &Space, reading: u32, tally: &mut Tally) -> (u64, u64) {
    let d = &space.board.device;
    let known = space.cells_of(reading);
    let least = space.least(reading, true, &mut Met::default());
    let (boards, mut fewer) = (least.len() as u64, 0);
    for (wanted, found) in least.into_iter().enumerate() {
        let rule = ruled(d, &space.cells_of(wanted as u32), &known);
        tally.check(found == Some(0), || {
            format!("{}: with Bulk Erase {found:?}", space.board.what)
        });
        fewer += u64::from(rule > found);
    }
    (boards, fewer)
}

pub fn check(rng: &mut Rng, tally: &mut Tally) {
    let (mut states, mut searches, mut all, mut fewer) = (0, 0, 0, 0);
    let mut compared = Compared::default();
    for board in &BOARDS {
        let space = Space::new(board);
        let readings = space.readings(rng);
        for &reading in &readings {
            compare(&space, reading, &mut compared, tally);
        }
        states += space.count();
        searches += readings.len();
        let (boards, with_fewer) = with_bulk(&space, readings[0], tally);
        (all, fewer) = (all + boards, fewer + with_fewer);
    }
    let Compared {
        erases,
        refused,
        met,
    } = compared;
    let pairs = erases.iter().sum::<u64>() + refused;
    println!(
        "\nfewest Row Erases: {pairs} pairs of a reading and a wanted board, on {} boards of {states} states, \
         in {searches} searches that met {} states, {} of them protected",
        BOARDS.len(),
        met.states,
        met.protected
    );
    println!(
        "the least are 0:{} 1:{} 2:{} 3:{}, and no steps lead to {refused}; \
         with Bulk Erase 0 in {all} pairs, of which the stream has more in {fewer}",
        erases[0], erases[1], erases[2], erases[3]
    );
    let seen = erases.into_iter().chain([refused, fewer, met.protected]);
    tally.check(seen.min() >= Some(1_000), || {
        "too few pairs of some kind were searched".to_string()
    });
}
