//! Tables of element sets: sound ones, and every kind of damage.

use std::fmt::{self, Debug, Formatter};

use reference::day_bytes::{elements_to_bytes, ELEMENTS_BYTES};
use reference::orbit::Elements;

use crate::inputs::{accepted_elements, any_time, least_axis, least_motion, TIME_MAX, TIME_MIN};
use crate::random::Random;
use crate::report::Hex;

/// The refusals of a set, in the order that they are looked at, and what a table with such a set is counted as.
pub const REFUSED_SETS: [(u32, &str); 9] = [
    (1, "21: a set that 1 refuses"),
    (2, "21: a set that 2 refuses"),
    (3, "21: a set that 3 refuses"),
    (4, "21: a set that 4 refuses"),
    (5, "21: a set that 5 refuses"),
    (6, "21: a set that 6 refuses"),
    (7, "21: a set that 7 refuses"),
    (16, "21: a set that 16 refuses"),
    (8, "21: a set that 8 refuses"),
];

/// What other damage to a table is counted as.
pub const RAGGED: &str = "21: a part of a row";
pub const BEYOND: &str = "21: a size beyond the buffer";
pub const OUT_OF_ORDER: &str = "21: rows out of order";
pub const EPOCH_TWICE: &str = "21: an epoch twice";
pub const DAMAGE: [&str; 4] = [RAGGED, BEYOND, OUT_OF_ORDER, EPOCH_TWICE];

/// The table in the first `size` bytes of a buffer.
#[derive(Clone)]
pub struct Table {
    pub buffer: Vec<u8>,
    pub size: usize,
}

impl Debug for Table {
    fn fmt(&self, f: &mut Formatter) -> fmt::Result {
        write!(f, "{} of {:?}", self.size, Hex(&self.buffer))
    }
}

impl Table {
    /// The rows of sets, and behind them so many bytes: any, zeros, or those of rows.
    pub fn of(random: &mut Random, sets: &[Elements], behind: usize) -> Table {
        let mut buffer: Vec<u8> = sets.iter().flat_map(elements_to_bytes).collect();
        let size = buffer.len();
        let rest = match random.below(3) {
            0 => random.bytes(behind),
            1 => vec![0; behind],
            _ => {
                let row = elements_to_bytes(&accepted_elements(random));
                row.into_iter().cycle().take(behind).collect()
            }
        };
        buffer.extend(rest);
        Table { buffer, size }
    }

    /// With any bytes behind the rows, often as many as a row has or nearly.
    pub fn with_any_room(random: &mut Random, sets: &[Elements]) -> Table {
        let behind = match random.below(3) {
            0 => 0,
            1 => random.between(50, 54) as usize,
            _ => random.index(160),
        };
        Table::of(random, sets, behind)
    }
}

/// An epoch in range: any, next to the last, at an end of the range, or where a part of its bytes is 0.
fn epoch(random: &mut Random, last: i64) -> i64 {
    let epoch = match random.below(8) {
        0 => random.pick(&[TIME_MIN, TIME_MIN + 1, TIME_MAX - 1, TIME_MAX]),
        1 => random.pick(&[-1 << 32, -1 << 31, 0, 1 << 31]) + random.between(-1, 1),
        2..=5 => last + random.between(-3, 3),
        _ => random.between(TIME_MIN, TIME_MAX),
    };
    epoch.clamp(TIME_MIN, TIME_MAX)
}

/// Up to so many accepted sets, in rising order of epoch.
pub fn sets(random: &mut Random, most: usize) -> Vec<Elements> {
    let mut sets = Vec::<Elements>::new();
    for _ in 0..random.index(most + 1) {
        let last = sets.last().map_or(0, |set| set.epoch);
        let epoch = epoch(random, last);
        sets.push(Elements { epoch, ..accepted_elements(random) });
    }
    sets.sort_by_key(|set| set.epoch);
    sets.dedup_by_key(|set| set.epoch);
    sets
}

/// Changes a set so that it is refused by a number, of all the earlier ones by none where it was accepted. An epoch
/// changes for 8 alone: it is then ahead of all that are accepted, or behind them.
pub fn spoil(random: &mut Random, set: &mut Elements, number: u32, ahead: bool) {
    let rates = [-200_001, 200_001, i32::MIN, i32::MAX];
    match number {
        1 => set.eccentricity = random.pick(&[9_000_001, 10_000_000, 10_000_001, u32::MAX]),
        2 => set.semi_major_axis = random.pick(&[0, 6_599_999, 100_000_001, u32::MAX]),
        3 => {
            // From here on it is the perigee distance that sets the least axis.
            set.eccentricity = random.between(200_000, 9_000_000) as u32;
            set.semi_major_axis = (least_axis(set.eccentricity) - 1) as u32;
        }
        4 => set.inclination = random.pick(&[(1 << 31) + 1, u32::MAX]),
        5 => set.mean_motion = random.pick(&[0, 19_999_999, 1_700_000_001, u32::MAX]),
        6 if random.one_in(2) => set.node_rate = random.pick(&rates),
        6 => set.perigee_rate = random.pick(&rates),
        7 => set.epoch_revolution = random.pick(&[100_000, u32::MAX]),
        16 if random.one_in(2) => {
            let far = [-1_000_001, 1_000_001, i32::MIN, i32::MAX];
            set.half_mean_motion_derivative = random.pick(&far);
        }
        16 => {
            let derivative = random.between(1, 1_000_000) as i32 * random.pick(&[-1, 1]);
            set.half_mean_motion_derivative = derivative;
            set.mean_motion = (least_motion(derivative) - 1) as u32;
        }
        _ if ahead => set.epoch = random.pick(&[TIME_MIN - 1, i64::MIN]),
        _ => set.epoch = random.pick(&[TIME_MAX + 1, i64::MAX]),
    }
}

/// A row ahead of all others, one behind them, and one between, where there are as many.
fn places(random: &mut Random, rows: usize) -> Vec<usize> {
    match rows {
        0 => vec![],
        1 => vec![0],
        2 => vec![0, 1],
        _ => vec![0, 1 + random.index(rows - 2), rows - 1],
    }
}

/// Tables of these sets with every kind of damage that they allow, each with what it is counted as.
pub fn damaged(random: &mut Random, sets: &[Elements]) -> Vec<(&'static str, Table)> {
    let mut tables = Vec::new();
    for (number, kind) in REFUSED_SETS {
        for place in places(random, sets.len()) {
            let mut sets = sets.to_vec();
            spoil(random, &mut sets[place], number, place == 0);
            tables.push((kind, Table::with_any_room(random, &sets)));
        }
    }
    for row in 1..sets.len() {
        let mut swapped = sets.to_vec();
        swapped.swap(row - 1, row);
        tables.push((OUT_OF_ORDER, Table::with_any_room(random, &swapped)));
        let mut twice = sets.to_vec();
        twice[row].epoch = twice[row - 1].epoch;
        tables.push((EPOCH_TWICE, Table::with_any_room(random, &twice)));
    }
    if sets.len() > 2 {
        let mut swapped = sets.to_vec();
        swapped.swap(0, sets.len() - 1);
        tables.push((OUT_OF_ORDER, Table::with_any_room(random, &swapped)));
    }
    if !sets.is_empty() {
        let row = random.index(sets.len());
        let mut twice = sets.to_vec();
        twice.insert(row, sets[row]);
        tables.push((EPOCH_TWICE, Table::with_any_room(random, &twice)));
    }
    let part = 1 + random.index(ELEMENTS_BYTES - 1);
    for part in [1, 4, 8, 51, part] {
        let mut table = Table::of(random, sets, 60);
        table.size += part;
        tables.push((RAGGED, table.clone()));
        // The buffer may end with the part of a row.
        table.buffer.truncate(table.size);
        tables.push((RAGGED, table));
    }
    let room = random.index(ELEMENTS_BYTES);
    let far = usize::MAX - usize::MAX % ELEMENTS_BYTES;
    for room in [0, 1, 51, room] {
        let mut table = Table::of(random, sets, room);
        let length = table.buffer.len();
        let next_row = table.size + ELEMENTS_BYTES;
        let any = length + 1 + random.index(1_000);
        // The same in its lower 32 bits.
        let high = table.size + (ELEMENTS_BYTES << 32);
        for size in [length + 1, next_row, any, high, far, 1 << 63, usize::MAX] {
            table.size = size;
            tables.push((BEYOND, table.clone()));
        }
    }
    tables
}

/// Times at each epoch, a second to either side, and far from all.
pub fn times(random: &mut Random, sets: &[Elements]) -> Vec<i64> {
    let mut times = vec![i64::MIN, i64::MAX, TIME_MIN - 1, TIME_MAX + 1, any_time(random)];
    for set in sets {
        times.extend([set.epoch - 1, set.epoch, set.epoch + 1]);
        times.push(set.epoch.wrapping_add(random.pick(&[-1, 1]) << 32));
    }
    times
}
