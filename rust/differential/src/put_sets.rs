//! Comparisons of a new set put into a table: ahead of all rows, between them, behind them and over each, with any
//! room; refused sets, damaged tables and missing room at once; and lengths of any kind.

use std::cmp::Ordering;

use reference::day_bytes::{elements_of_bytes, elements_to_bytes};
use reference::element_sets::put;
use reference::orbit::Elements;
use yurdelmiz::ffi;

use crate::element_tables::{damaged, sets, spoil, Table, DAMAGE, REFUSED_SETS};
use crate::find_sets;
use crate::inputs::{accepted_elements, TIME_MAX, TIME_MIN};
use crate::lent::Lent;
use crate::numbers::library_elements;
use crate::random::Random;
use crate::report::{Hex, Report};

const INTO_NO_SETS: &str = "put into a table of no sets";
const AHEAD: &str = "put ahead of all sets";
const BETWEEN: &str = "put between two sets";
const BEHIND: &str = "put behind all sets";
const OVER_THE_ONLY: &str = "put over the only set";
const OVER_THE_FIRST: &str = "put over the first set";
const OVER_ANOTHER: &str = "put over a set between";
const OVER_THE_LAST: &str = "put over the last set";
const OVER_WITHOUT_ROOM: &str = "put over a set, without room for another";
const ALL_THE_ROOM: &str = "put with all the room used";

const KINDS: [&str; 10] = [
    INTO_NO_SETS,
    AHEAD,
    BETWEEN,
    BEHIND,
    OVER_THE_ONLY,
    OVER_THE_FIRST,
    OVER_ANOTHER,
    OVER_THE_LAST,
    OVER_WITHOUT_ROOM,
    ALL_THE_ROOM,
];

const ROW: usize = ffi::ELEMENTS_BYTES;

/// What a call leaves: the status, and the bytes of buffer and answer.
struct Left {
    status: u32,
    buffer: Vec<u8>,
    answer: Vec<u8>,
}

/// The call itself, with the lent bytes compared: a refusal changes none, and no call any but those of buffer and
/// answer.
fn call(
    random: &mut Random,
    report: &mut Report,
    set: &[u8],
    table: &Table,
    answer_len: usize,
) -> Left {
    let input = (Hex(set), table, answer_len);
    let before = random.bytes(answer_len);
    let [mut elements, mut buffer, mut answer] = [set, &table.buffer, &before].map(Lent::new);
    let (elements_bytes, buffer_bytes, answer_bytes) =
        (elements.bytes(), buffer.bytes(), answer.bytes());
    // SAFETY: the slices are those of `elements`, `buffer` and `answer`.
    let status = unsafe {
        ffi::yurdelmiz_put_set(
            elements_bytes.as_ptr(),
            elements_bytes.len(),
            buffer_bytes.as_mut_ptr(),
            buffer_bytes.len(),
            table.size,
            answer_bytes.as_mut_ptr(),
            answer_bytes.len(),
        )
    };
    report.bytes(&input, "elements", elements_bytes, set);
    if status != 0 {
        report.bytes(&input, "buffer after a refusal", buffer_bytes, &table.buffer);
        report.bytes(&input, "answer after a refusal", answer_bytes, &before);
    }
    let left = Left { status, buffer: buffer_bytes.to_vec(), answer: answer_bytes.to_vec() };
    let guarded = [&elements, &buffer, &answer].into_iter().all(Lent::guarded);
    report.equal(&input, "bytes outside the slices", guarded, true);
    left
}

/// What an accepted set is counted as, by the table before.
fn kind(set: &Elements, table: &Table) -> &'static str {
    let epochs: Vec<i64> = table.buffer[..table.size]
        .chunks_exact(ROW)
        .map(|row| elements_of_bytes(row.try_into().expect("a row")).epoch)
        .collect();
    let Some((first, last)) = epochs.first().zip(epochs.last()) else {
        return INTO_NO_SETS;
    };
    let epoch = &set.epoch;
    match (epoch.cmp(first), epoch.cmp(last)) {
        (Ordering::Less, _) => AHEAD,
        (_, Ordering::Greater) => BEHIND,
        (Ordering::Equal, Ordering::Equal) => OVER_THE_ONLY,
        (Ordering::Equal, _) => OVER_THE_FIRST,
        (_, Ordering::Equal) => OVER_THE_LAST,
        _ if epochs.contains(epoch) => OVER_ANOTHER,
        _ => BETWEEN,
    }
}

/// Compares the library, by itself and through its Rust face, with the reference, whose outcome is given.
fn outcome(
    random: &mut Random,
    report: &mut Report,
    set: &Elements,
    table: &Table,
) -> Result<usize, u32> {
    let bytes = elements_to_bytes(set);
    let input = (set, table);
    let mut reference_buffer = table.buffer.clone();
    let reference = put(set, &mut reference_buffer, table.size).map_err(|refusal| refusal.number());

    let left = call(random, report, &bytes, table, ffi::PUT_SET_BYTES);
    let library = match left.status {
        0 => Ok(u64::from_le_bytes(left.answer[..].try_into().expect("8 bytes"))),
        status => Err((status, 0)),
    };
    let told = reference.map(|size| size as u64).map_err(|number| (number, 0));
    report.outcomes(&input, library, told);
    report.bytes(&input, "buffer", &left.buffer, &reference_buffer);

    // The Rust face relies on a right answer.
    if library == told {
        let mut bound = Lent::new(&table.buffer);
        let binding = yurdelmiz::put_set(&library_elements(set), bound.bytes(), table.size)
            .map(|size| size as u64)
            .map_err(|refusal| (refusal.number(), 0));
        report.equal(&input, "binding", binding, library);
        report.bytes(&input, "buffer of the binding", bound.bytes(), &left.buffer);
        report.equal(&input, "bytes outside the binding's buffer", bound.guarded(), true);
    }

    if let Ok(size) = reference {
        report.answer(kind(set, table));
        let room = table.buffer.len() - table.size;
        if size == table.size && room < ROW {
            report.answer(OVER_WITHOUT_ROOM);
        }
        if size > table.size && room == ROW {
            report.answer(ALL_THE_ROOM);
        }
        if let Ok(size) = library {
            report.bytes(
                &input,
                "behind the table",
                left.buffer.get(size as usize..).unwrap_or(&[]),
                table.buffer.get(size as usize..).unwrap_or(&[]),
            );
            let after = Table { buffer: left.buffer, size: size as usize };
            accepted(random, report, set, &after);
        }
    }
    reference
}

/// The table that results is sound, and as the past it has the new set for the time of its epoch.
fn accepted(random: &mut Random, report: &mut Report, set: &Elements, table: &Table) {
    let row = find_sets::of_past(random, report, table, set.epoch).map(|(offset, table_number)| {
        let rest = table.buffer.get(offset as usize..).unwrap_or(&[]);
        (table_number, rest.first_chunk().copied())
    });
    let new = (0, Some(elements_to_bytes(set)));
    report.equal(&(set, table), "set found", row, Ok(new));
}

fn compare(random: &mut Random, report: &mut Report, set: &Elements, table: &Table) {
    let _ = outcome(random, report, set, table);
}

fn accepted_at(random: &mut Random, epoch: i64) -> Elements {
    Elements { epoch, ..accepted_elements(random) }
}

/// Epochs that no set has: next to each, the same in the lower 32 bits, and at the ends of the range.
fn other_epochs(sets: &[Elements]) -> Vec<i64> {
    let near = [-1 << 32, -1, 1, 1 << 32];
    let beside = sets.iter().flat_map(|set| near.map(|seconds| set.epoch + seconds));
    let mut epochs: Vec<i64> = [TIME_MIN, 0, TIME_MAX].into_iter().chain(beside).collect();
    epochs.retain(|epoch| {
        (TIME_MIN..=TIME_MAX).contains(epoch) && sets.iter().all(|set| set.epoch != *epoch)
    });
    epochs.sort_unstable();
    epochs.dedup();
    epochs
}

/// Into every place and over every row, with room for no further row, for one and for more.
fn everywhere(random: &mut Random, report: &mut Report, sets: &[Elements]) {
    let any = random.index(160);
    for behind in [0, 51, 52, 53, any] {
        let table = Table::of(random, sets, behind);
        for epoch in other_epochs(sets) {
            let set = accepted_at(random, epoch);
            compare(random, report, &set, &table);
        }
        for set in sets {
            let other = accepted_at(random, set.epoch);
            compare(random, report, &other, &table);
        }
        if !sets.is_empty() {
            let same = random.pick(sets);
            compare(random, report, &same, &table);
        }
    }
    let no_bytes = Table { buffer: vec![], size: 0 };
    let set = accepted_elements(random);
    compare(random, report, &set, &no_bytes);
}

/// Sets put one after another in any order, some of the same epoch: the table is that of the last set of each epoch.
fn one_after_another(random: &mut Random, report: &mut Report, sets: &[Elements]) {
    let mut table = Table::of(random, &[], (sets.len() + 1) * ROW);
    let mut left: Vec<Elements> = sets.to_vec();
    while !left.is_empty() {
        let set = left.swap_remove(random.index(left.len()));
        if random.one_in(3) {
            let other = accepted_at(random, set.epoch);
            table = put_into(random, report, &other, table);
        }
        table = put_into(random, report, &set, table);
    }
    let rows: Vec<u8> = sets.iter().flat_map(elements_to_bytes).collect();
    let found = table.buffer.get(..table.size).unwrap_or(&[]);
    report.bytes(&table, "sets put one after another", found, &rows);
}

/// The table after the library has put a set, or before where it has not.
fn put_into(random: &mut Random, report: &mut Report, set: &Elements, table: Table) -> Table {
    compare(random, report, set, &table);
    let left = call(random, report, &elements_to_bytes(set), &table, ffi::PUT_SET_BYTES);
    match left.status {
        0 => {
            let size = u64::from_le_bytes(left.answer[..].try_into().expect("8 bytes"));
            Table { buffer: left.buffer, size: size as usize }
        }
        _ => table,
    }
}

/// A set for each refusal, alone and with each of the later ones, which it is told before.
fn refused_sets(random: &mut Random, epoch: i64) -> Vec<(u32, Elements)> {
    let mut refused = Vec::new();
    for (at, (number, _)) in REFUSED_SETS.into_iter().enumerate() {
        let alone = [None];
        let later = REFUSED_SETS[at + 1..].iter().map(|(later, _)| Some(*later));
        for later in alone.into_iter().chain(later) {
            let mut set = accepted_at(random, epoch);
            let ahead = random.one_in(2);
            if let Some(later) = later {
                spoil(random, &mut set, later, ahead);
            }
            spoil(random, &mut set, number, ahead);
            refused.push((number, set));
        }
    }
    refused
}

/// Each refused set with a sound table, one without room, and a damaged one.
fn refused(random: &mut Random, report: &mut Report, sets: &[Elements], bad: &[Table]) {
    let known = sets.first().map_or(0, |set| set.epoch);
    let epoch = random.pick(&[known, TIME_MIN, TIME_MAX]);
    for (number, set) in refused_sets(random, epoch) {
        for behind in [0, 52] {
            let table = Table::of(random, sets, behind);
            let told = outcome(random, report, &set, &table);
            report.equal(&(&set, &table), "refusal of the set", told, Err(number));
        }
        let table = &bad[random.index(bad.len())];
        let told = outcome(random, report, &set, table);
        report.equal(&(&set, table), "refusal of the set", told, Err(number));
    }
}

/// Sets of an epoch that a damaged table has, and of others, ahead of all and behind all.
fn into_damaged(random: &mut Random, report: &mut Report, tables: &[(&'static str, Table)]) {
    for (kind, table) in tables {
        let rows = table.buffer.chunks_exact(ROW);
        let known = rows.map(|row| elements_of_bytes(row.try_into().expect("a row")).epoch);
        let epochs: Vec<i64> =
            known.filter(|epoch| (TIME_MIN..=TIME_MAX).contains(epoch)).collect();
        let any = random.between(TIME_MIN, TIME_MAX);
        let known = if epochs.is_empty() { any } else { random.pick(&epochs) };
        for epoch in [known, random.pick(&[TIME_MIN, TIME_MAX, any])] {
            let set = accepted_at(random, epoch);
            let told = outcome(random, report, &set, table);
            report.answer(kind);
            report.equal(&(&set, table), kind, told, Err(21));
        }
    }
}

/// Elements or an answer of another length are told before all else.
fn lengths(random: &mut Random, report: &mut Report, sets: &[Elements], bad: &[Table]) {
    let any = random.index(100);
    let answers = [ffi::PUT_SET_BYTES, 0, 7, 9, 4, 16, 12, any];
    let sizes = [ROW, 0, 51, 53, 48, 104, any];
    for (elements_len, answer_len) in
        sizes.iter().flat_map(|size| answers.map(|answer| (*size, answer)))
    {
        if (elements_len, answer_len) == (ROW, ffi::PUT_SET_BYTES) {
            continue;
        }
        let epoch = random.between(TIME_MIN, TIME_MAX);
        let mut set = accepted_at(random, epoch);
        if random.one_in(3) {
            spoil(random, &mut set, 1, false);
        }
        let elements: Vec<u8> =
            elements_to_bytes(&set).into_iter().cycle().take(elements_len).collect();
        let table = match random.below(3) {
            0 => bad[random.index(bad.len())].clone(),
            _ => Table::with_any_room(random, sets),
        };
        let Left { status, .. } = call(random, report, &elements, &table, answer_len);
        let input = (Hex(&elements), &table, answer_len);
        report.equal(&input, "bad buffer", status, ffi::BAD_BUFFER);
    }
}

pub fn put_set(random: &mut Random, report: &mut Report) {
    for kind in KINDS.into_iter().chain(DAMAGE) {
        report.due(kind);
    }
    for (number, kind) in REFUSED_SETS {
        report.due(kind);
        report.due_refusal(number);
    }
    report.due_refusal(21);
    report.due_refusal(22);
    let most = if random.one_in(32) { 40 } else { 6 };
    let sets = sets(random, most);
    everywhere(random, report, &sets);
    everywhere(random, report, &sets[..sets.len().min(1)]);
    one_after_another(random, report, &sets);
    let damaged = damaged(random, &sets);
    into_damaged(random, report, &damaged);
    let bad: Vec<Table> = damaged.into_iter().map(|(_, table)| table).collect();
    refused(random, report, &sets, &bad);
    lengths(random, report, &sets, &bad);
}
