//! Tables of element sets beyond what the vectors hold: every way to order the putting, every place of a refused set,
//! sizes far beyond the buffer.

mod common;

use common::ELEMENTS;
use reference::day_bytes::{elements_to_bytes, ELEMENTS_BYTES};
use reference::element_sets::{find, put, Row};
use reference::orbit::Elements;
use reference::Refusal;

const FIRST_EPOCH: i64 = -2_834_956_800;
const LAST_EPOCH: i64 = 3_476_476_799;

/// What a buffer holds behind its table.
const FILL: u8 = 0xcc;

fn at(epoch: i64) -> Elements {
    Elements { epoch, ..ELEMENTS }
}

fn table(sets: &[Elements]) -> Vec<u8> {
    sets.iter().flat_map(elements_to_bytes).collect()
}

/// Finds in tables that are all of their buffers.
fn find_in(past: &[u8], forecast: &[u8], time: i64) -> Result<Row, Refusal> {
    find(past, past.len(), forecast, forecast.len(), time)
}

#[test]
fn the_latest_past_set_up_to_the_time_or_the_earliest_forecast_set() {
    let past = table(&[at(-5), at(0), at(10)]);
    let forecast = table(&[at(-7), at(5), at(20)]);
    for (time, row) in [
        (i64::MIN, Row::Forecast(0)),
        (-6, Row::Forecast(0)),
        (-5, Row::Past(0)),
        (-1, Row::Past(0)),
        (0, Row::Past(1)),
        (9, Row::Past(1)),
        (10, Row::Past(2)),
        (20, Row::Past(2)),
        (i64::MAX, Row::Past(2)),
    ] {
        assert_eq!(find_in(&past, &forecast, time), Ok(row), "at {time}");
        let without_forecast = match row {
            Row::Past(_) => Ok(row),
            Row::Forecast(_) => Err(Refusal::NoSet),
        };
        assert_eq!(find_in(&past, &[], time), without_forecast, "at {time}");
        assert_eq!(find_in(&[], &forecast, time), Ok(Row::Forecast(0)), "at {time}");
        assert_eq!(find_in(&[], &[], time), Err(Refusal::NoSet), "at {time}");
    }
}

/// A set for each refusal of elements, in the order that they are looked at.
fn refused_sets(epoch: i64) -> [(Elements, Refusal); 10] {
    let set = at(epoch);
    [
        (Elements { eccentricity: 9_000_001, ..set }, Refusal::Eccentricity),
        (Elements { semi_major_axis: 6_599_999, ..set }, Refusal::SemiMajorAxis),
        (Elements { eccentricity: 1_000_000, ..set }, Refusal::PerigeeDistance),
        (Elements { inclination: (1 << 31) + 1, ..set }, Refusal::Inclination),
        (Elements { mean_motion: 19_999_999, ..set }, Refusal::MeanMotion),
        (Elements { node_rate: 200_001, ..set }, Refusal::DriftRate),
        (Elements { perigee_rate: -200_001, ..set }, Refusal::DriftRate),
        (Elements { epoch_revolution: 100_000, ..set }, Refusal::EpochRevolution),
        (
            Elements { half_mean_motion_derivative: -1_000_001, ..set },
            Refusal::MeanMotionDerivative,
        ),
        (
            Elements { mean_motion: 20_000_059, half_mean_motion_derivative: 1, ..set },
            Refusal::MeanMotionDerivative,
        ),
    ]
}

/// Both tables are checked, whatever the answer; a new set before them.
#[test]
fn a_refused_set_in_any_row() {
    let sound = [-5, 0, 10].map(at);
    let good = table(&sound);
    for row in 0..3 {
        let mut sets = refused_sets(sound[row].epoch).to_vec();
        // The first and the last row stay in order.
        let epoch = if row == 0 { FIRST_EPOCH - 1 } else { LAST_EPOCH + 1 };
        sets.push((at(epoch), Refusal::Time));
        for (refused, refusal) in sets {
            let mut sets = sound;
            sets[row] = refused;
            let bad = table(&sets);
            for time in [i64::MIN, 0, i64::MAX] {
                for tables in [[&bad, &good], [&good, &bad], [&bad, &bad]] {
                    let [past, forecast] = tables;
                    assert_eq!(find_in(past, forecast, time), Err(Refusal::Table));
                }
                assert_eq!(find_in(&bad, &[], time), Err(Refusal::Table));
                assert_eq!(find_in(&[], &bad, time), Err(Refusal::Table));
            }
            let mut buffer = bad.clone();
            assert_eq!(put(&at(3), &mut buffer, bad.len()), Err(Refusal::Table));
            assert_eq!(put(&refused, &mut buffer, bad.len()), Err(refusal));
            assert_eq!(put(&refused, &mut buffer, usize::MAX), Err(refusal));
            assert_eq!(buffer, bad);
        }
    }
}

#[test]
fn out_of_order_or_an_epoch_twice() {
    for epochs in [[0, -5, 10], [-5, 10, 0], [10, 0, -5], [0, 0, 10], [-5, 10, 10]] {
        let bad = table(&epochs.map(at));
        assert_eq!(find_in(&bad, &[], 0), Err(Refusal::Table), "{epochs:?}");
        let mut buffer = [&bad[..], &[FILL; 52]].concat();
        assert_eq!(put(&at(0), &mut buffer, bad.len()), Err(Refusal::Table), "{epochs:?}");
    }
}

/// Every size but whole rows within the buffer.
#[test]
fn sizes() {
    let rows = table(&[at(-5), at(0)]);
    let far = usize::MAX - usize::MAX % ELEMENTS_BYTES;
    for size in (0..=4 * ELEMENTS_BYTES).chain([far, usize::MAX]) {
        let right = match size {
            0 => Err(Refusal::NoSet),
            52 => Ok(Row::Past(0)),
            104 => Ok(Row::Past(1)),
            _ => Err(Refusal::Table),
        };
        assert_eq!(find(&rows, size, &[], 0, 7), right, "{size}");
        if right == Err(Refusal::Table) {
            assert_eq!(find(&rows, 104, &rows, size, 7), right, "{size}");
            assert_eq!(put(&at(0), &mut rows.clone(), size), Err(Refusal::Table), "{size}");
        }
    }
}

/// The table does not depend on the order in which sets are put.
#[test]
fn put_in_every_order() {
    let mut sets = [FIRST_EPOCH, -1, 0, 1, LAST_EPOCH].map(at);
    for (number, set) in sets.iter_mut().enumerate() {
        set.epoch_revolution = number as u32;
    }
    for order in 0..120 {
        let mut left: Vec<usize> = (0..5).collect();
        let mut of = order;
        let mut buffer = vec![FILL; 5 * ELEMENTS_BYTES + 30];
        let mut size = 0;
        for choices in (1..=5).rev() {
            let set = &sets[left.remove(of % choices)];
            of /= choices;
            let behind = buffer[size + ELEMENTS_BYTES..].to_vec();
            assert_eq!(put(set, &mut buffer, size), Ok(size + ELEMENTS_BYTES));
            size += ELEMENTS_BYTES;
            assert_eq!(buffer[size..], behind);
        }
        assert_eq!(buffer[..size], table(&sets));
        assert_eq!(buffer[size..], [FILL; 30]);
    }
}

/// Room is asked for another epoch alone, and 52 bytes are enough.
#[test]
fn room() {
    let sets = [at(-5), at(0)];
    for behind in [0, 1, 51, 52, 53] {
        let before = [&table(&sets)[..], &vec![FILL; behind]].concat();
        for epoch in [-6, -1, 1] {
            let mut buffer = before.clone();
            let put = put(&at(epoch), &mut buffer, 104);
            if behind < 52 {
                assert_eq!(put, Err(Refusal::Room));
                assert_eq!(buffer, before);
            } else {
                assert_eq!(put, Ok(156));
                assert_eq!(buffer[156..], before[156..]);
            }
        }
        for (row, set) in sets.iter().enumerate() {
            let other = Elements { node: 5, ..*set };
            let mut expected = sets;
            expected[row] = other;
            let mut buffer = before.clone();
            assert_eq!(put(&other, &mut buffer, 104), Ok(104));
            assert_eq!(buffer, [&table(&expected)[..], &before[104..]].concat());
        }
    }
    assert_eq!(put(&at(0), &mut [FILL; 51], 0), Err(Refusal::Room));
}
