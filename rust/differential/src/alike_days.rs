//! Two days that are alike: the same elements, number of bytes and times, and the same volts and amperes in each record
//! on the training side, by the reference. The volts and amperes of all other records are free, and so are the bytes of
//! an unfinished one.

use std::fmt::Debug;

use reference::label::Side;
use reference::orbit::Elements;
use reference::telemetry::{Reading, Sample, RECORD_BYTES};

use crate::inputs;
use crate::random::Random;
use crate::report::Hex;

/// Where a record has its volts, with the amperes behind them, and the bytes of either.
const VOLTS: usize = 8;
const NUMBER: usize = 4;

#[derive(Clone)]
pub struct Pair {
    pub elements: Elements,
    /// The side of each whole record, where position does not refuse it.
    pub sides: Vec<Option<Side>>,
    pub days: [Vec<u8>; 2],
}

impl Pair {
    pub fn any(random: &mut Random) -> Pair {
        let (elements, telemetry) = day(random);
        let side = |record| {
            let state = elements.state(sample(record).time).ok()?;
            Some(Side::of_revolution(state.revolution))
        };
        let sides: Vec<_> = telemetry.chunks_exact(RECORD_BYTES).map(side).collect();
        let twin = twin(random, &sides, &telemetry);
        Pair { elements, sides, days: [telemetry, twin] }
    }

    /// The bytes of either day.
    pub fn size(&self) -> usize {
        self.days[0].len()
    }

    pub fn shown(&self) -> impl Debug + '_ {
        (self.elements, self.days.each_ref().map(|day| Hex(day)))
    }

    /// Leaves a record out of both days.
    pub fn leave_out(&mut self, place: usize) {
        self.sides.remove(place);
        let at = place * RECORD_BYTES;
        for day in &mut self.days {
            day.drain(at..at + RECORD_BYTES);
        }
    }

    /// Makes a valid reading on the training side missing or saturated in the second day, where there is one, so that
    /// the days are not alike. Its place.
    pub fn spoil(&mut self, random: &mut Random) -> Option<usize> {
        let records = self.days[1].chunks_exact(RECORD_BYTES).zip(&self.sides).enumerate();
        let valid = records.filter(|(_, (record, side))| {
            **side == Some(Side::Training) && matches!(sample(record).reading(), Reading::Valid(_))
        });
        let places: Vec<usize> = valid.map(|(place, _)| place).collect();
        if places.is_empty() {
            return None;
        }
        let place = random.pick(&places);
        let at = place * RECORD_BYTES + VOLTS + NUMBER * random.index(2);
        let number = random.pick(&[f32::NAN, -f32::NAN, f32::INFINITY, f32::NEG_INFINITY]);
        self.days[1][at..at + NUMBER].copy_from_slice(&number.to_le_bytes());
        Some(place)
    }
}

/// Elements and telemetry of a day, mostly with every side, at times ragged, or with a record that is refused.
fn day(random: &mut Random) -> (Elements, Vec<u8>) {
    let (elements, mut telemetry) = match random.below(8) {
        0 => inputs::eclipse(random),
        1..=5 => inputs::changes_of_side(random),
        _ => {
            let elements = inputs::elements(random);
            (elements, inputs::telemetry(random, &elements))
        }
    };
    if random.one_in(16) {
        let more = random.index(RECORD_BYTES);
        telemetry.extend(random.bytes(more));
    }
    (elements, telemetry)
}

fn sample(record: &[u8]) -> Sample {
    Sample::from_bytes(record.try_into().expect("a record"))
}

/// A day that is alike. What is free is mostly changed, and a NaN on the training side is another NaN.
fn twin(random: &mut Random, sides: &[Option<Side>], telemetry: &[u8]) -> Vec<u8> {
    let mut twin = telemetry.to_vec();
    let mut records = twin.chunks_exact_mut(RECORD_BYTES);
    for (record, side) in records.by_ref().zip(sides) {
        for number in record[VOLTS..].chunks_exact_mut(NUMBER) {
            let bits = u32::from_le_bytes((&*number).try_into().expect("4 bytes"));
            let other = match side {
                Some(Side::Training) if f32::from_bits(bits).is_nan() => random.u32() | 0x7f80_0001,
                Some(Side::Training) => bits,
                _ if random.one_in(4) => bits,
                _ => inputs::reading_bits(random),
            };
            number.copy_from_slice(&other.to_le_bytes());
        }
    }
    let unfinished = records.into_remainder();
    unfinished.copy_from_slice(&random.bytes(unfinished.len()));
    twin
}
