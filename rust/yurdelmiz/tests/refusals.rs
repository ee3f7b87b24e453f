//! Refusals: their numbers and texts, those of the elements in their order, the limits of 16 and 8, the shades
//! that 13 knows, and the bounds of the dark counts.

mod common;

use common::OSCAR_10;
use yurdelmiz::{
    label_to_vec, position, read, Counts, Elements, Form, Label, Refusal, Refused, Sample,
};

fn changing(half_mean_motion_derivative: i32) -> Elements {
    Elements { half_mean_motion_derivative, ..OSCAR_10 }
}

/// The outcome at a time so many seconds from the epoch.
fn outcome(elements: &Elements, elapsed: i64) -> Result<(), Refusal> {
    position(elements, elements.epoch + elapsed).map(|_| ())
}

#[test]
fn numbers_are_those_of_the_table() {
    for number in (1..=8).chain(10..=20).chain([24]) {
        let refusal = Refusal::from_number(number).expect("a refusal of the table");
        assert_eq!(refusal.number(), number);
        assert!(!refusal.sentence().is_empty());
    }
    // 9 is not used.
    for number in [0, 9, 21, 23, 25, yurdelmiz::ffi::BAD_BUFFER] {
        assert_eq!(Refusal::from_number(number), None);
    }
}

#[test]
fn a_refused_record_names_its_place() {
    let mut telemetry = [0; 32];
    telemetry[..8].copy_from_slice(&OSCAR_10.epoch.to_le_bytes());
    telemetry[16..24].copy_from_slice(&i64::MAX.to_le_bytes());
    let mut output = [7; 72];
    let refused = yurdelmiz::label_day(&OSCAR_10, &telemetry, &mut output).unwrap_err();
    assert_eq!(refused, Refused { refusal: Refusal::Time, place: 1 });
    assert_eq!(output, [7; 72]);
    assert!(refused.to_string().starts_with("refused 8 at 1: "));
}

#[test]
fn limits_of_the_derivative() {
    let refused = Err(Refusal::MeanMotionDerivative);
    for way in [-1, 1] {
        assert_eq!(outcome(&changing(way * 1_000_000), 0), Ok(()));
        assert_eq!(outcome(&changing(way * 1_000_001), 0), refused);
        let slow = |mean_motion| Elements { mean_motion, ..changing(way * 1_000_000) };
        assert_eq!(outcome(&slow(80_000_000), 0), Ok(()));
        assert_eq!(outcome(&slow(79_999_999), 0), refused);
    }
    for far in [i32::MIN, i32::MAX] {
        assert_eq!(outcome(&changing(far), 0), refused);
    }
}

/// Puts right what an element is refused for.
type Mend = fn(&mut Elements);

/// 16 comes after 7 and before the epoch.
#[test]
fn order_of_the_elements_refusals() {
    let mut elements = Elements {
        eccentricity: 9_000_001,
        semi_major_axis: 6_599_999,
        inclination: u32::MAX,
        mean_motion: 0,
        node_rate: 200_001,
        epoch_revolution: 100_000,
        epoch: i64::MAX,
        ..changing(i32::MIN)
    };
    let mends: [(u32, Mend); 9] = [
        (1, |set| set.eccentricity = 8_000_000),
        (2, |set| set.semi_major_axis = OSCAR_10.semi_major_axis),
        (3, |set| set.eccentricity = OSCAR_10.eccentricity),
        (4, |set| set.inclination = OSCAR_10.inclination),
        (5, |set| set.mean_motion = OSCAR_10.mean_motion),
        (6, |set| set.node_rate = OSCAR_10.node_rate),
        (7, |set| set.epoch_revolution = OSCAR_10.epoch_revolution),
        (16, |set| set.half_mean_motion_derivative = -1_000_000),
        (8, |set| set.epoch = OSCAR_10.epoch),
    ];
    for (number, mend) in mends {
        assert_eq!(outcome(&elements, 0).map_err(Refusal::number), Err(number));
        mend(&mut elements);
    }
    assert_eq!(outcome(&elements, 0), Ok(()));
}

/// 366 days, and 30 where the mean motion changes.
#[test]
fn times_within_reach() {
    for (half_derivative, reach) in [(0, 31_622_400), (1, 2_592_000), (-1, 2_592_000)] {
        for way in [-1, 1] {
            let elements = changing(half_derivative);
            assert_eq!(outcome(&elements, way * reach), Ok(()));
            assert_eq!(outcome(&elements, way * (reach + 1)), Err(Refusal::Time));
        }
    }
}

/// 13 knows the shades 0 to 2. Of these dark alone is counted.
#[test]
fn shades_of_a_file() {
    let sample = Sample { time: OSCAR_10.epoch, volts: 14.0, amperes: 0.5 };
    let mut file = label_to_vec(&OSCAR_10, &sample.to_bytes()).unwrap();
    assert_eq!(file[13], 1, "the worked example is dark");
    let counts = Counts { labels: 1, training: 1, test: 0, dark: 1, dark_test: 0 };
    assert_eq!(read(&file, file.len()), Ok((counts, Form::Bytes24)));
    let dark_at = Label::SIZE + 12;
    for shade in [0, 2] {
        file[13] = shade;
        file[dark_at] = 1;
        let refused = Refused { refusal: Refusal::Labels, place: 1 };
        assert_eq!(read(&file, file.len()), Err(refused), "shade {shade}");
        file[dark_at] = 0;
        let counts = Counts { dark: 0, ..counts };
        assert_eq!(read(&file, file.len()), Ok((counts, Form::Bytes24)), "shade {shade}");
    }
    for shade in 3..=255 {
        file[13] = shade;
        let refused = read(&file, file.len()).unwrap_err();
        assert_eq!(refused, Refused { refusal: Refusal::Labels, place: 0 }, "shade {shade}");
        assert!(refused.to_string().starts_with("refused 13 at 0: "));
    }
}

/// 12 bounds dark by the labels, and dark test by test and by dark; within the bounds a count that is not
/// that of the labels is 13, behind the last label.
#[test]
fn bounds_of_the_dark_counts() {
    let sample = Sample { time: OSCAR_10.epoch, volts: 14.0, amperes: 0.5 };
    let file = label_to_vec(&OSCAR_10, &sample.to_bytes().repeat(3)).unwrap();
    let trailer = 3 * Label::SIZE;
    for (training, test, dark, dark_test, number) in [
        (3, 0, 2, 0, 13),
        (3, 0, 4, 0, 12),
        (3, 0, u32::MAX, 0, 12),
        // Over test, and not over dark.
        (2, 1, 3, 1, 13),
        (2, 1, 3, 2, 12),
        (3, 0, 3, 1, 12),
        // Over dark, and not over test.
        (0, 3, 1, 1, 13),
        (0, 3, 1, 2, 12),
        (0, 3, 0, u32::MAX, 12),
    ] {
        let mut file = file.clone();
        for (word, count) in [training, test, dark, dark_test].into_iter().enumerate() {
            let at = trailer + 4 * (word + 1);
            file[at..at + 4].copy_from_slice(&count.to_le_bytes());
        }
        let refused = read(&file, file.len()).unwrap_err();
        let place = if number == 13 { 3 } else { 0 };
        assert_eq!((refused.refusal.number(), refused.place), (number, place));
    }
}
