//! `label` where the library refuses: its number and place, then which file, which line or record, and why.

mod common;

use common::{changed, Folder, TELEMETRY};

/// A refused day, with no output and over one.
#[track_caller]
fn refused(folder: &Folder, verdict: &str, told: &[&str]) {
    let verdict = format!("refused {verdict}\n");
    folder.label().is(1, &verdict).tells(told);
    assert!(!folder.has("out"));
    folder.write("out", "kept");
    folder.label().is(1, &verdict);
    assert_eq!(folder.read("out"), b"kept");
    assert_eq!(folder.names(), ["elements", "out", "telemetry"]);
}

#[track_caller]
fn refused_elements(from: &str, to: &str, verdict: &str, told: &[&str]) {
    let folder = Folder::with_example();
    folder.write("elements", changed(from, to));
    refused(&folder, verdict, told);
}

/// The sentence of the table on standard output; on standard error with file, line and value.
#[test]
fn elements() {
    let axis = "the semi-major axis is not within 6,600 to 100,000 km";
    let rate = "a drift rate is beyond 20 degrees a day";
    let derivative = "half the mean motion's derivative is beyond 0.01 revolutions a day squared, or brings the \
                      mean motion below 0.2 revolutions a day within 30 days of the epoch";
    for (from, to, number, sentence, place, fact) in [
        (
            "eccentricity 6100000",
            "eccentricity 9000001",
            1,
            "the eccentricity is above 0.9",
            "line 1",
            "eccentricity 9000001 is 0.9000001; check its digits, it counts units of 10^-7",
        ),
        ("26100000", "6599999", 2, axis, "line 2", "semi_major_axis 6599999 is 6599999 metres"),
        (
            "26100000",
            "26100",
            2,
            axis,
            "line 2",
            "semi_major_axis 26100 is 26100 metres; check its digits, it counts metres; 26100 km are written \
             26100000",
        ),
        (
            "eccentricity 6100000",
            "eccentricity 8000000",
            3,
            "the perigee is less than 6,478 km from the Earth's centre",
            "lines 1 and 2",
            "eccentricity 0.8000000 and semi_major_axis 26,100,000 metres put it at 5,220 km",
        ),
        (
            "305419896",
            "2147483649",
            4,
            "the inclination is above 180 degrees",
            "line 3",
            "inclination 2147483649 is 180.0000 degrees",
        ),
        (
            "205890000",
            "4294967295",
            5,
            "the mean motion is not within 0.2 to 17 revolutions a day",
            "line 7",
            "mean_motion 4294967295 is 42.94967295 revolutions a day",
        ),
        ("-1724", "-2147483648", 6, rate, "line 8", "node_rate -2147483648 is -214748.3648 degrees"),
        ("2834", "200001", 6, rate, "line 9", "perigee_rate 200001 is 20.0001 degrees a day"),
        (
            "1627",
            "100000",
            7,
            "the epoch's revolution is above 99,999",
            "line 10",
            "epoch_revolution 100000; check its digits",
        ),
        (
            "derivative 0",
            "derivative 1000001",
            16,
            derivative,
            "line 12",
            "half_mean_motion_derivative 1000001 is 0.01000001 revolutions a day squared; check its digits, it \
             counts units of 10^-8 revolution a day squared",
        ),
        (
            "derivative 0",
            "derivative -2147483648",
            16,
            derivative,
            "line 12",
            "half_mean_motion_derivative -2147483648 is -21.47483648 revolutions a day squared",
        ),
    ] {
        let told = format!("yurdelmiz: elements, {place}: {sentence}: {fact}");
        refused_elements(from, to, &format!("{number} at 0: {sentence}"), &[&told]);
    }
}

/// The derivative and the mean motion together.
#[test]
fn mean_motions_that_change() {
    for (mean_motion, half, least) in [
        (79_999_999, -1_000_000, "0.19999999 revolutions a day 30 days after the epoch"),
        (79_999_999, 1_000_000, "0.19999999 revolutions a day 30 days before the epoch"),
        (20_000_000, -1_000_000, "-0.40000000 revolutions a day 30 days after the epoch"),
    ] {
        let folder = Folder::with_example();
        let text = changed("205890000", &mean_motion.to_string());
        folder.write("elements", text.replace("derivative 0", &format!("derivative {half}")));
        let run = folder.label();
        assert!(run.stdout.starts_with("refused 16 at 0: "), "{run:?}");
        run.fails(1).tells(&["yurdelmiz: elements, lines 7 and 12: ", least, "check their digits"]);
    }
}

const TIME: &str =
    "the time, or the epoch, is not within 1900 March 1 to 2100 February 28, or they are \
                    over 366 days apart, or over 30 where the mean motion's derivative is not 0";

#[test]
fn epochs() {
    for (epoch, told) in [
        (
            "3476476800",
            "elements, line 11: epoch 3476476800 is 2100-03-01 00:00:00, outside 1900 March 1",
        ),
        ("-2834956801", "epoch -2834956801 is 1900-02-28 23:59:59, outside 1900 March 1"),
        ("-9223372036854775808", "elements, line 11: epoch -9223372036854775808 is"),
    ] {
        refused_elements("-138406500", epoch, &format!("8 at 0: {TIME}"), &[told]);
    }
}

#[test]
fn records() {
    refused_elements(
        "-138406500",
        "0",
        &format!("8 at 0: {TIME}"),
        &[
            "telemetry, record 0",
            "1985-08-29 13:45:00, is 1,584 days 10:15:00 before the epoch, 1989-12-31 00:00:00",
            "label it with elements of an epoch within 366 days",
        ],
    );
    let folder = Folder::with_example();
    let late = |time: i64| {
        let mut telemetry = TELEMETRY.to_vec();
        telemetry[48..56].copy_from_slice(&time.to_le_bytes());
        telemetry
    };
    folder.write("telemetry", late(0));
    refused(
        &folder,
        &format!("8 at 3: {TIME}"),
        &[
            "telemetry, record 3 (from 0, at byte 48)",
            "1989-12-31 00:00:00, is 1,601 days 22:15:00 after the epoch, 1985-08-12 01:45:00",
        ],
    );
    for (time, told) in [
        (3_476_476_800, "the record's time is 2100-03-01 00:00:00, outside 1900 March 1"),
        (-2_834_956_801, "the record's time is 1900-02-28 23:59:59, outside 1900 March 1"),
        (i64::MAX, "9223372036854775807 seconds from 1989-12-31 00:00:00, outside"),
    ] {
        let folder = Folder::with_example();
        folder.write("telemetry", late(time));
        refused(&folder, &format!("8 at 3: {TIME}"), &["telemetry, record 3", told]);
    }
}

/// The last second that is within reach, and the first that is not.
#[test]
fn a_second_too_many() {
    let epoch = -138_406_500i64;
    let changing = "epoch within 30 days, for half_mean_motion_derivative is not 0";
    for (half, days, within) in
        [("0", 366, "epoch within 366 days"), ("1", 30, changing), ("-1", 30, changing)]
    {
        for (way, told) in [(1, "after"), (-1, "before")] {
            let folder = Folder::with_example();
            let record = |time: i64| [&time.to_le_bytes()[..], &[0; 8]].concat();
            folder.write("elements", changed("derivative 0", &format!("derivative {half}")));
            folder.write("telemetry", record(epoch + way * days * 86_400));
            folder.label().fails(0);
            std::fs::remove_file(folder.path("out")).unwrap();
            folder.write("telemetry", record(epoch + way * (days * 86_400 + 1)));
            let told = format!("{days} days 00:00:01 {told}");
            refused(&folder, &format!("8 at 0: {TIME}"), &[&told, within]);
        }
    }
}

/// Seconds from 1970 where seconds from 1989-12-31 are due.
#[test]
fn unix_seconds() {
    let told = "as Unix does, it is 1985-08-12 01:45:00: subtract 631,065,600";
    refused_elements(
        "-138406500",
        "492659100",
        &format!("8 at 0: {TIME}"),
        &["if the epoch counts from 1970", told],
    );
    let folder = Folder::with_example();
    folder.write("telemetry", [&492_659_100i64.to_le_bytes()[..], &[0; 8]].concat());
    refused(&folder, &format!("8 at 0: {TIME}"), &["if its time counts from 1970", told]);
}

#[test]
fn lengths() {
    let sentence =
        "10 at 0: the telemetry is not a whole number of 16-byte records, or the file would have \
                    over 1,024 labels";
    for (length, told) in [
        (15, "telemetry: 15 bytes are 0 records of 16 and 15 more: is the file cut short"),
        (16_400, "telemetry: 1,025 records, and a day has at most 1,024: label it in parts"),
        (100_000, "telemetry: 6,250 records"),
        (100_001, "telemetry: 100,001 bytes are 6,250 records of 16 and 1 more"),
    ] {
        let folder = Folder::with_example();
        folder.write("telemetry", vec![0; length]);
        refused(&folder, sentence, &[told]);
    }
    let folder = Folder::with_example();
    folder.write("telemetry", "time,volts,amperes\n1985-08-29T13:45:00Z,14,1\n");
    refused(&folder, sentence, &["it looks like text", "--csv"]);
    // Labels in place of the telemetry: too long, and with times that are none.
    let order = "label file: the order is ELEMENTS TELEMETRY LABELS";
    for labels in [common::LABELS.to_vec(), common::label_file(&[common::LABEL; 2])] {
        folder.write("telemetry", labels);
        folder.run(["label", "elements", "telemetry", "none"]).fails(1).tells(&[order]);
    }
    // A device has no length, and is not read to its end.
    folder
        .run(["label", "elements", "/dev/zero", "none"])
        .fails(1)
        .tells(&["/dev/zero: over 16,384 bytes"]);
}
