//! A low satellite, whose days have labels of every side and shade, and the files of document 01's listing.

#![allow(dead_code)]

use reference::orbit::Elements;

pub const ELEMENTS: Elements = Elements {
    eccentricity: 1_000,
    semi_major_axis: 7_000_000,
    inclination: 1 << 30,
    node: 0,
    argument_of_perigee: 0,
    mean_anomaly: 0,
    mean_motion: 1_480_000_000,
    node_rate: 0,
    perigee_rate: 0,
    epoch_revolution: 60,
    epoch: 0,
    half_mean_motion_derivative: 0,
};

/// The last time that goes with the elements.
pub const LAST_TIME: i64 = 31_622_400;

/// A record a time.
pub fn telemetry(times: impl IntoIterator<Item = i64>) -> Vec<u8> {
    let mut bytes = Vec::new();
    for (record, time) in times.into_iter().enumerate() {
        bytes.extend(time.to_le_bytes());
        bytes.extend(14.0_f32.to_le_bytes());
        bytes.extend((record as f32 / 100.0).to_le_bytes());
    }
    bytes
}

/// The longest day, with 80 seconds from record to record.
pub fn longest_day() -> Vec<u8> {
    telemetry((0..1_024).map(|record| record * 80))
}

/// The file of document 01's listing example, which has the trailer of 16 bytes.
pub const EXAMPLE_16: [u8; 40] = [
    0x80, 0x51, 0x01, 0, 0, 0, 0, 0, 0x11, 0, 0, 0, 1, 1, 1, 0, 0xff, 0xff, 0xff, 0xff, 0, 0, 0x20,
    0x41, 1, 0, 0, 0, 1, 0, 0, 0, 0, 0, 0, 0, 0x28, 0, 0, 0,
];

/// The same label with the trailer of 24 bytes.
pub const EXAMPLE_24: [u8; 48] = [
    0x80, 0x51, 0x01, 0, 0, 0, 0, 0, 0x11, 0, 0, 0, 1, 1, 1, 0, 0xff, 0xff, 0xff, 0xff, 0, 0, 0x20,
    0x41, 1, 0, 0, 0, 1, 0, 0, 0, 0, 0, 0, 0, 1, 0, 0, 0, 0, 0, 0, 0, 0x30, 0, 0, 0,
];
