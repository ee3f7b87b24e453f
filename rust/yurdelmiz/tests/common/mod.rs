//! What several tests share.

#![allow(dead_code)]

use yurdelmiz::{Elements, Form, Label, Sample};

/// Oscar-10, from source document 001.
pub const OSCAR_10: Elements = Elements {
    eccentricity: 6_100_000,
    semi_major_axis: 26_100_000,
    inclination: 305_419_896,
    node: 1_445_972_322,
    argument_of_perigee: 478_411_634,
    mean_anomaly: 1_542_609_087,
    mean_motion: 205_890_000,
    node_rate: -1_724,
    perigee_rate: 2_834,
    epoch_revolution: 1_627,
    epoch: -138_406_500,
    half_mean_motion_derivative: 0,
};

/// Records so many seconds from the epoch.
pub fn telemetry(seconds: &[i64]) -> Vec<u8> {
    let sample = |after: &i64| Sample { time: OSCAR_10.epoch + after, volts: 14.0, amperes: 0.5 };
    seconds.iter().flat_map(|after| sample(after).to_bytes()).collect()
}

/// Records over 35 days, with labels of every side and dark ones on the test side.
pub fn day() -> Vec<u8> {
    telemetry(&(0..300).map(|record| record * 10_007).collect::<Vec<_>>())
}

/// A file with the trailer of 16 bytes in place of that of 24.
pub fn with_16_bytes(file: &[u8]) -> Vec<u8> {
    let (body, trailer) = file.split_at(file.len() - Form::Bytes24.size());
    let labels = body.len() / Label::SIZE;
    let distance = Form::Bytes16.distance(labels) as u32;
    [body, &trailer[..12], &distance.to_le_bytes()].concat()
}
