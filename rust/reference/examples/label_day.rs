//! Labels a day with the reference: `label_day ELEMENTS TELEMETRY LABELS`.
//!
//! ELEMENTS has a line `name value` for each element and `#` comments.

use std::collections::HashMap;
use std::error::Error;
use std::fs;
use std::str::FromStr;

use reference::file::{file_bytes, label_day};
use reference::orbit::Elements;

fn parse(text: &str) -> Result<Elements, Box<dyn Error>> {
    let values: HashMap<&str, &str> = text
        .lines()
        .filter(|line| !line.starts_with('#'))
        .filter_map(|line| line.split_once(' '))
        .collect();
    fn value<T: FromStr>(values: &HashMap<&str, &str>, name: &str) -> Result<T, Box<dyn Error>> {
        let word = values.get(name).ok_or(format!("no {name}"))?;
        word.trim().parse().map_err(|_| format!("{name}: {word}").into())
    }
    Ok(Elements {
        eccentricity: value(&values, "eccentricity")?,
        semi_major_axis: value(&values, "semi_major_axis")?,
        inclination: value(&values, "inclination")?,
        node: value(&values, "node")?,
        argument_of_perigee: value(&values, "argument_of_perigee")?,
        mean_anomaly: value(&values, "mean_anomaly")?,
        mean_motion: value(&values, "mean_motion")?,
        node_rate: value(&values, "node_rate")?,
        perigee_rate: value(&values, "perigee_rate")?,
        epoch_revolution: value(&values, "epoch_revolution")?,
        epoch: value(&values, "epoch")?,
        half_mean_motion_derivative: value(&values, "half_mean_motion_derivative")?,
    })
}

fn main() -> Result<(), Box<dyn Error>> {
    let arguments: Vec<String> = std::env::args().skip(1).collect();
    let [elements, telemetry, labels] = arguments.as_slice() else {
        return Err("usage: label_day ELEMENTS TELEMETRY LABELS".into());
    };
    let elements = parse(&fs::read_to_string(elements)?)?;
    let telemetry = fs::read(telemetry)?;
    let mut output = vec![0; file_bytes(telemetry.len() / 16)];
    match label_day(&elements, &telemetry, &mut output) {
        Ok(_) => Ok(fs::write(labels, output)?),
        Err(refused) => {
            Err(format!("refused {} at {}", refused.refusal.number(), refused.place).into())
        }
    }
}
