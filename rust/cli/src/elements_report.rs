//! The elements as they were taken, in decimals, degrees and a date, by which a person sees a lost digit.

use yurdelmiz::{Element, Elements};

use crate::date;
use crate::decimal::{degrees, fixed};

/// An element's number, as the file has it.
pub fn number(element: Element, elements: &Elements) -> i64 {
    match element {
        Element::Eccentricity => elements.eccentricity.into(),
        Element::SemiMajorAxis => elements.semi_major_axis.into(),
        Element::Inclination => elements.inclination.into(),
        Element::Node => elements.node.into(),
        Element::ArgumentOfPerigee => elements.argument_of_perigee.into(),
        Element::MeanAnomaly => elements.mean_anomaly.into(),
        Element::MeanMotion => elements.mean_motion.into(),
        Element::NodeRate => elements.node_rate.into(),
        Element::PerigeeRate => elements.perigee_rate.into(),
        Element::EpochRevolution => elements.epoch_revolution.into(),
        Element::Epoch => elements.epoch,
        Element::HalfMeanMotionDerivative => elements.half_mean_motion_derivative.into(),
    }
}

/// What an element's number stands for.
pub fn value(element: Element, number: i64) -> String {
    match element {
        Element::Eccentricity => fixed(number, 7),
        Element::SemiMajorAxis => format!("{number} metres"),
        Element::Inclination
        | Element::Node
        | Element::ArgumentOfPerigee
        | Element::MeanAnomaly => format!("{} degrees", degrees(number as u32)),
        Element::MeanMotion => format!("{} revolutions a day", fixed(number, 8)),
        Element::NodeRate | Element::PerigeeRate => format!("{} degrees a day", fixed(number, 4)),
        Element::EpochRevolution => number.to_string(),
        Element::Epoch => epoch(number),
        Element::HalfMeanMotionDerivative => {
            format!("{} revolutions a day squared", fixed(number, 8))
        }
    }
}

/// A date within the range of times, for which the Sun is known, and else seconds.
fn epoch(time: i64) -> String {
    match yurdelmiz::sun(time) {
        Ok(_) => date::shown(time),
        Err(_) => date::seconds(time),
    }
}

/// An element's name and what its number stands for.
pub fn told(element: Element, elements: &Elements) -> String {
    format!("{} {}", element.name(), value(element, number(element, elements)))
}

/// One line an element, in the order of the file.
pub fn lines(elements: &Elements) -> String {
    Element::ALL.map(|element| told(element, elements)).join("\n")
}
