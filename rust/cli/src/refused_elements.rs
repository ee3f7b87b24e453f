//! Why elements were refused: where they stand, what stands there, and what to do. Which of a refusal's causes it
//! was is found by asking the library again.

use yurdelmiz::{Element, Elements, Refusal};

use crate::date;
use crate::decimal::{fixed, grouped};
use crate::written::Written;

pub const OUTSIDE: &str = "outside 1900 March 1 to 2100 February 28";

/// Elements that are accepted, in which one number is asked about alone. The mean motion is the greatest, which no
/// derivative within its own bound brings too low.
const ACCEPTED: Elements = Elements {
    eccentricity: 0,
    semi_major_axis: 10_000_000,
    inclination: 0,
    node: 0,
    argument_of_perigee: 0,
    mean_anomaly: 0,
    mean_motion: 1_700_000_000,
    node_rate: 0,
    perigee_rate: 0,
    epoch_revolution: 0,
    epoch: 0,
    half_mean_motion_derivative: 0,
};

fn refuses(refusal: Refusal, elements: &Elements) -> bool {
    yurdelmiz::position(elements, elements.epoch) == Err(refusal)
}

/// The Sun is known at every time within the range.
pub fn out_of_range(time: i64) -> bool {
    yurdelmiz::sun(time).is_err()
}

/// Why they were refused, or none where the refusal is about something else.
pub fn why(written: &dyn Written, refusal: Refusal) -> Option<String> {
    match refusal {
        Refusal::Eccentricity => Some(of(written, Element::Eccentricity, refusal)),
        Refusal::SemiMajorAxis => axis(written),
        Refusal::PerigeeDistance => perigee(written),
        Refusal::Inclination => Some(of(written, Element::Inclination, refusal)),
        Refusal::MeanMotion => Some(of(written, Element::MeanMotion, refusal)),
        Refusal::DriftRate => rate(written),
        Refusal::EpochRevolution => Some(of(written, Element::EpochRevolution, refusal)),
        Refusal::MeanMotionDerivative => derivative(written),
        Refusal::Time => epoch(written),
        _ => None,
    }
}

/// The element that a refusal is about: the rule, what stands there and what that stands for.
fn of(written: &dyn Written, element: Element, refusal: Refusal) -> String {
    let (text, value) = (written.text(element), written.value(element));
    let is = if value == text { String::new() } else { format!(" is {value}") };
    told(written, element, &format!("{}: {} {text}{is}", refusal.sentence(), element.name()))
}

fn told(written: &dyn Written, element: Element, what: &str) -> String {
    let (place, unit) = (written.place(&[element]), written.unit(element));
    format!("{place}: {what}; check its digits, it counts {unit}")
}

fn epoch(written: &dyn Written) -> Option<String> {
    let epoch = written.number(Element::Epoch).filter(|epoch| out_of_range(*epoch))?;
    let shown = date::shown(epoch);
    Some(told(written, Element::Epoch, &format!("epoch {epoch} is {shown}, {OUTSIDE}")))
}

fn axis(written: &dyn Written) -> Option<String> {
    let refusal = Refusal::SemiMajorAxis;
    let told = of(written, Element::SemiMajorAxis, refusal);
    let metres = written.number(Element::SemiMajorAxis)?;
    let lengthened = u32::try_from(metres * 1_000).ok();
    let sound = lengthened.filter(|axis| {
        let set = Elements { semi_major_axis: *axis, ..ACCEPTED };
        !refuses(refusal, &set)
    });
    Some(match sound {
        Some(axis) => format!("{told}; {metres} km are written {axis}"),
        None => told,
    })
}

fn perigee(written: &dyn Written) -> Option<String> {
    let eccentricity = written.number(Element::Eccentricity)?;
    let axis = written.number(Element::SemiMajorAxis)?;
    let distance = axis * (10_000_000 - eccentricity) / 10_000_000;
    Some(format!(
        "{}: {}: eccentricity {} and semi_major_axis {} metres put it at {} km; check their digits",
        written.place(&[Element::Eccentricity, Element::SemiMajorAxis]),
        Refusal::PerigeeDistance.sentence(),
        written.value(Element::Eccentricity),
        grouped(axis),
        grouped(distance / 1_000),
    ))
}

/// The rate that is refused alone.
fn rate(written: &dyn Written) -> Option<String> {
    let node_rate = i32::try_from(written.number(Element::NodeRate)?).ok()?;
    let node = refuses(Refusal::DriftRate, &Elements { node_rate, ..ACCEPTED });
    let rate = if node { Element::NodeRate } else { Element::PerigeeRate };
    Some(of(written, rate, Refusal::DriftRate))
}

/// The derivative, where it is refused alone, or it and the mean motion.
fn derivative(written: &dyn Written) -> Option<String> {
    let refusal = Refusal::MeanMotionDerivative;
    let half = written.number(Element::HalfMeanMotionDerivative)?;
    let half_mean_motion_derivative = i32::try_from(half).ok()?;
    if refuses(refusal, &Elements { half_mean_motion_derivative, ..ACCEPTED }) {
        return Some(of(written, Element::HalfMeanMotionDerivative, refusal));
    }
    let least = written.number(Element::MeanMotion)? - 60 * half.abs();
    Some(format!(
        "{}: {}: mean_motion {} and half_mean_motion_derivative {} put it at {} revolutions a day 30 days {} \
         the epoch; check their digits",
        written.place(&[Element::MeanMotion, Element::HalfMeanMotionDerivative]),
        refusal.sentence(),
        written.value(Element::MeanMotion),
        written.value(Element::HalfMeanMotionDerivative),
        fixed(least, 8),
        if half < 0 { "after" } else { "before" },
    ))
}

#[cfg(test)]
mod tests {
    use super::*;

    /// What is asked about alone is the only thing that can be refused.
    #[test]
    fn elements_to_ask_with() {
        assert!(yurdelmiz::position(&ACCEPTED, ACCEPTED.epoch).is_ok());
        for half_mean_motion_derivative in [-1_000_000, 1_000_000] {
            let set = Elements { half_mean_motion_derivative, ..ACCEPTED };
            assert!(yurdelmiz::position(&set, set.epoch).is_ok());
        }
    }
}
