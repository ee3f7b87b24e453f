//! Comparisons of sine, Kepler's equation, position, the revolution, Sun and the square root.

use reference::orbit::Elements;

use crate::inputs;
use crate::random::Random;
use crate::report::Report;

pub fn sine(random: &mut Random, report: &mut Report) {
    let angle = inputs::angle(random);
    let library = (yurdelmiz::sine(angle), yurdelmiz::cosine(angle));
    let reference = (reference::sine::sine(angle), reference::sine::cosine(angle));
    report.equal(&angle, "", library, reference);
}

/// k(E) ≤ M < k(E + 1), with the reference's k.
fn bracketed(eccentricity: u32, mean_anomaly: u32, eccentric_anomaly: u32) -> bool {
    let [at, next] = [0, 1].map(|step| {
        reference::kepler::mean_anomaly_of(eccentricity, i64::from(eccentric_anomaly) + step)
    });
    (at..next).contains(&i64::from(mean_anomaly))
}

pub fn kepler(random: &mut Random, report: &mut Report) {
    let (eccentricity, mean_anomaly) = inputs::kepler(random);
    let library = yurdelmiz::kepler(eccentricity, mean_anomaly)
        .map(|anomaly| (anomaly.angle, anomaly.halvings))
        .map_err(|refusal| (refusal.number(), 0));
    let reference = reference::kepler::solve(eccentricity, mean_anomaly)
        .map(|anomaly| (anomaly.angle, anomaly.halvings))
        .map_err(|refusal| (refusal.number(), 0));
    let input = (eccentricity, mean_anomaly);
    report.outcomes(&input, library, reference);
    if let Ok((angle, _)) = library {
        report.equal(&input, "bracket", bracketed(eccentricity, mean_anomaly, angle), true);
    }
}

/// The library's elements.
pub fn library_elements(elements: &Elements) -> yurdelmiz::Elements {
    yurdelmiz::Elements {
        eccentricity: elements.eccentricity,
        semi_major_axis: elements.semi_major_axis,
        inclination: elements.inclination,
        node: elements.node,
        argument_of_perigee: elements.argument_of_perigee,
        mean_anomaly: elements.mean_anomaly,
        mean_motion: elements.mean_motion,
        node_rate: elements.node_rate,
        perigee_rate: elements.perigee_rate,
        epoch_revolution: elements.epoch_revolution,
        epoch: elements.epoch,
        half_mean_motion_derivative: elements.half_mean_motion_derivative,
    }
}

pub fn position(random: &mut Random, report: &mut Report) {
    let elements = inputs::elements(random);
    let time = inputs::time(random, &elements);
    let library = yurdelmiz::position(&library_elements(&elements), time)
        .map(|state| {
            let (anomaly, celestial, fixed) = (state.anomaly, state.celestial, state.earth_fixed);
            (
                (state.revolution, anomaly.angle, anomaly.halvings),
                (i64::from(state.radius), state.node),
                [celestial.x, celestial.y, celestial.z],
                [fixed.x, fixed.y, fixed.z],
            )
        })
        .map_err(|refusal| (refusal.number(), 0));
    let reference = elements
        .state(time)
        .map(|state| {
            let (anomaly, celestial) = (state.anomaly, state.position);
            let sun = reference::sun::sun(time).expect("position took the time");
            let fixed = celestial.earth_fixed(sun.greenwich_hour_angle);
            (
                (state.revolution, anomaly.angle, anomaly.halvings),
                (state.radius, state.node),
                [celestial.x, celestial.y, celestial.z],
                [fixed.x, fixed.y, fixed.z],
            )
        })
        .map_err(|refusal| (refusal.number(), 0));
    report.outcomes(&(elements, time), library, reference);
}

/// The revolutions at two accepted times, and that the number does not fall.
pub fn revolution(random: &mut Random, report: &mut Report) {
    let (elements, times) = inputs::node_passage(random);
    let library = times.map(|time| {
        yurdelmiz::position(&library_elements(&elements), time).expect("accepted").revolution
    });
    let reference = times.map(|time| elements.state(time).expect("accepted").revolution);
    let input = (elements, times);
    report.equal(&input, "", library, reference);
    report.equal(&input, "falls", library[1] < library[0], false);
}

pub fn sun(random: &mut Random, report: &mut Report) {
    let time = inputs::any_time(random);
    let library = yurdelmiz::sun(time)
        .map(|sun| {
            (
                [sun.mean_anomaly, sun.mean_longitude, sun.true_longitude],
                sun.greenwich_hour_angle,
                [sun.direction.x, sun.direction.y, sun.direction.z],
            )
        })
        .map_err(|refusal| (refusal.number(), 0));
    let reference = reference::sun::sun(time)
        .map(|sun| {
            (
                [sun.mean_anomaly, sun.mean_longitude, sun.true_longitude],
                sun.greenwich_hour_angle,
                [sun.direction.x, sun.direction.y, sun.direction.z],
            )
        })
        .map_err(|refusal| (refusal.number(), 0));
    report.outcomes(&time, library, reference);
}

pub fn root(random: &mut Random, report: &mut Report) {
    let n = inputs::radicand(random);
    report.equal(&n, "", square_root::square_root(n), n.isqrt());
}
