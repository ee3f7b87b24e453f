//! The reference answers every vector.

use reference::eclipse::shade;
use reference::element_sets;
use reference::file::{add, label_day, read};
use reference::orbit::Position;
use reference::packets;
use reference::salvage::{salvage, Salvaged};
use reference::scale;
use reference::sun::{sun, Direction};
use reference::tail::dark_test;
use reference::trailer::Counts;
use reference::two_line::two_line;
use reference::{kepler, Refusal};
use vectors::{Day, Elements, Figures, Labeller, Refused, Row, Table};

struct Reference;

fn elements(elements: Elements) -> reference::orbit::Elements {
    reference::orbit::Elements {
        eccentricity: elements.eccentricity,
        semi_major_axis: elements.semi_major_axis,
        inclination: elements.inclination,
        node: elements.node,
        argument_of_perigee: elements.argument_of_perigee,
        mean_anomaly: elements.mean_anomaly,
        mean_motion: elements.mean_motion,
        node_rate: elements.node_rate,
        perigee_rate: elements.perigee_rate,
        epoch_revolution: elements.epoch_revolution,
        epoch: elements.epoch,
        half_mean_motion_derivative: elements.half_mean_motion_derivative,
    }
}

fn vectors_elements(elements: reference::orbit::Elements) -> Elements {
    Elements {
        eccentricity: elements.eccentricity,
        semi_major_axis: elements.semi_major_axis,
        inclination: elements.inclination,
        node: elements.node,
        argument_of_perigee: elements.argument_of_perigee,
        mean_anomaly: elements.mean_anomaly,
        mean_motion: elements.mean_motion,
        node_rate: elements.node_rate,
        perigee_rate: elements.perigee_rate,
        epoch_revolution: elements.epoch_revolution,
        epoch: elements.epoch,
        half_mean_motion_derivative: elements.half_mean_motion_derivative,
    }
}

fn refused(refused: reference::Refused) -> Refused {
    (refused.refusal.number(), refused.place)
}

fn day(day: &Day) -> packets::Day {
    let Day { elements: set, closed, have, held, counts } = *day;
    let [labels, training, test, dark, dark_test] = counts;
    let counts = Counts { labels, training, test, dark, dark_test };
    packets::Day { elements: elements(set), closed, have, held, counts }
}

/// The state that a call leaves, with elements that it may not change.
fn put_back(day: &mut Day, left: &packets::Day) {
    assert_eq!(left.elements, elements(day.elements));
    let Counts { labels, training, test, dark, dark_test } = left.counts;
    let counts = [labels, training, test, dark, dark_test];
    *day = Day { closed: left.closed, have: left.have, held: left.held, counts, ..*day };
}

impl Labeller for Reference {
    fn sine(&self, angle: u32) -> i64 {
        reference::sine::sine(angle)
    }

    fn kepler(&self, eccentricity: u32, mean_anomaly: u32) -> Result<[i64; 2], u32> {
        kepler::solve(eccentricity, mean_anomaly)
            .map(|anomaly| [anomaly.angle, anomaly.halvings].map(i64::from))
            .map_err(Refusal::number)
    }

    fn sun(&self, time: i64) -> Result<[i64; 7], u32> {
        let sun = sun(time).map_err(Refusal::number)?;
        let [ma, ml, tl, ghaa] =
            [sun.mean_anomaly, sun.mean_longitude, sun.true_longitude, sun.greenwich_hour_angle]
                .map(i64::from);
        let Direction { x, y, z } = sun.direction;
        Ok([ma, ml, tl, ghaa, x, y, z])
    }

    fn position(&self, set: Elements, time: i64) -> Result<[i64; 8], u32> {
        let state = elements(set).state(time).map_err(Refusal::number)?;
        let Position { x, y, z } = state.position;
        Ok([
            state.revolution.into(),
            state.anomaly.angle.into(),
            state.anomaly.halvings.into(),
            state.radius,
            x,
            y,
            z,
            state.node.into(),
        ])
    }

    fn shade(&self, [x, y, z]: [i64; 3], sun: [i64; 3]) -> Result<[i64; 1], u32> {
        let sun = Direction { x: sun[0], y: sun[1], z: sun[2] };
        shade(Position { x, y, z }, sun).map(|shade| [shade as i64]).map_err(Refusal::number)
    }

    fn label(&self, set: Elements, telemetry: &[u8], output: &mut [u8]) -> Result<(), Refused> {
        label_day(&elements(set), telemetry, output).map(|_| ()).map_err(refused)
    }

    fn read(&self, file: &[u8]) -> Result<[i64; 6], Refused> {
        let file = read(file, file.len()).map_err(refused)?;
        let Counts { labels, training, test, dark, dark_test } = file.counts;
        let [labels, training, test, dark, dark_test] =
            [labels, training, test, dark, dark_test].map(i64::from);
        Ok([labels, training, test, dark, dark_test, file.form.bytes() as i64])
    }

    fn add(
        &self,
        set: Elements,
        buffer: &mut [u8],
        length: usize,
        telemetry: &[u8],
    ) -> Result<usize, Refused> {
        let added = add(&elements(set), buffer, length, telemetry).map_err(refused)?;
        Ok(added.length)
    }

    fn tail(&self, tail: &[u8], length: u64) -> Result<Option<u32>, u32> {
        dark_test(tail, length).map_err(Refusal::number)
    }

    fn salvage(&self, bytes: &[u8], output: &mut [u8]) -> Result<(u32, u64), u32> {
        let Salvaged { labels, dropped } = salvage(bytes, output).map_err(Refusal::number)?;
        Ok((labels, dropped))
    }

    fn open(&self, set: Elements) -> Result<Day, u32> {
        let opened = packets::Day::open(&elements(set)).map_err(Refusal::number)?;
        let mut day = Day { elements: set, closed: true, have: 1, held: [1; 15], counts: [1; 5] };
        put_back(&mut day, &opened);
        Ok(day)
    }

    fn packet(&self, state: &mut Day, packet: &[u8], output: &mut [u8]) -> Result<usize, Refused> {
        let mut left = day(state);
        let labels = left.packet(packet, output).map_err(refused);
        put_back(state, &left);
        labels
    }

    fn close(&self, state: &mut Day, output: &mut [u8]) -> Result<(), Refused> {
        let mut left = day(state);
        let closed = left.close(output).map(|_| ()).map_err(refused);
        put_back(state, &left);
        closed
    }

    fn scale(&self, figures: &mut Figures, buffer: &[u8], length: usize) -> Result<(), Refused> {
        let Figures { files, labels, dark, valid, least, greatest, sines, squares } = *figures;
        let [least, greatest] = [least, greatest].map(|bits| bits.map(f32::from_bits));
        let mut left =
            scale::Figures { files, labels, dark, valid, least, greatest, sines, squares };
        let added = left.add(buffer, length).map_err(refused);
        let scale::Figures { files, labels, dark, valid, least, greatest, sines, squares } = left;
        let [least, greatest] = [least, greatest].map(|watts| watts.map(f32::to_bits));
        *figures = Figures { files, labels, dark, valid, least, greatest, sines, squares };
        added
    }

    fn two_line(
        &self,
        [first, second]: [&[u8]; 2],
        semi_major_axis: u32,
        node_rate: i32,
        perigee_rate: i32,
    ) -> Result<Elements, Refused> {
        let set = two_line(first, second, semi_major_axis, node_rate, perigee_rate);
        set.map(vectors_elements).map_err(refused)
    }

    fn find(&self, past: Table, forecast: Table, time: i64) -> Result<Row, u32> {
        element_sets::find(past.buffer, past.size, forecast.buffer, forecast.size, time)
            .map(|row| match row {
                element_sets::Row::Past(row) => Row::Past(row),
                element_sets::Row::Forecast(row) => Row::Forecast(row),
            })
            .map_err(Refusal::number)
    }

    fn put(&self, set: Elements, buffer: &mut [u8], size: usize) -> Result<usize, u32> {
        element_sets::put(&elements(set), buffer, size).map_err(Refusal::number)
    }
}

#[test]
fn every_vector_matches() {
    vectors::run(&Reference);
}
