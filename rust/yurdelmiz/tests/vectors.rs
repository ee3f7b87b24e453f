//! The proved library answers every vector.

use vectors::{Day, Elements, Figures, Labeller, Refused, Row, Table};
use yurdelmiz::{ffi, Counts, Direction, FoundSet, Position, Refusal, Salvaged, SetTable};

struct Library;

fn elements(elements: Elements) -> yurdelmiz::Elements {
    yurdelmiz::Elements {
        eccentricity: elements.eccentricity,
        semi_major_axis: elements.semi_major_axis,
        inclination: elements.inclination,
        node: elements.node,
        argument_of_perigee: elements.argument_of_perigee,
        mean_anomaly: elements.mean_anomaly,
        mean_motion: elements.mean_motion,
        node_rate: elements.node_rate,
        perigee_rate: elements.perigee_rate,
        epoch_revolution: elements.epoch_revolution,
        epoch: elements.epoch,
        half_mean_motion_derivative: elements.half_mean_motion_derivative,
    }
}

fn vectors_elements(elements: yurdelmiz::Elements) -> Elements {
    Elements {
        eccentricity: elements.eccentricity,
        semi_major_axis: elements.semi_major_axis,
        inclination: elements.inclination,
        node: elements.node,
        argument_of_perigee: elements.argument_of_perigee,
        mean_anomaly: elements.mean_anomaly,
        mean_motion: elements.mean_motion,
        node_rate: elements.node_rate,
        perigee_rate: elements.perigee_rate,
        epoch_revolution: elements.epoch_revolution,
        epoch: elements.epoch,
        half_mean_motion_derivative: elements.half_mean_motion_derivative,
    }
}

fn refused(refused: yurdelmiz::Refused) -> Refused {
    (refused.refusal.number(), refused.place)
}

/// The state's bytes: the elements, the counts, closed, and what is held.
fn day(day: &Day) -> yurdelmiz::Day {
    let bytes = [
        &elements(day.elements).to_bytes()[..],
        &day.counts.map(u32::to_le_bytes).concat(),
        &[u8::from(day.closed), day.have],
        &day.held,
    ];
    yurdelmiz::Day::from_bytes(&bytes.concat().try_into().expect("89 bytes"))
}

/// The state that a call leaves, with elements that it may not change.
fn put_back(day: &mut Day, left: &yurdelmiz::Day) {
    assert_eq!(left.elements(), elements(day.elements));
    let Counts { labels, training, test, dark, dark_test } = left.counts();
    let counts = [labels, training, test, dark, dark_test];
    let held = left.to_bytes()[74..].try_into().expect("15 bytes");
    *day = Day { closed: left.is_closed(), have: left.held(), held, counts, ..*day };
}

impl Labeller for Library {
    fn sine(&self, angle: u32) -> i64 {
        yurdelmiz::sine(angle)
    }

    fn kepler(&self, eccentricity: u32, mean_anomaly: u32) -> Result<[i64; 2], u32> {
        yurdelmiz::kepler(eccentricity, mean_anomaly)
            .map(|anomaly| [anomaly.angle, anomaly.halvings].map(i64::from))
            .map_err(Refusal::number)
    }

    fn sun(&self, time: i64) -> Result<[i64; 7], u32> {
        let sun = yurdelmiz::sun(time).map_err(Refusal::number)?;
        let [ma, ml, tl, ghaa] =
            [sun.mean_anomaly, sun.mean_longitude, sun.true_longitude, sun.greenwich_hour_angle]
                .map(i64::from);
        let Direction { x, y, z } = sun.direction;
        Ok([ma, ml, tl, ghaa, x, y, z])
    }

    fn position(&self, set: Elements, time: i64) -> Result<[i64; 8], u32> {
        let state = yurdelmiz::position(&elements(set), time).map_err(Refusal::number)?;
        let Position { x, y, z } = state.celestial;
        Ok([
            state.revolution.into(),
            state.anomaly.angle.into(),
            state.anomaly.halvings.into(),
            state.radius.into(),
            x,
            y,
            z,
            state.node.into(),
        ])
    }

    fn shade(&self, [x, y, z]: [i64; 3], sun: [i64; 3]) -> Result<[i64; 1], u32> {
        let sun = Direction { x: sun[0], y: sun[1], z: sun[2] };
        yurdelmiz::shade(Position { x, y, z }, sun)
            .map(|shade| [shade.to_byte().into()])
            .map_err(Refusal::number)
    }

    fn label(&self, set: Elements, telemetry: &[u8], output: &mut [u8]) -> Result<(), Refused> {
        yurdelmiz::label_day(&elements(set), telemetry, output).map(|_| ()).map_err(refused)
    }

    fn read(&self, file: &[u8]) -> Result<[i64; 6], Refused> {
        let (counts, form) = yurdelmiz::read(file, file.len()).map_err(refused)?;
        let Counts { labels, training, test, dark, dark_test } = counts;
        let [labels, training, test, dark, dark_test] =
            [labels, training, test, dark, dark_test].map(i64::from);
        Ok([labels, training, test, dark, dark_test, form.size() as i64])
    }

    fn add(
        &self,
        set: Elements,
        buffer: &mut [u8],
        length: usize,
        telemetry: &[u8],
    ) -> Result<usize, Refused> {
        let added = yurdelmiz::add(&elements(set), buffer, length, telemetry).map_err(refused)?;
        Ok(added.size)
    }

    fn tail(&self, tail: &[u8], length: u64) -> Result<Option<u32>, u32> {
        yurdelmiz::dark_test(tail, length).map_err(Refusal::number)
    }

    fn salvage(&self, bytes: &[u8], output: &mut [u8]) -> Result<(u32, u64), u32> {
        let Salvaged { labels, dropped } =
            yurdelmiz::salvage(bytes, output).map_err(Refusal::number)?;
        Ok((labels, dropped))
    }

    fn open(&self, set: Elements) -> Result<Day, u32> {
        let opened = yurdelmiz::Day::open(&elements(set)).map_err(Refusal::number)?;
        let mut day = Day { elements: set, closed: true, have: 1, held: [1; 15], counts: [1; 5] };
        put_back(&mut day, &opened);
        Ok(day)
    }

    fn packet(&self, state: &mut Day, packet: &[u8], output: &mut [u8]) -> Result<usize, Refused> {
        let mut left = day(state);
        let labels = left.packet(packet, output).map_err(refused);
        put_back(state, &left);
        labels
    }

    fn close(&self, state: &mut Day, output: &mut [u8]) -> Result<(), Refused> {
        let mut left = day(state);
        let closed = left.close(output).map(|_| ()).map_err(refused);
        put_back(state, &left);
        closed
    }

    /// By the call itself, which takes a length beyond the buffer too.
    fn scale(&self, figures: &mut Figures, buffer: &[u8], length: usize) -> Result<(), Refused> {
        let Figures { files, labels, dark, valid, least, greatest, sines, squares } = *figures;
        let [least, greatest] = [least, greatest].map(|bits| bits.map(f32::from_bits));
        let before =
            yurdelmiz::Figures { files, labels, dark, valid, least, greatest, sines, squares };
        let mut bytes = before.to_bytes();
        // SAFETY: the slices are `bytes` and `buffer`.
        let result = unsafe {
            ffi::yurdelmiz_scale(
                bytes.as_mut_ptr(),
                bytes.len(),
                buffer.as_ptr(),
                buffer.len(),
                length,
            )
        };
        let left = yurdelmiz::Figures::from_bytes(&bytes);
        let yurdelmiz::Figures { files, labels, dark, valid, least, greatest, sines, squares } =
            left;
        let [least, greatest] = [least, greatest].map(|watts| watts.map(f32::to_bits));
        *figures = Figures { files, labels, dark, valid, least, greatest, sines, squares };
        let told = match (result as u32, (result >> 32) as u32) {
            (0, 0) => Ok(()),
            told => Err(told),
        };
        if length == buffer.len() {
            let mut added = before;
            assert_eq!(added.add(buffer).map_err(refused), told);
            assert_eq!(added.to_bytes(), bytes);
        }
        told
    }

    fn two_line(
        &self,
        lines: [&[u8]; 2],
        semi_major_axis: u32,
        node_rate: i32,
        perigee_rate: i32,
    ) -> Result<Elements, Refused> {
        let set = yurdelmiz::parse_two_line(lines, semi_major_axis, node_rate, perigee_rate);
        set.map(vectors_elements).map_err(refused)
    }

    fn find(&self, past: Table, forecast: Table, time: i64) -> Result<Row, u32> {
        yurdelmiz::find_set(past.buffer, past.size, forecast.buffer, forecast.size, time)
            .map(|FoundSet { table, number, .. }| match table {
                SetTable::Past => Row::Past(number),
                SetTable::Forecast => Row::Forecast(number),
            })
            .map_err(Refusal::number)
    }

    fn put(&self, set: Elements, buffer: &mut [u8], size: usize) -> Result<usize, u32> {
        yurdelmiz::put_set(&elements(set), buffer, size).map_err(Refusal::number)
    }
}

#[test]
fn every_vector_matches() {
    vectors::run(&Library);
}
