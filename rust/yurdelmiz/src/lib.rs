//! The proved labeller of satellite telemetry, as safe Rust.
//!
//! Every function takes anything its types allow. What document 01 refuses comes back as a
//! [`Refusal`], and then no lent byte is changed. Units are document 01's: an angle counts 2^-32 of
//! a turn, sines and direction components 2^-30, times are seconds from 1990 Jan 0.0.
//!
//! ```
//! use yurdelmiz::{add_to_vec, dark_test, label_to_vec, salvage_to_vec};
//! use yurdelmiz::{find_set, parse_elements, parse_two_line, put_set_in_vec};
//! use yurdelmiz::{Day, Elements, Figures, LabelFile, Reading, Salvaged, Sample, Shade, Side};
//!
//! let elements = parse_elements(
//!     b"eccentricity 6100000
//! semi_major_axis 26100000
//! inclination 305419896
//! node 1445972322
//! argument_of_perigee 478411634
//! mean_anomaly 1542609087
//! mean_motion 205890000
//! node_rate -1724
//! perigee_rate 2834
//! epoch_revolution 1627
//! epoch -138406500
//! half_mean_motion_derivative 0
//! ",
//! )?;
//!
//! // The same satellite in two lines, with the axis and the drift rates beside them. Their epoch is 0.000288 s past
//! // a full second; moved back to it, the mean anomaly goes back by 29 units.
//! let lines = [
//!     &b"1 14129U 83058B   85224.07291667  .00000000  00000-0  00000-0 0    14"[..],
//!     &b"2 14129  25.6000 121.2000 6100000  40.1000 129.3000  2.05890000 16275"[..],
//! ];
//! let moved = Elements { mean_anomaly: elements.mean_anomaly - 29, ..elements };
//! assert_eq!(parse_two_line(lines, 26_100_000, -1_724, 2_834)?, moved);
//!
//! let sample = Sample { time: elements.epoch + 86_400, volts: 14.0, amperes: 0.5 };
//! let mut bytes = label_to_vec(&elements, &sample.to_bytes())?;
//!
//! let file = LabelFile::read(&bytes)?;
//! let label = file.labels().next().expect("a label for the record");
//! assert_eq!((label.revolution, label.side), (1629, Side::Training));
//! assert_eq!((label.shade, label.reading), (Shade::Dark, Reading::Valid(7.0)));
//!
//! let later = Sample { time: sample.time + 60, ..sample };
//! let counts = add_to_vec(&elements, &mut bytes, &later.to_bytes())?;
//! assert_eq!((counts.labels, counts.dark), (2, 2));
//! assert_eq!(bytes, label_to_vec(&elements, &[sample.to_bytes(), later.to_bytes()].concat())?);
//!
//! let tail = &bytes[bytes.len() - LabelFile::TAIL..];
//! assert_eq!(dark_test(tail, bytes.len() as u64)?, Some(counts.dark_test));
//!
//! // Cut within the second label: the first is kept.
//! let (saved, salvaged) = salvage_to_vec(&bytes[..40]);
//! assert_eq!(salvaged, Salvaged { labels: 1, dropped: 16 });
//! assert_eq!(saved, label_to_vec(&elements, &sample.to_bytes())?);
//!
//! // The day in packets, which split its second record.
//! let telemetry = [sample.to_bytes(), later.to_bytes()].concat();
//! let mut day = Day::open(&elements)?;
//! let mut file = day.packet_to_vec(&telemetry[..20])?;
//! file.extend(day.packet_to_vec(&telemetry[20..])?);
//! file.extend(day.close_to_vec()?);
//! assert_eq!(file, bytes);
//!
//! // Sets before and after a manoeuvre in a table, and a record labelled with the set of its hour.
//! let after = Elements { epoch: elements.epoch + 172_800, mean_motion: 205_900_000, ..elements };
//! let mut past = Vec::new();
//! put_set_in_vec(&after, &mut past)?;
//! put_set_in_vec(&elements, &mut past)?;
//! let set = find_set(&past, past.len(), &[], 0, sample.time)?;
//! assert_eq!((set.number, set.elements()), (0, elements));
//! assert_eq!(label_to_vec(&set.elements(), &sample.to_bytes())?, saved);
//!
//! // What a model's inputs are scaled by, from training labels alone.
//! let mut figures = Figures::default();
//! figures.add(&bytes)?;
//! assert_eq!((figures.files, figures.labels, figures.greatest), (1, 2, Some(7.0)));
//! # Ok::<(), Box<dyn std::error::Error>>(())
//! ```

#![deny(missing_docs)]

mod bytes;
mod day;
mod eclipse;
mod element_sets;
mod elements;
mod elements_file;
pub mod ffi;
mod kepler;
mod label;
mod label_file;
mod labelling;
mod orbit;
mod refusal;
mod salvage;
mod scale;
mod sun;
mod tail;
mod telemetry;
mod trailer;
mod trig;
mod two_line;
mod unknown_byte;

pub use day::Day;
pub use eclipse::{shade, Shade};
pub use element_sets::{find_set, put_set, put_set_in_vec, FoundSet, SetTable};
pub use elements::Elements;
pub use elements_file::{parse_elements, Element, Fault, Malformed};
pub use kepler::{kepler, EccentricAnomaly};
pub use label::{Label, Side};
pub use label_file::{read, LabelFile};
pub use labelling::{add, add_to_vec, label_day, label_to_vec, Added};
pub use orbit::{position, Position, State};
pub use refusal::{Refusal, Refused};
pub use salvage::{salvage, salvage_to_vec, Salvaged};
pub use scale::Figures;
pub use sun::{sun, Direction, Sun};
pub use tail::dark_test;
pub use telemetry::{Reading, Sample};
pub use trailer::{Counts, Form};
pub use trig::{cosine, sine};
pub use two_line::{parse_two_line, TwoLineField};
pub use unknown_byte::UnknownByte;
