//! A day that takes its telemetry in packets.

use crate::bytes::array_at;
use crate::elements::Elements;
use crate::ffi;
use crate::label::Label;
use crate::label_file::LabelFile;
use crate::refusal::{self, Refusal, Refused};
use crate::telemetry::Sample;
use crate::trailer::{Counts, Form};

/// Where the state has the counts, whether it is closed, and how many bytes of a record it holds.
const COUNTS: usize = 52;
const CLOSED: usize = 72;
const HELD: usize = 73;

/// A day whose telemetry comes in packets, cut anywhere, within records too: the unfinished record and the
/// counts of the labels so far.
///
/// The labels of each packet one after another, and the trailer of closing behind them, are the file that
/// [`label_day`] writes for the packets' bytes joined, whichever way they were cut. After a refusal the day is as
/// it was, and can go on.
///
/// [`label_day`]: crate::label_day
#[derive(Clone, Debug, PartialEq, Eq)]
pub struct Day {
    bytes: [u8; ffi::DAY_BYTES],
}

impl Day {
    /// The bytes of the state.
    pub const SIZE: usize = ffi::DAY_BYTES;

    /// A day without labels; the refusals of the elements.
    pub fn open(elements: &Elements) -> Result<Day, Refusal> {
        let elements = elements.to_bytes();
        let mut bytes = [0; Day::SIZE];
        // SAFETY: the slices are `elements` and `bytes`.
        let status = unsafe {
            ffi::yurdelmiz_open(elements.as_ptr(), elements.len(), bytes.as_mut_ptr(), bytes.len())
        };
        refusal::check(status)?;
        Ok(Day { bytes })
    }

    /// Takes a packet, any bytes: writes the labels of the records that it completes from the start of `output`,
    /// and gives their number. What is left of it is held for the next. Refusals 24, 10 and 11, then 8 for each
    /// record that it completes, at its place in the whole day.
    ///
    /// On a refusal the day and `output` are unchanged; behind the labels `output` always is.
    pub fn packet(&mut self, packet: &[u8], output: &mut [u8]) -> Result<usize, Refused> {
        let before = self.counts().labels;
        // SAFETY: the slices are those of the day, `packet` and `output`, which are borrowed each alone.
        let result = unsafe {
            ffi::yurdelmiz_packet(
                self.bytes.as_mut_ptr(),
                self.bytes.len(),
                packet.as_ptr(),
                packet.len(),
                output.as_mut_ptr(),
                output.len(),
            )
        };
        refusal::check_with_place(result)?;
        Ok((self.counts().labels - before) as usize)
    }

    /// Takes a packet, and gives the labels of the records that it completes.
    pub fn packet_to_vec(&mut self, packet: &[u8]) -> Result<Vec<u8>, Refused> {
        let completed = (usize::from(self.held()) + packet.len()) / Sample::SIZE;
        // With more records than a day has, 10 comes before 11.
        let mut output = vec![0; completed.min(LabelFile::MOST_LABELS) * Label::SIZE];
        self.packet(packet, &mut output)?;
        Ok(output)
    }

    /// Closes the day: writes the trailer of its labels, of 24 bytes, at the start of `output`, and gives their
    /// counts. It takes no packet from then on. Refusals 24, 10 where a part of a record is held, and 11.
    ///
    /// On a refusal the day and `output` are unchanged; behind the trailer `output` always is.
    pub fn close(&mut self, output: &mut [u8]) -> Result<Counts, Refused> {
        // SAFETY: the slices are those of the day and `output`, which are borrowed each alone.
        let result = unsafe {
            ffi::yurdelmiz_close(
                self.bytes.as_mut_ptr(),
                self.bytes.len(),
                output.as_mut_ptr(),
                output.len(),
            )
        };
        refusal::check_with_place(result)?;
        Ok(self.counts())
    }

    /// Closes the day, and gives the trailer.
    pub fn close_to_vec(&mut self) -> Result<Vec<u8>, Refused> {
        let mut output = vec![0; Form::WRITTEN.size()];
        self.close(&mut output)?;
        Ok(output)
    }

    /// The elements that it was opened with.
    pub fn elements(&self) -> Elements {
        Elements::from_bytes(&array_at(&self.bytes, 0))
    }

    /// The counts of the labels written so far.
    pub fn counts(&self) -> Counts {
        Counts::at(&self.bytes, COUNTS)
    }

    /// How many bytes of an unfinished record it holds, 15 at most in a day that 24 does not refuse.
    pub fn held(&self) -> u8 {
        self.bytes[HELD]
    }

    /// Whether it was closed.
    pub fn is_closed(&self) -> bool {
        self.bytes[CLOSED] == 1
    }

    /// The state, which can be kept elsewhere between packets.
    pub fn to_bytes(&self) -> [u8; Day::SIZE] {
        self.bytes
    }

    /// The day of its state. Any bytes can stand there: what is no state of a day is refused with 24 when it
    /// takes a packet or is closed.
    pub fn from_bytes(bytes: &[u8; Day::SIZE]) -> Day {
        Day { bytes: *bytes }
    }
}
