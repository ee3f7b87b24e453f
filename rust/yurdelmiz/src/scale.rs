//! Scale figures: what a model's inputs are scaled by.

use crate::bytes::{f32_at, i64_at, u32_at, u64_at};
use crate::ffi;
use crate::refusal::{self, Refused};

/// Where the buffer has the least and the greatest watts, each behind a number that says whether it is held.
const LEAST: usize = 16;
const GREATEST: usize = 24;

/// Scale figures, from the training labels of label files alone, one file after another. The default is the figures
/// of nothing, the start.
///
/// Up to 1,000 files, their order does not matter, but for the sign of a zero among the extremes; by `==` the two
/// zeros are equal.
///
/// ```
/// use yurdelmiz::{label_to_vec, Elements, Figures, Refusal, Sample};
/// # let elements = Elements {
/// #     eccentricity: 6_100_000,
/// #     semi_major_axis: 26_100_000,
/// #     inclination: 305_419_896,
/// #     node: 1_445_972_322,
/// #     argument_of_perigee: 478_411_634,
/// #     mean_anomaly: 1_542_609_087,
/// #     mean_motion: 205_890_000,
/// #     node_rate: -1_724,
/// #     perigee_rate: 2_834,
/// #     epoch_revolution: 1_627,
/// #     epoch: -138_406_500,
/// #     half_mean_motion_derivative: 0,
/// # };
/// let sample = Sample { time: elements.epoch, volts: 14.0, amperes: 0.5 };
/// let later = Sample { time: elements.epoch + 86_400, amperes: -0.5, ..sample };
///
/// let mut figures = Figures::default();
/// for sample in [sample, later] {
///     figures.add(&label_to_vec(&elements, &sample.to_bytes())?)?;
/// }
/// assert_eq!((figures.files, figures.labels, figures.valid), (2, 2, 2));
/// assert_eq!((figures.least, figures.greatest), (Some(-7.0), Some(7.0)));
///
/// // A refused file adds nothing.
/// let before = figures;
/// assert_eq!(figures.add(b"no label file").unwrap_err().refusal, Refusal::Trailer);
/// assert_eq!(figures, before);
/// # Ok::<(), Box<dyn std::error::Error>>(())
/// ```
#[derive(Clone, Copy, Debug, Default, PartialEq)]
pub struct Figures {
    /// Files.
    pub files: u32,
    /// Training labels; all that follows is over these.
    pub labels: u32,
    /// Dark labels, those in the umbra.
    pub dark: u32,
    /// Valid readings.
    pub valid: u32,
    /// The least watts; none where no reading is valid. Of equal watts the earlier stands.
    pub least: Option<f32>,
    /// The greatest watts.
    pub greatest: Option<f32>,
    /// The exact total of the sines of the Sun's elevation, in units of 2^-30.
    pub sines: i64,
    /// The total of the squares of those sines, each first divided by 32,768 and cut: in units of 2^-30.
    pub squares: u64,
}

impl Figures {
    /// The bytes of the figures in the C interface.
    pub const SIZE: usize = ffi::FIGURES_BYTES;

    /// The most files.
    pub const MOST_FILES: u32 = 1_000;

    /// Adds a whole label file; refusals 12 and 13 as [`read`](crate::read) gives them, then 15 where there are
    /// 1,000 files already, or where the figures are beyond a bound of theirs: over 1,024 labels a file, dark labels or
    /// valid readings over the labels, an extreme that is held where no reading is valid, missing where one is, or
    /// not finite, or a total over 2^30 a label in size.
    ///
    /// On a refusal the figures are unchanged.
    pub fn add(&mut self, file: &[u8]) -> Result<(), Refused> {
        let mut bytes = self.to_bytes();
        // SAFETY: the slices are `bytes`, which is borrowed alone, and `file`.
        let result = unsafe {
            ffi::yurdelmiz_scale(
                bytes.as_mut_ptr(),
                bytes.len(),
                file.as_ptr(),
                file.len(),
                file.len(),
            )
        };
        refusal::check_with_place(result)?;
        *self = Figures::from_bytes(&bytes);
        Ok(())
    }

    /// The bytes of the figures, which can be kept elsewhere between files.
    pub fn to_bytes(&self) -> [u8; Figures::SIZE] {
        let Figures { files, labels, dark, valid, least, greatest, sines, squares } = *self;
        let mut bytes = [0; Figures::SIZE];
        for (at, count) in [files, labels, dark, valid].into_iter().enumerate() {
            bytes[4 * at..4 * at + 4].copy_from_slice(&count.to_le_bytes());
        }
        for (at, extreme) in [(LEAST, least), (GREATEST, greatest)] {
            if let Some(watts) = extreme {
                bytes[at..at + 4].copy_from_slice(&1_u32.to_le_bytes());
                bytes[at + 4..at + 8].copy_from_slice(&watts.to_le_bytes());
            }
        }
        bytes[32..40].copy_from_slice(&sines.to_le_bytes());
        bytes[40..48].copy_from_slice(&squares.to_le_bytes());
        bytes
    }

    /// The figures of their bytes. Any bytes can stand there: what is beyond a bound is refused with 15 when a file
    /// is added.
    pub fn from_bytes(bytes: &[u8; Figures::SIZE]) -> Figures {
        let extreme = |at: usize| (u32_at(bytes, at) != 0).then(|| f32_at(bytes, at + 4));
        Figures {
            files: u32_at(bytes, 0),
            labels: u32_at(bytes, 4),
            dark: u32_at(bytes, 8),
            valid: u32_at(bytes, 12),
            least: extreme(LEAST),
            greatest: extreme(GREATEST),
            sines: i64_at(bytes, 32),
            squares: u64_at(bytes, 40),
        }
    }
}
