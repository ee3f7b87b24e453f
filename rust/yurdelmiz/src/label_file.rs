//! Label files.

use crate::bytes::u32_at;
use crate::ffi;
use crate::label::Label;
use crate::refusal::{self, Refused};
use crate::trailer::{Counts, Form};

/// Reads the label file in the first `size` bytes of `buffer`; refusals 12 and 13.
///
/// The counts are those of the labels. The first label is at `size - form.distance(labels)`.
pub fn read(buffer: &[u8], size: usize) -> Result<(Counts, Form), Refused> {
    let mut answer = [0; ffi::READ_BYTES];
    // SAFETY: the slices are `buffer` and `answer`.
    let result = unsafe {
        ffi::yurdelmiz_read(buffer.as_ptr(), buffer.len(), size, answer.as_mut_ptr(), answer.len())
    };
    refusal::check_with_place(result)?;
    Ok((Counts::at(&answer, 0), Form::of_size(u32_at(&answer, 20))))
}

/// A label file that the proved reader accepted.
#[derive(Clone, Copy, Debug)]
pub struct LabelFile<'a> {
    counts: Counts,
    form: Form,
    labels: &'a [u8],
}

impl<'a> LabelFile<'a> {
    /// The most labels that a file has.
    pub const MOST_LABELS: usize = 1_024;

    /// The bytes that the longest file has from its first label on: 1,024 labels and a trailer of 24 bytes.
    /// A reader of a longer file needs no more than that much of its end.
    pub const LONGEST: usize = Form::Bytes24.distance(LabelFile::MOST_LABELS);

    /// How many of a file's last bytes [`dark_test`](crate::dark_test) takes; of a shorter file it takes all.
    pub const TAIL: usize = ffi::TAIL_BYTES;

    /// Reads a whole file; refusals 12 and 13. It may have any bytes ahead of its first label.
    pub fn read(file: &'a [u8]) -> Result<LabelFile<'a>, Refused> {
        let (counts, form) = read(file, file.len())?;
        let first = file.len() - form.distance(counts.labels as usize);
        let labels = &file[first..file.len() - form.size()];
        Ok(LabelFile { counts, form, labels })
    }

    /// The counts of the labels, all of them with either trailer.
    pub fn counts(&self) -> Counts {
        self.counts
    }

    /// The trailer that the file has.
    pub fn form(&self) -> Form {
        self.form
    }

    /// The labels, in the order of the file.
    pub fn labels(&self) -> impl DoubleEndedIterator<Item = Label> + ExactSizeIterator + 'a {
        self.labels.chunks_exact(Label::SIZE).map(Label::from_accepted)
    }
}

#[cfg(test)]
mod tests {
    use super::*;
    use crate::{Reading, Refusal, Shade, Side};

    /// The file of document 01's listing, which has the trailer of 16 bytes.
    const FILE_16: [u8; 40] = [
        0x80, 0x51, 0x01, 0, 0, 0, 0, 0, 0x11, 0, 0, 0, 1, 1, 1, 0, 0xff, 0xff, 0xff, 0xff, 0, 0,
        0x20, 0x41, 1, 0, 0, 0, 1, 0, 0, 0, 0, 0, 0, 0, 0x28, 0, 0, 0,
    ];

    /// The same label with the trailer of 24 bytes.
    const FILE_24: [u8; 48] = [
        0x80, 0x51, 0x01, 0, 0, 0, 0, 0, 0x11, 0, 0, 0, 1, 1, 1, 0, 0xff, 0xff, 0xff, 0xff, 0, 0,
        0x20, 0x41, 1, 0, 0, 0, 1, 0, 0, 0, 0, 0, 0, 0, 1, 0, 0, 0, 0, 0, 0, 0, 0x30, 0, 0, 0,
    ];

    /// Where the count of dark labels is in the trailer of 24 bytes behind one label.
    const DARK: usize = 36;

    fn files() -> [(Form, Vec<u8>); 2] {
        [(Form::Bytes16, FILE_16.to_vec()), (Form::Bytes24, FILE_24.to_vec())]
    }

    const LABEL: Label = Label {
        time: 86_400,
        revolution: 17,
        side: Side::Training,
        shade: Shade::Dark,
        reading: Reading::Valid(10.0),
        elevation: -1,
    };

    #[test]
    fn labels_are_those_of_the_file() {
        let counts = Counts { labels: 1, training: 1, test: 0, dark: 1, dark_test: 0 };
        for (form, file) in files() {
            for ahead in [0, 1, 8, 1_000] {
                let bytes = [vec![7; ahead], file.clone()].concat();
                assert_eq!(read(&bytes, bytes.len()), Ok((counts, form)));
                let file = LabelFile::read(&bytes).unwrap();
                assert_eq!((file.counts(), file.form()), (counts, form));
                assert_eq!(file.labels().collect::<Vec<_>>(), [LABEL]);
                assert_eq!(file.labels().len(), 1);
            }
        }
        assert_eq!(LABEL.to_bytes(), FILE_16[..24]);
    }

    #[test]
    fn the_longest_file() {
        assert_eq!(LabelFile::LONGEST, 24_600);
        assert_eq!(LabelFile::TAIL, 24);
        assert_eq!(Form::ALL.map(|form| form.distance(1)), [FILE_16.len(), FILE_24.len()]);
    }

    #[test]
    fn readings_without_watts() {
        for (byte, reading) in [(0, Reading::Missing), (2, Reading::Saturated)] {
            for (_, mut bytes) in files() {
                bytes[14] = byte;
                bytes[20..24].fill(0);
                let label = LabelFile::read(&bytes).unwrap().labels().next().unwrap();
                assert_eq!(label, Label { reading, ..LABEL });
                assert_eq!(label.to_bytes(), bytes[..24]);
            }
        }
    }

    /// Dark alone counts as dark: with the trailer of 24 bytes the count is stored, and is compared.
    #[test]
    fn shades_of_a_label() {
        for (byte, shade) in [(0, Shade::Lit), (1, Shade::Dark), (2, Shade::Part)] {
            let dark = u32::from(shade == Shade::Dark);
            for (form, mut bytes) in files() {
                bytes[13] = byte;
                if form == Form::Bytes24 {
                    bytes[DARK] = 1 - dark as u8;
                    let refused = Refused { refusal: Refusal::Labels, place: 1 };
                    assert_eq!(read(&bytes, bytes.len()), Err(refused));
                    bytes[DARK] = dark as u8;
                }
                let file = LabelFile::read(&bytes).unwrap();
                assert_eq!((file.counts().dark, file.form()), (dark, form));
                let label = file.labels().next().unwrap();
                assert_eq!(label, Label { shade, ..LABEL });
                assert_eq!(label.to_bytes(), bytes[..24]);
            }
        }
    }

    /// Every byte that a field does not know, and the watts of a reading that has none.
    #[test]
    fn no_unknown_byte_is_read() {
        for at in 12..=15 {
            for byte in 0..=255 {
                let mut bytes = FILE_16;
                bytes[at] = byte;
                let expected = byte == FILE_16[at] || (at == 13 && byte < 3);
                match LabelFile::read(&bytes) {
                    Ok(_) => assert!(expected, "byte {at} is {byte}"),
                    Err(refused) => {
                        assert!(!expected, "byte {at} is {byte}");
                        assert_eq!(refused, Refused { refusal: Refusal::Labels, place: 0 });
                    }
                }
            }
        }
    }
}
