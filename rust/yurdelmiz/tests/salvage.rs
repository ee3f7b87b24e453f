//! Salvage: what is kept of cut and damaged files, the file that is written, the room, and the bytes of the
//! answer.

mod common;

use common::{day, telemetry, with_16_bytes, OSCAR_10};
use yurdelmiz::{
    ffi, label_to_vec, read, salvage, salvage_to_vec, Form, Label, LabelFile, Refusal, Refused,
    Salvaged,
};

/// What an output holds before a call.
const FILL: u8 = 7;

/// A label file of so many labels of the day, with each trailer.
fn sound(labels: usize) -> [Vec<u8>; 2] {
    let file = label_to_vec(&OSCAR_10, &day()[..16 * labels]).unwrap();
    [with_16_bytes(&file), file]
}

/// Salvages, and sees that what is written is a whole file of the labels at the start of `bytes`, as many as the
/// answer says, and that nothing is written behind it.
#[track_caller]
fn salvaged(bytes: &[u8]) -> Salvaged {
    let (file, salvaged) = salvage_to_vec(bytes);
    let kept = salvaged.labels as usize * Label::SIZE;
    assert_eq!(kept as u64 + salvaged.dropped, bytes.len() as u64);
    assert!(file[..kept] == bytes[..kept]);
    let (counts, form) = read(&file, file.len()).expect("the reader takes what is written");
    assert_eq!((counts.labels, form), (salvaged.labels, Form::Bytes24));
    assert_eq!(file.len(), form.distance(counts.labels as usize));
    let mut output = vec![FILL; file.len() + 30];
    assert_eq!(salvage(bytes, &mut output), Ok(salvaged));
    assert!(output[..file.len()] == file);
    assert_eq!(output[file.len()..], [FILL; 30]);
    salvaged
}

/// Every whole label ahead of the cut.
#[test]
fn cut_at_every_byte() {
    for file in sound(12) {
        for cut in 0..=file.len() {
            let labels = (cut / Label::SIZE).min(12);
            let dropped = (cut - labels * Label::SIZE) as u64;
            let expected = Salvaged { labels: labels as u32, dropped };
            assert_eq!(salvaged(&file[..cut]), expected, "cut at {cut}");
        }
    }
}

/// Whether the reader finds no field rule broken in a file of this one label.
fn keeps_rules(label: &[u8]) -> bool {
    let trailer = [1, 0, 0, Form::Bytes16.distance(1) as u32].map(u32::to_le_bytes).concat();
    let file = [label, &trailer].concat();
    // With the counts wrong at most, the place is behind the label.
    read(&file, file.len()) != Err(Refused { refusal: Refusal::Labels, place: 0 })
}

/// The labels ahead of the byte stay. Its own is kept where the reader takes it too, with all behind it.
#[test]
fn damaged_at_every_byte() {
    for file in sound(12) {
        let (mut broken, mut whole) = (0, 0);
        for at in 0..file.len() {
            for change in [1, 2, 64, 128, 255] {
                let mut damaged = file.clone();
                damaged[at] ^= change;
                let number = at / Label::SIZE;
                let taken =
                    number >= 12 || keeps_rules(&damaged[number * Label::SIZE..][..Label::SIZE]);
                (broken, whole) = (broken + u32::from(!taken), whole + u32::from(taken));
                let labels = if taken { 12 } else { number };
                assert_eq!(salvaged(&damaged).labels as usize, labels, "byte {at}, by {change}");
            }
        }
        assert!(broken > 300 && whole > 300, "{broken} {whole}");
    }
}

/// A label that the reader refuses is where the labels end; what stands behind it is not looked at.
#[test]
fn the_reader_on_the_same_labels() {
    let sound = &sound(3)[1];
    for at in 0..Label::SIZE {
        for byte in 0..=255 {
            let mut damaged = sound.clone();
            damaged[Label::SIZE + at] = byte;
            let labels = match read(&damaged, damaged.len()) {
                Err(refused) if refused.place == 1 => 1,
                _ => 3,
            };
            assert_eq!(salvaged(&damaged).labels, labels, "byte {at} is {byte}");
        }
    }
}

/// A whole file keeps every label. With the trailer of 24 bytes it is written as it was.
#[test]
fn whole_files() {
    for labels in [0, 1, 300] {
        let [with_16, with_24] = sound(labels);
        let number = labels as u32;
        assert_eq!(salvaged(&with_16), Salvaged { labels: number, dropped: 16 });
        assert_eq!(salvaged(&with_24), Salvaged { labels: number, dropped: 24 });
        assert!(salvage_to_vec(&with_16).0 == with_24);
        assert!(salvage_to_vec(&with_24).0 == with_24);
        // Its own counts are not looked at.
        let mut other_counts = with_24.clone();
        let trailer = labels * Label::SIZE;
        other_counts[trailer..trailer + 20].fill(0xff);
        assert!(salvage_to_vec(&other_counts).0 == with_24);
    }
}

#[test]
fn the_most_labels() {
    let seconds: Vec<i64> = (0..1_024).collect();
    let mut labels = label_to_vec(&OSCAR_10, &telemetry(&seconds)).unwrap();
    let longest = labels.clone();
    labels.truncate(Salvaged::MOST_BYTES);
    labels.extend_from_within(..3 * Label::SIZE);
    for (number, kept) in [(1_023, 1_023), (1_024, 1_024), (1_025, 1_024), (1_026, 1_024)] {
        for half in [0, 1, 23] {
            let bytes = &labels[..number * Label::SIZE + half];
            let dropped = (bytes.len() - kept * Label::SIZE) as u64;
            assert_eq!(salvaged(bytes), Salvaged { labels: kept as u32, dropped });
        }
    }
    assert!(salvage_to_vec(&labels).0 == longest);
    assert_eq!(salvage_to_vec(&labels).0.len(), LabelFile::LONGEST);
}

#[test]
fn no_label() {
    assert_eq!(salvaged(&[]), Salvaged { labels: 0, dropped: 0 });
    for length in 1..Label::SIZE {
        assert_eq!(salvaged(&vec![0; length]), Salvaged { labels: 0, dropped: length as u64 });
    }
    assert_eq!(salvaged(&[0xff; 1_000]), Salvaged { labels: 0, dropped: 1_000 });
    // Bytes of others in front.
    let file = &sound(2)[1];
    assert_eq!(salvaged(&[&[0xbb; 5], &file[..]].concat()).labels, 0);
    // Zeros keep the field rules.
    assert_eq!(salvaged(&[0; 50]), Salvaged { labels: 2, dropped: 2 });
}

/// 24 bytes for each label kept, and 24: a byte less is refused, and leaves the output.
#[test]
fn the_room() {
    let file = &sound(5)[1];
    let mut broken = file.clone();
    broken[2 * Label::SIZE + 15] = 1;
    for (bytes, labels) in [(&file[..], 5), (&file[..119], 4), (&broken, 2), (&[0xff; 99], 0)] {
        let exact = Form::Bytes24.distance(labels);
        for room in 0..exact {
            let mut output = vec![FILL; room];
            assert_eq!(salvage(bytes, &mut output), Err(Refusal::OutputLength), "{room} bytes");
            assert_eq!(output, vec![FILL; room]);
        }
        let mut output = vec![FILL; exact];
        assert_eq!(salvage(bytes, &mut output).unwrap().labels as usize, labels);
        assert!(output == salvage_to_vec(bytes).0);
    }
}

/// The call itself: its status, the output of so many bytes, and the answer of so many.
fn call(bytes: &[u8], room: usize, answer_len: usize) -> (u32, Vec<u8>, [u8; 16]) {
    let mut output = vec![FILL; room];
    let mut answer = [FILL; 16];
    let (from, to, said) = (bytes.as_ptr(), output.as_mut_ptr(), answer.as_mut_ptr());
    // SAFETY: the slices are `bytes`, `output` and the start of `answer`.
    let status = unsafe { ffi::yurdelmiz_salvage(from, bytes.len(), to, room, said, answer_len) };
    (status, output, answer)
}

/// Twelve bytes are written, or none.
#[test]
fn bytes_of_the_answer() {
    let file = &sound(300)[1];
    let mut damaged = file.clone();
    damaged[258 * Label::SIZE + 15] = 1;
    let room = Form::Bytes24.distance(258);
    let (status, output, answer) = call(&damaged, room, ffi::SALVAGE_BYTES);
    // 258 labels, and 7,224 bytes less 6,192.
    let expected = [2, 1, 0, 0, 8, 4, 0, 0, 0, 0, 0, 0, FILL, FILL, FILL, FILL];
    assert_eq!((status, answer), (0, expected));
    assert!(output == salvage_to_vec(&damaged).0);
    let refused = (Refusal::OutputLength.number(), vec![FILL; room - 1], [FILL; 16]);
    assert_eq!(call(&damaged, room - 1, ffi::SALVAGE_BYTES), refused);
    assert_eq!(call(&[], 0, ffi::SALVAGE_BYTES), (refused.0, vec![], [FILL; 16]));
    // A wrong length of the answer is told before all else.
    for answer_len in [0, 4, 8, 11, 13, 16] {
        for (bytes, room) in [(&damaged[..], room), (file, 0), (&[], 24), (&[], 0)] {
            let told = call(bytes, room, answer_len);
            assert_eq!(told, (ffi::BAD_BUFFER, vec![FILL; room], [FILL; 16]));
        }
    }
}
