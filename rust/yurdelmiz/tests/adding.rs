//! Adding telemetry to a label file: the file of labelling at once, the bytes around it, and the refusals in
//! their order.

mod common;

use common::{day, telemetry, with_16_bytes, OSCAR_10};
use yurdelmiz::{
    add, add_to_vec, ffi, label_to_vec, read, Added, Elements, Form, Label, Refusal, Refused,
    Sample,
};

#[test]
fn parts_make_the_day() {
    let day = day();
    let whole = label_to_vec(&OSCAR_10, &day).unwrap();
    let (counts, form) = read(&whole, whole.len()).unwrap();
    assert_eq!(form, Form::Bytes24);
    assert!(0 < counts.dark_test && counts.dark_test < counts.dark.min(counts.test), "{counts:?}");
    for cut in (0..=300).step_by(20) {
        let (before, after) = day.split_at(cut * Sample::SIZE);
        let first = label_to_vec(&OSCAR_10, before).unwrap();
        for file in [with_16_bytes(&first), first] {
            let mut grown = file.clone();
            assert_eq!(add_to_vec(&OSCAR_10, &mut grown, after), Ok(counts));
            assert_eq!(grown, whole, "cut at {cut}");
            // The same with bytes ahead and behind, which stay.
            let ahead = vec![0xbb; cut];
            let mut buffer = [ahead.clone(), file, vec![0xcc; whole.len()]].concat();
            let size = buffer.len() - whole.len();
            let added = add(&OSCAR_10, &mut buffer, size, after).unwrap();
            assert_eq!(added, Added { counts, size: ahead.len() + whole.len() });
            assert_eq!(buffer[..added.size], [ahead, whole.clone()].concat());
            assert!(buffer[added.size..].iter().all(|byte| *byte == 0xcc));
        }
    }
}

#[test]
fn nothing_added_brings_the_trailer_of_24_bytes() {
    let whole = label_to_vec(&OSCAR_10, &day()).unwrap();
    let mut file = with_16_bytes(&whole);
    add_to_vec(&OSCAR_10, &mut file, &[]).unwrap();
    assert_eq!(file, whole);
}

/// Everything wrong at once, and mended one by one; no refusal changes a byte.
#[test]
fn order_of_the_refusals() {
    let mut elements = Elements { eccentricity: 9_000_001, ..OSCAR_10 };
    let sound = label_to_vec(&OSCAR_10, &telemetry(&[0, 60])).unwrap();
    let mut file = sound.clone();
    file[Label::SIZE + 15] = 1;
    file[2 * Label::SIZE] = 3;
    let mut after = telemetry(&[120, 31_622_401]);
    after.push(0);
    let told = |elements: &Elements, file: &[u8], size: usize, after: &[u8]| {
        let mut lent = file.to_vec();
        let refused = add(elements, &mut lent, size, after).unwrap_err();
        assert_eq!(lent, file, "a refusal wrote");
        (refused.refusal, refused.place)
    };
    let size = file.len();
    assert_eq!(told(&elements, &file, size, &after), (Refusal::Eccentricity, 0));
    elements = OSCAR_10;
    assert_eq!(told(&elements, &file, size, &after), (Refusal::Trailer, 0));
    file[2 * Label::SIZE] = 2;
    assert_eq!(told(&elements, &file, size + 1, &after), (Refusal::Trailer, 0));
    assert_eq!(told(&elements, &file, size, &after), (Refusal::Labels, 1));
    file[Label::SIZE + 15] = 0;
    file[2 * Label::SIZE + 12] -= 1;
    assert_eq!(told(&elements, &file, size, &after), (Refusal::Labels, 2));
    assert_eq!(told(&elements, &sound, size, &after), (Refusal::TelemetryLength, 0));
    after.pop();
    assert_eq!(told(&elements, &sound, size, &after), (Refusal::OutputLength, 0));
    let mut roomy = sound.clone();
    roomy.resize(size + 2 * Label::SIZE - 1, 0);
    assert_eq!(told(&elements, &roomy, size, &after), (Refusal::OutputLength, 0));
    roomy.push(0);
    assert_eq!(told(&elements, &roomy, size, &after), (Refusal::Time, 3));
    assert!(add(&elements, &mut roomy, size, &telemetry(&[120, 180])).is_ok());
}

/// Room for the labels of both parts from the first label on, whatever stands ahead of it.
#[test]
fn room_for_both_parts() {
    let first = label_to_vec(&OSCAR_10, &telemetry(&[0, 60])).unwrap();
    let whole = label_to_vec(&OSCAR_10, &telemetry(&[0, 60, 120])).unwrap();
    for file in [with_16_bytes(&first), first] {
        for ahead in [0, 1, 24, 500] {
            let mut buffer = [vec![0xbb; ahead], file.clone()].concat();
            let size = buffer.len();
            buffer.resize(ahead + whole.len() - 1, 0);
            let refused = add(&OSCAR_10, &mut buffer, size, &telemetry(&[120]));
            assert_eq!(refused, Err(Refused { refusal: Refusal::OutputLength, place: 0 }));
            buffer.push(0);
            let added = add(&OSCAR_10, &mut buffer, size, &telemetry(&[120])).unwrap();
            assert_eq!(added.size, buffer.len());
            assert_eq!(buffer[ahead..], whole);
        }
    }
}

/// 1,024 labels of both parts together are the most.
#[test]
fn records_of_both_parts() {
    let seconds: Vec<i64> = (0..1_025).collect();
    for before in [0, 1, 1_023, 1_024] {
        let file = label_to_vec(&OSCAR_10, &telemetry(&seconds[..before])).unwrap();
        let mut grown = file.clone();
        let refused = add_to_vec(&OSCAR_10, &mut grown, &telemetry(&seconds[before..]));
        assert_eq!(refused, Err(Refused { refusal: Refusal::TelemetryLength, place: 0 }));
        assert_eq!(grown, file);
        let rest = telemetry(&seconds[before..1_024]);
        assert_eq!(add_to_vec(&OSCAR_10, &mut grown, &rest).unwrap().labels, 1_024);
    }
}

/// A wrong length of the elements or of the answer is told before all else, and changes nothing.
#[test]
fn wrong_lengths() {
    let sound = label_to_vec(&OSCAR_10, &telemetry(&[0])).unwrap();
    let elements = OSCAR_10.to_bytes();
    let (right, answer_right) = (ffi::ELEMENTS_BYTES, ffi::ADD_BYTES);
    for (elements_len, answer_len) in
        [(right - 1, answer_right), (0, answer_right), (right, answer_right - 1), (right, 0)]
    {
        let mut buffer = sound.clone();
        let mut answer = [7; ffi::ADD_BYTES];
        // SAFETY: each slice is one from above, or the start of one.
        let result = unsafe {
            ffi::yurdelmiz_add(
                elements.as_ptr(),
                elements_len,
                buffer.as_mut_ptr(),
                buffer.len(),
                usize::MAX,
                [].as_ptr(),
                0,
                answer.as_mut_ptr(),
                answer_len,
            )
        };
        assert_eq!(result, u64::from(ffi::BAD_BUFFER));
        assert_eq!((buffer, answer), (sound.clone(), [7; ffi::ADD_BYTES]));
    }
}
