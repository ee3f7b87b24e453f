//! Tables of element sets: the row found is the table's own bytes, a table that grows, what a refusal leaves, and the
//! bytes of the answers.

mod common;

use std::ptr;

use common::OSCAR_10;
use yurdelmiz::{
    ffi, find_set, label_to_vec, put_set, put_set_in_vec, Elements, FoundSet, Refusal, Sample,
    SetTable,
};

/// What a buffer holds behind its table, and an answer before a call.
const FILL: u8 = 7;

const ROW: usize = ffi::ELEMENTS_BYTES;

/// Oscar-10 with an epoch so many seconds after its own, and the seconds for the revolution too.
fn at(seconds: i64) -> Elements {
    let epoch_revolution = 1_000 + seconds as u32;
    Elements { epoch: OSCAR_10.epoch + seconds, epoch_revolution, ..OSCAR_10 }
}

fn table(seconds: &[i64]) -> Vec<u8> {
    seconds.iter().flat_map(|seconds| at(*seconds).to_bytes()).collect()
}

/// The set for a time so many seconds after Oscar-10's epoch, in tables that are all of their buffers.
fn found<'a>(past: &'a [u8], forecast: &'a [u8], seconds: i64) -> Result<FoundSet<'a>, Refusal> {
    find_set(past, past.len(), forecast, forecast.len(), OSCAR_10.epoch + seconds)
}

#[test]
fn the_row_itself() {
    let (past, forecast) = (table(&[10, 20, 30]), table(&[5, 25]));
    for (seconds, table, number, epoch) in [
        (9, SetTable::Forecast, 0, 5),
        (10, SetTable::Past, 0, 10),
        (19, SetTable::Past, 0, 10),
        (20, SetTable::Past, 1, 20),
        (29, SetTable::Past, 1, 20),
        (30, SetTable::Past, 2, 30),
        (31, SetTable::Past, 2, 30),
    ] {
        let set = found(&past, &forecast, seconds).unwrap();
        assert_eq!((set.table, set.number), (table, number), "after {seconds} s");
        assert_eq!(set.elements(), at(epoch));
        let buffer = if table == SetTable::Past { &past } else { &forecast };
        assert!(ptr::eq(&set.row[..], &buffer[number * ROW..][..ROW]));
    }
}

/// A row of one buffer that is lent for both tables.
#[test]
fn the_same_bytes_for_both_tables() {
    let both = table(&[10, 20]);
    for (seconds, table, number) in
        [(9, SetTable::Forecast, 0), (10, SetTable::Past, 0), (20, SetTable::Past, 1)]
    {
        let set = found(&both, &both, seconds).unwrap();
        assert_eq!((set.table, set.number), (table, number));
        assert!(ptr::eq(&set.row[..], &both[number * ROW..][..ROW]));
    }
}

/// No refusal 8, and no other, for a time that labelling would not take.
#[test]
fn any_time() {
    let (past, forecast) = (table(&[10]), table(&[20]));
    let set = |time| find_set(&past, ROW, &forecast, ROW, time).map(|set| set.table);
    for time in [i64::MIN, -2_834_956_801] {
        assert_eq!(set(time), Ok(SetTable::Forecast));
        assert_eq!(find_set(&past, ROW, &[], 0, time), Err(Refusal::NoSet));
    }
    for time in [3_476_476_800, i64::MAX] {
        assert_eq!(set(time), Ok(SetTable::Past));
    }
}

/// The number of the refusal of each, in the order that several are told in.
#[test]
fn numbers_of_the_refusals() {
    let number = |outcome: Result<usize, Refusal>| outcome.map_err(Refusal::number);
    let (sound, out_of_order) = (table(&[10, 20]), table(&[20, 10]));
    let refused = Elements { epoch_revolution: 100_000, ..at(15) };
    assert_eq!(number(put_set(&refused, &mut out_of_order.clone(), 104)), Err(7));
    assert_eq!(number(put_set(&refused, &mut sound.clone(), usize::MAX)), Err(7));
    assert_eq!(number(put_set(&at(15), &mut out_of_order.clone(), 104)), Err(21));
    assert_eq!(number(put_set(&at(15), &mut sound.clone(), 103)), Err(21));
    assert_eq!(number(put_set(&at(15), &mut sound.clone(), 156)), Err(21));
    assert_eq!(number(put_set(&at(15), &mut sound.clone(), 104)), Err(22));
    assert_eq!(number(put_set(&at(20), &mut sound.clone(), 104)), Ok(104));
    let number = |outcome: Result<FoundSet, Refusal>| outcome.map_err(Refusal::number).err();
    assert_eq!(number(found(&sound, &out_of_order, 20)), Some(21));
    assert_eq!(number(found(&out_of_order, &[], 0)), Some(21));
    assert_eq!(number(find_set(&sound, 104, &sound, 105, 0)), Some(21));
    assert_eq!(number(found(&sound, &[], 9)), Some(23));
    assert_eq!(number(found(&[], &[], 9)), Some(23));
}

/// What lies behind the table is unchanged, and is no part of it.
#[test]
fn put_into_a_buffer() {
    let mut buffer = [&table(&[10, 30])[..], &[FILL; 60]].concat();
    assert_eq!(put_set(&at(20), &mut buffer, 104), Ok(156));
    assert_eq!(buffer, [&table(&[10, 20, 30])[..], &[FILL; 8]].concat());
    let other = Elements { node: 1, ..at(30) };
    assert_eq!(put_set(&other, &mut buffer, 156), Ok(156));
    assert_eq!(buffer, [&table(&[10, 20])[..], &other.to_bytes(), &[FILL; 8]].concat());
    let before = buffer.clone();
    assert_eq!(put_set(&at(5), &mut buffer, 156), Err(Refusal::Room));
    assert_eq!(buffer, before);
}

#[test]
fn a_table_that_grows() {
    let mut grown = Vec::new();
    for (seconds, rows) in [
        (30, &[30][..]),
        (10, &[10, 30]),
        (20, &[10, 20, 30]),
        (40, &[10, 20, 30, 40]),
        (20, &[10, 20, 30, 40]),
    ] {
        assert_eq!(put_set_in_vec(&at(seconds), &mut grown), Ok(()));
        assert_eq!(grown, table(rows));
    }
    let other = Elements { mean_anomaly: 5, ..at(10) };
    assert_eq!(put_set_in_vec(&other, &mut grown), Ok(()));
    assert_eq!(grown, [&other.to_bytes()[..], &table(&[20, 30, 40])].concat());
}

#[test]
fn a_refusal_leaves_the_table() {
    let refused = Elements { mean_motion: 0, ..at(15) };
    let ragged = table(&[10, 20])[..80].to_vec();
    for (set, before, refusal) in [
        (refused, table(&[10, 20]), Refusal::MeanMotion),
        (refused, vec![], Refusal::MeanMotion),
        (at(15), table(&[20, 10]), Refusal::Table),
        (at(15), table(&[10, 10]), Refusal::Table),
        (at(15), ragged, Refusal::Table),
    ] {
        let mut after = before.clone();
        assert_eq!(put_set_in_vec(&set, &mut after), Err(refusal));
        assert_eq!(after, before);
    }
}

/// An old record with the set of its hour.
#[test]
fn a_found_set_labels() {
    let manoeuvre = Elements { inclination: OSCAR_10.inclination + 40_000_000, ..at(86_400) };
    let mut past = Vec::new();
    for set in [manoeuvre, OSCAR_10] {
        put_set_in_vec(&set, &mut past).unwrap();
    }
    for (seconds, set, other) in [(86_399, OSCAR_10, manoeuvre), (86_400, manoeuvre, OSCAR_10)] {
        let row = found(&past, &[], seconds).unwrap();
        let record = Sample { time: OSCAR_10.epoch + seconds, volts: 14.0, amperes: 0.5 };
        let file = |set: &Elements| label_to_vec(set, &record.to_bytes()).unwrap();
        assert_eq!(file(&row.elements()), file(&set));
        assert_ne!(file(&set), file(&other));
    }
}

/// The call itself: its status, and the answer of so many bytes.
fn call_find(past: &[u8], forecast: &[u8], time: i64, answer_len: usize) -> (u32, [u8; 16]) {
    let mut answer = [FILL; 16];
    let (to, sizes) = (answer.as_mut_ptr(), (past.len(), forecast.len()));
    let (past, forecast) = (past.as_ptr(), forecast.as_ptr());
    // SAFETY: the slices are `past`, `forecast` and the start of `answer`.
    let status = unsafe {
        ffi::yurdelmiz_find_set(
            past, sizes.0, sizes.0, forecast, sizes.1, sizes.1, time, to, answer_len,
        )
    };
    (status, answer)
}

/// Twelve bytes are written, or none.
#[test]
fn bytes_of_the_answer_to_finding() {
    let rows: Vec<i64> = (0..300).collect();
    let (past, forecast) = (table(&rows), table(&[5]));
    let time = OSCAR_10.epoch + 299;
    // 299 rows are 15,548 bytes.
    let last = [0xbc, 0x3c, 0, 0, 0, 0, 0, 0, 0, 0, 0, 0, FILL, FILL, FILL, FILL];
    assert_eq!(call_find(&past, &forecast, time, ffi::FIND_SET_BYTES), (0, last));
    let first = [0, 0, 0, 0, 0, 0, 0, 0, 1, 0, 0, 0, FILL, FILL, FILL, FILL];
    let early = OSCAR_10.epoch - 1;
    assert_eq!(call_find(&past, &forecast, early, ffi::FIND_SET_BYTES), (0, first));
    for (past, forecast, status) in [(&past[..], &[][..], 23), (&past, &forecast[1..], 21)] {
        let told = call_find(past, forecast, early, ffi::FIND_SET_BYTES);
        assert_eq!(told, (status, [FILL; 16]));
    }
    // A wrong length of the answer is told before all else.
    for answer_len in [0, 8, 11, 13, 16] {
        for past in [&past[..], &past[1..], &[]] {
            let told = call_find(past, &forecast, time, answer_len);
            assert_eq!(told, (ffi::BAD_BUFFER, [FILL; 16]));
        }
    }
}

/// The call itself: its status, the buffer, and the answer of so many bytes.
fn call_put(set: &[u8], buffer: &[u8], size: usize, answer_len: usize) -> (u32, Vec<u8>, [u8; 12]) {
    let (mut buffer, mut answer) = (buffer.to_vec(), [FILL; 12]);
    let (to, length, said) = (buffer.as_mut_ptr(), buffer.len(), answer.as_mut_ptr());
    // SAFETY: the slices are `set`, `buffer` and the start of `answer`.
    let status = unsafe {
        ffi::yurdelmiz_put_set(set.as_ptr(), set.len(), to, length, size, said, answer_len)
    };
    (status, buffer, answer)
}

/// Eight bytes are written, or none.
#[test]
fn bytes_of_the_answer_to_putting() {
    let rows: Vec<i64> = (0..300).filter(|row| *row != 150).collect();
    let before = [&table(&rows)[..], &[FILL; ROW]].concat();
    let size = before.len() - ROW;
    let set = at(150).to_bytes();
    let all: Vec<i64> = (0..300).collect();
    // 300 rows are 15,600 bytes.
    let answer = [0xf0, 0x3c, 0, 0, 0, 0, 0, 0, FILL, FILL, FILL, FILL];
    let told = call_put(&set, &before, size, ffi::PUT_SET_BYTES);
    assert_eq!((told.0, told.2), (0, answer));
    assert!(told.1 == table(&all));
    // A wrong length of the set or the answer is told before all else.
    let refused = [0xff; ROW + 1];
    for (set, answer_len) in [
        (&set[..], 0),
        (&set, 7),
        (&set, 9),
        (&set, 12),
        (&set[..51], ffi::PUT_SET_BYTES),
        (&[], ffi::PUT_SET_BYTES),
        (&refused, ffi::PUT_SET_BYTES),
        (&refused[..ROW], 9),
    ] {
        for size in [size, size + 1, usize::MAX] {
            let (status, buffer, answer) = call_put(set, &before, size, answer_len);
            assert_eq!((status, answer), (ffi::BAD_BUFFER, [FILL; 12]));
            assert!(buffer == before);
        }
    }
}
