//! The C interface, as include/yurdelmiz.h describes it.

/// Status of a call whose `elements`, `day`, `figures` or `answer` has a wrong length.
pub const BAD_BUFFER: u32 = 255;

/// Status of [`yurdelmiz_elements`]: a line does not begin with the name that is due, and a space.
pub const MALFORMED_NAME: u32 = 101;
/// A further line after the last element.
pub const MALFORMED_EXTRA: u32 = 102;
/// A byte below 32 outside a comment.
pub const MALFORMED_CONTROL_BYTE: u32 = 103;
/// A decimal point in a number.
pub const MALFORMED_DECIMAL_POINT: u32 = 104;
/// No whole number, or something behind it.
pub const MALFORMED_NOT_WHOLE: u32 = 105;
/// A number too large for its element.
pub const MALFORMED_TOO_LARGE: u32 = 106;
/// The file ends within a line.
pub const MALFORMED_UNENDED: u32 = 107;
/// The file ends before its last element.
pub const MALFORMED_MISSING: u32 = 108;
/// The file has more than 65,535 bytes.
pub const MALFORMED_TOO_LONG: u32 = 109;

/// Length of `elements`.
pub const ELEMENTS_BYTES: usize = 52;
/// Length of `day`, the state of a day that takes packets.
pub const DAY_BYTES: usize = 89;
/// Length of `figures`, the scale figures of label files.
pub const FIGURES_BYTES: usize = 48;
/// Length of the answer of [`yurdelmiz_kepler`].
pub const KEPLER_BYTES: usize = 8;
/// Length of the answer of [`yurdelmiz_sun`].
pub const SUN_BYTES: usize = 28;
/// Length of the answer of [`yurdelmiz_position`].
pub const POSITION_BYTES: usize = 68;
/// Length of the answer of [`yurdelmiz_shade`].
pub const SHADE_BYTES: usize = 1;
/// Length of the answer of [`yurdelmiz_read`].
pub const READ_BYTES: usize = 24;
/// Length of the answer of [`yurdelmiz_add`].
pub const ADD_BYTES: usize = 28;
/// Length of the answer of [`yurdelmiz_dark_test`].
pub const DARK_TEST_BYTES: usize = 4;
/// Length of the answer of [`yurdelmiz_salvage`].
pub const SALVAGE_BYTES: usize = 12;
/// Length of the answer of [`yurdelmiz_find_set`].
pub const FIND_SET_BYTES: usize = 12;
/// Length of the answer of [`yurdelmiz_put_set`].
pub const PUT_SET_BYTES: usize = 8;

/// Stands in the answer of [`yurdelmiz_find_set`] for the table of past sets.
pub const PAST: u32 = 0;
/// Stands there for the table of forecast sets.
pub const FORECAST: u32 = 1;

/// Length of the `tail` of [`yurdelmiz_dark_test`], of a file that has as many bytes.
pub const TAIL_BYTES: usize = 24;

/// Stands in the answer of [`yurdelmiz_dark_test`] for a figure that the trailer, of 16 bytes, does not hold.
pub const NOT_HELD: u32 = u32::MAX;

extern "C" {
    /// The sine of an angle.
    pub fn yurdelmiz_sine(angle: u32) -> i64;

    /// The cosine of an angle.
    pub fn yurdelmiz_cosine(angle: u32) -> i64;

    /// Solves Kepler's equation.
    pub fn yurdelmiz_kepler(
        eccentricity: u32,
        mean_anomaly: u32,
        answer: *mut u8,
        answer_len: usize,
    ) -> u32;

    /// The Sun at a time.
    pub fn yurdelmiz_sun(time: i64, answer: *mut u8, answer_len: usize) -> u32;

    /// The satellite at a time.
    pub fn yurdelmiz_position(
        elements: *const u8,
        elements_len: usize,
        time: i64,
        answer: *mut u8,
        answer_len: usize,
    ) -> u32;

    /// The shade test.
    pub fn yurdelmiz_shade(
        x: i64,
        y: i64,
        z: i64,
        sun_x: i64,
        sun_y: i64,
        sun_z: i64,
        answer: *mut u8,
        answer_len: usize,
    ) -> u32;

    /// Reads an elements file.
    pub fn yurdelmiz_elements(
        text: *const u8,
        text_len: usize,
        answer: *mut u8,
        answer_len: usize,
    ) -> u64;

    /// Reads two-line elements.
    pub fn yurdelmiz_two_line(
        first: *const u8,
        first_len: usize,
        second: *const u8,
        second_len: usize,
        semi_major_axis: u32,
        node_rate: i32,
        perigee_rate: i32,
        answer: *mut u8,
        answer_len: usize,
    ) -> u64;

    /// Finds the set of elements for a time in two tables.
    pub fn yurdelmiz_find_set(
        past: *const u8,
        past_len: usize,
        past_size: usize,
        forecast: *const u8,
        forecast_len: usize,
        forecast_size: usize,
        time: i64,
        answer: *mut u8,
        answer_len: usize,
    ) -> u32;

    /// Puts a set of elements into the table in the first `size` bytes of `buffer`.
    pub fn yurdelmiz_put_set(
        elements: *const u8,
        elements_len: usize,
        buffer: *mut u8,
        buffer_len: usize,
        size: usize,
        answer: *mut u8,
        answer_len: usize,
    ) -> u32;

    /// Labels a day's telemetry.
    pub fn yurdelmiz_label(
        elements: *const u8,
        elements_len: usize,
        telemetry: *const u8,
        telemetry_len: usize,
        output: *mut u8,
        output_len: usize,
    ) -> u64;

    /// Reads the label file in the first `size` bytes of `file`.
    pub fn yurdelmiz_read(
        file: *const u8,
        file_len: usize,
        size: usize,
        answer: *mut u8,
        answer_len: usize,
    ) -> u64;

    /// Adds telemetry to the label file in the first `size` bytes of `buffer`.
    pub fn yurdelmiz_add(
        elements: *const u8,
        elements_len: usize,
        buffer: *mut u8,
        buffer_len: usize,
        size: usize,
        telemetry: *const u8,
        telemetry_len: usize,
        answer: *mut u8,
        answer_len: usize,
    ) -> u64;

    /// The dark test labels of a label file of `size` bytes, by its last bytes.
    pub fn yurdelmiz_dark_test(
        tail: *const u8,
        tail_len: usize,
        size: u64,
        answer: *mut u8,
        answer_len: usize,
    ) -> u32;

    /// Adds the label file in the first `size` bytes of `file` to `figures`.
    pub fn yurdelmiz_scale(
        figures: *mut u8,
        figures_len: usize,
        file: *const u8,
        file_len: usize,
        size: usize,
    ) -> u64;

    /// Keeps the labels at the start of `bytes` as a label file in `output`.
    pub fn yurdelmiz_salvage(
        bytes: *const u8,
        bytes_len: usize,
        output: *mut u8,
        output_len: usize,
        answer: *mut u8,
        answer_len: usize,
    ) -> u32;

    /// Opens a day.
    pub fn yurdelmiz_open(
        elements: *const u8,
        elements_len: usize,
        day: *mut u8,
        day_len: usize,
    ) -> u32;

    /// Takes a packet of a day's telemetry.
    pub fn yurdelmiz_packet(
        day: *mut u8,
        day_len: usize,
        packet: *const u8,
        packet_len: usize,
        output: *mut u8,
        output_len: usize,
    ) -> u64;

    /// Closes a day.
    pub fn yurdelmiz_close(day: *mut u8, day_len: usize, output: *mut u8, output_len: usize)
        -> u64;
}
