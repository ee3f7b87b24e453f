/* The C interface of Yurdelmiz: satellite telemetry labelled by document 01.
 *
 * Every function takes anything its types allow and refuses what document 01 refuses. Buffers are
 * byte slices, a pointer followed by its length; numbers in them are little-endian with no padding.
 * A slice's pointer must be valid for its length, and no slice that a function writes may overlap
 * another of the same call. A slice of length 0 is not touched; its pointer may not be null.
 *
 * Units: an angle is a whole number, of which 2^32 make a turn. Sines and direction components
 * count 2^-30. A time is in seconds from 1990 Jan 0.0 (31 December 1989, 0h), with 86,400 a day.
 *
 * Status: 0 is accepted. A refusal is its number in document 01's table, below, and then no byte of
 * any slice is changed. Two kinds of status are no refusals of the table, and change nothing either:
 * YURDELMIZ_BAD_BUFFER, where `elements`, `day`, `figures` or `answer` has another length than this header
 * gives, which is looked at before all else; and the faults of an elements file, from yurdelmiz_elements alone.
 *
 * No function keeps a pointer or uses anything but its arguments: calls may run in parallel on
 * separate buffers.
 */
#ifndef YURDELMIZ_H
#define YURDELMIZ_H

#include <stddef.h>
#include <stdint.h>

#ifdef __cplusplus
extern "C" {
#endif

enum {
    YURDELMIZ_ACCEPTED = 0,
    /* Eccentricity above 9,000,000 (units of 10^-7). */
    YURDELMIZ_ECCENTRICITY = 1,
    /* Semi-major axis outside 6,600,000 to 100,000,000 metres. */
    YURDELMIZ_SEMI_MAJOR_AXIS = 2,
    /* Perigee distance below 6,478,000 metres. */
    YURDELMIZ_PERIGEE_DISTANCE = 3,
    /* Inclination above half a turn, 2^31. */
    YURDELMIZ_INCLINATION = 4,
    /* Mean motion outside 20,000,000 to 1,700,000,000 (10^-8 revolutions a day). */
    YURDELMIZ_MEAN_MOTION = 5,
    /* Drift rate of node or perigee beyond +-200,000 (10^-4 degree a day). */
    YURDELMIZ_DRIFT_RATE = 6,
    /* Epoch revolution above 99,999. */
    YURDELMIZ_EPOCH_REVOLUTION = 7,
    /* Epoch or time outside -2,834,956,800 to 3,476,476,799, or over 31,622,400 s apart, or over
     * 2,592,000 s where the derivative of the mean motion is not 0. */
    YURDELMIZ_TIME = 8,
    /* 9 is not used, and not to be used again. */
    /* Telemetry length no multiple of 16, or over 1,024 records with the labels of the file. In packets: a
     * packet that completes a 1,025th record, or a day closed within a record. */
    YURDELMIZ_TELEMETRY_LENGTH = 10,
    /* From the first label on, output or buffer shorter than 24 bytes a label plus 24, in
     * yurdelmiz_salvage a label that is kept. In yurdelmiz_packet output shorter than 24 bytes for each
     * record that is completed, in yurdelmiz_close than 24 bytes. */
    YURDELMIZ_OUTPUT_LENGTH = 11,
    /* Label file: fewer than 16 bytes, a length beyond the buffer, a trailer that does not fit, or a tail
     * of another number of bytes. */
    YURDELMIZ_TRAILER = 12,
    /* Label file: a label breaks a field rule, or the counts are not those of the labels. */
    YURDELMIZ_LABELS = 13,
    /* Position component beyond +-200,000,000, or Sun component beyond +-2^30. */
    YURDELMIZ_COMPONENT = 14,
    /* `figures` has 1,000 files or more already, or breaks a bound that figures of label files keep. */
    YURDELMIZ_FIGURES = 15,
    /* Half the derivative of the mean motion beyond +-1,000,000 (10^-8 revolutions a day squared), or
     * the mean motion less 60 times its size below 20,000,000. */
    YURDELMIZ_MEAN_MOTION_DERIVATIVE = 16,
    /* Two-line elements: a line not of 69 bytes, or whose first byte is not its number. */
    YURDELMIZ_LINES = 17,
    /* Two-line elements: the last byte of a line is not its checksum. */
    YURDELMIZ_CHECKSUM = 18,
    /* Two-line elements: a field that is no number of its layout, an angle of 360 degrees or more, or a day
     * outside its year. */
    YURDELMIZ_FIELD = 19,
    /* Two-line elements: the lines have different satellite numbers. */
    YURDELMIZ_SATELLITE_NUMBERS = 20,
    /* A table of element sets: a length no multiple of 52 or beyond its buffer, an epoch not after that of the
     * row before, or a set that 1 to 8 or 16 would refuse. */
    YURDELMIZ_TABLE = 21,
    /* A table has no room for a set of another epoch than its sets have. */
    YURDELMIZ_ROOM = 22,
    /* No past set with an epoch up to the time, and no forecast set. */
    YURDELMIZ_NO_SET = 23,
    /* `day` is closed, or is no state of a day. */
    YURDELMIZ_DAY = 24,
    /* No refusal of the table: `elements`, `day`, `figures` or `answer` is not of the length given here. */
    YURDELMIZ_BAD_BUFFER = 255
};

/* The faults of an elements file. */
enum {
    /* The line does not begin with the name of the element that is due, and a space. */
    YURDELMIZ_MALFORMED_NAME = 101,
    /* A further line, which is no comment and not empty, after the last element. */
    YURDELMIZ_MALFORMED_EXTRA = 102,
    /* A byte below 32, as a tab or a carriage return, outside a comment. */
    YURDELMIZ_MALFORMED_CONTROL_BYTE = 103,
    /* A decimal point in a number. */
    YURDELMIZ_MALFORMED_DECIMAL_POINT = 104,
    /* No whole number, something behind it, or a minus that the element does not take. */
    YURDELMIZ_MALFORMED_NOT_WHOLE = 105,
    /* A number too large for the field of its element. */
    YURDELMIZ_MALFORMED_TOO_LARGE = 106,
    /* The file ends within a line. */
    YURDELMIZ_MALFORMED_UNENDED = 107,
    /* The file ends before its last element. */
    YURDELMIZ_MALFORMED_MISSING = 108,
    /* The file has more than 65,535 bytes. */
    YURDELMIZ_MALFORMED_TOO_LONG = 109
};

/* Lengths of `elements`, of `day`, of `figures` and of each `answer`, in bytes. */
enum {
    YURDELMIZ_ELEMENTS_BYTES = 52,
    YURDELMIZ_DAY_BYTES = 89,
    YURDELMIZ_FIGURES_BYTES = 48,
    YURDELMIZ_KEPLER_BYTES = 8,
    YURDELMIZ_SUN_BYTES = 28,
    YURDELMIZ_POSITION_BYTES = 68,
    YURDELMIZ_SHADE_BYTES = 1,
    YURDELMIZ_ADD_BYTES = 28,
    YURDELMIZ_READ_BYTES = 24,
    YURDELMIZ_DARK_TEST_BYTES = 4,
    YURDELMIZ_SALVAGE_BYTES = 12,
    YURDELMIZ_FIND_SET_BYTES = 12,
    YURDELMIZ_PUT_SET_BYTES = 8
};

/* The table of the set in the answer of yurdelmiz_find_set. */
enum { YURDELMIZ_PAST = 0, YURDELMIZ_FORECAST = 1 };

/* The bytes of `tail` in yurdelmiz_dark_test, or all of the file where it has fewer. */
enum { YURDELMIZ_TAIL_BYTES = 24 };

/* Stands in the answer of yurdelmiz_dark_test for a figure that the trailer does not hold: no file has
 * as many labels. */
#define YURDELMIZ_NOT_HELD 0xffffffffu

/* The labels written so far of the day whose state is the bytes at `day`. */
#define YURDELMIZ_DAY_LABELS(day)                                              \
    ((uint32_t)(day)[52] | (uint32_t)(day)[53] << 8 | (uint32_t)(day)[54] << 16 \
     | (uint32_t)(day)[55] << 24)

/* The parts of a result of 64 bits: the status; from yurdelmiz_label, yurdelmiz_add, yurdelmiz_read,
 * yurdelmiz_scale, yurdelmiz_packet and yurdelmiz_close the place of a refusal, which is the number of the
 * record or label from 0, in yurdelmiz_add that of the record's label in the whole file, in yurdelmiz_packet
 * that of the record in the whole day, and 0 where none applies; from yurdelmiz_two_line the place of a
 * refusal, which is the first column of the field, from 1, on the second line from 70, and 0 where no field is
 * at fault; from yurdelmiz_elements the line of a fault, from 1, and the number from 0 of the element that was
 * due there, in the order of the file, 12 behind the last. */
#define YURDELMIZ_STATUS(result) ((uint32_t)((result) & 0xffffffffu))
#define YURDELMIZ_PLACE(result) ((uint32_t)((result) >> 32))
#define YURDELMIZ_LINE(result) ((uint32_t)((result) >> 32) & 0xffffffu)
#define YURDELMIZ_ELEMENT(result) ((uint32_t)((result) >> 56))

/* S(angle) and C(angle), from -2^30 to 2^30. */
int64_t yurdelmiz_sine(uint32_t angle);
int64_t yurdelmiz_cosine(uint32_t angle);

/* Solves Kepler's equation for a mean anomaly. Refusal 1.
 *
 *   answer, 8 bytes:
 *     0  u32  eccentric anomaly E
 *     4  u32  halvings made, 32 or 0
 */
uint32_t yurdelmiz_kepler(uint32_t eccentricity, uint32_t mean_anomaly,
                          uint8_t *answer, size_t answer_len);

/* The Sun at a time. Refusal 8, for the time's range.
 *
 *   answer, 28 bytes:
 *     0  u32  MA, mean anomaly
 *     4  u32  ML, mean longitude
 *     8  u32  TL, true longitude
 *    12  u32  GHAA, Greenwich hour angle of Aries
 *    16  i32  direction x
 *    20  i32  direction y
 *    24  i32  direction z
 */
uint32_t yurdelmiz_sun(int64_t time, uint8_t *answer, size_t answer_len);

/* The satellite at a time. Refusals 1 to 7, then 16, for the elements, 8 for the epoch, then 8.
 *
 *   elements, 52 bytes:
 *     0  i64  epoch
 *     8  u32  eccentricity, 10^-7
 *    12  u32  semi-major axis, metres
 *    16  u32  inclination
 *    20  u32  right ascension of the ascending node at the epoch
 *    24  u32  argument of perigee at the epoch
 *    28  u32  mean anomaly at the epoch
 *    32  u32  mean motion at the epoch, 10^-8 revolutions a day
 *    36  i32  drift rate of the node, 10^-4 degree a day
 *    40  i32  drift rate of the perigee, 10^-4 degree a day
 *    44  u32  revolution at the epoch
 *    48  i32  half the first derivative of the mean motion, as two-line elements have it,
 *             10^-8 revolutions a day squared
 *
 *   answer, 68 bytes; positions in metres:
 *     0  i32  revolution, counted from the mean ascending node
 *     4  u32  eccentric anomaly E
 *     8  u32  halvings made, 32 or 0
 *    12  u32  radius, metres
 *    16  i64  celestial position x
 *    24  i64  celestial position y
 *    32  i64  celestial position z
 *    40  u32  node as drifted
 *    44  i64  Earth-fixed position x, at the GHAA of the time
 *    52  i64  Earth-fixed position y
 *    60  i64  Earth-fixed position z, which is the celestial one
 */
uint32_t yurdelmiz_position(const uint8_t *elements, size_t elements_len, int64_t time,
                            uint8_t *answer, size_t answer_len);

/* Whether a position (metres) is in the Earth's shadow. Refusal 14.
 *
 *   answer, 1 byte:
 *     0  u8   0 lit, 1 dark (in the umbra), 2 part (in the penumbra)
 */
uint32_t yurdelmiz_shade(int64_t x, int64_t y, int64_t z,
                         int64_t sun_x, int64_t sun_y, int64_t sun_z,
                         uint8_t *answer, size_t answer_len);

/* Reads the text of an elements file: a line for each element with its name, a space and a whole
 * number, in the order below; empty lines and lines that begin with # may stand anywhere, and LF ends
 * every line. It only reads: which values are refused is told by the calls that take elements. A
 * fault, the first in the file, is one of the statuses from 101 on; a text of over 65,535 bytes has
 * line 1 and element 0.
 *
 *   lines, in this order:
 *     0  eccentricity            6  mean_motion
 *     1  semi_major_axis         7  node_rate
 *     2  inclination             8  perigee_rate
 *     3  node                    9  epoch_revolution
 *     4  argument_of_perigee    10  epoch
 *     5  mean_anomaly           11  half_mean_motion_derivative
 *
 *   answer, 52 bytes: `elements`, as above
 */
uint64_t yurdelmiz_elements(const uint8_t *text, size_t text_len,
                            uint8_t *answer, size_t answer_len);

/* Reads two-line elements, a line of 69 bytes each without what ends it, and beside them the semi-major axis in
 * metres and the drift rates of node and perigee in 10^-4 degree a day, which the lines do not have. Columns
 * count from 1. A checksum is the sum modulo 10 of the digits in the first 68 columns, a minus counting 1; all
 * columns count, but only those below are looked at otherwise.
 *
 *   first, line 1:                          second, line 2:
 *      3 -  7  satellite number                3 -  7  satellite number
 *     19 - 20  year of the epoch               9 - 16  inclination, degrees
 *     21 - 32  day of the year                18 - 25  node, degrees
 *     34 - 43  half the first derivative      27 - 33  eccentricity, its point implied
 *              of the mean motion             35 - 42  argument of perigee, degrees
 *                                             44 - 51  mean anomaly, degrees
 *                                             53 - 63  mean motion, revolutions a day
 *                                             64 - 68  revolution at the epoch
 *
 * Each field is a decimal with its point where the layout has it. Leading blanks stand for zeros in satellite
 * numbers and the revolution, and ahead of the point in angles and the mean motion. The sign of the derivative is
 * a blank, a plus or a minus. The years 57 to 99 are 1957 to 1999, and 00 to 56 are 2000 to 2056. The epoch is
 * moved back to its full second, and with it the mean anomaly and the number of the revolution. Refusals 17, 18,
 * 19, 20 in this order, each for both lines before the next, then 1 to 7, 16 and 8 for the elements; 19 at the
 * first column of the first bad field, on the second line with 69 added, the others at place 0.
 *
 *   answer, 52 bytes: `elements`, as above
 */
uint64_t yurdelmiz_two_line(const uint8_t *first, size_t first_len,
                            const uint8_t *second, size_t second_len,
                            uint32_t semi_major_axis, int32_t node_rate, int32_t perigee_rate,
                            uint8_t *answer, size_t answer_len);

/* Tables of element sets: a row of 52 bytes a set, which is `elements` as above, each with a later epoch than
 * the row before, and each a set that 1 to 8 and 16 accept. A table is the first `size` bytes of its buffer; no
 * bytes at all are a table of no sets, whose pointer is not null even then. What lies behind it is not looked
 * at.
 */

/* Finds the set for a time: of the past sets the one with the latest epoch that is not after the time; if there
 * is none, of the forecast sets the one with the earliest epoch. Any time is taken, and the set may be further
 * from it than labelling accepts. Each table is gone over once. The two may be the same bytes. Refusals 21, for
 * either table, then 23. The row is the 52 bytes at `past + offset` or `forecast + offset`.
 *
 *   answer, 12 bytes:
 *     0  u64  offset of the row in its table, 52 * the number of the row from 0
 *     8  u32  YURDELMIZ_PAST or YURDELMIZ_FORECAST
 */
uint32_t yurdelmiz_find_set(const uint8_t *past, size_t past_len, size_t past_size,
                            const uint8_t *forecast, size_t forecast_len, size_t forecast_size,
                            int64_t time, uint8_t *answer, size_t answer_len);

/* Puts a set into the table in the first `size` bytes of `buffer`: over the set of the same epoch, or else into
 * its place by epoch, the later rows each moved up by 52 bytes. No other row changes, and what lies behind the
 * table that results is unchanged. That table is accepted by both calls; as the past of yurdelmiz_find_set it
 * has the new set for the time of its epoch. Refusals 1 to 7, then 16, for the elements, 8 for the epoch; then
 * 21, then 22, where no set has the epoch and `buffer` has fewer than 52 bytes behind the table. `elements` as
 * above; it does not lie within `buffer`.
 *
 *   answer, 8 bytes:
 *     0  u64  the table's bytes in `buffer`, as `size` before
 */
uint32_t yurdelmiz_put_set(const uint8_t *elements, size_t elements_len,
                           uint8_t *buffer, size_t buffer_len, size_t size,
                           uint8_t *answer, size_t answer_len);

/* Labels a day's telemetry: 24 bytes a record from the start of `output`, then the trailer's 24.
 * What lies behind the trailer is unchanged. Refusals 1 to 7, then 16, for the elements, 8 for the
 * epoch, 10, 11, all at place 0; then 8 for each record in order, at its place. `elements` as above.
 *
 *   telemetry, 16 bytes a record, at most 1,024 records:
 *     0  i64  time
 *     8  f32  volts
 *    12  f32  amperes
 *
 *   output, 24 bytes a label:
 *     0  i64  time
 *     8  i32  revolution, as in the answer of yurdelmiz_position
 *    12  u8   side: 0 withheld, 1 training, 2 test
 *    13  u8   shade: 0 lit, 1 dark, 2 part, as in the answer of yurdelmiz_shade
 *    14  u8   reading: 0 missing, 1 valid, 2 saturated
 *    15  u8   0
 *    16  i32  sine of the Sun's elevation above the orbit plane
 *    20  f32  watts, 0 where the reading is not valid
 *   and the trailer, 24 bytes:
 *     0  u32  labels
 *     4  u32  training labels
 *     8  u32  test labels
 *    12  u32  dark labels, those of shade 1 alone
 *    16  u32  dark test labels
 *    20  u32  distance from the end of the file back to the first label, 24 * labels + 24
 */
uint64_t yurdelmiz_label(const uint8_t *elements, size_t elements_len,
                         const uint8_t *telemetry, size_t telemetry_len,
                         uint8_t *output, size_t output_len);

/* Adds telemetry to the label file in the first `size` bytes of `buffer`: the labels of its records
 * go over the file's trailer, be it one of 24 bytes or of 16, and the trailer of 24 bytes behind
 * them. What lies ahead of the first label and behind the trailer is unchanged, and so are the labels
 * that the file has. Where these are what yurdelmiz_label gives with the same elements, the bytes from
 * the first label on are those of labelling all the telemetry at once. Adding no record gives a file
 * its trailer of 24 bytes. Refusals 1 to 7, then 16, for the elements, 8 for the epoch, at place 0; 12
 * and 13 of the file, as from yurdelmiz_read; 10 and 11 on the labels of the file and the records
 * together, at place 0; then 8 for each record in order, at the place of its label in the whole file.
 * `elements` and `telemetry` as above.
 *
 *   answer, 28 bytes:
 *     0  u64  the file's bytes in `buffer`, as `size` before
 *     8  u32  labels, of the whole file
 *    12  u32  training labels
 *    16  u32  test labels
 *    20  u32  dark labels
 *    24  u32  dark test labels
 */
uint64_t yurdelmiz_add(const uint8_t *elements, size_t elements_len,
                       uint8_t *buffer, size_t buffer_len, size_t size,
                       const uint8_t *telemetry, size_t telemetry_len,
                       uint8_t *answer, size_t answer_len);

/* Reads the label file in the first `size` bytes of `file`, with a trailer of 24 bytes, or of 16,
 * which has no dark counts: labels, training labels, test labels, and the distance, 24 * labels + 16.
 * The distance, in the last 4 bytes, tells which it is. Bytes ahead of the first label belong to
 * others; the first label is at `size` less the distance. Refusal 12 at place 0, also where `size` is
 * beyond `file_len`; 13 at the first label that breaks a field rule, or at the number of labels where
 * the trailer's counts are not those of the labels.
 *
 *   answer, 24 bytes; the counts are those over the labels, whichever trailer the file has:
 *     0  u32  labels
 *     4  u32  training labels
 *     8  u32  test labels
 *    12  u32  dark labels
 *    16  u32  dark test labels
 *    20  u32  the trailer's bytes, 16 or 24
 */
uint64_t yurdelmiz_read(const uint8_t *file, size_t file_len, size_t size,
                        uint8_t *answer, size_t answer_len);

/* The dark test labels of a label file of `size` bytes, from its last 24 bytes, or all of them where it
 * has fewer. Refusal 12 in the cases of yurdelmiz_read, and where `tail_len` is another number. A file
 * that yurdelmiz_read refuses with 12 is refused, and no other; of a file that it accepts, the answer is
 * the count over all its labels, where its trailer has 24 bytes. The labels are not looked at: a file that
 * yurdelmiz_read refuses with 13 is answered with what its trailer states.
 *
 *   answer, 4 bytes:
 *     0  u32  dark test labels, 0 to 1,024; YURDELMIZ_NOT_HELD where the trailer has 16 bytes
 */
uint32_t yurdelmiz_dark_test(const uint8_t *tail, size_t tail_len, uint64_t size,
                             uint8_t *answer, size_t answer_len);

/* Scale figures: what a model's inputs are scaled by, from the training labels of label files alone, one file
 * after another. From 48 zero bytes on they are the counts, extremes and sums over the training labels of the
 * files that were accepted. Up to 1,000 files their order does not matter, but for the sign of a zero among the
 * extremes.
 *
 *   figures, 48 bytes; they may be kept, copied and moved between calls. 48 zero bytes are the figures of
 *   nothing, the start:
 *     0  u32  files
 *     4  u32  training labels
 *     8  u32  dark labels among them
 *    12  u32  valid readings among them
 *    16  u32  1 where a least is held, 0 where none is; any number but 0 is taken for held
 *    20  u32  bits of the least watts; 0 is written where none is held, and what is there is not looked at
 *    24  u32  1 where a greatest is held, as for the least
 *    28  u32  bits of the greatest watts
 *    32  i64  total of the sines of the elevation
 *    40  u64  total of the squares of those sines, each first divided by 32,768 and cut
 */

/* Adds the label file in the first `size` bytes of `file` to `figures`. Of equal watts, which the two zeros
 * are, the earlier stands. Refusals 12 and 13 as yurdelmiz_read gives them, at their places; then 15 at place
 * 0, where `figures` has 1,000 files or more already, or over 1,024 labels a file, dark labels or valid readings
 * over the labels, a least or a greatest held where no reading is valid, or missing where one is, or not
 * finite, or a total over 2^30 a label in size. A refused file adds nothing.
 */
uint64_t yurdelmiz_scale(uint8_t *figures, size_t figures_len,
                         const uint8_t *file, size_t file_len, size_t size);

/* Keeps the labels at the start of `bytes`, which begin with the first label of a file: every whole 24
 * bytes, in order, that keep the field rules, up to the first that do not, or the end, or 1,024 of them.
 * They go to the start of `output`, and a trailer of 24 bytes with their counts behind them; what lies
 * behind that is unchanged. Of a file that yurdelmiz_read accepts, with nothing in front, cut anywhere or
 * not at all, all whole labels before the cut are kept, and what is left of its trailer is dropped.
 * yurdelmiz_read accepts what is written, in the first 24 * labels + 24 bytes of `output`. The first 24,576
 * bytes decide: of a longer input no more need be handed over, and the rest counts as dropped. 24 zero
 * bytes keep the field rules. Refusal 11, for the labels that are kept.
 *
 *   answer, 12 bytes:
 *     0  u32  labels kept, 0 to 1,024
 *     4  u64  bytes dropped, all of `bytes` but 24 a label
 */
uint32_t yurdelmiz_salvage(const uint8_t *bytes, size_t bytes_len,
                           uint8_t *output, size_t output_len,
                           uint8_t *answer, size_t answer_len);

/* Packets: a day's telemetry handed over as it comes, cut anywhere, records too. Where yurdelmiz_open, each
 * yurdelmiz_packet and yurdelmiz_close accept, the labels of each packet one after another and then the
 * trailer are the file that yurdelmiz_label writes for the packets' bytes joined, whichever way they were
 * cut, and yurdelmiz_read accepts it. After a refusal the day can go on: its state is the one before.
 *
 *   day, 89 bytes, the state of a day; it may be kept, copied and moved between calls:
 *     0  52 bytes  elements, as above
 *    52  u32       labels written so far
 *    56  u32       training labels among them
 *    60  u32       test labels
 *    64  u32       dark labels
 *    68  u32       dark test labels
 *    72  u8        1 where the day is closed, otherwise 0
 *    73  u8        bytes held of an unfinished record, 0 to 15
 *    74  15 bytes  those bytes; opening and packets put zeros behind them
 *
 * `day` may hold any bytes. Refusal 24, before the others, where the day is closed, or byte 72 is neither 0
 * nor 1, or a refusal of yurdelmiz_open applies to the elements, or over 15 bytes are held, or the labels
 * are over 1,024, training and test labels together over the labels, dark labels over the labels, or dark
 * test labels over the test or the dark labels. What stands behind the bytes held is not looked at.
 */

/* Opens a day: `day` gets the elements, no labels and no bytes held, whatever it held. Refusals 1 to 7, then
 * 16, for the elements, 8 for the epoch.
 */
uint32_t yurdelmiz_open(const uint8_t *elements, size_t elements_len,
                        uint8_t *day, size_t day_len);

/* Takes a packet, any bytes: the records that it completes are labelled, 24 bytes each from the start of
 * `output`, and what is left of it is held. What lies behind the labels is unchanged; there are as many as
 * YURDELMIZ_DAY_LABELS(day) has grown by. Refusals 24, 10 where it completes a 1,025th record of the day, 11,
 * all at place 0; then 8 for each record that it completes in order, at its place in the whole day.
 */
uint64_t yurdelmiz_packet(uint8_t *day, size_t day_len,
                          const uint8_t *packet, size_t packet_len,
                          uint8_t *output, size_t output_len);

/* Closes a day: the trailer of its labels, 24 bytes from the start of `output`, what lies behind them
 * unchanged. Refusals 24, 10 where a part of a record is held, 11, all at place 0.
 */
uint64_t yurdelmiz_close(uint8_t *day, size_t day_len, uint8_t *output, size_t output_len);

#ifdef __cplusplus
}
#endif

#endif
