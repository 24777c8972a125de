/* The proved settlement calls for C and Rust: gas day weights, customer values and split statements.
 *
 * The static library (crate ffi_c) defines these calls. They keep no state. README.md tells how to build and link it.
 *
 * Slices
 *   A slice is passed as a pointer and the number of its elements.
 *   The pointer must be aligned and must not be null, even if the number is 0.
 *   A slice that a call writes must not overlap any other slice of that call.
 *
 * Answers
 *   A call checks what it is given. It is done (0), or it is refused with a number of the table below.
 *   The table has the order in which a call checks. A call checks only the rows that its comment lists.
 *   arvadush_read goes through the file from front to back instead, and arvadush_page checks the length of the page last.
 *   A refused call leaves every slice as it was, unless its comment says otherwise.
 *   A value that a call does not give is 0. So is a place, unless its comment says otherwise.
 *
 *    3  n is outside 1 to 1,096, or a slice does not have the length for n (a page: for its parts; points: see arvadush_spread)
 *    1  the profile is above 9
 *    2  the weekday is above 6
 *    4  a mean or a temperature is outside -5,000 to 3,999
 *   14  a byte of the calendar is above 7
 *    5  the account or the weights are unsound
 *    6  the boundary is above n
 *    7  that mark is already there, whatever its count
 *    8  the count is below that of an earlier reading, or above that of a later one
 *    9  the last reading less the first, or the energy, is above 2,000,000,000 Wh
 *   10  there is no such mark to remove
 *   11  there are fewer than two readings
 *   12  the customer value is above 10^12
 *   13  the case file ends early, has bytes left over, or has a boundary that does not rise
 *   15  the slice is shorter than the case file
 *   16  there is no point or more than 1,000, or a supplier is above 63
 *   17  the load is above 2,000,000,000 Wh, or the base amounts add up to more than 6,000,000,000
 *   18  the base amounts add up to 0, and the load is not 0
 *
 * Account
 *   An account of n days has n weights, n + 1 marks and n + 1 counts.
 *   Boundary k is the start of day k, counted from 0. Boundary n is the end of the last day.
 *   A mark is 0 (none), 1 (cut), 2 (reading) or 3 (both).
 *   A count is the meter's register in Wh, and 0 at a boundary without a reading.
 *   An account is sound if all of these hold:
 *     - its weights are 1 to 6,999,999
 *     - its marks are 0 to 3
 *     - a count without a reading is 0
 *     - no reading has a count below that of an earlier reading
 *     - the last reading has at most 2,000,000,000 Wh more than the first
 */
#ifndef ARVADUSH_H
#define ARVADUSH_H

#include <stddef.h>
#include <stdint.h>

#ifdef __cplusplus
extern "C" {
#endif

enum {
    ARVADUSH_DAYS = 1096,       /* days of the longest span: the length of the weights for a case file */
    ARVADUSH_BOUNDARIES = 1097, /* boundaries of that span: the length of the marks and of the counts for a case file */
    ARVADUSH_FILE = 16384,      /* bytes to read of a case file, more never change the answer; room for any that is written */
    ARVADUSH_TEXT = 72390       /* room for the text of any account */
};

/* The table's number (0 is done), the place or index that goes with it, and the value. */
typedef struct {
    uint8_t number;
    size_t place;
    uint64_t value;
} arvadush_outcome;

/* The same with a temperature in hundredths of a degree C. */
typedef struct {
    uint8_t number;
    size_t place;
    int16_t value;
} arvadush_temperature_outcome;

/* The same with a profile value in units of 10^-9, low and high. */
typedef struct {
    uint8_t number;
    size_t place;
    int64_t low;
    int64_t high;
} arvadush_values;

/* The series that the chooser took (1 measured, 2 forecast, 0 neither), and how many means it took from its start. */
typedef struct {
    uint8_t series;
    size_t means;
} arvadush_chosen;

/* ---- Temperature of a day. Means and temperatures are hundredths of a degree C, -5,000 to 3,999. */

/* Gives the allocation temperature of four daily means, today's first.
 * Refused:
 *   4  a mean is out of range (place: 0 to 3, the first such mean in the order a, b, c, d)
 */
arvadush_temperature_outcome arvadush_temperature(int16_t a, int16_t b, int16_t c, int16_t d);

/* Chooses the n + 3 means of a span of n days: those of the measured series if it serves, else of the forecast, else none.
 * A series serves if n is 1 to 1,096 and its first n + 3 means are there and in range.
 * Has no refusals.
 */
arvadush_chosen arvadush_choose(const int16_t *measured, size_t measured_len, const int16_t *forecast, size_t forecast_len, size_t n);

/* ---- Profiles 0 to 9. Weekdays are 0 (Monday) to 6 (Sunday). */

/* Gives the profile value at the temperature t, low and high.
 * Refused, in this order:
 *   1  the profile is above 9
 *   4  t is out of range
 */
arvadush_values arvadush_value(uint8_t profile, int16_t t);

/* Gives the weight of one day at the temperature t, in millionths.
 * Refused, in this order:
 *   1  the profile is above 9
 *   2  the weekday is above 6
 *   4  t is out of range
 */
arvadush_outcome arvadush_day_weight(uint8_t profile, uint8_t weekday, int16_t t);

/* Writes the weight of each day of a span into out.
 * n is means_len - 3. The means are oldest first, and day k has its own mean at index k + 3. The weekday is that of day 0.
 * The calendar has one byte for each day: 0 to 6 names the weekday that the day counts as, and 7 keeps its own.
 * The value is 0.
 * Refused, in this order:
 *   3  n is outside 1 to 1,096, or calendar or out is not n long
 *   1  the profile is above 9; out is then zero
 *   2  the weekday is above 6; out is then zero
 *   4  a mean is out of range (place: the index of the first such mean); out is then zero
 *  14  a byte of the calendar is above 7 (place: the index of the first such byte); out is then zero
 */
arvadush_outcome arvadush_weights(uint8_t profile, uint8_t weekday, const int16_t *means, size_t means_len, const uint8_t *calendar,
                                  size_t calendar_len, uint32_t *out, size_t out_len);

/* ---- Account. Each call but arvadush_statement returns the table's number. n is weights_len. */

/* Clears marks and counts, whatever they held.
 * Refused, in this order:
 *   3  n is outside 1 to 1,096, or marks or counts are not n + 1 long
 *   5  a weight is outside 1 to 6,999,999
 */
uint8_t arvadush_open(const uint32_t *weights, size_t weights_len, uint8_t *marks, size_t marks_len, uint64_t *counts, size_t counts_len);

/* Sets a reading of this count at boundary k. A cut there stays.
 * Refused, in this order:
 *   3  n is outside 1 to 1,096, or marks or counts are not n + 1 long
 *   5  the account is unsound
 *   6  k is above n
 *   7  a reading is already there, whatever its count
 *   8  the count is below that of an earlier reading, or above that of a later one
 *   9  with this reading the last less the first is above 2,000,000,000 Wh
 */
uint8_t arvadush_reading(const uint32_t *weights, size_t weights_len, uint8_t *marks, size_t marks_len, uint64_t *counts, size_t counts_len,
                         size_t k, uint64_t count);

/* Removes the reading at boundary k and sets its count to zero. A cut there stays.
 * Refused, in this order:
 *   3  n is outside 1 to 1,096, or marks or counts are not n + 1 long
 *   5  the account is unsound
 *   6  k is above n
 *  10  no reading is there
 */
uint8_t arvadush_withdraw(const uint32_t *weights, size_t weights_len, uint8_t *marks, size_t marks_len, uint64_t *counts, size_t counts_len,
                          size_t k);

/* Sets a cut at boundary k. A reading there stays.
 * Refused, in this order:
 *   3  n is outside 1 to 1,096, or marks or counts are not n + 1 long
 *   5  the account is unsound
 *   6  k is above n
 *   7  a cut is already there
 */
uint8_t arvadush_cut(const uint32_t *weights, size_t weights_len, uint8_t *marks, size_t marks_len, const uint64_t *counts,
                     size_t counts_len, size_t k);

/* Removes the cut at boundary k. A reading there stays.
 * Refused, in this order:
 *   3  n is outside 1 to 1,096, or marks or counts are not n + 1 long
 *   5  the account is unsound
 *   6  k is above n
 *  10  no cut is there
 */
uint8_t arvadush_uncut(const uint32_t *weights, size_t weights_len, uint8_t *marks, size_t marks_len, const uint64_t *counts,
                       size_t counts_len, size_t k);

/* Writes the statement into from, to and wh, and zeros past the parts. The value is the number of parts.
 * Refused, in this order:
 *   3  from, to or wh is not n long, n is outside 1 to 1,096, or marks or counts are not n + 1 long
 *   5  the account is unsound
 *  11  there are fewer than two readings; from, to and wh are then zero
 */
arvadush_outcome arvadush_statement(const uint32_t *weights, size_t weights_len, const uint8_t *marks, size_t marks_len,
                                    const uint64_t *counts, size_t counts_len, uint16_t *from, size_t from_len, uint16_t *to,
                                    size_t to_len, uint64_t *wh, size_t wh_len);

/* ---- Customer value, in units of 0.1 Wh, and daily amount, in Wh. */

/* Gives the customer value of this energy, in Wh, over these weights.
 * Refused, in this order:
 *   3  weights_len is outside 1 to 1,096
 *   5  a weight is outside 1 to 6,999,999
 *   9  the energy is above 2,000,000,000 Wh
 *  12  the customer value is above 10^12
 */
arvadush_outcome arvadush_customer_value(uint64_t energy, const uint32_t *weights, size_t weights_len);

/* Gives the daily amount of this customer value on a day of this weight.
 * Refused, in this order:
 *   5  the weight is outside 1 to 6,999,999
 *  12  the customer value is above 10^12
 */
arvadush_outcome arvadush_daily_amount(uint64_t value, uint32_t weight);

/* ---- Residual load of a network, in Wh. */

/* Spreads the load over a list of points in proportion to their base amounts. The value is the network's total, the sum of the totals.
 * Point i has the supplier suppliers[i], 0 to 63, and the base amount bases[i]. All base amounts have the same unit, whichever it is.
 * The first k points have together load * (sum of their bases) / (sum of all bases), to the nearest Wh with an exact half going up.
 * amounts[i] is what the first i + 1 points have, less what the first i have. totals[s] is the sum of the amounts of supplier s.
 * Amounts and totals both add up to the load. Each amount is less than 1 Wh from its exact share, load * base / (sum of all bases).
 * If the load and all bases are 0, every exact share is 0, and so is every amount and total.
 * Refused, in this order:
 *   3  suppliers, bases and amounts do not have the same length, or totals is not 64 long
 *  16  there is no point or more than 1,000, or a supplier is above 63; amounts and totals are then zero
 *  17  the load is above 2,000,000,000 Wh, or the bases add up to more than 6,000,000,000; amounts and totals are then zero
 *  18  the bases add up to 0, and the load is not 0; amounts and totals are then zero
 */
arvadush_outcome arvadush_spread(uint64_t load, const uint8_t *suppliers, size_t suppliers_len, const uint64_t *bases, size_t bases_len,
                                 uint64_t *amounts, size_t amounts_len, uint64_t *totals, size_t totals_len);

/* ---- Case file and text. */

/* Reads a case file into weights, marks and counts, and zeros past the account. The value is n.
 * Each day of a case file counts as its own weekday.
 * The lengths of the slices are checked first. This refusal leaves the slices as they were:
 *   3  the slices are not 1,096, 1,097 and 1,097 long (place: 0)
 * Then the file is read from front to back. After any of the refusals below every slice is zero.
 * An early end is checked first in each field, and in each reading with its count.
 *  13  the file ends early (place: the length of the file)
 *   1  the profile is above 9 (place: 0)
 *   2  the weekday is above 6 (place: 1)
 *   3  the count of means is outside 4 to 1,099 (place: 2)
 *   4  a mean is out of range (place: its offset)
 *  13  a boundary does not rise above the one before it in its section (place: its offset)
 *   6  a boundary is above n (place: its offset)
 *   8  a reading's count is below that of an earlier reading (place: the offset of the count)
 *   9  a reading's count is more than 2,000,000,000 above that of the first reading (place: the offset of the count)
 *  13  bytes are left after the last cut (place: the offset of the first of them)
 */
arvadush_outcome arvadush_read(const uint8_t *file, size_t file_len, uint32_t *weights, size_t weights_len, uint8_t *marks,
                               size_t marks_len, uint64_t *counts, size_t counts_len);

/* Writes the case file of an account to the start of out. The value is the length of the file.
 * n is means_len - 3. The means are oldest first, and day k has its own mean at index k + 3. The weekday is that of day 0.
 * The weights of the account are not passed: they are those that the means give if each day counts as its own weekday.
 * Of slices that arvadush_read filled, pass the first n + 1 marks and the first n + 1 counts.
 * Bytes of out past the file stay as they were. The longest file has 15,370 bytes, so ARVADUSH_FILE bytes are room for any file.
 * Refused, in this order:
 *   3  n is outside 1 to 1,096, or marks or counts are not n + 1 long
 *   1  the profile is above 9; all of out is then zero
 *   2  the weekday is above 6; all of out is then zero
 *   4  a mean is out of range (place: the index of the first such mean, not an offset in the file); all of out is then zero
 *   5  the account is unsound
 *  15  out is shorter than the file
 */
arvadush_outcome arvadush_write(uint8_t profile, uint8_t weekday, const int16_t *means, size_t means_len, const uint8_t *marks,
                                size_t marks_len, const uint64_t *counts, size_t counts_len, uint8_t *out, size_t out_len);

/* Writes the statement of an account as a page for the post. The value is the number of bytes. n is weights_len.
 * The page has 41 * (parts + 1) bytes: a heading, and a line for each part. arvadush_statement gives the number of parts.
 * A line has 40 characters and a line feed: from in 6 columns, to in 6, Wh in 14, and the sum of the Wh up to and including this line in 14.
 * Numbers and the words of the heading are right-aligned with spaces. No page has more than 44,977 bytes.
 * Refused, in this order:
 *   3  n is outside 1 to 1,096, or marks or counts are not n + 1 long
 *   5  the account is unsound
 *  11  there are fewer than two readings; all of page is then zero, whatever its length
 *   3  page is not 41 * (parts + 1) long
 */
arvadush_outcome arvadush_page(const uint32_t *weights, size_t weights_len, const uint8_t *marks, size_t marks_len, const uint64_t *counts,
                               size_t counts_len, uint8_t *page, size_t page_len);

/* Writes the printed statement of so many parts to the start of out.
 * Returns the length of the whole text. If this is above out_len, only the first out_len bytes are written.
 * Bytes of out past the text stay as they were.
 * Returns 0, and writes nothing, if `parts` is 0, above 1,096 or above the length of a slice, or if a part is above 2,000,000,000 Wh.
 * Has no refusals.
 */
size_t arvadush_statement_text(const uint16_t *from, size_t from_len, const uint16_t *to, size_t to_len, const uint64_t *wh, size_t wh_len,
                               size_t parts, uint8_t *out, size_t out_len);

/* Writes the printed refusal with this number and place to the start of out.
 * Returns the length of the whole text. If this is above out_len, only the first out_len bytes are written.
 * Bytes of out past the text stay as they were.
 * Has no refusals.
 */
size_t arvadush_refusal_text(uint8_t number, size_t place, uint8_t *out, size_t out_len);

#ifdef __cplusplus
}
#endif

#endif
