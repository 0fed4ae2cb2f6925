/*
 * Stringmoss: the margin engine's calls on a lent book, morning sheets on it, and the evening sheet of it.
 *
 * The caller lends the book, STRINGMOSS_ROWS rows of STRINGMOSS_WIDTH words one after the other, and keeps it between calls; all zeros is the empty
 * book. Every function takes any book, any values and any bytes, and returns STRINGMOSS_DONE or the number of one refusal; the caller checks nothing
 * first. A refused call hands out zeros and leaves every word of the book and every byte of the output as it was, save that a bad sheet has its line
 * handed out and, where it is run, written.
 *
 * What a caller owes:
 * - A pointer to an array is valid for as many elements as the length beside it says. For a length of zero it may be anything, NULL too.
 * - A pointer to a single number is valid, and never NULL, whether the call is refused or not.
 * - Each pointer is aligned for its type.
 * - What a call writes overlaps nothing else that is handed to the same call: no variable is given twice as an output, and no output lies in the book,
 *   in the sheet or in the row that the call reads.
 * - There is stack enough: STRINGMOSS_STACK_SHEET bytes for stringmoss_check_sheet and stringmoss_run_sheet, STRINGMOSS_STACK_CALL for each of the
 *   others, of which STRINGMOSS_STACK_INSTRUMENT are enough for a call on an instrument, besides what the caller and any signal handlers use. Nothing
 *   is allocated.
 *
 * No state is kept but what the caller lends. So threads need no lock, each on its own book and outputs; on one book that threads share, calls that
 * only read it may run at once, and one that writes it runs alone.
 *
 * Link libstringmoss.a, the static library of the crate `stringmoss`, for x86-64 Linux. It needs memcpy and memset of the C library, and nothing else.
 */
#ifndef STRINGMOSS_H
#define STRINGMOSS_H

#include <stddef.h>
#include <stdint.h>

#ifdef __cplusplus
extern "C" {
#endif

/* The numbers that a call returns, in the order in which they are checked, each only where it applies; Room is checked after Book, and Halted directly
 * after Unknown. */
#define STRINGMOSS_DONE 0            /* nothing is refused */
#define STRINGMOSS_REFUSED_BOOK 1    /* the book is not sound: another length, a row neither free nor in range, or an instrument that stands twice */
#define STRINGMOSS_REFUSED_RANGE 2   /* a value is outside its range or pairing, or there are too few or too many; on opening, also a preliminary
                                        that is no multiple of h, or a last change after the last day */
#define STRINGMOSS_REFUSED_KNOWN 3   /* opening an instrument already open */
#define STRINGMOSS_REFUSED_FULL 4    /* opening with no free row */
#define STRINGMOSS_REFUSED_UNKNOWN 5 /* any other call on an instrument not open */
#define STRINGMOSS_REFUSED_STALE 6   /* the day is not later than the last day */
#define STRINGMOSS_REFUSED_MOVE 7    /* the move is above 1,000,000 millionths */
#define STRINGMOSS_REFUSED_EMPTY 8   /* the corridor, a share's or a bond's, holds no positive multiple of the tick */
#define STRINGMOSS_REFUSED_LINE 9    /* the sheet breaks its form */
#define STRINGMOSS_REFUSED_STEP 10   /* new parameters whose h does not divide the kept preliminary */
#define STRINGMOSS_REFUSED_ROOM 11   /* a lent output is too short; each function that gives it says when */
#define STRINGMOSS_REFUSED_HALTED 12 /* a day or a corridor, a share's or a bond's, of a halted instrument */

/* Lengths. */
#define STRINGMOSS_WIDTH 23      /* words of a row */
#define STRINGMOSS_ROWS 64       /* rows of a book */
#define STRINGMOSS_WORDS 1472    /* words of a book */
#define STRINGMOSS_PARAMETERS 13 /* parameters of a row, from alpha to M */
#define STRINGMOSS_SHEET 65536   /* most bytes of a sheet */
#define STRINGMOSS_TEXT 72416    /* most bytes that a run of any sheet on any book writes */
#define STRINGMOSS_EVENING 10375 /* most bytes of the evening sheet of any book */

/* The stack that a call may need, in bytes: what was measured on x86-64, rounded up. */
#define STRINGMOSS_STACK_INSTRUMENT 1024 /* an opening, a closing, new parameters, a halt, a day, its reasons or a corridor, a share's or a bond's */
#define STRINGMOSS_STACK_CALL 4096       /* each of these, or an evening sheet */
#define STRINGMOSS_STACK_SHEET 65536     /* the check or the run of a sheet */

/* The kept price that gave a day's move: the larger of the moves from the two, in whole millionths. */
#define STRINGMOSS_FROM_NEWER 1 /* the newer, also where both give the same */
#define STRINGMOSS_FROM_OLDER 2 /* the older, which alone gives so much */

/* The weight that a day's variance takes. */
#define STRINGMOSS_WEIGHT_UPPER 1 /* the upper: the square of the move exceeds the kept variance */
#define STRINGMOSS_WEIGHT_LOWER 2 /* the lower, in every other case */

/* The branch that a day's preliminary takes. */
#define STRINGMOSS_BRANCH_RISE 1 /* the candidate, which is at least the kept preliminary plus h */
#define STRINGMOSS_BRANCH_FALL 2 /* the kept preliminary less h: the candidate is not above that, and the no-fall period is over */
#define STRINGMOSS_BRANCH_KEPT 3 /* the kept preliminary, in every other case */

/* What sets a day's published margin: the first of these that holds. */
#define STRINGMOSS_SET_BY_NOT_MONITORED 1 /* the instrument is not monitored, and the margin is the least one as it stands */
#define STRINGMOSS_SET_BY_GREATEST 2      /* the greatest margin: it is the published one */
#define STRINGMOSS_SET_BY_LEAST 3         /* the least margin: rounded up to a multiple of h it is the published one */
#define STRINGMOSS_SET_BY_PRELIMINARY 4   /* the preliminary with its add-on, in every other case */

/* Where in a row each value stands, its unit and its range. Of parameters by themselves the first is alpha, so each stands one place lower. */
#define STRINGMOSS_AT_INSTRUMENT 0              /* number, 1 to 999,999,999 */
#define STRINGMOSS_AT_ALPHA 1                   /* thousandths, 1,000 to 4,000 */
#define STRINGMOSS_AT_UPPER_WEIGHT 2            /* ten-thousandths, 1 to 10,000 */
#define STRINGMOSS_AT_LOWER_WEIGHT 3            /* ten-thousandths, 1 to 10,000 */
#define STRINGMOSS_AT_STEP 4                    /* h, millionths, 1,000 to 100,000 */
#define STRINGMOSS_AT_NO_FALL 5                 /* n, calendar days, 0 to 250 */
#define STRINGMOSS_AT_HORIZON 6                 /* T, days, 1 to 10 */
#define STRINGMOSS_AT_LONG_HORIZON 7            /* L, days, 1 to 60 */
#define STRINGMOSS_AT_ADD_ON 8                  /* R, millionths, 0 to 1,000,000 */
#define STRINGMOSS_AT_LEAST_MARGIN 9            /* millionths, 0 to 1,000,000, not above the greatest */
#define STRINGMOSS_AT_GREATEST_MARGIN 10        /* millionths, 0 to 1,000,000 */
#define STRINGMOSS_AT_LEAST_CONCENTRATION 11    /* millionths, 0 to 1,000,000, not above the greatest */
#define STRINGMOSS_AT_GREATEST_CONCENTRATION 12 /* millionths, 0 to 1,000,000 */
#define STRINGMOSS_AT_MONITORED 13              /* M, 0 to 1 */
#define STRINGMOSS_AT_VARIANCE 14               /* V, square millionths, 0 to 1,000,000,000,000 */
#define STRINGMOSS_AT_PRELIMINARY 15            /* millionths, 0 to 4,100,000, a multiple of h */
#define STRINGMOSS_AT_MARGIN 16                 /* millionths, 0 to 1,000,000 */
#define STRINGMOSS_AT_CONCENTRATION 17          /* millionths, 0 to 1,000,000 */
#define STRINGMOSS_AT_LAST_CHANGE 18            /* day of the last change, day number, 0 to 999,999, not after the last day */
#define STRINGMOSS_AT_LAST_DAY 19               /* day number, 0 to 999,999 */
#define STRINGMOSS_AT_NEWER 20                  /* price units, 1 to 1,000,000,000 */
#define STRINGMOSS_AT_OLDER 21                  /* price units, 1 to 1,000,000,000 */
#define STRINGMOSS_AT_HALTED 22                 /* whether the instrument is halted, 0 to 1 */

/* The values of a day, of a corridor and of a bond, by the names of the arguments:
 *   day           day number, in calendar days, 0 to 999,999, later than the last day
 *   price         price units, 1 to 1,000,000,000
 *   m             non-trading days ahead, 0 to 30
 *   j             holidays between day T-2 and today, 0 to 30
 *   k             days, 0 to 365
 *   lower, upper  repo rates, hundredths of a percent a year, -10,000 to 50,000, lower not above upper
 *   shift         thousandths, 0 to 1,000
 *   x             thousandths, 1 to 10,000
 *   rise, fall    millionths, 0 to 1,000,000
 *   tick          price units, for a bond ten-thousandths of a percent point, 1 to 1,000,000
 *   face          face value of a bond, price units, 1 to 1,000,000,000
 *   carry         carry of a bond, price units, 0 to 1,000,000,000
 *   accrued       accrued interest of a bond, price units, 0 to 1,000,000,000
 * An instrument is in the range of its place in a row, also for a closing, for new parameters and for a halt; the halt is in that of
 * STRINGMOSS_AT_HALTED. */

/* Opens an instrument with the values of a row, into the lowest free row. A row of another length than STRINGMOSS_WIDTH is refused as RANGE. Returns
 * DONE, BOOK, RANGE, KNOWN or FULL. */
uint64_t stringmoss_open(uint64_t *book, size_t book_words, const uint64_t *row, size_t row_words);

/* Closes an instrument: its row becomes zeros and is used again. An instrument outside its range is refused as RANGE, one in range that is not open
 * as UNKNOWN. Returns DONE, BOOK, RANGE or UNKNOWN. */
uint64_t stringmoss_close(uint64_t *book, size_t book_words, uint64_t instrument);

/* Gives an instrument new parameters, from alpha to M; the other words of its row stay. Another number of them than STRINGMOSS_PARAMETERS is refused
 * as RANGE, and an h that does not divide the kept preliminary as STEP. Returns DONE, BOOK, RANGE, UNKNOWN or STEP. */
uint64_t stringmoss_set_parameters(uint64_t *book, size_t book_words, uint64_t instrument, const uint64_t *parameters, size_t parameter_count);

/* Halts an instrument, or ends its halt: the last word of its row becomes one or zero, and the other words stay. A halted instrument takes no day and
 * gives no reasons and no corridor, a share's or a bond's; it can be given new parameters and closed. The value that the word already has is taken
 * too. A value that is neither, or an instrument outside its range, is refused as RANGE, an instrument in range that is not open as UNKNOWN. Returns
 * DONE, BOOK, RANGE or UNKNOWN. */
uint64_t stringmoss_set_halt(uint64_t *book, size_t book_words, uint64_t instrument, uint64_t halt);

/* Gives an instrument a day: its number, the price, the non-trading days ahead m, and the holidays j between day T-2 and today. Hands out the
 * published margin and concentration and the preliminary rate in millionths, the variance in square millionths, the calendar days since the
 * preliminary last changed, none where this day changes it, and which kept price the move is from, FROM_NEWER or FROM_OLDER. A value outside its range
 * is refused as RANGE, any day of a halted instrument as HALTED, and a day that the instrument has had, or one before it, as STALE; all six numbers are
 * then zero. Returns DONE, BOOK, RANGE, UNKNOWN, HALTED, STALE or MOVE. */
uint64_t stringmoss_give_day(uint64_t *book, size_t book_words, uint64_t instrument, uint64_t day, uint64_t price, uint64_t m, uint64_t j,
                             uint64_t *margin, uint64_t *concentration, uint64_t *preliminary, uint64_t *variance, uint64_t *days, uint64_t *from);

/* Why a day that is about to be given would have its figures. Takes the values of the day, hands out the six numbers that the day would hand out, and
 * after them its reasons: the weight of its variance, WEIGHT_UPPER or WEIGHT_LOWER; one on a shock day, when the move is above the kept published
 * margin and j is at most one, else zero; the branch of its preliminary, BRANCH_RISE, BRANCH_FALL or BRANCH_KEPT; and what sets its published margin,
 * SET_BY_NOT_MONITORED, SET_BY_GREATEST, SET_BY_LEAST or SET_BY_PRELIMINARY. The book is only read. What the day would be refused for is refused here,
 * in the same order; all ten numbers are then zero. Returns DONE, BOOK, RANGE, UNKNOWN, HALTED, STALE or MOVE. */
uint64_t stringmoss_explain_day(const uint64_t *book, size_t book_words, uint64_t instrument, uint64_t day, uint64_t price, uint64_t m, uint64_t j,
                                uint64_t *margin, uint64_t *concentration, uint64_t *preliminary, uint64_t *variance, uint64_t *days, uint64_t *from,
                                uint64_t *weight, uint64_t *shock, uint64_t *branch, uint64_t *set_by);

/* The price corridor of a share: k days, the lower and upper repo rate, Shift, x, the greatest rise and fall, and the tick. Hands out the least
 * and the greatest positive multiple of the tick within. The book is only read. A value outside its range, or a lower rate above the upper, is
 * refused as RANGE, also where the instrument is not monitored, and any corridor of a halted one as HALTED; both prices are then zero. Returns DONE,
 * BOOK, RANGE, UNKNOWN, HALTED or EMPTY. */
uint64_t stringmoss_corridor_of(const uint64_t *book, size_t book_words, uint64_t instrument, uint64_t k, int64_t lower, int64_t upper, uint64_t shift,
                                uint64_t x, uint64_t rise, uint64_t fall, uint64_t tick, uint64_t *lowest, uint64_t *highest);

/* The price corridor of a bond, in percent of its face value. Takes the values of a share's corridor, and the face value, the carry and the accrued
 * interest in the unit of the kept price. The tick and both prices are in ten-thousandths of a percent point, of which a million are the face value.
 * Carry and accrued interest are taken off the bounds that come of the spread and the repo rates, not off those of the greatest rise and fall; so where
 * the instrument is not monitored, neither counts. Hands out the least and the greatest positive multiple of the tick within. The book is only read.
 * What a share's corridor is refused for is refused here, in the same order, and a face value, a carry or an accrued interest outside its range as
 * RANGE, also where the instrument is not monitored; both prices are then zero. Returns DONE, BOOK, RANGE, UNKNOWN, HALTED or EMPTY. */
uint64_t stringmoss_bond_corridor_of(const uint64_t *book, size_t book_words, uint64_t instrument, uint64_t k, int64_t lower, int64_t upper,
                                     uint64_t shift, uint64_t x, uint64_t rise, uint64_t fall, uint64_t tick, uint64_t face, uint64_t carry,
                                     uint64_t accrued, uint64_t *lowest, uint64_t *highest);

/* Checks the form of a sheet. Hands out the number of the first bad line, from one on, and where in the sheet it starts and how long it is, without
 * its LF; zeros for a good sheet. A sheet longer than STRINGMOSS_SHEET is refused as LINE with zeros; a line that should stand and does not, as the
 * first of an empty sheet, starts at the end of the sheet and is empty. Returns DONE or LINE. */
uint64_t stringmoss_check_sheet(const uint8_t *sheet, size_t sheet_bytes, uint64_t *line, uint64_t *start, uint64_t *length);

/* Runs a sheet on a book and writes a line for each row into the output: O instrument answer; D instrument day answer margin concentration
 * preliminary variance days from; C instrument k answer lowest highest. A refused row does not stop the next. Hands out the bad line as the check
 * does, and the length of the text, which lies within the output; bytes beyond it keep what they held. A sheet that breaks its form is refused as
 * LINE: nothing acts, and the text is L and the line's number. Where the book is sound and the output is shorter than STRINGMOSS_TEXT it is refused as
 * ROOM, whatever the sheet: nothing is written and nothing acts. Returns DONE, or BOOK, ROOM or LINE, checked in this order. */
uint64_t stringmoss_run_sheet(uint64_t *book, size_t book_words, const uint8_t *sheet, size_t sheet_bytes, uint8_t *out, size_t out_bytes,
                              uint64_t *line, uint64_t *start, uint64_t *length, uint64_t *written);

/* Writes the evening sheet of a book into the output: the morning sheet that opens the instruments of its used rows, in row order and with their values
 * as they stand, and has no day and no corridor. Run on an empty book it leaves the same rows with the gaps between them closed; where no free row
 * stands before a used one, the same book, word for word. Hands out the length of the sheet; bytes beyond it keep what they held. The book is only
 * read. An output shorter than the sheet is refused as ROOM, and one of STRINGMOSS_EVENING bytes never is; where it is refused nothing is written and
 * the length is zero. Returns DONE, or BOOK or ROOM, checked in this order. */
uint64_t stringmoss_evening_sheet(const uint64_t *book, size_t book_words, uint8_t *out, size_t out_bytes, uint64_t *written);

#ifdef __cplusplus
}
#endif

#endif
