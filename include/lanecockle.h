/* Lanecockle for C: HUB3 payment slips, their standing text, wage files of 300/301/309/399 lines, wet slips, check digits.
 *
 * Link with liblanecockle, static or shared (`make install`; in the project target/staticlib/libdesk.a, which
 * `callers/library` writes). The library is proved: whatever numbers and bytes
 * a caller lends, every call answers and ends, keeps nothing, allocates nothing and has no state of its own, so any number
 * of threads may call it.
 *
 * What a caller sees to, and no proof can:
 *   - a pointer with its length is memory that may be read (`const`) or written (`out`) for that many elements; where the
 *     length is 0 the pointer is not followed;
 *   - `tally`, which has no length, points to one tally, which may be read and written: it is not NULL;
 *   - what is lent as `out` or `tally` overlaps nothing else that is lent meanwhile, to the same call or to another;
 *   - `size_t` has 64 bits, as on the machines that the library is built for.
 *
 * What a call never does: write to what is lent as `const`; write to `out` at all where it refuses; write to `out` behind
 * what it says it wrote; leave a byte of `tally` other than it was where it refuses.
 *
 * Text is bytes, not a C string: no call looks for a 0 at the end. */
#ifndef LANECOCKLE_H
#define LANECOCKLE_H

#include <stddef.h>
#include <stdint.h>

/* The version of this header; lanecockle_version() is that of the library that a program runs with. */
#define LANECOCKLE_VERSION "2.0.0"
#define LANECOCKLE_VERSION_NUMBER 20000

#ifdef __cplusplus
extern "C" {
#endif

/* ---------------------------------------------------------------------------------------------------------------------
 * Answers
 *
 * `number` is 0 where all is right, and otherwise one refusal. Lines and fields count from 1, bytes from 0 in the slip or
 * in the line of the wage file; 0 stands for "none". `needed` is told for 15 alone.
 *
 * For 3, `byte` is the first offending byte; otherwise the field's first byte. 1, 2, 10, 12, 13, 14, 15, 17, 20, 28 and
 * 29 have field 0 and byte 0. A wrong type of line is 5 with field 0 and byte 997. For 20, `line` is a line of a sheet. */
enum {
    LANECOCKLE_ACCEPTED = 0,
    LANECOCKLE_SIZE = 1,        /* wrong size of the whole input or line */
    LANECOCKLE_ENDS = 2,        /* line ends wrong: a slip has not exactly fourteen LF with one last; a file line lacks CR LF */
    LANECOCKLE_BYTE = 3,        /* a byte that the field does not permit */
    LANECOCKLE_LENGTH = 4,      /* field too long or not of its fixed length */
    LANECOCKLE_FORM = 5,        /* field not a required word, form or code */
    LANECOCKLE_CHECK = 6,       /* IBAN or OIB check fails */
    LANECOCKLE_MODEL = 7,       /* model not handled */
    LANECOCKLE_PARTS = 8,       /* reference: wrong number or lengths of parts */
    LANECOCKLE_DIGIT = 9,       /* reference: check digit fails */
    LANECOCKLE_MISPLACED = 10,  /* line type out of place */
    LANECOCKLE_DATE = 11,       /* not a date, or not in the required relation to today */
    LANECOCKLE_ORDERS = 12,     /* number of orders differs */
    LANECOCKLE_SUM = 13,        /* sum differs */
    LANECOCKLE_UNFINISHED = 14, /* file ended before its 399 line */
    LANECOCKLE_ROOM = 15,       /* no room; the needed number is told */
    LANECOCKLE_MARKS = 16,      /* more than four unreadable digits */
    LANECOCKLE_BEYOND = 17,     /* line beyond 1,000,000 */
    LANECOCKLE_SHEET = 20,      /* sheet line malformed */
    LANECOCKLE_FIELD = 28,      /* a field number other than 4 to 9, 13 and 14 */
    LANECOCKLE_OVERFULL = 29    /* the line would leave the lent tally beyond 1,000,000 groups or orders, or at 10^21 cents or more */
};

/* An answer. */
typedef struct {
    size_t number;
    size_t line;
    size_t field;
    size_t byte;
    size_t needed;
} lanecockle_told;

/* An answer with a value, which is 0 where the answer is a refusal. */
typedef struct {
    lanecockle_told told;
    size_t value;
} lanecockle_valued;

/* Exact cents: `high` times 10^18, and `low`. */
typedef struct {
    uint64_t high;
    uint64_t low;
} lanecockle_cents;

/* What a wage file comes to: its counts, and in `total` what all its orders come to; all of these are 0 where it is
 * refused. */
typedef struct {
    lanecockle_told told;
    size_t lines;
    size_t groups;
    size_t orders;
    lanecockle_cents total;
} lanecockle_ended;

/* A part of the lent bytes: `length` bytes from `start`, counted from 0. No part is 0 and 0. */
typedef struct {
    size_t start;
    size_t length;
} lanecockle_part;

/* The version of the library, as LANECOCKLE_VERSION_NUMBER has that of the header: 10,000 times the first number, 100 times
 * the second, the third. */
uint32_t lanecockle_version(void);

/* ---------------------------------------------------------------------------------------------------------------------
 * Check digits, accounts, references. None of these writes anywhere. */

/* The rules of check digits. */
enum { LANECOCKLE_INI = 0, LANECOCKLE_MOD_11_10 = 1 };

/* Whether one to 22 digits end in their check digit. Refusals: 5 (no such rule), 1 (another length), 3 (not a digit), 9;
 * none tells a place. */
lanecockle_told lanecockle_check_digits(uint32_t rule, const uint8_t *digits, size_t length);

/* The check digit of one to nineteen digits, 0 to 9, as `value`. Refusals: 5 (no such rule), 1, 3; none tells a place. */
lanecockle_valued lanecockle_make_digit(uint32_t rule, const uint8_t *digits, size_t length);

/* An IBAN: `HR` and nineteen digits. Refusals: 3 with its byte, 4, 5, 6. */
lanecockle_told lanecockle_iban(const uint8_t *text, size_t length);

/* An OIB: eleven digits. Refusals: 3 with its byte, 4, 6. */
lanecockle_told lanecockle_oib(const uint8_t *text, size_t length);

/* A reference under its model, `HR` and two digits. Refusals, in this order: 5 (not `HR` and two digits) and 7 of the model;
 * 3 with its byte, 4, 8, 5, 9 of the reference. That last 5 is of HR69 alone, with three parts: the first is not `40002`, or
 * the third no code of a kind of personal income. Like the model's it tells no place: where the model is `HR` and two digits,
 * 5 is of the reference. */
lanecockle_told lanecockle_reference(const uint8_t *model, size_t model_length, const uint8_t *text, size_t text_length);

/* ---------------------------------------------------------------------------------------------------------------------
 * Wet slips: `?` stands for an unreadable digit
 *
 * The digits filled in, read from left to right, are a number of as many digits; `out` receives the numbers of all
 * fillings that the rules accept, each once, ascending, and `value` is how many. Nothing in `out` behind them changes. 10,000
 * entries are always enough. Too little room is 15, with the count in `needed` and nothing written. No refusal tells a
 * place. */

/* Refusals: 1 (not 21 bytes), 3 (not `HR` and then digits or `?`), 16, 15. */
lanecockle_valued lanecockle_list_iban(const uint8_t *text, size_t length, uint16_t *out, size_t room);

/* Refusals: 1 (above 22 bytes), 3 (not digit, hyphen or `?`), 16, 5 and 7 of the model, 15. A filling that
 * lanecockle_reference refuses is not listed: of `40002-12345678903-10?` under HR69 only 0 is. */
lanecockle_valued lanecockle_list_reference(const uint8_t *model, size_t model_length, const uint8_t *text,
                                            size_t text_length, uint16_t *out, size_t room);

/* Writes `text` with its marks filled by the digits of `number` at the front of `out`, `length` bytes, and nothing behind
 * them. Too little room is 15. */
lanecockle_told lanecockle_filled(const uint8_t *text, size_t length, uint16_t number, uint8_t *out, size_t room);

/* ---------------------------------------------------------------------------------------------------------------------
 * Slips */

/* A slip, the bytes of its barcode. Refusals: 1 (above 483 bytes), 2, then the first of its fourteen fields, 3 to 9, with
 * field and byte. Writes nowhere. */
lanecockle_told lanecockle_slip_read(const uint8_t *slip, size_t length);

/* Where field 4 to 14 of an accepted slip stands; no part for another number or a refused slip. Writes nowhere. */
lanecockle_part lanecockle_slip_field(const uint8_t *slip, size_t length, size_t number);

/* The amount of an accepted slip in cents as `value`, or the slip's refusal. Writes nowhere. */
lanecockle_valued lanecockle_slip_cents(const uint8_t *slip, size_t length);

/* Writes a slip at the front of `out`; `value` is how many bytes. The fields 4 to 14 stand one behind the other in `text`;
 * sizes[0] to sizes[10] are their bytes. A size that is not there is 0, and sizes beyond the eleventh are not read. The
 * eleven must add up to `text_length`: where one runs past the end of `text`, or a byte is left over, the call is refused
 * with 1, at no place and before all else. Refusals then: those of lanecockle_slip_read for the fields 3 to 14 (10^15 cents
 * or more are 4), the byte of a 3 counted within its field and 0 otherwise; then 15 with the needed number of bytes. 483
 * bytes are always enough. */
lanecockle_valued lanecockle_slip_write(uint64_t cents, const uint8_t *text, size_t text_length, const size_t *sizes,
                                        size_t count, uint8_t *out, size_t room);

/* ---------------------------------------------------------------------------------------------------------------------
 * Standing text for slips
 *
 * A sheet is lines `number=text`, each ended by LF: the number of a field, 4 to 9, 13 or 14, without a leading zero, above
 * that of the line before, and a text that the field permits, which may be empty. A sheet of no bytes is right. There are
 * two, the farm's and the association's: a line of the farm's goes before, even if its text is empty.
 *
 * Both sheets are judged whole, whatever is asked. 20 is the first malformed line of the farm's sheet or, where that has
 * none, of the association's, with its number in its own sheet. Of two lines out of order, or with one number, the second is
 * malformed; bytes behind the last LF are a malformed line. */

/* Whose sheet. */
enum { LANECOCKLE_NO_SHEET = 0, LANECOCKLE_FARM = 1, LANECOCKLE_ASSOCIATION = 2 };

/* A standing text. `sheet` is the one that supplied it, and for 20 the one that has the malformed line; LANECOCKLE_NO_SHEET
 * where neither has a line, and for 28. The text is `length` bytes from `start` in that sheet, counted from 0; 0 and 0 where
 * there is none: where neither has a line, for 20 and for 28. */
typedef struct {
    lanecockle_told told;
    size_t sheet;
    size_t start;
    size_t length;
} lanecockle_standing;

/* The standing text of a field: the farm's where its sheet has a line of that number, else the association's, else none.
 * Refusals: 28 (a field other than 4 to 9, 13 and 14), then 20. Writes nowhere. */
lanecockle_standing lanecockle_standing_text(size_t field, const uint8_t *farm, size_t farm_length,
                                             const uint8_t *association, size_t association_length);

/* How many bytes were written, as `value`, 0 where the answer is a refusal. `sheet` is the one that has the malformed line
 * for 20, and LANECOCKLE_NO_SHEET otherwise. */
typedef struct {
    lanecockle_told told;
    size_t value;
    size_t sheet;
} lanecockle_standing_written;

/* Writes a slip as lanecockle_slip_write does, but each of the fields 4 to 9, 13 and 14 that is given empty is what
 * lanecockle_standing_text answers for it. Refusals: 1 where the eleven sizes are not together `text_length`; 20, also where
 * no field is taken from a sheet; then the others of lanecockle_slip_write. 483 bytes are always enough. */
lanecockle_standing_written lanecockle_slip_write_standing(uint64_t cents, const uint8_t *text, size_t text_length,
                                                           const size_t *sizes, size_t count, const uint8_t *farm,
                                                           size_t farm_length, const uint8_t *association,
                                                           size_t association_length, uint8_t *out, size_t room);

/* ---------------------------------------------------------------------------------------------------------------------
 * Slips of either currency, for the ledgers
 *
 * A kuna slip, printed before 2023, has `HRK` in field 2, its amount in lipa, and in field 10 an IBAN or, where that begins
 * with a digit, an account: seven digits, a hyphen and ten digits. All else is as in a euro slip. The calls above take euro
 * slips alone: to them a kuna slip is 5 at field 2, and none of them gives its amount. Cents and lipa are two units: no call
 * adds them, and no caller should. None of these calls writes anywhere. */

/* The currency of a slip; none where it is refused. */
enum { LANECOCKLE_NO_CURRENCY = 0, LANECOCKLE_EURO = 1, LANECOCKLE_KUNA = 2 };

/* An answer with the currency of a slip and its amount in its own unit. All but `told` is 0 where the slip is refused. */
typedef struct {
    lanecockle_told told;
    size_t currency;    /* LANECOCKLE_EURO or LANECOCKLE_KUNA */
    uint64_t cents;     /* the amount of a euro slip; 0 for a kuna slip */
    uint64_t lipa;      /* the amount of a kuna slip; 0 for a euro slip */
    uint64_t converted; /* the amount of a kuna slip in cents, as lanecockle_lipa_in_cents gives it; 0 for a euro slip */
} lanecockle_ledger;

/* A slip of either currency. Refusals: those of lanecockle_slip_read, with field 10 of a kuna slip judged by its own rule: an
 * account permits A to Z, digits and hyphens (3), has 18 bytes (4) and its form (5), and has no check. A currency that is
 * neither `EUR` nor `HRK` is 5 at field 2. */
lanecockle_ledger lanecockle_ledger_read(const uint8_t *slip, size_t length);

/* Where field 4 to 14 of an accepted slip of either currency stands; no part for another number or a refused slip. */
lanecockle_part lanecockle_ledger_field(const uint8_t *slip, size_t length, size_t number);

/* Any number of lipa in cents, at 7.53450 kuna for a euro: the nearest number of cents, exactly. No number lies halfway. */
uint64_t lanecockle_lipa_in_cents(uint64_t lipa);

/* ---------------------------------------------------------------------------------------------------------------------
 * Wage files judged
 *
 * A file is lines of 1,002 bytes, CR LF the last two. Whole in memory: lanecockle_wage_file. Line by line: begin, step for
 * each line, end. The day of submission is a number, YYYYMMDD. */

/* The judge's record, plain data: keep it, copy it, store it. `condition` is 0 fresh, 1 after the label, 2 inside a group,
 * 3 closed, 4 refused; the refusal is then `told`, and `told.number` is 0 in the others. `lines`, `groups` and `orders` are
 * those read so far, `file_total` what all these orders came to; `declared` and `promised` are the orders and the sum that
 * the group declares, `counted` and `total` what its own orders came to. A record that the judge did not make gets an answer
 * as well: 17 at line 1,000,001, at a step or the end, for a condition above 4, and in one that has not refused for a count
 * above 1,000,000, a sum of the group of 10^20 or more, or a `file_total` of 10^21 or more; an order that brings it there
 * leaves it at 1000 and 0, and 17 comes behind that order. In condition 4 the numbers 1 to 17, 20, 28 and 29 are kept and any
 * other stands for 17, at the place told, and `needed` counts for 15 alone; in the others `told` is not read. */
typedef struct {
    size_t condition;
    lanecockle_told told;
    uint64_t day;
    uint64_t kind;
    size_t lines;
    size_t groups;
    size_t orders;
    lanecockle_cents file_total;
    uint64_t declared;
    lanecockle_cents promised;
    uint64_t counted;
    lanecockle_cents total;
} lanecockle_record;

enum {
    LANECOCKLE_FRESH = 0,
    LANECOCKLE_LABELLED = 1,
    LANECOCKLE_GROUPED = 2,
    LANECOCKLE_CLOSED = 3,
    LANECOCKLE_REFUSED = 4
};

/* A fresh judge; refused with 11 where the day is not a date of 2023 to 9999. */
lanecockle_record lanecockle_judge_begin(uint64_t day);

/* The record after one line of whatever size. A refused record keeps its refusal. */
lanecockle_record lanecockle_judge_step(lanecockle_record record, const uint8_t *line, size_t length);

/* The record after the lines of a part of a file: pieces of 1,002 bytes, of which the last may be short (1). */
lanecockle_record lanecockle_judge_lines(lanecockle_record record, const uint8_t *bytes, size_t length);

/* What the file comes to: its counts and its total, its first refusal, or 14 at the next line where the 399 was not read. */
lanecockle_ended lanecockle_judge_end(lanecockle_record record);

/* A whole file: begin, lanecockle_judge_lines and end in one call. */
lanecockle_ended lanecockle_wage_file(uint64_t day, const uint8_t *bytes, size_t length);

/* A tally of what was read, plain data: groups, orders, and what these orders came to. Begin it with zeros. */
typedef struct {
    size_t groups;
    size_t orders;
    lanecockle_cents total;
} lanecockle_tally;

/* The record after one line, as lanecockle_judge_step gives it, and the lent tally brought up to date in place: by a 301 that
 * is taken one group is added, by a 309 one order and its amount, by a 300 and a 399 nothing. So a tally that was begun with
 * zeros beside a fresh judge holds after each line what adding up all that was read so far would give, with no line read
 * twice. One tally may go through several files, a fresh judge for each, and is then the sum over them.
 *
 * A line that is refused leaves every byte of the tally as it was. Refusals: those of lanecockle_judge_step; then 29, with
 * the line's number, where the tally would come to more than 1,000,000 groups or orders, or to 10^21 cents or more. The
 * record is then refused, all else in it as before the line, so each step and the end give 29 again. A file that is read
 * with a tally begun with zeros never meets 29; a tally that was lent beyond these limits gets it for every line that is
 * right, a 300 and a 399 too. `total` may be any two numbers: they are taken by the cents that they stand for, and an order
 * leaves them with `low` below 10^18. */
lanecockle_record lanecockle_judge_step_tally(lanecockle_record record, const uint8_t *line, size_t length,
                                              lanecockle_tally *tally);

/* Where a place stands in its line of 1,002 bytes, by the field number of the layout tables: 1 to 8 of a 300, 1 to 7 of a
 * 301, 1, 2, 5 to 12 and 18 to 23 of a 309. No part for another number, or where 1, 2 or 5 (type) refuses the line. */
lanecockle_part lanecockle_wage_place(const uint8_t *line, size_t length, size_t field);

/* ---------------------------------------------------------------------------------------------------------------------
 * Wage lines written
 *
 * Each call writes one line, 1,002 bytes with its CR LF, at the front of `out`, and nothing behind it. The fields stand one
 * behind the other in `text`, each the bytes of its positions; `sizes` are their bytes, `count` how many sizes there are. A
 * size that is not there is 0, and sizes beyond the last field are not read; those of the fields must add up to
 * `text_length`. Refusals, in this order, line 0 unless told: 1 where a size runs past the end of `text` or a byte is left
 * over; 11 for the day; 5 with field 0 for a kind that is not 4 or 5; those of a 301's orders; the judge's for the fields, 4
 * (another length) first in each; 15 with 1,002 where the room is less. */

/* A 300: eight fields, 1 to 8. */
lanecockle_told lanecockle_write_label(uint64_t day, const uint8_t *text, size_t text_length, const size_t *sizes,
                                       size_t count, uint8_t *out, size_t room);

/* A 309: sixteen fields, 1, 2, 5 to 12 and 18 to 23. */
lanecockle_told lanecockle_write_order(uint64_t day, uint64_t kind, const uint8_t *text, size_t text_length,
                                       const size_t *sizes, size_t count, uint8_t *out, size_t room);

/* A 301: five fields, 1 to 4 and 7; 5 and 6, the number of orders and their sum, are worked out from `orders`, the group's
 * 309 lines one behind the other. Refusals of these: 1 if they are not whole lines, 10 if there are none, 12 above 99,999,
 * then the first refusal in them, 10 for another type, with its line in the group. */
lanecockle_told lanecockle_write_group(uint64_t day, uint64_t kind, const uint8_t *text, size_t text_length,
                                       const size_t *sizes, size_t count, const uint8_t *orders, size_t orders_length,
                                       uint8_t *out, size_t room);

/* A 399, which has no fields. */
lanecockle_told lanecockle_write_closing(uint64_t day, uint8_t *out, size_t room);

#ifdef __cplusplus
}
#endif

#endif
