/* Test of the C interface: every function of include/lanecockle.h, its answers in all five numbers, and what becomes of
 * the lent memory. What is lent is a block of its own of exactly its size, so that valgrind sees a byte too many. */
#include <stdio.h>
#include <stdlib.h>
#include <string.h>

#include "lanecockle.h"

/* ---------------------------------------------------------------------------------------------------------------------
 * Checks */

static unsigned checks, failures;

static void check(int holds, const char *what, int line)
{
    checks++;
    if (!holds) {
        failures++;
        printf("c/test.c:%d: failed: %s\n", line, what);
    }
}

#define CHECK(what) check((what), #what, __LINE__)

static void check_told(lanecockle_told told, size_t number, size_t line, size_t field, size_t byte, size_t needed,
                       const char *what, int at)
{
    int same = told.number == number && told.line == line && told.field == field && told.byte == byte
               && told.needed == needed;
    check(same, what, at);
    if (!same) {
        printf("    told %zu line %zu field %zu byte %zu needed %zu\n", told.number, told.line, told.field, told.byte,
               told.needed);
    }
}

/* An answer by its five numbers: number, line, field, byte, needed. */
#define TOLD(call, number, line, field, byte, needed) \
    check_told((call), (number), (line), (field), (byte), (needed), #call, __LINE__)

/* Acceptance, and a refusal without a place. */
#define ACCEPTED(call) TOLD(call, 0, 0, 0, 0, 0)
#define REFUSED(call, number) TOLD(call, number, 0, 0, 0, 0)

static void check_value(lanecockle_valued valued, size_t value, const char *what, int at)
{
    check_told(valued.told, 0, 0, 0, 0, 0, what, at);
    check(valued.value == value, what, at);
}

/* Acceptance with a value, and a refusal, whose value is 0. */
#define VALUE(call, value) check_value((call), (value), #call, __LINE__)

static void check_no_value(lanecockle_valued valued, size_t number, size_t field, size_t byte, size_t needed,
                           const char *what, int at)
{
    check_told(valued.told, number, 0, field, byte, needed, what, at);
    check(valued.value == 0, what, at);
}

#define NO_VALUE(call, number, field, byte, needed) \
    check_no_value((call), (number), (field), (byte), (needed), #call, __LINE__)

static void check_part(lanecockle_part part, size_t start, size_t length, const char *what, int at)
{
    check(part.start == start && part.length == length, what, at);
}

#define PART(call, start, length) check_part((call), (start), (length), #call, __LINE__)

static int is_cents(lanecockle_cents cents, uint64_t high, uint64_t low)
{
    return cents.high == high && cents.low == low;
}

static void check_ended(lanecockle_ended ended, size_t lines, size_t groups, size_t orders, uint64_t cents,
                        const char *what, int at)
{
    check_told(ended.told, 0, 0, 0, 0, 0, what, at);
    check(ended.lines == lines && ended.groups == groups && ended.orders == orders, what, at);
    check(is_cents(ended.total, 0, cents), what, at);
}

/* Acceptance with the counts and the total, which is below 10^18; a refusal, which has neither. */
#define COUNTS(call, lines, groups, orders, cents) \
    check_ended((call), (lines), (groups), (orders), (cents), #call, __LINE__)

static void check_unended(lanecockle_ended ended, size_t number, size_t line, size_t field, size_t byte, const char *what,
                          int at)
{
    check_told(ended.told, number, line, field, byte, 0, what, at);
    check(ended.lines == 0 && ended.groups == 0 && ended.orders == 0 && is_cents(ended.total, 0, 0), what, at);
}

#define NO_COUNTS(call, number, line, field, byte) \
    check_unended((call), (number), (line), (field), (byte), #call, __LINE__)

static int holds_amounts(lanecockle_ledger ledger, size_t currency, uint64_t cents, uint64_t lipa, uint64_t converted)
{
    return ledger.currency == currency && ledger.cents == cents && ledger.lipa == lipa && ledger.converted == converted;
}

static void check_ledger(lanecockle_ledger ledger, size_t currency, uint64_t cents, uint64_t lipa, uint64_t converted,
                         const char *what, int at)
{
    check_told(ledger.told, 0, 0, 0, 0, 0, what, at);
    check(holds_amounts(ledger, currency, cents, lipa, converted), what, at);
}

/* A euro slip with its cents, a kuna slip with its lipa and these in cents; each has nothing of the other. */
#define EURO(call, cents) check_ledger((call), LANECOCKLE_EURO, (cents), 0, 0, #call, __LINE__)
#define KUNA(call, lipa, converted) check_ledger((call), LANECOCKLE_KUNA, 0, (lipa), (converted), #call, __LINE__)

static void check_no_ledger(lanecockle_ledger ledger, size_t number, size_t field, size_t byte, const char *what, int at)
{
    check_told(ledger.told, number, 0, field, byte, 0, what, at);
    check(holds_amounts(ledger, LANECOCKLE_NO_CURRENCY, 0, 0, 0), what, at);
}

/* A refusal, which has no currency and no amount. */
#define NO_LEDGER(call, number, field, byte) check_no_ledger((call), (number), (field), (byte), #call, __LINE__)

static void check_standing(lanecockle_standing standing, size_t number, size_t line, size_t sheet, size_t start,
                           size_t length, const char *what, int at)
{
    int same = standing.sheet == sheet && standing.start == start && standing.length == length;
    check_told(standing.told, number, line, 0, 0, 0, what, at);
    check(same, what, at);
    if (!same) {
        printf("    sheet %zu start %zu length %zu\n", standing.sheet, standing.start, standing.length);
    }
}

/* A text and the sheet that supplied it; no text; a malformed line and its sheet; a field that has no standing text. */
#define STANDS(call, sheet, start, length) check_standing((call), 0, 0, (sheet), (start), (length), #call, __LINE__)
#define NO_TEXT(call) STANDS(call, LANECOCKLE_NO_SHEET, 0, 0)
#define MALFORMED(call, sheet, line) check_standing((call), LANECOCKLE_SHEET, (line), (sheet), 0, 0, #call, __LINE__)
#define NO_FIELD(call) check_standing((call), LANECOCKLE_FIELD, 0, LANECOCKLE_NO_SHEET, 0, 0, #call, __LINE__)

/* ---------------------------------------------------------------------------------------------------------------------
 * Lent memory */

enum { BLOCKS = 1024 };

static void *blocks[BLOCKS];
static size_t block_count;

/* A block of exactly this size, given back at the end. */
static void *block(size_t size)
{
    void *made = malloc(size);
    if (made == NULL || block_count == BLOCKS) {
        printf("c/test.c: no memory\n");
        exit(1);
    }
    blocks[block_count++] = made;
    return made;
}

static void give_back(void)
{
    while (block_count > 0) {
        free(blocks[--block_count]);
    }
}

/* A text as bytes of their own; nothing at all is NULL. */
static const uint8_t *bytes_of(const char *text)
{
    size_t length = strlen(text);
    return length == 0 ? NULL : memcpy(block(length), text, length);
}

/* A text as the two arguments of a call. */
#define T(text) bytes_of(text), strlen(text)

/* Lent room of 1,100 bytes: more than any call but the listings writes. */
enum { ROOM = 1100, MARK = 0xA5 };

static uint8_t *fresh_room(void)
{
    return memset(block(ROOM), MARK, ROOM);
}

/* Whether the room is untouched from a byte on. */
static int is_untouched(const uint8_t *room, size_t from)
{
    size_t i;
    for (i = from; i < ROOM; i++) {
        if (room[i] != MARK) {
            return 0;
        }
    }
    return 1;
}

/* ---------------------------------------------------------------------------------------------------------------------
 * The version */

static void test_version(void)
{
    unsigned number = LANECOCKLE_VERSION_NUMBER;
    char text[36];
    CHECK(lanecockle_version() == LANECOCKLE_VERSION_NUMBER);
    snprintf(text, sizeof text, "%u.%u.%u", number / 10000, number / 100 % 100, number % 100);
    CHECK(strcmp(text, LANECOCKLE_VERSION) == 0);
}

/* ---------------------------------------------------------------------------------------------------------------------
 * Check digits, accounts, references */

static void test_check_digits(void)
{
    ACCEPTED(lanecockle_check_digits(LANECOCKLE_INI, T("102305789016")));
    ACCEPTED(lanecockle_check_digits(LANECOCKLE_INI, T("0")));
    ACCEPTED(lanecockle_check_digits(LANECOCKLE_INI, T("0000000000000000000000")));
    ACCEPTED(lanecockle_check_digits(LANECOCKLE_MOD_11_10, T("2340009")));
    ACCEPTED(lanecockle_check_digits(LANECOCKLE_MOD_11_10, T("12345678903")));
    REFUSED(lanecockle_check_digits(LANECOCKLE_INI, T("102305789017")), LANECOCKLE_DIGIT);
    REFUSED(lanecockle_check_digits(LANECOCKLE_INI, T("2340009")), LANECOCKLE_DIGIT);
    REFUSED(lanecockle_check_digits(LANECOCKLE_MOD_11_10, T("334445556669")), LANECOCKLE_DIGIT);
    REFUSED(lanecockle_check_digits(LANECOCKLE_INI, NULL, 0), LANECOCKLE_SIZE);
    REFUSED(lanecockle_check_digits(LANECOCKLE_MOD_11_10, NULL, 0), LANECOCKLE_SIZE);
    REFUSED(lanecockle_check_digits(LANECOCKLE_INI, T("00000000000000000000000")), LANECOCKLE_SIZE);
    REFUSED(lanecockle_check_digits(LANECOCKLE_INI, T("1x")), LANECOCKLE_BYTE);
    REFUSED(lanecockle_check_digits(LANECOCKLE_MOD_11_10, T("1:")), LANECOCKLE_BYTE);
    REFUSED(lanecockle_check_digits(2, T("0")), LANECOCKLE_FORM);
    REFUSED(lanecockle_check_digits(UINT32_MAX, NULL, 0), LANECOCKLE_FORM);
}

static void test_make_digit(void)
{
    VALUE(lanecockle_make_digit(LANECOCKLE_INI, T("10230578901")), 6);
    VALUE(lanecockle_make_digit(LANECOCKLE_INI, T("14")), 0);
    VALUE(lanecockle_make_digit(LANECOCKLE_INI, T("1")), 9);
    VALUE(lanecockle_make_digit(LANECOCKLE_MOD_11_10, T("234000")), 9);
    VALUE(lanecockle_make_digit(LANECOCKLE_MOD_11_10, T("1234567890")), 3);
    NO_VALUE(lanecockle_make_digit(LANECOCKLE_INI, NULL, 0), LANECOCKLE_SIZE, 0, 0, 0);
    NO_VALUE(lanecockle_make_digit(LANECOCKLE_INI, T("00000000000000000000")), LANECOCKLE_SIZE, 0, 0, 0);
    NO_VALUE(lanecockle_make_digit(LANECOCKLE_MOD_11_10, T("12-3")), LANECOCKLE_BYTE, 0, 0, 0);
    NO_VALUE(lanecockle_make_digit(2, T("1")), LANECOCKLE_FORM, 0, 0, 0);
}

static void test_iban(void)
{
    ACCEPTED(lanecockle_iban(T("HR1210010051863000160")));
    ACCEPTED(lanecockle_iban(T("HR7023400091510946338")));
    ACCEPTED(lanecockle_iban(T("HR9810010051863000067")));
    REFUSED(lanecockle_iban(T("HR1310010051863000160")), LANECOCKLE_CHECK);
    /* the remainder is 1 in these three, but the check digits are not in 02 to 98 */
    REFUSED(lanecockle_iban(T("HR0010010051863000085")), LANECOCKLE_CHECK);
    REFUSED(lanecockle_iban(T("HR0110010051863000067")), LANECOCKLE_CHECK);
    REFUSED(lanecockle_iban(T("HR9910010051863000049")), LANECOCKLE_CHECK);
    REFUSED(lanecockle_iban(T("hR1210010051863000160")), LANECOCKLE_BYTE);
    TOLD(lanecockle_iban(T("HR12 10010051863000160")), LANECOCKLE_BYTE, 0, 0, 4, 0);
    REFUSED(lanecockle_iban(T("HR121001005186300016")), LANECOCKLE_LENGTH);
    REFUSED(lanecockle_iban(NULL, 0), LANECOCKLE_LENGTH);
    REFUSED(lanecockle_iban(T("SI1210010051863000160")), LANECOCKLE_FORM);
}

static void test_oib(void)
{
    ACCEPTED(lanecockle_oib(T("12345678903")));
    REFUSED(lanecockle_oib(T("12345678904")), LANECOCKLE_CHECK);
    REFUSED(lanecockle_oib(T("1234567890")), LANECOCKLE_LENGTH);
    REFUSED(lanecockle_oib(NULL, 0), LANECOCKLE_LENGTH);
    TOLD(lanecockle_oib(T("1234567890x")), LANECOCKLE_BYTE, 0, 0, 10, 0);
}

static void test_reference(void)
{
    ACCEPTED(lanecockle_reference(T("HR69"), T("40002-12345678903-100")));
    ACCEPTED(lanecockle_reference(T("HR01"), T("7269-68499637766-00011")));
    ACCEPTED(lanecockle_reference(T("HR01"), T("0")));
    ACCEPTED(lanecockle_reference(T("HR99"), NULL, 0));
    REFUSED(lanecockle_reference(T("HR69"), T("40003-12345678903")), LANECOCKLE_DIGIT);
    REFUSED(lanecockle_reference(T("HR01"), T("7269-68499637766-00019")), LANECOCKLE_DIGIT);
    REFUSED(lanecockle_reference(T("HR01"), T("1")), LANECOCKLE_DIGIT);
    REFUSED(lanecockle_reference(T("HR69"), T("40002")), LANECOCKLE_PARTS);
    REFUSED(lanecockle_reference(T("HR00"), NULL, 0), LANECOCKLE_PARTS);
    REFUSED(lanecockle_reference(T("HR99"), T("1")), LANECOCKLE_PARTS);
    REFUSED(lanecockle_reference(T("HR01"), T("12345678901-12345678901")), LANECOCKLE_LENGTH);
    REFUSED(lanecockle_reference(T("HR69"), T("40002-12345678903-100-1")), LANECOCKLE_LENGTH);
    TOLD(lanecockle_reference(T("HR01"), T("12a")), LANECOCKLE_BYTE, 0, 0, 2, 0);
    REFUSED(lanecockle_reference(T("HR12"), T("1")), LANECOCKLE_MODEL);
    REFUSED(lanecockle_reference(T("HRx1"), T("a")), LANECOCKLE_FORM);
    REFUSED(lanecockle_reference(NULL, 0, NULL, 0), LANECOCKLE_FORM);
}

/* ---------------------------------------------------------------------------------------------------------------------
 * Wet slips */

/* Room for a listing, each entry a mark that no filling of fewer than four digits gives. */
static uint16_t *fresh_entries(size_t room)
{
    uint16_t *out = block(room * sizeof *out);
    size_t i;
    for (i = 0; i < room; i++) {
        out[i] = 0xA5A5;
    }
    return out;
}

static int are_entries_untouched(const uint16_t *out, size_t from, size_t room)
{
    for (; from < room; from++) {
        if (out[from] != 0xA5A5) {
            return 0;
        }
    }
    return 1;
}

static void test_list_iban(void)
{
    uint16_t *out = fresh_entries(3);
    VALUE(lanecockle_list_iban(T("HR??10010051863000160"), out, 3), 1);
    CHECK(out[0] == 12 && are_entries_untouched(out, 1, 3));
    out = fresh_entries(1);
    VALUE(lanecockle_list_iban(T("HR1210010051863000160"), out, 1), 1);
    CHECK(out[0] == 0);
    out = fresh_entries(1);
    VALUE(lanecockle_list_iban(T("HR1310010051863000160"), out, 1), 0);
    NO_VALUE(lanecockle_list_iban(NULL, 0, out, 1), LANECOCKLE_SIZE, 0, 0, 0);
    NO_VALUE(lanecockle_list_iban(T("HR?"), out, 1), LANECOCKLE_SIZE, 0, 0, 0);
    NO_VALUE(lanecockle_list_iban(T("H??210010051863000160"), out, 1), LANECOCKLE_BYTE, 0, 0, 0);
    NO_VALUE(lanecockle_list_iban(T("HR?????10051863000160"), out, 1), LANECOCKLE_MARKS, 0, 0, 0);
    CHECK(are_entries_untouched(out, 0, 1));
    NO_VALUE(lanecockle_list_iban(T("HR??10010051863000160"), NULL, 0), LANECOCKLE_ROOM, 0, 0, 1);
}

static void test_list_reference(void)
{
    static const uint16_t expected[10] = {0, 19, 27, 35, 43, 51, 60, 78, 86, 94};
    uint16_t *out = fresh_entries(10);
    VALUE(lanecockle_list_reference(T("HR01"), T("??"), out, 10), 10);
    CHECK(memcmp(out, expected, sizeof expected) == 0);
    out = fresh_entries(9);
    NO_VALUE(lanecockle_list_reference(T("HR01"), T("??"), out, 9), LANECOCKLE_ROOM, 0, 0, 10);
    NO_VALUE(lanecockle_list_reference(T("HR01"), T("12345678901-12345678901"), out, 9), LANECOCKLE_SIZE, 0, 0, 0);
    NO_VALUE(lanecockle_list_reference(T("HR01"), T("1x"), out, 9), LANECOCKLE_BYTE, 0, 0, 0);
    NO_VALUE(lanecockle_list_reference(T("HR01"), T("?????"), out, 9), LANECOCKLE_MARKS, 0, 0, 0);
    NO_VALUE(lanecockle_list_reference(T("HR"), T("?"), out, 9), LANECOCKLE_FORM, 0, 0, 0);
    NO_VALUE(lanecockle_list_reference(NULL, 0, T("?"), out, 9), LANECOCKLE_FORM, 0, 0, 0);
    NO_VALUE(lanecockle_list_reference(T("HR12"), T("?"), out, 9), LANECOCKLE_MODEL, 0, 0, 0);
    /* a form that no filling can mend */
    VALUE(lanecockle_list_reference(T("HR01"), T("-?"), out, 9), 0);
    CHECK(are_entries_untouched(out, 0, 9));
    VALUE(lanecockle_list_reference(T("HR01"), T("-?"), NULL, 0), 0);
    out = fresh_entries(2);
    VALUE(lanecockle_list_reference(T("HR99"), NULL, 0, out, 2), 1);
    CHECK(out[0] == 0 && are_entries_untouched(out, 1, 2));
}

/* Under HR69 with three parts, fillings with 40002 and a code alone. */
static void test_list_personal_income(void)
{
    uint16_t *out = fresh_entries(2);
    VALUE(lanecockle_list_reference(T("HR69"), T("40002-12345678903-10?"), out, 2), 1);
    CHECK(out[0] == 0 && are_entries_untouched(out, 1, 2));
    out = fresh_entries(2);
    VALUE(lanecockle_list_reference(T("HR69"), T("40010-1234567890?"), out, 2), 1);
    CHECK(out[0] == 3 && are_entries_untouched(out, 1, 2));
    out = fresh_entries(56);
    VALUE(lanecockle_list_reference(T("HR69"), T("40010-12345678903-???"), out, 56), 0);
    NO_VALUE(lanecockle_list_reference(T("HR69"), T("4000?-12345678903-???"), out, 54), LANECOCKLE_ROOM, 0, 0, 55);
    CHECK(are_entries_untouched(out, 0, 56));
    VALUE(lanecockle_list_reference(T("HR69"), T("4000?-12345678903-???"), out, 56), 55);
    CHECK(out[0] == 2100 && out[1] == 2110 && out[10] == 2191 && out[54] == 2699 && are_entries_untouched(out, 55, 56));
}

static void test_all_fillings(void)
{
    uint16_t *out = fresh_entries(10000);
    size_t i, wrong = 0;
    VALUE(lanecockle_list_reference(T("HR00"), T("?-?-??"), out, 10000), 10000);
    for (i = 0; i < 10000; i++) {
        wrong += out[i] != i;
    }
    CHECK(wrong == 0);
}

static void test_filled(void)
{
    uint8_t *out = fresh_room();
    ACCEPTED(lanecockle_filled(T("HR??10010051863000160"), 12, out, ROOM));
    CHECK(memcmp(out, "HR1210010051863000160", 21) == 0 && is_untouched(out, 21));
    out = fresh_room();
    ACCEPTED(lanecockle_filled(T("?-?-?"), 7, out, 5));
    CHECK(memcmp(out, "0-0-7", 5) == 0 && is_untouched(out, 5));
    out = fresh_room();
    TOLD(lanecockle_filled(T("?-?-?"), 7, out, 4), LANECOCKLE_ROOM, 0, 0, 0, 5);
    ACCEPTED(lanecockle_filled(NULL, 0, 7, out, ROOM));
    CHECK(is_untouched(out, 0));
    ACCEPTED(lanecockle_filled(NULL, 0, 7, NULL, 0));
    TOLD(lanecockle_filled(T("?"), 7, NULL, 0), LANECOCKLE_ROOM, 0, 0, 0, 1);
}

/* ---------------------------------------------------------------------------------------------------------------------
 * Fields lent to a writer, one behind the other */

typedef struct {
    uint8_t text[2048];
    size_t length;
    size_t sizes[17];
    size_t count;
} fields;

/* One more field, with blanks behind it up to a width. */
static void put_wide(fields *f, const char *field, size_t width)
{
    size_t length = strlen(field);
    size_t size = length < width ? width : length;
    memset(f->text + f->length, ' ', size);
    memcpy(f->text + f->length, field, length);
    f->length += size;
    f->sizes[f->count++] = size;
}

static void put(fields *f, const char *field)
{
    put_wide(f, field, 0);
}

/* The fields as the four arguments of a writer, each a block of its own. */
static const uint8_t *lent_text(const fields *f)
{
    return f->length == 0 ? NULL : memcpy(block(f->length), f->text, f->length);
}

static const size_t *lent_sizes(const fields *f)
{
    return f->count == 0 ? NULL : memcpy(block(f->count * sizeof(size_t)), f->sizes, f->count * sizeof(size_t));
}

#define F(f) lent_text(&(f)), (f).length, lent_sizes(&(f)), (f).count

/* ---------------------------------------------------------------------------------------------------------------------
 * Slips */

static const char *const slip_fields[11] = {
    "\xC5\xBD" "ELJKO SENEKOVI\xC4\x86", "IVANE\xC4\x8CKA ULICA 125", "42000 VARA\xC5\xBD" "DIN", "2DBK d.d.",
    "ALKARSKI PROLAZ 13B", "21230 SINJ", "HR1210010051863000160", "HR01", "7269-68499637766-00011", "COST",
    "Tro\xC5\xA1kovi za 1. mjesec"};

/* The text of a slip in a currency with one field (1 to 14) replaced; 0 replaces none. */
static const char *slip_in(const char *currency, size_t number, const char *text)
{
    static char slip[2048];
    size_t n;
    slip[0] = '\0';
    for (n = 1; n <= 14; n++) {
        const char *field = n == 1 ? "HRVHUB30" : n == 2 ? currency : n == 3 ? "000000000012355" : slip_fields[n - 4];
        strcat(slip, n == number ? text : field);
        strcat(slip, "\n");
    }
    return slip;
}

/* The text of a euro slip with one field replaced. */
static const char *slip_with(size_t number, const char *text)
{
    return slip_in("EUR", number, text);
}

/* Where a field of slip_with(0, ..) begins, and of a slip in any currency of three letters. */
static size_t slip_start(size_t number)
{
    size_t n, start = 29;
    for (n = 4; n < number; n++) {
        start += strlen(slip_fields[n - 4]) + 1;
    }
    return start;
}

#define SLIP(number, text) T(slip_with((number), (text)))

static const char *repeated(const char *text, size_t times)
{
    static char made[1024];
    made[0] = '\0';
    while (times-- > 0) {
        strcat(made, text);
    }
    return made;
}

static void test_slip_read(void)
{
    ACCEPTED(lanecockle_slip_read(SLIP(0, "")));
    ACCEPTED(lanecockle_slip_read(SLIP(4, repeated("\xC5\xBD", 30))));
    TOLD(lanecockle_slip_read(SLIP(4, repeated("\xC5\xBD", 31))), LANECOCKLE_LENGTH, 0, 4, slip_start(4), 0);
    REFUSED(lanecockle_slip_read(T(repeated("\n", 484))), LANECOCKLE_SIZE);
    REFUSED(lanecockle_slip_read(T(repeated("\n", 483))), LANECOCKLE_ENDS);
    REFUSED(lanecockle_slip_read(NULL, 0), LANECOCKLE_ENDS);
    REFUSED(lanecockle_slip_read(SLIP(14, "\n")), LANECOCKLE_ENDS);
    TOLD(lanecockle_slip_read(SLIP(1, "HRVHUB30\r")), LANECOCKLE_FORM, 0, 1, 0, 0);
    TOLD(lanecockle_slip_read(SLIP(2, "HRK")), LANECOCKLE_FORM, 0, 2, 9, 0);
    TOLD(lanecockle_slip_read(SLIP(3, "00000000001235x")), LANECOCKLE_BYTE, 0, 3, 27, 0);
    TOLD(lanecockle_slip_read(SLIP(3, "12355")), LANECOCKLE_LENGTH, 0, 3, 13, 0);
    TOLD(lanecockle_slip_read(SLIP(5, "IVAN\xC4")), LANECOCKLE_BYTE, 0, 5, slip_start(5) + 4, 0);
    TOLD(lanecockle_slip_read(SLIP(10, "HR1310010051863000160")), LANECOCKLE_CHECK, 0, 10, slip_start(10), 0);
    TOLD(lanecockle_slip_read(SLIP(11, "HR1")), LANECOCKLE_FORM, 0, 11, slip_start(11), 0);
    TOLD(lanecockle_slip_read(SLIP(11, "HR12")), LANECOCKLE_MODEL, 0, 11, slip_start(11), 0);
    TOLD(lanecockle_slip_read(SLIP(12, "1-")), LANECOCKLE_PARTS, 0, 12, slip_start(12), 0);
    TOLD(lanecockle_slip_read(SLIP(12, "7269-68499637766-00019")), LANECOCKLE_DIGIT, 0, 12, slip_start(12), 0);
    TOLD(lanecockle_slip_read(SLIP(13, "COSt")), LANECOCKLE_BYTE, 0, 13, slip_start(13) + 3, 0);
    TOLD(lanecockle_slip_read(SLIP(13, "COS")), LANECOCKLE_LENGTH, 0, 13, slip_start(13), 0);
    ACCEPTED(lanecockle_slip_read(SLIP(13, "")));
}

static void test_slip_field(void)
{
    size_t n;
    for (n = 4; n <= 14; n++) {
        PART(lanecockle_slip_field(SLIP(0, ""), n), slip_start(n), strlen(slip_fields[n - 4]));
    }
    for (n = 0; n <= 3; n++) {
        PART(lanecockle_slip_field(SLIP(0, ""), n), 0, 0);
    }
    PART(lanecockle_slip_field(SLIP(0, ""), 15), 0, 0);
    PART(lanecockle_slip_field(SLIP(0, ""), SIZE_MAX), 0, 0);
    PART(lanecockle_slip_field(SLIP(4, ""), 4), slip_start(4), 0);
    PART(lanecockle_slip_field(SLIP(2, "HRK"), 4), 0, 0);
    PART(lanecockle_slip_field(NULL, 0, 4), 0, 0);
}

static void test_slip_cents(void)
{
    VALUE(lanecockle_slip_cents(SLIP(0, "")), 12355);
    VALUE(lanecockle_slip_cents(SLIP(3, "999999999999999")), 999999999999999u);
    VALUE(lanecockle_slip_cents(SLIP(3, "000000000000000")), 0);
    NO_VALUE(lanecockle_slip_cents(SLIP(3, "x")), LANECOCKLE_BYTE, 3, 13, 0);
    NO_VALUE(lanecockle_slip_cents(SLIP(13, "COS")), LANECOCKLE_LENGTH, 13, slip_start(13), 0);
    NO_VALUE(lanecockle_slip_cents(NULL, 0), LANECOCKLE_ENDS, 0, 0, 0);
}

/* The fields of a slip, one of them replaced. */
static fields slip_given(size_t number, const char *text)
{
    fields f = {{0}, 0, {0}, 0};
    size_t n;
    for (n = 4; n <= 14; n++) {
        put(&f, n == number ? text : slip_fields[n - 4]);
    }
    return f;
}

static void test_slip_write(void)
{
    fields f = slip_given(0, "");
    const char *slip = slip_with(0, "");
    size_t length = strlen(slip);
    uint8_t *out = fresh_room();
    VALUE(lanecockle_slip_write(12355, F(f), out, ROOM), length);
    CHECK(memcmp(out, slip, length) == 0 && is_untouched(out, length));
    out = fresh_room();
    VALUE(lanecockle_slip_write(12355, F(f), out, length), length);
    CHECK(memcmp(out, slip, length) == 0 && is_untouched(out, length));
    out = fresh_room();
    NO_VALUE(lanecockle_slip_write(12355, F(f), out, length - 1), LANECOCKLE_ROOM, 0, 0, length);
    CHECK(is_untouched(out, 0));
    NO_VALUE(lanecockle_slip_write(12355, F(f), NULL, 0), LANECOCKLE_ROOM, 0, 0, length);
}

static void test_slip_longest(void)
{
    static const size_t most[6] = {30, 27, 27, 25, 25, 27};
    fields f = {{0}, 0, {0}, 0};
    uint8_t *out = fresh_room();
    size_t n;
    for (n = 0; n < 6; n++) {
        put(&f, repeated("\xC4\x90", most[n]));
    }
    for (n = 10; n <= 13; n++) {
        put(&f, slip_fields[n - 4]);
    }
    put(&f, repeated("\xC4\x91", 35));
    VALUE(lanecockle_slip_write(999999999999999u, F(f), out, 483), 483);
    CHECK(is_untouched(out, 483));
    ACCEPTED(lanecockle_slip_read(out, 483));
}

/* A refusal of the slip's writer, which leaves the room as it was. */
static void check_unwritten(uint64_t cents, fields f, size_t number, size_t field, size_t byte, int line)
{
    uint8_t *out = fresh_room();
    check_no_value(lanecockle_slip_write(cents, F(f), out, ROOM), number, field, byte, 0, "slip_write", line);
    check(is_untouched(out, 0), "slip_write leaves the room", line);
}

#define UNWRITTEN(cents, f, number, field, byte) check_unwritten((cents), (f), (number), (field), (byte), __LINE__)

static void test_slip_write_refusals(void)
{
    fields f = {{0}, 0, {0}, 0};
    UNWRITTEN(1000000000000000u, slip_given(0, ""), LANECOCKLE_LENGTH, 3, 0);
    UNWRITTEN(UINT64_MAX, slip_given(4, "\n"), LANECOCKLE_LENGTH, 3, 0);
    UNWRITTEN(0, slip_given(5, "IVAN\n"), LANECOCKLE_BYTE, 5, 4);
    UNWRITTEN(0, slip_given(4, repeated("\xC5\xBD", 31)), LANECOCKLE_LENGTH, 4, 0);
    UNWRITTEN(0, slip_given(10, "SI1210010051863000160"), LANECOCKLE_FORM, 10, 0);
    UNWRITTEN(0, slip_given(10, "HR1310010051863000160"), LANECOCKLE_CHECK, 10, 0);
    UNWRITTEN(0, slip_given(11, "HR12"), LANECOCKLE_MODEL, 11, 0);
    UNWRITTEN(0, slip_given(12, "1-"), LANECOCKLE_PARTS, 12, 0);
    UNWRITTEN(0, slip_given(12, "1"), LANECOCKLE_DIGIT, 12, 0);
    UNWRITTEN(0, slip_given(13, "COSt"), LANECOCKLE_BYTE, 13, 3);
    /* no fields at all: 4 to 9 may be empty, 10 may not */
    UNWRITTEN(0, f, LANECOCKLE_LENGTH, 10, 0);
}

/* A size that is not there is 0, and one beyond the eleventh is not read. */
static void test_slip_write_sizes(void)
{
    fields f = slip_given(14, "");
    const char *slip = slip_with(14, "");
    uint8_t *out = fresh_room();
    f.count = 10;
    VALUE(lanecockle_slip_write(12355, F(f), out, ROOM), strlen(slip));
    CHECK(memcmp(out, slip, strlen(slip)) == 0 && is_untouched(out, strlen(slip)));
    f = slip_given(0, "");
    slip = slip_with(0, "");
    f.sizes[f.count++] = 7;
    out = fresh_room();
    VALUE(lanecockle_slip_write(12355, F(f), out, ROOM), strlen(slip));
    CHECK(memcmp(out, slip, strlen(slip)) == 0 && is_untouched(out, strlen(slip)));
}

/* Written, read, and written again from what was read. */
static void test_slip_round(void)
{
    fields f = {{0}, 0, {0}, 0};
    const char *slip = slip_with(0, "");
    size_t length = strlen(slip), n;
    const uint8_t *lent = bytes_of(slip);
    uint8_t *out = fresh_room();
    for (n = 4; n <= 14; n++) {
        lanecockle_part part = lanecockle_slip_field(lent, length, n);
        memcpy(f.text + f.length, lent + part.start, part.length);
        f.length += part.length;
        f.sizes[f.count++] = part.length;
    }
    VALUE(lanecockle_slip_write(lanecockle_slip_cents(lent, length).value, F(f), out, ROOM), length);
    CHECK(memcmp(out, slip, length) == 0);
}

/* ---------------------------------------------------------------------------------------------------------------------
 * Standing text for slips */

/* The fields that have standing text, and the most characters of their texts. */
static const size_t standing_fields[8] = {4, 5, 6, 7, 8, 9, 13, 14};
static const size_t standing_most[8] = {30, 27, 27, 25, 25, 27, 4, 35};

#define FARM_SHEET "4=OPG HORVAT\n6=42000 VARA\xC5\xBD" "DIN\n14=\n"
#define ASSOCIATION_SHEET "4=NITKO\n7=UDRUGA\n13=WTER\n14=Voda\n"

static void test_standing_text(void)
{
    STANDS(lanecockle_standing_text(4, T(FARM_SHEET), T(ASSOCIATION_SHEET)), LANECOCKLE_FARM, 2, 10);
    NO_TEXT(lanecockle_standing_text(5, T(FARM_SHEET), T(ASSOCIATION_SHEET)));
    STANDS(lanecockle_standing_text(6, T(FARM_SHEET), T(ASSOCIATION_SHEET)), LANECOCKLE_FARM, 15, 15);
    STANDS(lanecockle_standing_text(7, T(FARM_SHEET), T(ASSOCIATION_SHEET)), LANECOCKLE_ASSOCIATION, 10, 6);
    STANDS(lanecockle_standing_text(13, T(FARM_SHEET), T(ASSOCIATION_SHEET)), LANECOCKLE_ASSOCIATION, 20, 4);
    /* an empty text of the farm's goes before the association's */
    STANDS(lanecockle_standing_text(14, T(FARM_SHEET), T(ASSOCIATION_SHEET)), LANECOCKLE_FARM, 34, 0);
    STANDS(lanecockle_standing_text(14, NULL, 0, T(ASSOCIATION_SHEET)), LANECOCKLE_ASSOCIATION, 28, 4);
    STANDS(lanecockle_standing_text(14, T(ASSOCIATION_SHEET), NULL, 0), LANECOCKLE_FARM, 28, 4);
    NO_TEXT(lanecockle_standing_text(13, T(FARM_SHEET), NULL, 0));
    NO_TEXT(lanecockle_standing_text(4, NULL, 0, NULL, 0));
}

/* Every field with its longest text, of letters of two bytes each, and one character more. */
static void test_standing_longest(void)
{
    char sheet[1024], line[256];
    size_t i, start;
    sheet[0] = '\0';
    for (i = 0; i < 8; i++) {
        snprintf(line, sizeof line, "%zu=", standing_fields[i]);
        start = strlen(sheet) + strlen(line);
        strcat(line, standing_fields[i] == 13 ? "WTER" : repeated("\xC5\xBD", standing_most[i]));
        strcat(strcat(sheet, line), "\n");
        STANDS(lanecockle_standing_text(standing_fields[i], T(sheet), NULL, 0), LANECOCKLE_FARM, start,
               strlen(sheet) - start - 1);
        snprintf(line, sizeof line, "%zu=%s\n", standing_fields[i], repeated("X", standing_most[i] + 1));
        MALFORMED(lanecockle_standing_text(4, T(line), NULL, 0), LANECOCKLE_FARM, 1);
    }
    CHECK(strlen(sheet) == 422);
}

static void test_standing_fields(void)
{
    size_t field, i = 0;
    for (field = 0; field <= 40; field++) {
        if (i < 8 && field == standing_fields[i]) {
            NO_TEXT(lanecockle_standing_text(field, NULL, 0, NULL, 0));
            i++;
        } else {
            NO_FIELD(lanecockle_standing_text(field, NULL, 0, NULL, 0));
            /* before 20 */
            NO_FIELD(lanecockle_standing_text(field, T("x"), T("x")));
        }
    }
    NO_FIELD(lanecockle_standing_text(SIZE_MAX, NULL, 0, NULL, 0));
}

/* What is malformed as the only line of a sheet, and as a line behind `4=`. */
static const char *const malformed[] = {
    /* the number */
    "\n", "=\n", "=x\n", "4\n", "x\n", "4:x\n", "04=x\n", "+4=x\n", " 4=x\n", "4 =x\n", "4.=x\n", "\t4=x\n", "0=x\n",
    "1=x\n", "2=x\n", "3=x\n", "10=x\n", "11=x\n", "12=x\n", "15=x\n", "40=x\n", "44=x\n", "013=WTER\n", "130=WTER\n",
    "1 3=WTER\n", "18446744073709551620=x\n", "4294967300=x\n", "260=x\n", "\xEF\xBB\xBF" "5=x\n", "#5=x\n",
    /* the text */
    "5=x=y\n", "5==\n", "5=x\r\n", "5=\r\n", "\r\n", "5=x_\n", "5=x\t\n", "5=x;\n", "5=\xC5\n", "5=\xC5x\n", "5=\xC5\x8D\n",
    "5=\xBD\n", "5=\x8A\n", "5=\xFF\n", "13=WTE\n", "13=WTERX\n", "13=wter\n", "13=WTE1\n", "13= \n",
    /* the end */
    "5=x", "5=", "5", "=", "x"};

static void test_standing_malformed(void)
{
    char sheet[256];
    size_t i;
    for (i = 0; i < sizeof malformed / sizeof malformed[0]; i++) {
        MALFORMED(lanecockle_standing_text(4, T(malformed[i]), NULL, 0), LANECOCKLE_FARM, 1);
        MALFORMED(lanecockle_standing_text(4, NULL, 0, T(malformed[i])), LANECOCKLE_ASSOCIATION, 1);
        snprintf(sheet, sizeof sheet, "4=x\n%s", malformed[i]);
        MALFORMED(lanecockle_standing_text(4, T(sheet), NULL, 0), LANECOCKLE_FARM, 2);
        snprintf(sheet, sizeof sheet, "%s4=x\n", malformed[i]);
        MALFORMED(lanecockle_standing_text(4, NULL, 0, T(sheet)), LANECOCKLE_ASSOCIATION, 1);
    }
    /* a NUL is a byte as others are */
    MALFORMED(lanecockle_standing_text(4, memcpy(block(4), "4=\0\n", 4), 4, NULL, 0), LANECOCKLE_FARM, 1);
    MALFORMED(lanecockle_standing_text(4, memcpy(block(5), "4=x\n\0", 5), 5, NULL, 0), LANECOCKLE_FARM, 2);
}

/* Of two lines out of order, or of the same number, the second is the malformed one. */
static void test_standing_order(void)
{
    MALFORMED(lanecockle_standing_text(4, T("5=x\n4=y\n"), NULL, 0), LANECOCKLE_FARM, 2);
    MALFORMED(lanecockle_standing_text(4, T("4=x\n4=x\n"), NULL, 0), LANECOCKLE_FARM, 2);
    MALFORMED(lanecockle_standing_text(4, T("4=x\n14=y\n13=WTER\n"), NULL, 0), LANECOCKLE_FARM, 3);
    MALFORMED(lanecockle_standing_text(4, T("13=WTER\n4=x\n"), NULL, 0), LANECOCKLE_FARM, 2);
    STANDS(lanecockle_standing_text(13, T("9=x\n13=WTER\n"), NULL, 0), LANECOCKLE_FARM, 7, 4);
}

/* Both sheets are judged whole, whatever is asked, the farm's first. */
static void test_standing_sheets(void)
{
    MALFORMED(lanecockle_standing_text(4, T("4=x\n5=y"), T(ASSOCIATION_SHEET)), LANECOCKLE_FARM, 2);
    MALFORMED(lanecockle_standing_text(4, T(FARM_SHEET), T("4=x\n\n")), LANECOCKLE_ASSOCIATION, 2);
    MALFORMED(lanecockle_standing_text(14, T("14=x\ny"), T("x\n")), LANECOCKLE_FARM, 2);
    MALFORMED(lanecockle_standing_text(14, T("4=x\n5=x\n6=x\n7=x\n\n"), T("x\n")), LANECOCKLE_FARM, 5);
}

/* The fields of a slip with standing text given empty, but for one. */
static fields without_standing(size_t number, const char *text)
{
    fields f = {{0}, 0, {0}, 0};
    size_t n;
    for (n = 4; n <= 14; n++) {
        put(&f, n == number ? text : n >= 10 && n <= 12 ? slip_fields[n - 4] : "");
    }
    return f;
}

/* A slip written with standing text is the one that is awaited, and nothing behind it changes. */
static void check_written(fields f, const char *farm, const char *association, const char *slip, int line)
{
    size_t length = strlen(slip);
    uint8_t *out = fresh_room();
    lanecockle_standing_written written = lanecockle_slip_write_standing(12355, F(f), T(farm), T(association), out, ROOM);
    check_told(written.told, 0, 0, 0, 0, 0, "slip_write_standing", line);
    check(written.value == length && written.sheet == LANECOCKLE_NO_SHEET, "slip_write_standing", line);
    check(memcmp(out, slip, length) == 0 && is_untouched(out, length), "what slip_write_standing writes", line);
}

#define WRITTEN(f, farm, association, slip) check_written((f), (farm), (association), (slip), __LINE__)

#define SLIP_HEAD "HRVHUB30\nEUR\n000000000012355\n"
#define SLIP_REFERENCE "HR1210010051863000160\nHR01\n7269-68499637766-00011\n"

static void test_slip_write_standing(void)
{
    fields f = {{0}, 0, {0}, 0};
    WRITTEN(without_standing(0, ""), FARM_SHEET, ASSOCIATION_SHEET,
            SLIP_HEAD "OPG HORVAT\n\n42000 VARA\xC5\xBD" "DIN\nUDRUGA\n\n\n" SLIP_REFERENCE "WTER\n\n");
    WRITTEN(without_standing(0, ""), "", ASSOCIATION_SHEET,
            SLIP_HEAD "NITKO\n\n\nUDRUGA\n\n\n" SLIP_REFERENCE "WTER\nVoda\n");
    WRITTEN(without_standing(0, ""), "", "", SLIP_HEAD "\n\n\n\n\n\n" SLIP_REFERENCE "\n\n");
    /* what is given is not taken from a sheet */
    WRITTEN(without_standing(14, "Struja"), FARM_SHEET, ASSOCIATION_SHEET,
            SLIP_HEAD "OPG HORVAT\n\n42000 VARA\xC5\xBD" "DIN\nUDRUGA\n\n\n" SLIP_REFERENCE "WTER\nStruja\n");
    WRITTEN(slip_given(0, ""), FARM_SHEET, ASSOCIATION_SHEET, slip_with(0, ""));
    /* a size that is not there is 0, and one beyond the eleventh is not read */
    f = slip_given(14, "");
    f.count = 10;
    WRITTEN(f, "14=Voda\n", "", slip_with(14, "Voda"));
    f = slip_given(0, "");
    f.sizes[f.count++] = 7;
    WRITTEN(f, "14=Voda\n", "", slip_with(0, ""));
}

/* The longest slip, its text from the sheets alone. */
static void test_standing_longest_slip(void)
{
    fields f = {{0}, 0, {0}, 0};
    char sheet[1024];
    uint8_t *out = fresh_room();
    lanecockle_standing_written written;
    size_t i;
    sheet[0] = '\0';
    for (i = 0; i < 8; i++) {
        snprintf(sheet + strlen(sheet), 256, "%zu=", standing_fields[i]);
        strcat(strcat(sheet, standing_fields[i] == 13 ? "WTER" : repeated("\xC4\x91", standing_most[i])), "\n");
    }
    f = without_standing(0, "");
    written = lanecockle_slip_write_standing(999999999999999u, F(f), T(sheet), NULL, 0, out, 483);
    CHECK(written.told.number == LANECOCKLE_ACCEPTED && written.value == 483 && is_untouched(out, 483));
    ACCEPTED(lanecockle_slip_read(out, 483));
}

/* A refusal of the writer with standing text, which leaves the room as it was. */
static void check_not_written(uint64_t cents, fields f, const char *farm, const char *association, size_t room,
                              const size_t *told, size_t sheet, int line)
{
    uint8_t *out = fresh_room();
    lanecockle_standing_written written = lanecockle_slip_write_standing(cents, F(f), T(farm), T(association), out, room);
    check_told(written.told, told[0], told[1], told[2], told[3], told[4], "slip_write_standing", line);
    check(written.value == 0 && written.sheet == sheet, "the value and the sheet of a refusal", line);
    check(is_untouched(out, 0), "slip_write_standing leaves the room", line);
}

/* Refused: by number, field, byte and needed, with no line and no sheet; for 20 by line and sheet. */
#define NOT_WRITTEN(cents, f, farm, association, room, number, field, byte, needed) \
    do { \
        const size_t told[5] = {(number), 0, (field), (byte), (needed)}; \
        check_not_written((cents), (f), (farm), (association), (room), told, LANECOCKLE_NO_SHEET, __LINE__); \
    } while (0)
#define SHEET_REFUSED(cents, f, farm, association, room, at, whose) \
    do { \
        const size_t told[5] = {LANECOCKLE_SHEET, (at), 0, 0, 0}; \
        check_not_written((cents), (f), (farm), (association), (room), told, (whose), __LINE__); \
    } while (0)

/* First the sizes, then the sheets, then what the writer refuses: the amount, the fields in order, the room. */
static void test_standing_write_order(void)
{
    fields short_of = slip_given(0, ""), left_over = slip_given(0, "");
    short_of.sizes[10]++;
    left_over.sizes[10]--;
    NOT_WRITTEN(UINT64_MAX, short_of, "x", "x", 0, LANECOCKLE_SIZE, 0, 0, 0);
    NOT_WRITTEN(UINT64_MAX, left_over, "x", "x", 0, LANECOCKLE_SIZE, 0, 0, 0);
    SHEET_REFUSED(UINT64_MAX, slip_given(4, "_"), "4=x\nx", "x", 0, 2, LANECOCKLE_FARM);
    SHEET_REFUSED(UINT64_MAX, slip_given(4, "_"), "4=x\n", "4=x\n5=y\nx", 0, 3, LANECOCKLE_ASSOCIATION);
    NOT_WRITTEN(1000000000000000u, slip_given(4, "_"), "4=x\n", "", 0, LANECOCKLE_LENGTH, 3, 0, 0);
    NOT_WRITTEN(12355, slip_given(4, "IVAN_"), "4=x\n", "", 0, LANECOCKLE_BYTE, 4, 4, 0);
    NOT_WRITTEN(12355, slip_given(10, "HR1310010051863000160"), "4=x\n", "", 0, LANECOCKLE_CHECK, 10, 0, 0);
    NOT_WRITTEN(12355, slip_given(13, "COSt"), "", "13=WTER\n", 0, LANECOCKLE_BYTE, 13, 3, 0);
    NOT_WRITTEN(12355, slip_given(0, ""), "", "", 0, LANECOCKLE_ROOM, 0, 0, strlen(slip_with(0, "")));
}

static void test_standing_write_refusals(void)
{
    fields f = {{0}, 0, {0}, 0};
    size_t length = strlen(slip_with(14, "Voda"));
    /* a sheet is judged also where nothing is taken from it */
    SHEET_REFUSED(12355, slip_given(0, ""), "x\n", "", ROOM, 1, LANECOCKLE_FARM);
    SHEET_REFUSED(12355, slip_given(0, ""), "", "14=Voda\r\n", ROOM, 1, LANECOCKLE_ASSOCIATION);
    /* an empty field 10, 11 or 12 is not taken from a sheet */
    NOT_WRITTEN(12355, f, FARM_SHEET, ASSOCIATION_SHEET, ROOM, LANECOCKLE_LENGTH, 10, 0, 0);
    NOT_WRITTEN(12355, slip_given(11, ""), FARM_SHEET, "", ROOM, LANECOCKLE_FORM, 11, 0, 0);
    NOT_WRITTEN(12355, slip_given(12, ""), FARM_SHEET, "", ROOM, LANECOCKLE_PARTS, 12, 0, 0);
    /* the room that the slip needs with its standing text */
    NOT_WRITTEN(12355, slip_given(14, ""), "", "14=Voda\n", length - 1, LANECOCKLE_ROOM, 0, 0, length);
    WRITTEN(slip_given(14, ""), "", "14=Voda\n", slip_with(14, "Voda"));
}

/* A field as the sheets have it is the one that the slip then has. */
static void test_standing_round(void)
{
    fields f = without_standing(0, "");
    const uint8_t *farm = bytes_of(FARM_SHEET), *association = bytes_of(ASSOCIATION_SHEET);
    uint8_t *out = fresh_room();
    lanecockle_standing_written written = lanecockle_slip_write_standing(
        12355, F(f), farm, strlen(FARM_SHEET), association, strlen(ASSOCIATION_SHEET), out, ROOM);
    size_t i;
    for (i = 0; i < 8; i++) {
        lanecockle_part part = lanecockle_slip_field(out, written.value, standing_fields[i]);
        lanecockle_standing text = lanecockle_standing_text(standing_fields[i], farm, strlen(FARM_SHEET), association,
                                                            strlen(ASSOCIATION_SHEET));
        const uint8_t *sheet = text.sheet == LANECOCKLE_FARM ? farm : association;
        CHECK(part.length == text.length && memcmp(out + part.start, sheet + text.start, text.length) == 0);
    }
}

/* ---------------------------------------------------------------------------------------------------------------------
 * Slips of either currency, for the ledgers */

#define IN_KUNA(number, text) T(slip_in("HRK", (number), (text)))
#define ACCOUNT "1001005-1863000160"

static void test_ledger_read(void)
{
    EURO(lanecockle_ledger_read(SLIP(0, "")), 12355);
    EURO(lanecockle_ledger_read(SLIP(3, "000000000000000")), 0);
    EURO(lanecockle_ledger_read(SLIP(3, "999999999999999")), 999999999999999u);
    KUNA(lanecockle_ledger_read(IN_KUNA(0, "")), 12355, 1640);
    KUNA(lanecockle_ledger_read(IN_KUNA(10, ACCOUNT)), 12355, 1640);
    KUNA(lanecockle_ledger_read(IN_KUNA(3, "000000000000000")), 0, 0);
    KUNA(lanecockle_ledger_read(IN_KUNA(3, "000000000000003")), 3, 0);
    KUNA(lanecockle_ledger_read(IN_KUNA(3, "000000000000004")), 4, 1);
    KUNA(lanecockle_ledger_read(IN_KUNA(3, "999999999999999")), 999999999999999u, 132722808414626u);
    KUNA(lanecockle_ledger_read(IN_KUNA(4, repeated("\xC5\xBD", 30))), 12355, 1640);
    KUNA(lanecockle_ledger_read(IN_KUNA(13, "")), 12355, 1640);
}

static void test_ledger_whole(void)
{
    NO_LEDGER(lanecockle_ledger_read(T(repeated("\n", 484))), LANECOCKLE_SIZE, 0, 0);
    NO_LEDGER(lanecockle_ledger_read(T(repeated("\n", 483))), LANECOCKLE_ENDS, 0, 0);
    NO_LEDGER(lanecockle_ledger_read(NULL, 0), LANECOCKLE_ENDS, 0, 0);
    NO_LEDGER(lanecockle_ledger_read(IN_KUNA(14, "\n")), LANECOCKLE_ENDS, 0, 0);
    NO_LEDGER(lanecockle_ledger_read(T("HRVHUB30\nHRK\n")), LANECOCKLE_ENDS, 0, 0);
}

/* Another currency is a euro slip's 5; field 1 comes before it. */
static void test_ledger_currency(void)
{
    static const char *const others[7] = {"USD", "", "hrk", "HRK ", "HRKK", "HR", "HRK\r"};
    size_t i;
    for (i = 0; i < 7; i++) {
        NO_LEDGER(lanecockle_ledger_read(SLIP(2, others[i])), LANECOCKLE_FORM, 2, 9);
        PART(lanecockle_ledger_field(SLIP(2, others[i]), 4), 0, 0);
    }
    NO_LEDGER(lanecockle_ledger_read(IN_KUNA(1, "HRVHUB31")), LANECOCKLE_FORM, 1, 0);
    NO_LEDGER(lanecockle_ledger_read(T(slip_in("USD", 1, "HRVHUB31"))), LANECOCKLE_FORM, 1, 0);
}

/* What is refused in a field of either currency. */
static void check_either(size_t field, const char *text, size_t number, size_t byte, int line)
{
    size_t start = slip_start(field) + byte;
    check_no_ledger(lanecockle_ledger_read(SLIP(field, text)), number, field, start, "ledger_read of euro", line);
    check_no_ledger(lanecockle_ledger_read(IN_KUNA(field, text)), number, field, start, "ledger_read of kuna", line);
    check_part(lanecockle_ledger_field(IN_KUNA(field, text), 14), 0, 0, "ledger_field of what is refused", line);
}

#define EITHER(field, text, number, byte) check_either((field), (text), (number), (byte), __LINE__)

static void test_ledger_refusals(void)
{
    NO_LEDGER(lanecockle_ledger_read(IN_KUNA(3, "00000000001235x")), LANECOCKLE_BYTE, 3, 27);
    NO_LEDGER(lanecockle_ledger_read(IN_KUNA(3, "00000000012355")), LANECOCKLE_LENGTH, 3, 13);
    EITHER(4, repeated("\xC5\xBD", 31), LANECOCKLE_LENGTH, 0);
    EITHER(5, "IVAN\xC4", LANECOCKLE_BYTE, 4);
    EITHER(10, "HR1310010051863000160", LANECOCKLE_CHECK, 0);
    EITHER(10, "SI1210010051863000160", LANECOCKLE_FORM, 0);
    EITHER(10, "HR121001005186300016", LANECOCKLE_LENGTH, 0);
    EITHER(10, "", LANECOCKLE_LENGTH, 0);
    EITHER(11, "HRO1", LANECOCKLE_FORM, 0);
    EITHER(11, "HR12", LANECOCKLE_MODEL, 0);
    EITHER(12, "1-", LANECOCKLE_PARTS, 0);
    EITHER(12, "7269-68949637676-00019", LANECOCKLE_DIGIT, 0);
    EITHER(13, "COSt", LANECOCKLE_BYTE, 3);
    EITHER(13, "COS", LANECOCKLE_LENGTH, 0);
    EITHER(14, repeated("x", 36), LANECOCKLE_LENGTH, 0);
}

/* What is refused in field 10 of a kuna slip. */
#define NO_ACCOUNT(text, number, byte) \
    NO_LEDGER(lanecockle_ledger_read(IN_KUNA(10, (text))), (number), 10, slip_start(10) + (byte))

/* An account begins with a digit; what does not is an IBAN, in which a hyphen is not permitted. */
static void test_ledger_account(void)
{
    KUNA(lanecockle_ledger_read(IN_KUNA(10, "1001005-1700128481")), 12355, 1640);
    KUNA(lanecockle_ledger_read(IN_KUNA(10, "0000000-0000000000")), 12355, 1640);
    KUNA(lanecockle_ledger_read(IN_KUNA(10, "9999999-9999999999")), 12355, 1640);
    NO_ACCOUNT("1001005A1863000160", LANECOCKLE_FORM, 0);
    NO_ACCOUNT("100100518-63000160", LANECOCKLE_FORM, 0);
    NO_ACCOUNT("1001005--863000160", LANECOCKLE_FORM, 0);
    NO_ACCOUNT("1001005-186300016Z", LANECOCKLE_FORM, 0);
    NO_ACCOUNT("100100511863000160", LANECOCKLE_FORM, 0);
    NO_ACCOUNT("1001005-186300016", LANECOCKLE_LENGTH, 0);
    NO_ACCOUNT("1001005-18630001600", LANECOCKLE_LENGTH, 0);
    NO_ACCOUNT("100100518630001601234", LANECOCKLE_LENGTH, 0);
    NO_ACCOUNT("1", LANECOCKLE_LENGTH, 0);
    NO_ACCOUNT("1001005 1863000160", LANECOCKLE_BYTE, 7);
    NO_ACCOUNT("1001005-186300016a", LANECOCKLE_BYTE, 17);
    NO_ACCOUNT("1001005\xE2\x80\x93" "1863000160", LANECOCKLE_BYTE, 7);
    NO_ACCOUNT("1_", LANECOCKLE_BYTE, 1);
    NO_ACCOUNT("HR12-0010051863000160", LANECOCKLE_BYTE, 4);
    NO_ACCOUNT("-001005-1863000160", LANECOCKLE_BYTE, 0);
    NO_ACCOUNT("A001005-1863000160", LANECOCKLE_BYTE, 7);
    /* in a euro slip it is no IBAN */
    NO_LEDGER(lanecockle_ledger_read(SLIP(10, ACCOUNT)), LANECOCKLE_BYTE, 10, slip_start(10) + 7);
}

static void test_ledger_field(void)
{
    size_t n;
    for (n = 4; n <= 14; n++) {
        /* behind an account, three bytes shorter than the IBAN, fields begin as much earlier */
        size_t earlier = n > 10 ? 3 : 0, length = strlen(slip_fields[n - 4]);
        PART(lanecockle_ledger_field(SLIP(0, ""), n), slip_start(n), length);
        PART(lanecockle_ledger_field(IN_KUNA(0, ""), n), slip_start(n), length);
        PART(lanecockle_ledger_field(IN_KUNA(10, ACCOUNT), n), slip_start(n) - earlier, n == 10 ? 18 : length);
    }
    for (n = 0; n <= 3; n++) {
        PART(lanecockle_ledger_field(SLIP(0, ""), n), 0, 0);
        PART(lanecockle_ledger_field(IN_KUNA(0, ""), n), 0, 0);
    }
    PART(lanecockle_ledger_field(IN_KUNA(0, ""), 15), 0, 0);
    PART(lanecockle_ledger_field(IN_KUNA(0, ""), SIZE_MAX), 0, 0);
    PART(lanecockle_ledger_field(IN_KUNA(4, ""), 4), slip_start(4), 0);
    PART(lanecockle_ledger_field(NULL, 0, 4), 0, 0);
}

/* To the calls for euro slips a kuna slip is none. */
static void test_kuna_is_no_euro(void)
{
    TOLD(lanecockle_slip_read(IN_KUNA(0, "")), LANECOCKLE_FORM, 0, 2, 9, 0);
    TOLD(lanecockle_slip_read(IN_KUNA(10, ACCOUNT)), LANECOCKLE_FORM, 0, 2, 9, 0);
    NO_VALUE(lanecockle_slip_cents(IN_KUNA(0, "")), LANECOCKLE_FORM, 2, 9, 0);
    PART(lanecockle_slip_field(IN_KUNA(0, ""), 10), 0, 0);
    UNWRITTEN(12355, slip_given(10, ACCOUNT), LANECOCKLE_BYTE, 10, 7);
}

/* Twice the distance of a number of cents from a small number of lipa is below a cent. */
static int is_nearest(uint64_t lipa, uint64_t cents)
{
    uint64_t at = lipa * 10000, told = cents * 75345;
    return 2 * (at < told ? told - at : at - told) < 75345;
}

static void test_lipa_in_cents(void)
{
    size_t lipa, wrong = 0;
    for (lipa = 0; lipa < 200000; lipa++) {
        wrong += !is_nearest(lipa, lanecockle_lipa_in_cents(lipa));
    }
    CHECK(wrong == 0);
    CHECK(lanecockle_lipa_in_cents(3) == 0 && lanecockle_lipa_in_cents(4) == 1);
    CHECK(lanecockle_lipa_in_cents(12355) == 1640);
    CHECK(lanecockle_lipa_in_cents(75345) == 10000);
    /* the largest amount, and where twice its ten-thousandths, and these, no longer fit 64 bits */
    CHECK(lanecockle_lipa_in_cents(999999999999999u) == 132722808414626u);
    CHECK(lanecockle_lipa_in_cents(922337203685477u) == 122415183978429u);
    CHECK(lanecockle_lipa_in_cents(922337203685478u) == 122415183978430u);
    CHECK(lanecockle_lipa_in_cents(1844674407370955u) == 244830367956859u);
    CHECK(lanecockle_lipa_in_cents(1844674407370956u) == 244830367956859u);
    CHECK(lanecockle_lipa_in_cents(UINT64_MAX) == 2448303679568591362u);
}

/* ---------------------------------------------------------------------------------------------------------------------
 * Wage lines written */

enum { LINE = 1002, DAY = 20240228 };

#define IBAN "HR7023400091510946338"
#define OIB "12345678903"
#define ZERO_OIB "00000000000"

/* The fields of each line, one of them replaced; the number is the field's, 0 replaces none. */
static const char *either(size_t number, size_t field, const char *text, const char *otherwise)
{
    return number == field ? text : otherwise;
}

static fields label_given(size_t number, const char *text)
{
    fields f = {{0}, 0, {0}, 0};
    put(&f, either(number, 1, text, "20240228"));
    put(&f, either(number, 2, text, "4"));
    put(&f, either(number, 3, text, "000"));
    put(&f, either(number, 4, text, "1"));
    put(&f, either(number, 5, text, OIB));
    put(&f, either(number, 6, text, "00000000042"));
    put(&f, either(number, 7, text, ZERO_OIB));
    put(&f, either(number, 8, text, OIB));
    return f;
}

static fields group_given(size_t number, const char *text)
{
    fields f = {{0}, 0, {0}, 0};
    put(&f, either(number, 1, text, "HR1210010051863000160"));
    put(&f, either(number, 2, text, "EUR"));
    put_wide(&f, either(number, 3, text, ""), 21);
    put_wide(&f, either(number, 4, text, ""), 3);
    put(&f, either(number, 7, text, "20240229"));
    return f;
}

static fields order_given(size_t number, const char *text)
{
    fields f = {{0}, 0, {0}, 0};
    put_wide(&f, either(number, 1, text, IBAN), 34);
    put_wide(&f, either(number, 2, text, "IVANA HORVAT"), 140);
    put(&f, either(number, 5, text, "191"));
    put_wide(&f, either(number, 6, text, "HR69"), 4);
    put_wide(&f, either(number, 7, text, "40002-12345678903-100"), 22);
    put(&f, either(number, 8, text, "SALA"));
    put_wide(&f, either(number, 9, text, "Pla\xE6" "a 1/2024"), 140);
    put(&f, either(number, 10, text, "000000000012355"));
    put_wide(&f, either(number, 11, text, "HR01"), 4);
    put_wide(&f, either(number, 12, text, "7269-68499637766-00011"), 22);
    put(&f, either(number, 18, text, "0"));
    put(&f, either(number, 19, text, "EUR"));
    put(&f, either(number, 20, text, "3"));
    put(&f, either(number, 21, text, "0"));
    put(&f, either(number, 22, text, "100"));
    put(&f, either(number, 23, text, OIB));
    return f;
}

/* Lines written into a block of exactly their size; the caller knows that they are accepted. */
static uint8_t *label_line(void)
{
    fields f = label_given(0, "");
    uint8_t *line = block(LINE);
    ACCEPTED(lanecockle_write_label(DAY, F(f), line, LINE));
    return line;
}

static uint8_t *order_line(const char *cents)
{
    fields f = order_given(10, cents);
    uint8_t *line = block(LINE);
    ACCEPTED(lanecockle_write_order(DAY, 4, F(f), line, LINE));
    return line;
}

static uint8_t *group_line(const uint8_t *orders, size_t count)
{
    fields f = group_given(0, "");
    uint8_t *line = block(LINE);
    ACCEPTED(lanecockle_write_group(DAY, 4, F(f), orders, count * LINE, line, LINE));
    return line;
}

static uint8_t *closing_line(void)
{
    uint8_t *line = block(LINE);
    ACCEPTED(lanecockle_write_closing(DAY, line, LINE));
    return line;
}

/* Whether a line has its type, its CR LF, and blanks from a byte up to the type. */
static int is_dressed(const uint8_t *line, size_t from, const char *type)
{
    for (; from < 997; from++) {
        if (line[from] != ' ') {
            return 0;
        }
    }
    return memcmp(line + 997, type, 3) == 0 && line[1000] == '\r' && line[1001] == '\n';
}

static void test_write_label(void)
{
    fields f = label_given(0, "");
    uint8_t *out = fresh_room();
    ACCEPTED(lanecockle_write_label(DAY, F(f), out, ROOM));
    CHECK(memcmp(out, f.text, 57) == 0 && is_dressed(out, 57, "300") && is_untouched(out, LINE));
    out = fresh_room();
    TOLD(lanecockle_write_label(DAY, F(f), out, LINE - 1), LANECOCKLE_ROOM, 0, 0, 0, LINE);
    TOLD(lanecockle_write_label(DAY, F(f), NULL, 0), LANECOCKLE_ROOM, 0, 0, 0, LINE);
    REFUSED(lanecockle_write_label(20240230, F(f), out, ROOM), LANECOCKLE_DATE);
    REFUSED(lanecockle_write_label(UINT64_MAX, NULL, 0, NULL, 0, NULL, 0), LANECOCKLE_DATE);
    TOLD(lanecockle_write_label(20240229, F(f), out, ROOM), LANECOCKLE_DATE, 0, 1, 0, 0);
    TOLD(lanecockle_write_label(DAY, NULL, 0, NULL, 0, out, ROOM), LANECOCKLE_LENGTH, 0, 1, 0, 0);
    CHECK(is_untouched(out, 0));
}

/* A refusal of a label's field, which leaves the room as it was. */
static void check_label(fields f, size_t number, size_t field, size_t byte, int line)
{
    uint8_t *out = fresh_room();
    check_told(lanecockle_write_label(DAY, F(f), out, ROOM), number, 0, field, byte, 0, "write_label", line);
    check(is_untouched(out, 0), "write_label leaves the room", line);
}

#define LABEL(field, text, number, byte) check_label(label_given((field), (text)), (number), (field), (byte), __LINE__)

static void test_label_refusals(void)
{
    LABEL(1, "2024022x", LANECOCKLE_BYTE, 7);
    LABEL(1, "20240230", LANECOCKLE_DATE, 0);
    LABEL(2, "6", LANECOCKLE_FORM, 8);
    LABEL(3, "00", LANECOCKLE_LENGTH, 9);
    LABEL(3, "001", LANECOCKLE_FORM, 9);
    LABEL(4, "3", LANECOCKLE_FORM, 12);
    LABEL(5, "12345678904", LANECOCKLE_CHECK, 13);
    LABEL(6, "0000000004 ", LANECOCKLE_BYTE, 34);
    LABEL(8, ZERO_OIB, LANECOCKLE_FORM, 46);
    /* one of the three employer's fields alone is 5 at field 7 */
    {
        fields f = label_given(6, ZERO_OIB);
        check_label(f, LANECOCKLE_FORM, 7, 35, __LINE__);
    }
}

static void test_write_order(void)
{
    fields f = order_given(0, "");
    uint8_t *out = fresh_room();
    ACCEPTED(lanecockle_write_order(DAY, 4, F(f), out, ROOM));
    CHECK(memcmp(out, f.text, 388) == 0 && memcmp(out + 542, f.text + 388, 20) == 0);
    CHECK(memcmp(out + 539, "000", 3) == 0 && out[388] == ' ' && out[538] == ' ');
    CHECK(is_dressed(out, 562, "309") && is_untouched(out, LINE));
    out = fresh_room();
    ACCEPTED(lanecockle_write_order(DAY, 5, F(f), out, LINE));
    CHECK(is_untouched(out, LINE));
    out = fresh_room();
    TOLD(lanecockle_write_order(DAY, 4, F(f), out, LINE - 1), LANECOCKLE_ROOM, 0, 0, 0, LINE);
    TOLD(lanecockle_write_order(DAY, 4, F(f), NULL, 0), LANECOCKLE_ROOM, 0, 0, 0, LINE);
    REFUSED(lanecockle_write_order(0, 3, F(f), out, ROOM), LANECOCKLE_DATE);
    REFUSED(lanecockle_write_order(DAY, 3, F(f), out, ROOM), LANECOCKLE_FORM);
    REFUSED(lanecockle_write_order(DAY, UINT64_MAX, F(f), out, ROOM), LANECOCKLE_FORM);
    TOLD(lanecockle_write_order(DAY, 4, NULL, 0, NULL, 0, out, ROOM), LANECOCKLE_LENGTH, 0, 1, 0, 0);
    CHECK(is_untouched(out, 0));
}

/* A refusal of an order's field, which leaves the room as it was. */
static void check_order(uint64_t kind, fields f, size_t number, size_t field, size_t byte, int line)
{
    uint8_t *out = fresh_room();
    check_told(lanecockle_write_order(DAY, kind, F(f), out, ROOM), number, 0, field, byte, 0, "write_order", line);
    check(is_untouched(out, 0), "write_order leaves the room", line);
}

#define ORDER(field, text, number, byte) \
    check_order(4, order_given((field), (text)), (number), (field), (byte), __LINE__)

static void test_order_refusals(void)
{
    ORDER(1, "hR7023400091510946338", LANECOCKLE_BYTE, 0);
    ORDER(1, IBAN "1", LANECOCKLE_FORM, 0);
    ORDER(1, "HR7123400091510946338", LANECOCKLE_CHECK, 0);
    ORDER(5, "190", LANECOCKLE_FORM, 174);
    ORDER(6, "HR1", LANECOCKLE_FORM, 177);
    ORDER(6, "HR12", LANECOCKLE_MODEL, 177);
    ORDER(7, "40002 1", LANECOCKLE_BYTE, 186);
    ORDER(7, "40002", LANECOCKLE_PARTS, 181);
    ORDER(7, "40003-12345678903", LANECOCKLE_DIGIT, 181);
    ORDER(8, "SAL1", LANECOCKLE_FORM, 203);
    ORDER(9, "Pla\xC4\x87" "a", LANECOCKLE_BYTE, 210);
    ORDER(9, "", LANECOCKLE_FORM, 207);
    ORDER(10, "12355", LANECOCKLE_LENGTH, 347);
    ORDER(12, "1", LANECOCKLE_DIGIT, 366);
    ORDER(18, "3", LANECOCKLE_FORM, 542);
    ORDER(19, "HRK", LANECOCKLE_FORM, 543);
    ORDER(20, "1", LANECOCKLE_FORM, 546);
    ORDER(21, "3", LANECOCKLE_FORM, 547);
    ORDER(22, "999", LANECOCKLE_FORM, 548);
    ORDER(23, "12345678904", LANECOCKLE_CHECK, 551);
    /* a reference without its model; what kind 5 asks for beyond kind 4 */
    check_order(4, order_given(6, ""), LANECOCKLE_PARTS, 7, 181, __LINE__);
    check_order(4, order_given(11, ""), LANECOCKLE_PARTS, 12, 366, __LINE__);
    check_order(5, order_given(23, ZERO_OIB), LANECOCKLE_FORM, 23, 551, __LINE__);
}

static void test_write_group(void)
{
    fields f = group_given(0, "");
    uint8_t *orders = block(2 * LINE);
    uint8_t *out = fresh_room();
    memcpy(orders, order_line("000000000012355"), LINE);
    memcpy(orders + LINE, order_line("999999999999999"), LINE);
    ACCEPTED(lanecockle_write_group(DAY, 4, F(f), orders, 2 * LINE, out, ROOM));
    CHECK(memcmp(out, f.text, 48) == 0 && memcmp(out + 48, "00002" "00001000000000012354" "20240229", 33) == 0);
    CHECK(is_dressed(out, 81, "301") && is_untouched(out, LINE));
    out = fresh_room();
    TOLD(lanecockle_write_group(DAY, 4, F(f), orders, LINE, out, LINE - 1), LANECOCKLE_ROOM, 0, 0, 0, LINE);
    TOLD(lanecockle_write_group(DAY, 4, F(f), orders, LINE, NULL, 0), LANECOCKLE_ROOM, 0, 0, 0, LINE);
    REFUSED(lanecockle_write_group(99999999, 4, F(f), orders, LINE, out, ROOM), LANECOCKLE_DATE);
    REFUSED(lanecockle_write_group(DAY, 6, F(f), NULL, 0, out, ROOM), LANECOCKLE_FORM);
    REFUSED(lanecockle_write_group(DAY, 4, F(f), orders, LINE + 1, out, ROOM), LANECOCKLE_SIZE);
    REFUSED(lanecockle_write_group(DAY, 4, F(f), NULL, 0, out, ROOM), LANECOCKLE_MISPLACED);
    TOLD(lanecockle_write_group(DAY, 4, NULL, 0, NULL, 0, orders, LINE, out, ROOM), LANECOCKLE_LENGTH, 0, 1, 0, 0);
    CHECK(is_untouched(out, 0));
}

static void test_group_orders(void)
{
    fields f = group_given(0, "");
    uint8_t *orders = block(2 * LINE);
    uint8_t *out = fresh_room();
    memcpy(orders, order_line("000000000012355"), LINE);
    memcpy(orders + LINE, label_line(), LINE);
    TOLD(lanecockle_write_group(DAY, 4, F(f), orders, 2 * LINE, out, ROOM), LANECOCKLE_MISPLACED, 2, 0, 0, 0);
    memcpy(orders + LINE, orders, LINE);
    orders[LINE + 347] = 'x';
    TOLD(lanecockle_write_group(DAY, 4, F(f), orders, 2 * LINE, out, ROOM), LANECOCKLE_BYTE, 2, 10, 347, 0);
    orders[LINE + 999] = '8';
    TOLD(lanecockle_write_group(DAY, 4, F(f), orders, 2 * LINE, out, ROOM), LANECOCKLE_FORM, 2, 0, 997, 0);
    orders[LINE + 1001] = '\r';
    TOLD(lanecockle_write_group(DAY, 4, F(f), orders, 2 * LINE, out, ROOM), LANECOCKLE_ENDS, 2, 0, 0, 0);
    CHECK(is_untouched(out, 0));
}

/* 100,000 orders are too many before any of them is read; 99,999 are not. */
static void test_group_too_large(void)
{
    fields f = group_given(0, "");
    uint8_t *out = fresh_room();
    uint8_t *orders = calloc(100000, LINE);
    CHECK(orders != NULL);
    if (orders != NULL) {
        REFUSED(lanecockle_write_group(DAY, 4, F(f), orders, (size_t)100000 * LINE, out, ROOM), LANECOCKLE_ORDERS);
        TOLD(lanecockle_write_group(DAY, 4, F(f), orders, (size_t)99999 * LINE, out, ROOM), LANECOCKLE_ENDS, 1, 0, 0, 0);
    }
    free(orders);
    CHECK(is_untouched(out, 0));
}

/* A refusal of a group's field, which leaves the room as it was. */
static void check_group(fields f, size_t number, size_t field, size_t byte, int line)
{
    uint8_t *out = fresh_room();
    uint8_t *order = order_line("000000000012355");
    check_told(lanecockle_write_group(DAY, 4, F(f), order, LINE, out, ROOM), number, 0, field, byte, 0, "write_group", line);
    check(is_untouched(out, 0), "write_group leaves the room", line);
}

#define GROUP(field, text, number, byte) check_group(group_given((field), (text)), (number), (field), (byte), __LINE__)

static void test_group_refusals(void)
{
    GROUP(1, "HR1310010051863000160", LANECOCKLE_CHECK, 0);
    GROUP(2, "HRK", LANECOCKLE_FORM, 21);
    GROUP(3, "HR12", LANECOCKLE_FORM, 24);
    GROUP(4, "EURO", LANECOCKLE_LENGTH, 45);
    GROUP(7, "20240227", LANECOCKLE_DATE, 73);
    GROUP(7, "2024022", LANECOCKLE_LENGTH, 73);
}

static void test_write_closing(void)
{
    uint8_t *out = fresh_room();
    ACCEPTED(lanecockle_write_closing(DAY, out, ROOM));
    CHECK(is_dressed(out, 0, "399") && is_untouched(out, LINE));
    out = fresh_room();
    TOLD(lanecockle_write_closing(DAY, out, LINE - 1), LANECOCKLE_ROOM, 0, 0, 0, LINE);
    TOLD(lanecockle_write_closing(DAY, NULL, 0), LANECOCKLE_ROOM, 0, 0, 0, LINE);
    REFUSED(lanecockle_write_closing(20221231, NULL, 0), LANECOCKLE_DATE);
    REFUSED(lanecockle_write_closing(20230229, out, ROOM), LANECOCKLE_DATE);
    CHECK(is_untouched(out, 0));
}

/* ---------------------------------------------------------------------------------------------------------------------
 * Sizes that are not the text's */

/* A call that writes: the number is a slip's cents, or a line's day. */
typedef lanecockle_told writer(uint64_t number, fields f, uint8_t *out, size_t room);

static lanecockle_told slip_told(uint64_t cents, fields f, uint8_t *out, size_t room)
{
    lanecockle_valued valued = lanecockle_slip_write(cents, F(f), out, room);
    CHECK(valued.told.number == LANECOCKLE_ACCEPTED || valued.value == 0);
    return valued.told;
}

static lanecockle_told label_told(uint64_t day, fields f, uint8_t *out, size_t room)
{
    return lanecockle_write_label(day, F(f), out, room);
}

static lanecockle_told order_told(uint64_t day, fields f, uint8_t *out, size_t room)
{
    return lanecockle_write_order(day, 4, F(f), out, room);
}

static lanecockle_told group_told(uint64_t day, fields f, uint8_t *out, size_t room)
{
    return lanecockle_write_group(day, 4, F(f), order_line("000000000012355"), LINE, out, room);
}

/* They are 1 before the cents or the day, and before the room; each call leaves the room as it was. */
static void check_unsized(writer *write, fields f, int line)
{
    static const uint64_t numbers[2] = {DAY, UINT64_MAX};
    static const size_t rooms[2] = {ROOM, 1};
    size_t i;
    for (i = 0; i < 4; i++) {
        uint8_t *out = fresh_room();
        lanecockle_told told = write(numbers[i / 2], f, out, rooms[i % 2]);
        check_told(told, LANECOCKLE_SIZE, 0, 0, 0, 0, "sizes that do not fit", line);
        check(is_untouched(out, 0), "sizes that do not fit leave the room", line);
    }
    check_told(write(DAY, f, NULL, 0), LANECOCKLE_SIZE, 0, 0, 0, 0, "sizes that do not fit, and no room", line);
}

#define UNSIZED(f) check_unsized(write, (f), line)

static void check_sizes(writer *write, fields right, int line)
{
    size_t last = right.count - 1;
    fields f = right;
    check_told(write(DAY, right, fresh_room(), ROOM), LANECOCKLE_ACCEPTED, 0, 0, 0, 0, "sizes that fit", line);
    /* a size too large: the last by one, the last and the first by far, and two that make the text's in 64 bits */
    f.sizes[last]++, UNSIZED(f);
    f.sizes[last] = SIZE_MAX, UNSIZED(f);
    f = right, f.sizes[0] = SIZE_MAX, UNSIZED(f);
    f.sizes[1] = right.sizes[0] + right.sizes[1] + 1, UNSIZED(f);
    /* a byte left over: behind the last field, of the last field, and for a size that is not read */
    f = right, f.text[f.length++] = ' ', UNSIZED(f);
    f.sizes[f.count++] = 1, UNSIZED(f);
    f = right, f.sizes[last]--, UNSIZED(f);
    /* the last size not there, and none of them */
    f = right, f.count--, UNSIZED(f);
    f.count = 0, UNSIZED(f);
}

#define SIZES(write, right) check_sizes((write), (right), __LINE__)

static void test_sizes(void)
{
    SIZES(slip_told, slip_given(0, ""));
    SIZES(label_told, label_given(0, ""));
    SIZES(order_told, order_given(0, ""));
    SIZES(group_told, group_given(0, ""));
}

/* ---------------------------------------------------------------------------------------------------------------------
 * Wage files judged */

enum { FILE_LINES = 5 };

/* What the orders of that file come to. */
#define FILE_CENTS 1000000000012354u

/* A file of a label, a group of two orders and the closing line. */
static uint8_t *whole_file(void)
{
    uint8_t *file = block(FILE_LINES * LINE);
    memcpy(file + 2 * LINE, order_line("000000000012355"), LINE);
    memcpy(file + 3 * LINE, order_line("999999999999999"), LINE);
    memcpy(file, label_line(), LINE);
    memcpy(file + LINE, group_line(file + 2 * LINE, 2), LINE);
    memcpy(file + 4 * LINE, closing_line(), LINE);
    return file;
}

static void test_wage_file(void)
{
    uint8_t *file = whole_file();
    COUNTS(lanecockle_wage_file(DAY, file, FILE_LINES * LINE), 5, 1, 2, FILE_CENTS);
    NO_COUNTS(lanecockle_wage_file(DAY, NULL, 0), LANECOCKLE_UNFINISHED, 1, 0, 0);
    NO_COUNTS(lanecockle_wage_file(DAY, file, 4 * LINE), LANECOCKLE_UNFINISHED, 5, 0, 0);
    NO_COUNTS(lanecockle_wage_file(DAY, file, 4 * LINE + 1), LANECOCKLE_SIZE, 5, 0, 0);
    NO_COUNTS(lanecockle_wage_file(DAY, file + LINE, 4 * LINE), LANECOCKLE_MISPLACED, 1, 0, 0);
    NO_COUNTS(lanecockle_wage_file(DAY + 1, file, FILE_LINES * LINE), LANECOCKLE_DATE, 1, 1, 0);
    NO_COUNTS(lanecockle_wage_file(20240230, file, FILE_LINES * LINE), LANECOCKLE_DATE, 0, 0, 0);
    NO_COUNTS(lanecockle_wage_file(0, NULL, 0), LANECOCKLE_DATE, 0, 0, 0);
}

/* A file with one byte changed. */
static lanecockle_ended file_with(size_t line, size_t byte, uint8_t value)
{
    uint8_t *file = whole_file();
    file[(line - 1) * LINE + byte] = value;
    return lanecockle_wage_file(DAY, file, FILE_LINES * LINE);
}

static void test_wage_refusals(void)
{
    NO_COUNTS(file_with(2, 3, '3'), LANECOCKLE_CHECK, 2, 1, 0);
    NO_COUNTS(file_with(3, 1001, ' '), LANECOCKLE_ENDS, 3, 0, 0);
    NO_COUNTS(file_with(3, 350, ' '), LANECOCKLE_BYTE, 3, 10, 350);
    NO_COUNTS(file_with(3, 997, '4'), LANECOCKLE_FORM, 3, 0, 997);
    NO_COUNTS(file_with(1, 8, '3'), LANECOCKLE_FORM, 1, 2, 8);
    NO_COUNTS(file_with(4, 178, 'S'), LANECOCKLE_FORM, 4, 6, 177);
    NO_COUNTS(file_with(4, 179, '2'), LANECOCKLE_MODEL, 4, 6, 177);
    NO_COUNTS(file_with(4, 186, '4'), LANECOCKLE_PARTS, 4, 7, 181);
    NO_COUNTS(file_with(4, 181, '5'), LANECOCKLE_FORM, 4, 7, 181);
    NO_COUNTS(file_with(4, 201, '1'), LANECOCKLE_FORM, 4, 7, 181);
    NO_COUNTS(file_with(4, 197, '4'), LANECOCKLE_DIGIT, 4, 7, 181);
    NO_COUNTS(file_with(2, 80, '7'), LANECOCKLE_DATE, 2, 7, 73);
    NO_COUNTS(file_with(2, 52, '1'), LANECOCKLE_ORDERS, 4, 0, 0);
    NO_COUNTS(file_with(2, 52, '3'), LANECOCKLE_ORDERS, 5, 0, 0);
    NO_COUNTS(file_with(2, 53, '1'), LANECOCKLE_SUM, 5, 0, 0);
}

/* Whether two records are the same; they hold no padding, being numbers of eight bytes. */
static int is_same_record(lanecockle_record a, lanecockle_record b)
{
    return memcmp(&a, &b, sizeof a) == 0;
}

/* Line by line: the record tells at each step what was read so far. */
static void test_judge_steps(void)
{
    static const size_t condition[FILE_LINES + 1] = {LANECOCKLE_FRESH, LANECOCKLE_LABELLED, LANECOCKLE_GROUPED,
                                                     LANECOCKLE_GROUPED, LANECOCKLE_GROUPED, LANECOCKLE_CLOSED};
    static const uint64_t total[FILE_LINES + 1] = {0, 0, 0, 12355, FILE_CENTS, FILE_CENTS};
    uint8_t *file = whole_file();
    lanecockle_record record = lanecockle_judge_begin(DAY);
    size_t n;
    for (n = 0; n <= FILE_LINES; n++) {
        CHECK(record.condition == condition[n] && record.lines == n && record.day == DAY);
        CHECK(is_cents(record.file_total, 0, total[n]));
        ACCEPTED(record.told);
        if (n < FILE_LINES) {
            NO_COUNTS(lanecockle_judge_end(record), LANECOCKLE_UNFINISHED, n + 1, 0, 0);
            record = lanecockle_judge_step(record, file + n * LINE, LINE);
        }
    }
    CHECK(record.kind == 4 && record.groups == 1 && record.orders == 2 && record.declared == 2 && record.counted == 2);
    CHECK(is_cents(record.promised, 0, FILE_CENTS) && is_cents(record.total, 0, FILE_CENTS));
    COUNTS(lanecockle_judge_end(record), 5, 1, 2, FILE_CENTS);
    CHECK(is_same_record(record, lanecockle_judge_lines(lanecockle_judge_begin(DAY), file, FILE_LINES * LINE)));
    record = lanecockle_judge_step(record, file, LINE);
    TOLD(record.told, LANECOCKLE_MISPLACED, 6, 0, 0, 0);
}

static void test_judge_parts(void)
{
    uint8_t *file = whole_file();
    lanecockle_record record = lanecockle_judge_begin(DAY);
    CHECK(is_same_record(record, lanecockle_judge_lines(record, NULL, 0)));
    record = lanecockle_judge_lines(record, file, 2 * LINE);
    CHECK(record.condition == LANECOCKLE_GROUPED && record.lines == 2 && record.promised.low == FILE_CENTS);
    record = lanecockle_judge_lines(record, file + 2 * LINE, 3 * LINE);
    COUNTS(lanecockle_judge_end(record), 5, 1, 2, FILE_CENTS);
    record = lanecockle_judge_lines(lanecockle_judge_begin(DAY), file, LINE + 7);
    TOLD(record.told, LANECOCKLE_SIZE, 2, 0, 0, 0);
}

/* A refused record comes back as it is, whatever line follows. */
static void test_judge_refused(void)
{
    uint8_t *file = whole_file();
    lanecockle_record record = lanecockle_judge_begin(20231301);
    CHECK(record.condition == LANECOCKLE_REFUSED && record.lines == 0);
    REFUSED(record.told, LANECOCKLE_DATE);
    NO_COUNTS(lanecockle_judge_end(record), LANECOCKLE_DATE, 0, 0, 0);
    record = lanecockle_judge_step(lanecockle_judge_begin(DAY), NULL, 0);
    CHECK(record.condition == LANECOCKLE_REFUSED && record.lines == 0);
    TOLD(record.told, LANECOCKLE_SIZE, 1, 0, 0, 0);
    CHECK(is_same_record(record, lanecockle_judge_step(record, file, LINE)));
    CHECK(is_same_record(record, lanecockle_judge_step(record, NULL, 0)));
    CHECK(is_same_record(record, lanecockle_judge_lines(record, file, FILE_LINES * LINE)));
    NO_COUNTS(lanecockle_judge_end(record), LANECOCKLE_SIZE, 1, 0, 0);
}

/* ---------------------------------------------------------------------------------------------------------------------
 * Records that the judge did not make */

static void check_beyond(lanecockle_record record, int line)
{
    uint8_t *closing = closing_line();
    lanecockle_record step = lanecockle_judge_step(record, closing, LINE);
    lanecockle_record lines = lanecockle_judge_lines(record, closing, LINE);
    check_unended(lanecockle_judge_end(record), LANECOCKLE_BEYOND, 1000001, 0, 0, "judge_end", line);
    check_told(step.told, LANECOCKLE_BEYOND, 1000001, 0, 0, 0, "judge_step", line);
    check(step.condition == LANECOCKLE_REFUSED, "judge_step refuses", line);
    check(is_same_record(step, lines), "judge_lines as judge_step", line);
}

#define BEYOND(record) check_beyond((record), __LINE__)

/* An open group that the next order or closing line is right for. */
static lanecockle_record open_group(void)
{
    return lanecockle_judge_lines(lanecockle_judge_begin(DAY), whole_file(), 4 * LINE);
}

static void test_record_counts(void)
{
    lanecockle_record record = open_group();
    record.lines = 999999;
    CHECK(lanecockle_judge_step(record, closing_line(), LINE).condition == LANECOCKLE_CLOSED);
    record.lines = 1000000;
    TOLD(lanecockle_judge_step(record, closing_line(), LINE).told, LANECOCKLE_BEYOND, 1000001, 0, 0, 0);
    NO_COUNTS(lanecockle_judge_end(record), LANECOCKLE_UNFINISHED, 1000001, 0, 0);
    record.lines = 1000001, BEYOND(record);
    record.lines = SIZE_MAX, BEYOND(record);
    record = open_group(), record.groups = 1000001, BEYOND(record);
    record = open_group(), record.orders = SIZE_MAX, BEYOND(record);
    record = open_group(), record.declared = 1000001, BEYOND(record);
    record = open_group(), record.counted = UINT64_MAX, BEYOND(record);
    record.condition = LANECOCKLE_CLOSED, BEYOND(record);
}

static void test_record_sums(void)
{
    lanecockle_record record = open_group();
    record.promised.high = 100, record.promised.low = 0, BEYOND(record);
    record.promised.high = 99, record.promised.low = 1000000000000000000u, BEYOND(record);
    record.promised.high = UINT64_MAX, record.promised.low = UINT64_MAX, BEYOND(record);
    record = open_group();
    record.total.high = 100, record.total.low = 0, BEYOND(record);
    record.total.high = UINT64_MAX, record.total.low = UINT64_MAX, BEYOND(record);
    /* sums are taken by the cents that they stand for */
    record.promised.high = 1, record.promised.low = 0;
    record.total.high = 0, record.total.low = 1000000000000000000u;
    CHECK(lanecockle_judge_step(record, closing_line(), LINE).condition == LANECOCKLE_CLOSED);
    record.total.high = 99, record.total.low = 999999999999999999u;
    TOLD(lanecockle_judge_step(record, closing_line(), LINE).told, LANECOCKLE_SUM, 5, 0, 0, 0);
}

static void test_record_conditions(void)
{
    lanecockle_record record = open_group();
    record.condition = 5, BEYOND(record);
    record.condition = SIZE_MAX, BEYOND(record);
    /* `told` is not read where the condition is not a refusal */
    record = open_group();
    record.told.number = 6, record.told.line = 2, record.told.needed = 9;
    CHECK(is_same_record(lanecockle_judge_lines(record, NULL, 0), open_group()));
}

/* A refusal of any number in a record: 1 to 17, 20, 28 and 29 stay, another one is 17; its place stays. */
static void test_record_refusals(void)
{
    static const size_t numbers[28] = {1,  2,  3,  4,  5,  6,  7,  8,  9,  10, 11, 12, 13, 14, 15, 16, 17, 20, 28, 29,
                                       0, 18, 19, 21, 27, 30, 32, SIZE_MAX};
    lanecockle_record record = open_group();
    size_t i;
    record.condition = LANECOCKLE_REFUSED;
    record.told.line = 3, record.told.field = 4, record.told.byte = SIZE_MAX, record.told.needed = 7;
    record.lines = SIZE_MAX;
    for (i = 0; i < 28; i++) {
        size_t number = i < 20 ? numbers[i] : LANECOCKLE_BEYOND;
        size_t needed = number == LANECOCKLE_ROOM ? 7 : 0;
        lanecockle_record next;
        record.told.number = numbers[i];
        next = lanecockle_judge_step(record, closing_line(), LINE);
        TOLD(next.told, number, 3, 4, SIZE_MAX, needed);
        TOLD(lanecockle_judge_end(record).told, number, 3, 4, SIZE_MAX, needed);
        next.told = record.told;
        CHECK(is_same_record(next, record));
    }
}

/* ---------------------------------------------------------------------------------------------------------------------
 * The running total */

#define TEN_TO_18 1000000000000000000u

/* A file of a label, a group of one order of a cent and the closing line, and the judge that stands before a line of it. */
enum { CENT_LINES = 4, LABEL_LINE = 1, GROUP_LINE = 2, ORDER_LINE = 3, CLOSING_LINE = 4 };

static uint8_t *cent_file(void)
{
    uint8_t *file = block(CENT_LINES * LINE);
    memcpy(file, label_line(), LINE);
    memcpy(file + 2 * LINE, order_line("000000000000001"), LINE);
    memcpy(file + LINE, group_line(file + 2 * LINE, 1), LINE);
    memcpy(file + 3 * LINE, closing_line(), LINE);
    return file;
}

static lanecockle_record before_line(const uint8_t *file, size_t number)
{
    return lanecockle_judge_lines(lanecockle_judge_begin(DAY), file, (number - 1) * LINE);
}

/* The total of the file in a record: an order adds its cents and writes the sum; every other line leaves the bytes. */
static void test_file_total(void)
{
    uint8_t *file = cent_file();
    lanecockle_record record = before_line(file, ORDER_LINE), next;
    record.file_total.low = UINT64_MAX;
    next = lanecockle_judge_step(record, file + 2 * LINE, LINE);
    CHECK(next.condition == LANECOCKLE_GROUPED && is_cents(next.file_total, 18, 446744073709551616u));
    record = before_line(file, GROUP_LINE);
    record.file_total.low = UINT64_MAX;
    next = lanecockle_judge_step(record, file + LINE, LINE);
    CHECK(next.condition == LANECOCKLE_GROUPED && is_cents(next.file_total, 0, UINT64_MAX));
    record = before_line(file, CLOSING_LINE);
    record.file_total.high = 3, record.file_total.low = 2 * TEN_TO_18;
    record = lanecockle_judge_step(record, file + 3 * LINE, LINE);
    CHECK(is_cents(lanecockle_judge_end(record).total, 3, 2 * TEN_TO_18));
}

/* 10^21 cents or more in a record are 17; the order that brings them there is taken. */
static void test_file_total_beyond(void)
{
    uint8_t *file = cent_file();
    lanecockle_record record = before_line(file, ORDER_LINE);
    record.file_total.high = 999, record.file_total.low = TEN_TO_18 - 2;
    record = lanecockle_judge_step(record, file + 2 * LINE, LINE);
    CHECK(record.condition == LANECOCKLE_GROUPED && is_cents(record.file_total, 999, TEN_TO_18 - 1));
    CHECK(lanecockle_judge_step(record, file + 3 * LINE, LINE).condition == LANECOCKLE_CLOSED);
    record = before_line(file, ORDER_LINE);
    record.file_total.high = 999, record.file_total.low = TEN_TO_18 - 1;
    record = lanecockle_judge_step(record, file + 2 * LINE, LINE);
    CHECK(record.condition == LANECOCKLE_GROUPED && record.lines == 3 && is_cents(record.file_total, 1000, 0));
    BEYOND(record);
    record = open_group();
    record.file_total.high = 1000, BEYOND(record);
    record.file_total.high = 999, record.file_total.low = TEN_TO_18, BEYOND(record);
    record.file_total.high = UINT64_MAX, record.file_total.low = UINT64_MAX, BEYOND(record);
    record.condition = LANECOCKLE_CLOSED, BEYOND(record);
}

/* A tally that is lent stands in a block of its own. */
static lanecockle_tally *lent(lanecockle_tally tally)
{
    return memcpy(block(sizeof tally), &tally, sizeof tally);
}

/* Whether two tallies are the same; they hold no padding. */
static int is_same_tally(const lanecockle_tally *a, lanecockle_tally b)
{
    return memcmp(a, &b, sizeof b) == 0;
}

static const lanecockle_tally zeros = {0, 0, {0, 0}};

/* Begun with zeros beside a fresh judge, a tally holds after each line what was read so far; the record is the judge's. */
static void test_tally_steps(void)
{
    static const lanecockle_tally after[FILE_LINES] = {
        {0, 0, {0, 0}}, {1, 0, {0, 0}}, {1, 1, {0, 12355}}, {1, 2, {0, FILE_CENTS}}, {1, 2, {0, FILE_CENTS}}};
    uint8_t *file = whole_file();
    lanecockle_tally *tally = lent(zeros);
    lanecockle_record record = lanecockle_judge_begin(DAY);
    size_t n;
    for (n = 0; n < FILE_LINES; n++) {
        lanecockle_record step = lanecockle_judge_step(record, file + n * LINE, LINE);
        record = lanecockle_judge_step_tally(record, file + n * LINE, LINE, tally);
        CHECK(is_same_record(record, step));
        CHECK(is_same_tally(tally, after[n]));
    }
    COUNTS(lanecockle_judge_end(record), 5, 1, 2, FILE_CENTS);
}

/* One tally may go through several files: it is the sum over them, and each file's own total is the file's. */
static void test_tally_files(void)
{
    uint8_t *files[2] = {whole_file(), cent_file()};
    static const size_t lines[2] = {FILE_LINES, CENT_LINES};
    lanecockle_tally *tally = lent(zeros);
    size_t i, n;
    for (i = 0; i < 2; i++) {
        lanecockle_record record = lanecockle_judge_begin(DAY);
        for (n = 0; n < lines[i]; n++) {
            record = lanecockle_judge_step_tally(record, files[i] + n * LINE, LINE, tally);
        }
        COUNTS(lanecockle_judge_end(record), lines[i], 1, i == 0 ? 2 : 1, i == 0 ? FILE_CENTS : 1);
    }
    CHECK(tally->groups == 2 && tally->orders == 3 && is_cents(tally->total, 0, FILE_CENTS + 1));
}

/* What is lent, the line of the file of a cent that is read, and what it leaves. */
static const struct {
    lanecockle_tally before;
    size_t line;
    lanecockle_tally after;
} taken[] = {
    {{0, 0, {0, 0}}, LABEL_LINE, {0, 0, {0, 0}}},
    {{0, 0, {0, 0}}, GROUP_LINE, {1, 0, {0, 0}}},
    {{1, 0, {0, 0}}, ORDER_LINE, {1, 1, {0, 1}}},
    {{1, 1, {0, 1}}, CLOSING_LINE, {1, 1, {0, 1}}},
    {{1000000, 0, {0, 0}}, LABEL_LINE, {1000000, 0, {0, 0}}},
    {{1000000, 1000000, {999, TEN_TO_18 - 1}}, CLOSING_LINE, {1000000, 1000000, {999, TEN_TO_18 - 1}}},
    {{999999, 1000000, {999, TEN_TO_18 - 1}}, GROUP_LINE, {1000000, 1000000, {999, TEN_TO_18 - 1}}},
    {{1000000, 999999, {0, 0}}, ORDER_LINE, {1000000, 1000000, {0, 1}}},
    {{0, 0, {999, TEN_TO_18 - 2}}, ORDER_LINE, {0, 1, {999, TEN_TO_18 - 1}}},
    {{0, 0, {0, TEN_TO_18 - 1}}, ORDER_LINE, {0, 1, {1, 0}}},
    {{0, 0, {0, UINT64_MAX}}, ORDER_LINE, {0, 1, {18, 446744073709551616u}}},
    {{0, 0, {0, UINT64_MAX}}, GROUP_LINE, {1, 0, {0, UINT64_MAX}}},
    {{0, 0, {0, UINT64_MAX}}, LABEL_LINE, {0, 0, {0, UINT64_MAX}}},
};

static void test_tally_taken(void)
{
    uint8_t *file = cent_file();
    size_t i;
    for (i = 0; i < sizeof taken / sizeof taken[0]; i++) {
        const uint8_t *line = file + (taken[i].line - 1) * LINE;
        lanecockle_record record = before_line(file, taken[i].line);
        lanecockle_tally *tally = lent(taken[i].before);
        lanecockle_record step = lanecockle_judge_step_tally(record, line, LINE, tally);
        CHECK(step.condition != LANECOCKLE_REFUSED && is_same_record(step, lanecockle_judge_step(record, line, LINE)));
        CHECK(is_same_tally(tally, taken[i].after));
    }
}

/* Tallies, and a line of the file of a cent that would leave them beyond their limits. */
static const struct {
    lanecockle_tally tally;
    size_t line;
} overfull[] = {
    {{1000000, 0, {0, 0}}, GROUP_LINE},
    {{0, 1000000, {0, 0}}, ORDER_LINE},
    {{0, 0, {999, TEN_TO_18 - 1}}, ORDER_LINE},
    {{0, 0, {982, UINT64_MAX}}, ORDER_LINE},
    /* beyond before the line */
    {{SIZE_MAX, 0, {0, 0}}, LABEL_LINE},
    {{1000001, 0, {0, 0}}, ORDER_LINE},
    {{1000001, 0, {0, 0}}, CLOSING_LINE},
    {{0, 1000001, {0, 0}}, LABEL_LINE},
    {{0, SIZE_MAX, {0, 0}}, GROUP_LINE},
    {{0, 0, {1000, 0}}, LABEL_LINE},
    {{0, 0, {999, TEN_TO_18}}, CLOSING_LINE},
    {{SIZE_MAX, SIZE_MAX, {UINT64_MAX, UINT64_MAX}}, GROUP_LINE},
};

/* 29 with the line's number; the tally and all else in the record are as they were, and 29 is given again. */
static void test_tally_overfull(void)
{
    uint8_t *file = cent_file();
    size_t i;
    for (i = 0; i < sizeof overfull / sizeof overfull[0]; i++) {
        lanecockle_tally *tally = lent(overfull[i].tally);
        lanecockle_record before = before_line(file, overfull[i].line);
        lanecockle_record record = lanecockle_judge_step_tally(before, file + (overfull[i].line - 1) * LINE, LINE, tally);
        TOLD(record.told, LANECOCKLE_OVERFULL, overfull[i].line, 0, 0, 0);
        CHECK(is_same_tally(tally, overfull[i].tally));
        CHECK(is_same_record(record, lanecockle_judge_step(record, file, LINE)));
        CHECK(is_same_record(record, lanecockle_judge_step_tally(record, file, LINE, lent(zeros))));
        CHECK(is_same_record(record, lanecockle_judge_lines(record, file, CENT_LINES * LINE)));
        NO_COUNTS(lanecockle_judge_end(record), LANECOCKLE_OVERFULL, overfull[i].line, 0, 0);
        before.condition = LANECOCKLE_REFUSED, before.told = record.told;
        CHECK(is_same_record(record, before));
    }
}

/* A step that the judge refuses: its answer is the judge's, and no byte of the tally, whatever it holds, changes. */
static void check_left(lanecockle_record record, const uint8_t *line, size_t length, int at)
{
    static const lanecockle_tally tallies[3] = {
        {0, 0, {0, 0}}, {7, 9, {1, UINT64_MAX}}, {SIZE_MAX, SIZE_MAX, {UINT64_MAX, UINT64_MAX}}};
    size_t i;
    for (i = 0; i < 3; i++) {
        lanecockle_tally *tally = lent(tallies[i]);
        lanecockle_record step = lanecockle_judge_step_tally(record, line, length, tally);
        check(step.condition == LANECOCKLE_REFUSED && step.told.number != LANECOCKLE_OVERFULL, "refused", at);
        check(is_same_record(step, lanecockle_judge_step(record, line, length)), "judge_step_tally as judge_step", at);
        check(is_same_tally(tally, tallies[i]), "the tally is as it was", at);
    }
}

#define LEFT(record, line, length) check_left((record), (line), (length), __LINE__)

static void test_tally_refused(void)
{
    uint8_t *file = cent_file();
    lanecockle_record record = before_line(file, ORDER_LINE);
    LEFT(lanecockle_judge_begin(DAY), bytes_of("300\r\n"), 5);
    LEFT(lanecockle_judge_begin(DAY), NULL, 0);
    LEFT(lanecockle_judge_begin(DAY + 1), file, LINE);
    LEFT(lanecockle_judge_begin(20240230), file, LINE);
    LEFT(record, file, LINE);
    LEFT(record, file + LINE, LINE);
    LEFT(before_line(file, CLOSING_LINE), file + 2 * LINE, LINE);
    LEFT(lanecockle_judge_lines(lanecockle_judge_begin(DAY), file, CENT_LINES * LINE), file, LINE);
    file[2 * LINE + 350] = ' ';
    LEFT(record, file + 2 * LINE, LINE);
    /* a record that no step goes on from: 17 comes before 29 */
    record.lines = 1000000, LEFT(record, file + 2 * LINE, LINE);
    record.condition = 5, LEFT(record, file + 2 * LINE, LINE);
    record = open_group(), record.file_total.high = 1000, LEFT(record, file + 3 * LINE, LINE);
}

/* ---------------------------------------------------------------------------------------------------------------------
 * References under HR69, wherever they are judged */

/* With three parts they are for personal income: 40002, an OIB and a code; 5 comes after 8 and before 9. */
static const struct {
    const char *text;
    size_t number;
} references[] = {
    {"40002-12345678903-100", LANECOCKLE_ACCEPTED},
    {"40002-12345678903-699", LANECOCKLE_ACCEPTED},
    {"40010-12345678903", LANECOCKLE_ACCEPTED},
    {"40003-12345678903", LANECOCKLE_DIGIT},
    {"40002-12345678904-100", LANECOCKLE_DIGIT},
    {"40010-12345678903-100", LANECOCKLE_FORM},
    {"40003-12345678903-100", LANECOCKLE_FORM},
    {"40003-12345678904-999", LANECOCKLE_FORM},
    {"40002-12345678903-101", LANECOCKLE_FORM},
    {"40002-12345678903-000", LANECOCKLE_FORM},
    {"40002-12345678903-099", LANECOCKLE_FORM},
    {"40002-12345678904-101", LANECOCKLE_FORM},
    {"40002-12345678903-10", LANECOCKLE_PARTS},
    {"40002-12345678903-10-1", LANECOCKLE_PARTS},
    {"40002", LANECOCKLE_PARTS},
};

/* A slip in a currency whose reference is under HR69, and the fields of one. */
static const char *slip_under_hr69(const char *currency, const char *reference)
{
    static char slip[2048];
    strcpy(slip, slip_in(currency, 12, reference));
    memcpy(slip + slip_start(11), "HR69", 4);
    return slip;
}

static fields given_under_hr69(const char *reference)
{
    fields f = {{0}, 0, {0}, 0};
    size_t n;
    for (n = 4; n <= 14; n++) {
        put(&f, n == 11 ? "HR69" : n == 12 ? reference : slip_fields[n - 4]);
    }
    return f;
}

/* In field 12 of a slip: read, for the ledgers too, written, and written with standing text. */
static void check_in_slips(const char *reference, size_t number)
{
    size_t field = number == 0 ? 0 : 12, start = number == 0 ? 0 : slip_start(12);
    fields f = given_under_hr69(reference);
    uint8_t *out = fresh_room(), *standing = fresh_room();
    TOLD(lanecockle_slip_read(T(slip_under_hr69("EUR", reference))), number, 0, field, start, 0);
    TOLD(lanecockle_ledger_read(T(slip_under_hr69("EUR", reference))).told, number, 0, field, start, 0);
    TOLD(lanecockle_ledger_read(T(slip_under_hr69("HRK", reference))).told, number, 0, field, start, 0);
    TOLD(lanecockle_slip_write(12355, F(f), out, ROOM).told, number, 0, field, 0, 0);
    TOLD(lanecockle_slip_write_standing(12355, F(f), T("4=x\n"), NULL, 0, standing, ROOM).told, number, 0, field, 0, 0);
    CHECK(is_untouched(out, 0) == (number != 0) && is_untouched(standing, 0) == (number != 0));
}

/* In field 7 or 12 of an order: written, judged in a file, and lent to the writer of a group. */
static void check_in_orders(size_t field, const char *reference, size_t number)
{
    size_t byte = field == 7 ? 181 : 366, told = number == 0 ? 0 : field, first = number == 0 ? 0 : byte;
    fields order = order_given(field, reference), group = group_given(0, "");
    uint8_t *out = fresh_room(), *file = whole_file();
    /* the model is the field before, and the fields stand as in the line up to here */
    memcpy(order.text + byte - 4, "HR69", 4);
    memcpy(file + 3 * LINE + byte - 4, order.text + byte - 4, 26);
    TOLD(lanecockle_wage_file(DAY, file, FILE_LINES * LINE).told, number, number == 0 ? 0 : 4, told, first, 0);
    TOLD(lanecockle_write_order(DAY, 4, F(order), out, ROOM), number, 0, told, first, 0);
    CHECK(is_untouched(out, 0) == (number != 0));
    out = fresh_room();
    TOLD(lanecockle_write_group(DAY, 4, F(group), file + 2 * LINE, 2 * LINE, out, ROOM), number, number == 0 ? 0 : 2, told,
         first, 0);
    CHECK(is_untouched(out, 0) == (number != 0));
}

static void test_personal_income(void)
{
    size_t i;
    for (i = 0; i < sizeof references / sizeof references[0]; i++) {
        REFUSED(lanecockle_reference(T("HR69"), T(references[i].text)), references[i].number);
        check_in_slips(references[i].text, references[i].number);
        check_in_orders(7, references[i].text, references[i].number);
        check_in_orders(12, references[i].text, references[i].number);
        give_back();
    }
    /* another model asks for no contents; a model without its form is 5 too */
    ACCEPTED(lanecockle_reference(T("HR00"), T("40003-12345678904-101")));
    REFUSED(lanecockle_reference(T("HR6"), T("40002-12345678903-100")), LANECOCKLE_FORM);
}

/* The code of the reference and that of field 22 are not compared. */
static void test_two_codes(void)
{
    fields f = order_given(22, "699");
    ACCEPTED(lanecockle_write_order(DAY, 4, F(f), fresh_room(), ROOM));
}

/* ---------------------------------------------------------------------------------------------------------------------
 * Places */

static void test_places(void)
{
    static const size_t group[7][2] = {{0, 21}, {21, 3}, {24, 21}, {45, 3}, {48, 5}, {53, 20}, {73, 8}};
    static const size_t label[8][2] = {{0, 8}, {8, 1}, {9, 3}, {12, 1}, {13, 11}, {24, 11}, {35, 11}, {46, 11}};
    static const size_t order[24][2] = {{0, 0},   {0, 34},   {34, 140}, {0, 0},   {0, 0},   {174, 3},  {177, 4}, {181, 22},
                                        {203, 4}, {207, 140}, {347, 15}, {362, 4}, {366, 22}, {0, 0},   {0, 0},   {0, 0},
                                        {0, 0},   {0, 0},     {542, 1},  {543, 3}, {546, 1},  {547, 1}, {548, 3}, {551, 11}};
    uint8_t *file = whole_file();
    size_t n;
    for (n = 0; n < 26; n++) {
        size_t in_label = n >= 1 && n <= 8, in_group = n >= 1 && n <= 7, in_order = n <= 23;
        PART(lanecockle_wage_place(file, LINE, n), in_label ? label[n - 1][0] : 0, in_label ? label[n - 1][1] : 0);
        PART(lanecockle_wage_place(file + LINE, LINE, n), in_group ? group[n - 1][0] : 0, in_group ? group[n - 1][1] : 0);
        PART(lanecockle_wage_place(file + 2 * LINE, LINE, n), in_order ? order[n][0] : 0, in_order ? order[n][1] : 0);
        PART(lanecockle_wage_place(file + 4 * LINE, LINE, n), 0, 0);
    }
    PART(lanecockle_wage_place(file, LINE, SIZE_MAX), 0, 0);
    PART(lanecockle_wage_place(NULL, 0, 1), 0, 0);
    PART(lanecockle_wage_place(file, LINE - 1, 1), 0, 0);
    file[1000] = ' ';
    PART(lanecockle_wage_place(file, LINE, 1), 0, 0);
    file[1000] = '\r', file[999] = '8';
    PART(lanecockle_wage_place(file, LINE, 1), 0, 0);
}

/* The fields of a line, by their numbers, as a writer takes them. */
static fields fields_of(const uint8_t *line, const size_t *numbers, size_t count)
{
    fields f = {{0}, 0, {0}, 0};
    size_t i;
    for (i = 0; i < count; i++) {
        lanecockle_part part = lanecockle_wage_place(line, LINE, numbers[i]);
        memcpy(f.text + f.length, line + part.start, part.length);
        f.length += part.length;
        f.sizes[f.count++] = part.length;
    }
    return f;
}

/* A file written, queried place by place and written again is the same. */
static void test_wage_round(void)
{
    static const size_t numbers[16] = {1, 2, 5, 6, 7, 8, 9, 10, 11, 12, 18, 19, 20, 21, 22, 23};
    static const size_t labels[8] = {1, 2, 3, 4, 5, 6, 7, 8};
    static const size_t groups[5] = {1, 2, 3, 4, 7};
    uint8_t *file = whole_file();
    uint8_t *again = block(FILE_LINES * LINE);
    fields label = fields_of(file, labels, 8), group = fields_of(file + LINE, groups, 5);
    fields first = fields_of(file + 2 * LINE, numbers, 16), second = fields_of(file + 3 * LINE, numbers, 16);
    ACCEPTED(lanecockle_write_order(DAY, 4, F(second), again + 3 * LINE, LINE));
    ACCEPTED(lanecockle_write_order(DAY, 4, F(first), again + 2 * LINE, LINE));
    ACCEPTED(lanecockle_write_group(DAY, 4, F(group), again + 2 * LINE, 2 * LINE, again + LINE, LINE));
    ACCEPTED(lanecockle_write_label(DAY, F(label), again, LINE));
    ACCEPTED(lanecockle_write_closing(DAY, again + 4 * LINE, LINE));
    CHECK(memcmp(file, again, FILE_LINES * LINE) == 0);
    COUNTS(lanecockle_wage_file(DAY, again, FILE_LINES * LINE), 5, 1, 2, FILE_CENTS);
}

/* ------------------------------------------------------------------------------------------------------------------ */

static void (*const tests[])(void) = {
    test_check_digits,   test_make_digit,     test_iban,
    test_oib,            test_reference,      test_list_iban,
    test_list_reference, test_list_personal_income, test_all_fillings, test_filled,
    test_slip_read,      test_slip_field,     test_slip_cents,
    test_slip_write,     test_slip_longest,   test_slip_write_refusals,
    test_slip_write_sizes, test_slip_round,   test_standing_text,
    test_standing_longest, test_standing_fields, test_standing_malformed,
    test_standing_order, test_standing_sheets, test_slip_write_standing,
    test_standing_longest_slip, test_standing_write_order, test_standing_write_refusals,
    test_standing_round, test_ledger_read,
    test_ledger_whole,   test_ledger_currency, test_ledger_refusals,
    test_ledger_account, test_ledger_field,   test_kuna_is_no_euro,
    test_lipa_in_cents,  test_write_label,
    test_label_refusals, test_write_order,    test_order_refusals,
    test_write_group,    test_group_orders,   test_group_too_large,
    test_group_refusals, test_write_closing,  test_sizes,
    test_wage_file,      test_wage_refusals,  test_judge_steps,
    test_judge_parts,    test_judge_refused,  test_record_counts,
    test_record_sums,    test_record_conditions, test_record_refusals,
    test_file_total,     test_file_total_beyond, test_tally_steps,
    test_tally_files,    test_tally_taken,    test_tally_overfull,
    test_tally_refused,
    test_personal_income, test_two_codes,
    test_places,         test_wage_round,     test_version,
};

int main(void)
{
    size_t i;
    for (i = 0; i < sizeof tests / sizeof tests[0]; i++) {
        tests[i]();
        give_back();
    }
    printf("c: %u checks, %u failed\n", checks, failures);
    return failures != 0;
}
