/* The functions of lanecockle.h with one mistake in one of them, which the variable MISTAKE names: the properties must
 * see it. The right functions stand in the library under other names, with `right_` before them. */
#include <stdlib.h>
#include <string.h>

#include "../../include/lanecockle.h"

static int is(const char *name)
{
    static const char *mistake;
    if (!mistake) {
        mistake = getenv("MISTAKE");
        if (!mistake)
            mistake = "";
    }
    return strcmp(mistake, name) == 0;
}

/* Reads and writes that the compiler may not leave out. */
static uint8_t peek(const void *at, ptrdiff_t place) { return ((const volatile uint8_t *)at)[place]; }
static void poke(const void *at, size_t place) { volatile uint8_t *byte = (volatile uint8_t *)at + place; *byte = *byte; }

/* Sizes as a library takes them that lets a field end with the text. */
static const size_t *cut(const size_t *sizes, size_t count, size_t text_length)
{
    static size_t shorter[64];
    size_t i;
    for (i = 0; i < count; i++) {
        shorter[i] = sizes[i] < text_length ? sizes[i] : text_length;
        text_length -= shorter[i];
    }
    return shorter;
}

/* What the sizes of so many fields make, in 64 bits. */
static size_t together(const size_t *sizes, size_t count, size_t fields)
{
    size_t i, sum = 0;
    for (i = 0; i < count && i < fields; i++)
        sum += sizes[i];
    return sum;
}

/* A text as a library takes it that drops what its fields leave over. */
static size_t dropped(const size_t *sizes, size_t count, size_t fields, size_t text_length)
{
    size_t sum = together(sizes, count, fields);
    return sum < text_length ? sum : text_length;
}

/* Check digits, accounts, references */

lanecockle_told right_lanecockle_check_digits(uint32_t, const uint8_t *, size_t);
lanecockle_valued right_lanecockle_make_digit(uint32_t, const uint8_t *, size_t);
lanecockle_told right_lanecockle_iban(const uint8_t *, size_t);
lanecockle_told right_lanecockle_oib(const uint8_t *, size_t);
lanecockle_told right_lanecockle_reference(const uint8_t *, size_t, const uint8_t *, size_t);

lanecockle_told lanecockle_check_digits(uint32_t rule, const uint8_t *digits, size_t length)
{
    lanecockle_told told = right_lanecockle_check_digits(is("check-rule") && rule == 2 ? 1 : rule, digits, length);
    if (is("check-place") && told.number == 9)
        told.byte = length - 1;
    if (is("check-long") && length == 22)
        memset(&told, 0, sizeof told), told.number = 1;
    return told;
}

lanecockle_valued lanecockle_make_digit(uint32_t rule, const uint8_t *digits, size_t length)
{
    lanecockle_valued made = right_lanecockle_make_digit(rule, digits, length);
    if (is("make-value") && rule == 0 && made.told.number == 0 && length == 19)
        made.value = (made.value + 1) % 10;
    if (is("make-refused") && made.told.number == 1)
        made.value = 1;
    return made;
}

static uint64_t number_of(const uint8_t *digits, size_t length)
{
    uint64_t n = 0;
    for (size_t i = 0; i < length; i++)
        n = n * 10 + (digits[i] - '0');
    return n;
}

/* An IBAN of the right form, checked in two runs with one of W3's mistakes in them. */
static int checked_in_runs(const uint8_t *text)
{
    uint64_t check = number_of(text + 2, 2), bank = number_of(text + 4, 7), account = number_of(text + 11, 10);
    uint64_t both = bank * 10000000000 + account;
    if (is("iban-run-short"))
        both = bank * 1000000000 + account / 10;
    if (is("iban-runs-exchanged"))
        both = account * 10000000 + bank;
    if (is("iban-run-over-79"))
        both = bank % 79 * 10000000000 + account;
    return check >= 2 && check <= 98 && (both % 97 * 1000000 + 172700 + check) % 97 == 1;
}

lanecockle_told lanecockle_iban(const uint8_t *text, size_t length)
{
    lanecockle_told told = right_lanecockle_iban(text, length);
    if (told.number == 0 || told.number == 6)
        if (is("iban-run-short") || is("iban-runs-exchanged") || is("iban-run-over-79"))
            told.number = checked_in_runs(text) ? 0 : 6;
    if (is("iban-twin") && told.number == 6 && text[2] == '9' && text[3] == '9')
        told.number = 0;
    if (is("iban-byte") && told.number == 3)
        told.byte++;
    if (is("iban-reads-behind"))
        peek(text, (ptrdiff_t)length);
    if (is("iban-reads-before"))
        peek(text, -1);
    return told;
}

lanecockle_told lanecockle_oib(const uint8_t *text, size_t length)
{
    lanecockle_told told = right_lanecockle_oib(text, length);
    if (is("oib-order") && told.number == 3 && length != 11)
        memset(&told, 0, sizeof told), told.number = 4;
    if (is("oib-writes") && length > 0)
        poke(text, 0);
    return told;
}

/* The two hyphens of a wage reference (W4), whose parts have 5, 11 and 3 digits. */
enum { FIRST = 5, SECOND = 17, WAGE = 21 };

static lanecockle_told under_69(const uint8_t *text, size_t length)
{
    return right_lanecockle_reference((const uint8_t *)"HR69", 4, text, length);
}

static int is_first(const uint8_t *text) { return memcmp(text, "40002", FIRST) == 0; }

static int is_code(const uint8_t *code)
{
    uint8_t text[WAGE + 1] = "40002-12345678903-";
    memcpy(text + SECOND + 1, code, 3);
    return under_69(text, WAGE).number == 0;
}

static size_t hyphens(const uint8_t *text, size_t length)
{
    size_t i, count = 0;
    for (i = 0; i < length; i++)
        count += text[i] == '-';
    return count;
}

/* Whether one of W4's mistakes lets contents pass that are wrong. */
static int lets_pass(const uint8_t *text)
{
    uint64_t code = number_of(text + SECOND + 1, 3);
    return is("reference-digit-first") ? under_69(text, SECOND).number == 9
         : is("reference-first-alone") ? is_first(text)
         : is("reference-code-alone") ? is_code(text + SECOND + 1)
         : is("reference-code-range") ? is_first(text) && code >= 100 && code <= 699
                                      : 0;
}

/* An answer under HR69, HR35 or HR00 with one of W4's mistakes in it. */
static lanecockle_told asked_otherwise(const uint8_t *model, const uint8_t *text, size_t length, lanecockle_told told)
{
    int judged = told.number == 0 || told.number == 9;
    int two = hyphens(text, length) == 1, three = hyphens(text, length) == 2;
    if (memcmp(model, "HR69", 4) == 0) {
        if (told.number == 5 && lets_pass(text))
            return under_69(text, SECOND);
        if (is("reference-two-parts") && judged && two && !is_first(text))
            told.number = 5;
        if (is("reference-contents-first") && told.number == 8 && three && length > FIRST && !is_first(text))
            told.number = 5;
    }
    if (is("reference-other-model") && memcmp(model, "HR35", 4) == 0 && judged && (length < FIRST || !is_first(text)))
        told.number = 5;
    if (is("reference-every-model") && memcmp(model, "HR00", 4) == 0 && judged && length == WAGE && three &&
        text[FIRST] == '-' && text[SECOND] == '-' && !(is_first(text) && is_code(text + SECOND + 1)))
        told.number = 5;
    return told;
}

lanecockle_told lanecockle_reference(const uint8_t *model, size_t model_length, const uint8_t *text, size_t text_length)
{
    lanecockle_told told = right_lanecockle_reference(model, model_length, text, text_length);
    if (model_length == 4)
        told = asked_otherwise(model, text, text_length, told);
    if (is("reference-digit") && told.number == 9 && memcmp(model, "HR16", 4) == 0)
        told.number = 0;
    if (is("reference-model") && told.number == 7)
        told.number = 5;
    if (is("reference-reads-behind"))
        peek(model, (ptrdiff_t)model_length);
    return told;
}

/* Wet slips */

lanecockle_valued right_lanecockle_list_iban(const uint8_t *, size_t, uint16_t *, size_t);
lanecockle_valued right_lanecockle_list_reference(const uint8_t *, size_t, const uint8_t *, size_t, uint16_t *, size_t);
lanecockle_told right_lanecockle_filled(const uint8_t *, size_t, uint16_t, uint8_t *, size_t);

lanecockle_valued lanecockle_list_iban(const uint8_t *text, size_t length, uint16_t *out, size_t room)
{
    lanecockle_valued listed = right_lanecockle_list_iban(text, length, out, room);
    if (is("list-behind") && listed.told.number == 0 && listed.value < room)
        out[listed.value]++;
    if (is("list-needed") && listed.told.number == 15)
        listed.told.needed++;
    if (is("list-marks") && listed.told.number == 16)
        listed.told.number = 3;
    return listed;
}

/* The fillings of a wage reference as before W4, as far as there is room, and how many. */
static size_t listed_before(const uint8_t *text, uint16_t *out, size_t room)
{
    uint8_t trial[WAGE];
    size_t i, number, end = 1, count = 0;
    for (i = 0; i < WAGE; i++)
        end *= text[i] == '?' ? 10 : 1;
    for (number = 0; number < end && count < room; number++) {
        right_lanecockle_filled(text, WAGE, (uint16_t)number, trial, WAGE);
        if (under_69(trial, SECOND).number == 0)
            out[count++] = (uint16_t)number;
    }
    return count;
}

lanecockle_valued lanecockle_list_reference(const uint8_t *model, size_t model_length, const uint8_t *text,
                                            size_t text_length, uint16_t *out, size_t room)
{
    lanecockle_valued listed =
        right_lanecockle_list_reference(model, model_length, text, text_length, out, room);
    if (is("list-before-w4") && listed.told.number == 0 && memcmp(model, "HR69", 4) == 0 && text_length == WAGE &&
        hyphens(text, WAGE) == 2 && text[FIRST] == '-' && text[SECOND] == '-')
        listed.value = listed_before(text, out, room);
    if (is("list-last") && listed.told.number == 0 && listed.value > 1)
        out[listed.value - 1]++;
    if (is("list-refused-writes") && listed.told.number == 15 && room > 0)
        out[0]++;
    if (is("list-past-room") && listed.told.number == 15)
        poke(out, 2 * room);
    return listed;
}

lanecockle_told lanecockle_filled(const uint8_t *text, size_t length, uint16_t number, uint8_t *out, size_t room)
{
    lanecockle_told told = right_lanecockle_filled(text, length, number, out, room);
    if (is("filled-behind") && told.number == 0 && room > length)
        out[length] ^= 1;
    if (is("filled-refused-writes") && told.number == 15 && room > 0)
        out[room - 1] ^= 1;
    return told;
}

/* Slips */

lanecockle_told right_lanecockle_slip_read(const uint8_t *, size_t);
lanecockle_part right_lanecockle_slip_field(const uint8_t *, size_t, size_t);
lanecockle_valued right_lanecockle_slip_cents(const uint8_t *, size_t);
lanecockle_valued right_lanecockle_slip_write(uint64_t, const uint8_t *, size_t, const size_t *, size_t, uint8_t *,
                                              size_t);
lanecockle_ledger right_lanecockle_ledger_read(const uint8_t *, size_t);
lanecockle_part right_lanecockle_ledger_field(const uint8_t *, size_t, size_t);
uint64_t right_lanecockle_lipa_in_cents(uint64_t);

lanecockle_told lanecockle_slip_read(const uint8_t *slip, size_t length)
{
    lanecockle_told told = right_lanecockle_slip_read(slip, length);
    if (is("slip-field-number") && told.field == 14)
        told.field = 13;
    if (is("slip-size") && length == 483)
        memset(&told, 0, sizeof told), told.number = 1;
    if (is("slip-kuna") && told.field == 2 && right_lanecockle_ledger_read(slip, length).told.number == 0)
        memset(&told, 0, sizeof told);
    if (is("slip-wage-byte") && told.number == 5 && told.field == 12)
        told.byte += SECOND + 1;
    return told;
}

lanecockle_part lanecockle_slip_field(const uint8_t *slip, size_t length, size_t number)
{
    lanecockle_part part = right_lanecockle_slip_field(slip, length, number);
    if (is("slip-empty-part") && part.length == 0)
        part.start = 0;
    if (is("slip-part-of-3") && number == 3)
        part.start = 13, part.length = 15;
    if (is("slip-part-long") && number == 14 && part.length > 0)
        part.length++;
    if (is("slip-kuna-part"))
        part = right_lanecockle_ledger_field(slip, length, number);
    return part;
}

lanecockle_valued lanecockle_slip_cents(const uint8_t *slip, size_t length)
{
    lanecockle_valued cents = right_lanecockle_slip_cents(slip, length);
    if (is("slip-cents"))
        cents.value = (uint32_t)cents.value;
    if (is("slip-kuna-cents") && cents.told.field == 2)
        cents.value = right_lanecockle_ledger_read(slip, length).converted;
    return cents;
}

lanecockle_valued lanecockle_slip_write(uint64_t cents, const uint8_t *text, size_t text_length, const size_t *sizes,
                                        size_t count, uint8_t *out, size_t room)
{
    if (is("slip-write-cuts"))
        sizes = cut(sizes, count, text_length);
    if (is("slip-write-drops"))
        text_length = dropped(sizes, count, 11, text_length);
    lanecockle_valued written = right_lanecockle_slip_write(cents, text, text_length, sizes, count, out, room);
    if (is("slip-write-behind") && written.told.number == 0 && room > written.value)
        out[written.value] ^= 1;
    if (is("slip-write-value") && written.told.number == 0)
        written.value--;
    if (is("slip-write-refused-writes") && written.told.number > 2 && room > 0)
        out[0] ^= 1;
    if (is("slip-write-wraps") && written.told.number == 1 && together(sizes, count, 11) == text_length)
        written.told.number = 4;
    if (is("slip-write-one-too-many") && written.told.number == 1 && together(sizes, count, 12) == text_length)
        written.told.number = 4;
    if (is("slip-write-refused-size-writes") && written.told.number == 1 && room > 0)
        out[0] ^= 1;
    if (is("slip-write-reads-sizes"))
        peek(sizes + count, 0);
    if (is("slip-write-amount") && written.told.number == 0 && cents >= 100000000000000)
        out[13] ^= 1;
    return written;
}

/* Slips of either kind */

/* Whether lipa lie just above the middle between two cents. */
static int barely_up(uint64_t lipa) { return lipa % 15069 == 3658; }

/* Twenty thousand times the lipa, and half a cent, in 64 bits. */
static uint64_t wrapped(uint64_t lipa) { return (lipa * 20000 + 75345) / 150690; }

/* An account one byte short in a kuna slip that is refused for it. */
static int short_account(const uint8_t *slip, lanecockle_told told)
{
    const uint8_t *field = slip + told.byte;
    return told.number == 4 && told.field == 10 && memcmp(slip + 9, "HRK", 3) == 0 && *field >= '0' && *field <= '9' &&
           (const uint8_t *)memchr(field, '\n', 22) == field + 17;
}

lanecockle_ledger lanecockle_ledger_read(const uint8_t *slip, size_t length)
{
    lanecockle_ledger read = right_lanecockle_ledger_read(slip, length);
    int kuna = read.currency == LANECOCKLE_KUNA;
    if (is("ledger-currency") && read.told.number == 0)
        read.currency = LANECOCKLE_EURO + LANECOCKLE_KUNA - read.currency;
    if (is("ledger-border") && kuna && barely_up(read.lipa))
        read.converted--;
    if (is("ledger-wraps") && kuna)
        read.converted = wrapped(read.lipa);
    if (is("ledger-euro-converted") && read.currency == LANECOCKLE_EURO)
        read.converted = right_lanecockle_lipa_in_cents(read.cents);
    if (is("ledger-lipa-as-cents") && kuna)
        read.cents = read.lipa, read.lipa = 0;
    if (is("ledger-short-account") && short_account(slip, read.told))
        memset(&read, 0, sizeof read), read.currency = LANECOCKLE_KUNA;
    if (is("ledger-hyphen") && read.told.number == 5 && read.told.field == 10 && memcmp(slip + 9, "HRK", 3) == 0)
        read.told.number = 3;
    if (is("ledger-reads-behind"))
        peek(slip, (ptrdiff_t)length);
    return read;
}

lanecockle_part lanecockle_ledger_field(const uint8_t *slip, size_t length, size_t number)
{
    lanecockle_part part = right_lanecockle_ledger_field(slip, length, number);
    if (is("ledger-part-of-3") && number == 3)
        part.start = 13, part.length = 15;
    if (is("ledger-part-account") && number == 10 && part.length == 18)
        part.length = 21;
    if (is("ledger-part-euro") && number == 14 && right_lanecockle_slip_read(slip, length).number == 0)
        part.length = 0;
    return part;
}

uint64_t lanecockle_lipa_in_cents(uint64_t lipa)
{
    if (is("lipa-border") && barely_up(lipa))
        return right_lanecockle_lipa_in_cents(lipa) - 1;
    if (is("lipa-wraps"))
        return wrapped(lipa);
    if (is("lipa-double"))
        return (uint64_t)((double)lipa / 7.5345 + 0.5);
    return right_lanecockle_lipa_in_cents(lipa);
}

/* Standing text */

lanecockle_standing right_lanecockle_standing_text(size_t, const uint8_t *, size_t, const uint8_t *, size_t);
lanecockle_standing_written right_lanecockle_slip_write_standing(uint64_t, const uint8_t *, size_t, const size_t *,
                                                                 size_t, const uint8_t *, size_t, const uint8_t *,
                                                                 size_t, uint8_t *, size_t);

/* How many bytes stand before a line, counted from 1. */
static size_t before_line(const uint8_t *sheet, size_t length, size_t line)
{
    size_t at = 0;
    while (line > 1 && at < length)
        line -= sheet[at++] == '\n';
    return at;
}

/* Whether a line and the one before it have one number. */
static int twice(const uint8_t *sheet, size_t length, size_t line)
{
    size_t at = before_line(sheet, length, line), before = before_line(sheet, length, line - 1);
    return line > 1 && length > at + 3 && memcmp(sheet + at, sheet + before, sheet[at] == '1' ? 3 : 2) == 0;
}

/* A sheet up to its last line feed. */
static size_t whole_lines(const uint8_t *sheet, size_t length)
{
    while (length > 0 && sheet[length - 1] != '\n')
        length--;
    return length;
}

lanecockle_standing lanecockle_standing_text(size_t field, const uint8_t *farm, size_t farm_length,
                                             const uint8_t *association, size_t association_length)
{
    if (is("standing-unended"))
        farm_length = whole_lines(farm, farm_length);
    lanecockle_standing found =
        right_lanecockle_standing_text(field, farm, farm_length, association, association_length), other;
    int faulty = found.told.number == LANECOCKLE_SHEET;
    if (is("standing-28-last") && found.told.number == LANECOCKLE_FIELD) {
        other = right_lanecockle_standing_text(4, farm, farm_length, association, association_length);
        return other.told.number ? other : found;
    }
    if (is("standing-28-place") && found.told.number == LANECOCKLE_FIELD)
        found.told.field = field;
    if (is("standing-association-first") && found.sheet == LANECOCKLE_FARM && !faulty) {
        other = right_lanecockle_standing_text(field, farm, 0, association, association_length);
        return other.sheet ? other : found;
    }
    if (is("standing-empty-falls-through") && found.sheet == LANECOCKLE_FARM && found.length == 0 && !faulty)
        return right_lanecockle_standing_text(field, farm, 0, association, association_length);
    if (is("standing-fault-behind") && faulty && found.sheet == LANECOCKLE_FARM) {
        farm_length = before_line(farm, farm_length, found.told.line);
        other = right_lanecockle_standing_text(field, farm, farm_length, association, association_length);
        return other.sheet == LANECOCKLE_FARM ? other : found;
    }
    if (is("standing-fault-beside") && faulty && found.sheet == LANECOCKLE_ASSOCIATION) {
        other = right_lanecockle_standing_text(field, farm, farm_length, association, 0);
        return other.sheet == LANECOCKLE_FARM ? other : found;
    }
    if (is("standing-line-counts-on") && faulty && found.sheet == LANECOCKLE_ASSOCIATION && farm_length > 0)
        found.told.line++;
    if (is("standing-first-of-two") && faulty && found.sheet == LANECOCKLE_FARM &&
        twice(farm, farm_length, found.told.line))
        found.told.line--;
    if (is("standing-sheet") && faulty)
        found.sheet = LANECOCKLE_NO_SHEET;
    if (is("standing-neither") && found.told.number == 0 && found.sheet == LANECOCKLE_NO_SHEET)
        found.sheet = LANECOCKLE_ASSOCIATION;
    if (is("standing-empty-part") && found.length == 0)
        found.start = 0;
    if (is("standing-bytes") && found.length > 35)
        memset(&found, 0, sizeof found), found.told.number = LANECOCKLE_SHEET, found.told.line = 1, found.sheet = 1;
    if (is("standing-long") && farm_length > 65535)
        found.told.number = 1;
    if (is("standing-reads-farm"))
        peek(farm, (ptrdiff_t)farm_length);
    if (is("standing-reads-association"))
        peek(association, (ptrdiff_t)association_length);
    return found;
}

/* Whether each of the fields that a sheet may have is given. */
static int all_given(const size_t *sizes, size_t count)
{
    size_t i;
    for (i = 0; i < 11; i++)
        if ((i < 6 || i > 8) && (i >= count || sizes[i] == 0))
            return 0;
    return 1;
}

lanecockle_standing_written lanecockle_slip_write_standing(uint64_t cents, const uint8_t *text, size_t text_length,
                                                           const size_t *sizes, size_t count, const uint8_t *farm,
                                                           size_t farm_length, const uint8_t *association,
                                                           size_t association_length, uint8_t *out, size_t room)
{
    lanecockle_standing last = right_lanecockle_standing_text(14, farm, farm_length, association, association_length);
    size_t shorter[11];
    if (is("write-standing-given-loses") && count == 11 && last.sheet && together(sizes, count, 11) == text_length) {
        memcpy(shorter, sizes, sizeof shorter);
        text_length -= sizes[10];
        shorter[10] = 0;
        sizes = shorter;
    }
    if (is("write-standing-unused-sheets") && all_given(sizes, count))
        farm_length = association_length = 0;
    lanecockle_standing_written written =
        right_lanecockle_slip_write_standing(cents, text, text_length, sizes, count, farm, farm_length, association,
                                             association_length, out, room);
    int faulty = written.told.number == LANECOCKLE_SHEET;
    if (is("write-standing-amount-first") && faulty && cents >= 1000000000000000)
        memset(&written, 0, sizeof written), written.told.number = 4, written.told.field = 3;
    if (is("write-standing-sheet-first") && written.told.number == 1 && last.told.number)
        written.told = last.told, written.sheet = last.sheet;
    if (is("write-standing-needed") && written.told.number == 15 && last.length > 0)
        written.told.needed -= last.length;
    if (is("write-standing-sheet") && faulty)
        written.sheet = LANECOCKLE_NO_SHEET;
    if (is("write-standing-taken-sheet") && written.told.number == 0)
        written.sheet = last.sheet;
    if (is("write-standing-behind") && written.told.number == 0 && room > written.value)
        out[written.value] ^= 1;
    if (is("write-standing-refused-writes") && faulty && room > 0)
        out[room - 1] ^= 1;
    if (is("write-standing-plain") && written.told.number == 0 && farm_length + association_length == 0)
        out[0] ^= 1;
    if (is("write-standing-reads-sheets"))
        peek(association, (ptrdiff_t)association_length);
    return written;
}

/* Wage files judged */

lanecockle_record right_lanecockle_judge_begin(uint64_t);
lanecockle_record right_lanecockle_judge_step(lanecockle_record, const uint8_t *, size_t);
lanecockle_record right_lanecockle_judge_step_tally(lanecockle_record, const uint8_t *, size_t, lanecockle_tally *);
lanecockle_record right_lanecockle_judge_lines(lanecockle_record, const uint8_t *, size_t);
lanecockle_ended right_lanecockle_judge_end(lanecockle_record);
lanecockle_ended right_lanecockle_wage_file(uint64_t, const uint8_t *, size_t);
lanecockle_part right_lanecockle_wage_place(const uint8_t *, size_t, size_t);

lanecockle_record lanecockle_judge_begin(uint64_t day)
{
    lanecockle_record record = right_lanecockle_judge_begin(day);
    if (is("begin-day"))
        record.day = (uint32_t)day ^ 1;
    return record;
}

/* Totals (W5) as one number, and in two. */
typedef unsigned __int128 wide;
static const uint64_t LIMB = 1000000000000000000;
static const wide BEYOND = (wide)1000 * 1000000000000000000;
static wide cents_of(lanecockle_cents c) { return (wide)c.high * LIMB + c.low; }
static lanecockle_cents in_two(wide n) { lanecockle_cents c = { (uint64_t)(n / LIMB), (uint64_t)(n % LIMB) }; return c; }

static lanecockle_record refused(lanecockle_record record, size_t number, size_t line)
{
    memset(&record.told, 0, sizeof record.told);
    record.condition = LANECOCKLE_REFUSED, record.told.number = number, record.told.line = line;
    return record;
}

/* A record with its file's total cut to what is no 17. */
static lanecockle_record with_room(lanecockle_record record)
{
    if (record.condition < LANECOCKLE_REFUSED && cents_of(record.file_total) >= BEYOND)
        memset(&record.file_total, 0, sizeof record.file_total);
    return record;
}

/* The file's total after a step, with one of W5's mistakes in it. */
static lanecockle_cents other_total(lanecockle_record before, lanecockle_record after, const uint8_t *line)
{
    int taken = after.condition < LANECOCKLE_REFUSED, order = taken && after.orders > before.orders;
    wide sum = order ? cents_of(before.file_total) + number_of(line + 347, 15) : 0;
    if (is("step-file-forgotten") && order)
        return before.file_total;
    if (is("step-file-64-bits") && order && sum < BEYOND)
        return in_two((uint64_t)sum);
    if (is("step-file-low-wraps") && order && sum < BEYOND)
        return in_two((wide)before.file_total.high * LIMB + (uint64_t)(before.file_total.low + number_of(line + 347, 15)));
    if (is("step-file-uncapped") && order)
        return in_two(sum);
    if (is("step-file-of-group") && order)
        return after.total;
    if (is("step-file-normalised") && taken && !order)
        return in_two(cents_of(after.file_total));
    return after.file_total;
}

/* A 309 with other contents in the wage reference of its field 7. */
static const uint8_t *mended(const uint8_t *line)
{
    static uint8_t other[1002];
    memcpy(other, line, sizeof other);
    memcpy(other + 181, "40002", FIRST);
    memcpy(other + 181 + SECOND + 1, "100", 3);
    return other;
}

/* Whether a 309 names one code in the wage reference of its field 12 and another in its field 22. */
static int two_codes(const uint8_t *line)
{
    return memcmp(line + 362, "HR69", 4) == 0 && line[366 + SECOND] == '-' && memcmp(line + 366 + SECOND + 1, line + 548, 3);
}

lanecockle_record lanecockle_judge_step(lanecockle_record record, const uint8_t *line, size_t length)
{
    lanecockle_record after = right_lanecockle_judge_step(record, line, length);
    int refuses = record.condition < 4 && after.condition == 4;
    after.file_total = other_total(record, after, line);
    if (is("step-file-beyond") && refuses && after.told.number == 17) {
        after = right_lanecockle_judge_step(with_room(record), line, length);
        after.file_total = record.file_total;
    }
    if (is("step-file-10^20") && record.condition < 4 && cents_of(record.file_total) >= BEYOND / 10)
        return refused(record, 17, 1000001);
    if (is("step-overfull-forgotten") && record.condition == 4 && after.told.number == LANECOCKLE_OVERFULL)
        after.told.number = 17;
    if (is("step-line") && refuses && after.told.number == 12)
        after.told.line--;
    if (is("step-total") && after.condition == 2 && after.counted > record.counted && after.total.high > 10)
        after.total.low++;
    if (is("step-refused-counts") && refuses)
        after.lines++;
    if (is("step-kind") && after.condition == 3)
        after.kind = 0;
    if (is("step-reads-behind"))
        peek(line, (ptrdiff_t)length);
    if (is("step-sum") && refuses && after.told.number == 13)
        return right_lanecockle_judge_begin(record.day);
    if (is("step-wage-payer") && refuses && after.told.number == 5 && after.told.field == 7)
        return right_lanecockle_judge_step(record, mended(line), length);
    if (is("step-wage-two-codes") && !refuses && after.orders > record.orders && two_codes(line))
        record.condition = 4, record.told.number = 5, after = record;
    return after;
}

lanecockle_record lanecockle_judge_lines(lanecockle_record record, const uint8_t *bytes, size_t length)
{
    if (is("lines-last-lost") && length >= 1002 && length % 1002 == 0)
        length -= 1002;
    if (is("lines-short-last") && length > 1002)
        length -= length % 1002;
    lanecockle_record after = right_lanecockle_judge_lines(record, bytes, length);
    if (is("lines-file-forgotten") && after.condition < 4)
        after.file_total = record.file_total;
    if (is("lines-file-beyond") && record.condition < 4 && after.told.number == 17) {
        after = right_lanecockle_judge_lines(with_room(record), bytes, length);
        after.file_total = record.file_total;
    }
    return after;
}

lanecockle_ended lanecockle_judge_end(lanecockle_record record)
{
    lanecockle_ended ended = right_lanecockle_judge_end(record);
    if (is("end-orders") && ended.told.number == 0)
        ended.orders++;
    if (is("end-beyond") && ended.told.number == 17 && record.groups == 1000001)
        memset(&ended, 0, sizeof ended);
    if (is("end-strange-refusal") && record.condition == 4)
        ended.told.number = record.told.number;
    if (is("end-sheet-forgotten") && ended.told.number == LANECOCKLE_SHEET)
        ended.told.number = 17;
    if (is("end-overfull-forgotten") && ended.told.number == LANECOCKLE_OVERFULL)
        ended.told.number = 17;
    if (is("end-total-forgotten"))
        memset(&ended.total, 0, sizeof ended.total);
    if (is("end-total-normalised"))
        ended.total = in_two(cents_of(ended.total));
    if (is("end-total-refused") && ended.told.number)
        ended.total = record.file_total;
    if (is("end-total-of-group") && ended.told.number == 0)
        ended.total = record.total;
    if (is("end-file-beyond") && ended.told.number == 17)
        return right_lanecockle_judge_end(with_room(record));
    return ended;
}

lanecockle_ended lanecockle_wage_file(uint64_t day, const uint8_t *bytes, size_t length)
{
    lanecockle_ended ended = right_lanecockle_wage_file(day, bytes, length);
    if (is("file-sum") && ended.told.number == 13)
        ended.told.number = 0;
    if (is("file-counts") && ended.told.number == 0 && ended.groups > 1)
        ended.groups--;
    if (is("file-total-forgotten"))
        memset(&ended.total, 0, sizeof ended.total);
    if (is("file-total-64-bits") && ended.total.high)
        ended.total = in_two((uint64_t)cents_of(ended.total));
    if (is("file-reads-behind"))
        peek(bytes, (ptrdiff_t)length);
    return ended;
}

/* A step with a tally (W5) */

static int is_full(lanecockle_tally t) { return t.groups > 1000000 || t.orders > 1000000 || cents_of(t.total) >= BEYOND; }

/* What a line that is taken makes of a tally, whatever the limits. */
static lanecockle_tally grown(lanecockle_tally tally, lanecockle_record before, lanecockle_record after, const uint8_t *line)
{
    tally.groups += after.groups - before.groups;
    if (after.orders > before.orders) {
        tally.orders++;
        tally.total = in_two(cents_of(tally.total) + number_of(line + 347, 15));
    }
    return tally;
}

/* Whether a tally is too full only by what one of W5's mistakes lets pass. */
static int lets_fill(lanecockle_tally before, lanecockle_tally after)
{
    int same_groups = before.groups == after.groups, same_orders = before.orders == after.orders;
    if (is("tally-million-late") && (after.groups == 1000001 || after.orders == 1000001)) {
        after.groups = after.orders = 0;
        return !is_full(after);
    }
    if (is("tally-10^21-late") && cents_of(after.total) == BEYOND) {
        after.total.high = 0;
        return !is_full(after);
    }
    if (is("tally-label-passes"))
        return same_groups && same_orders;
    if (is("tally-own-limit-alone")) {
        after.groups = same_groups ? 0 : after.groups;
        after.orders = same_orders ? 0 : after.orders;
        after.total.high = same_orders ? 0 : after.total.high;
        return !(same_groups && same_orders) && !is_full(after);
    }
    return 0;
}

/* Whether a tally that is not too full is so by one of W5's mistakes. */
static int fills_early(lanecockle_tally before, lanecockle_tally after)
{
    return is("tally-10^20") ? cents_of(after.total) >= BEYOND / 10
         : is("tally-million-early") ? after.groups + after.orders > before.groups + before.orders &&
                                           (after.groups == 1000000 || after.orders == 1000000)
                                     : 0;
}

/* The tally after a line that was taken, with one of W5's mistakes in it. */
static lanecockle_tally counted_otherwise(lanecockle_tally before, lanecockle_tally after, const uint8_t *line)
{
    int group = after.groups > before.groups, order = after.orders > before.orders;
    uint64_t amount = order ? number_of(line + 347, 15) : 0;
    if (is("tally-forgotten"))
        return before;
    if (is("tally-group-normalises") && group)
        after.total = in_two(cents_of(after.total));
    if (is("tally-64-bits") && order)
        after.total = in_two((uint64_t)cents_of(after.total));
    if (is("tally-low-wraps") && order)
        after.total = in_two((wide)before.total.high * LIMB + (uint64_t)(before.total.low + amount));
    if (is("tally-low-as-it-is") && order && before.total.low + amount >= before.total.low)
        after.total.high = before.total.high, after.total.low = before.total.low + amount;
    if (is("tally-nothing") && order && amount == 0)
        after = before;
    if (is("tally-label-clears") && memcmp(line + 997, "300", 3) == 0)
        memset(&after, 0, sizeof after);
    if (is("tally-close-normalises") && memcmp(line + 997, "399", 3) == 0)
        after.total = in_two(cents_of(after.total));
    return after;
}

lanecockle_record lanecockle_judge_step_tally(lanecockle_record record, const uint8_t *line, size_t length,
                                              lanecockle_tally *tally)
{
    lanecockle_tally before = *tally, more;
    lanecockle_record plain = right_lanecockle_judge_step(record, line, length);
    lanecockle_record after = right_lanecockle_judge_step_tally(record, line, length, tally);
    int unrefused = record.condition < LANECOCKLE_REFUSED;
    if (is("tally-reads-behind"))
        peek(tally, (ptrdiff_t)sizeof *tally);
    if (is("tally-reads-before"))
        peek(tally, -1);
    if (is("tally-reads-line"))
        peek(line, (ptrdiff_t)length);
    if (after.condition < LANECOCKLE_REFUSED) {
        if (fills_early(before, *tally)) {
            *tally = before;
            return refused(record, LANECOCKLE_OVERFULL, record.lines + 1);
        }
        *tally = counted_otherwise(before, *tally, line);
        if (is("tally-record-total"))
            after.file_total = record.file_total;
        return after;
    }
    if (plain.condition == LANECOCKLE_REFUSED) { /* refused without a tally too */
        if (is("tally-refused-counts") && unrefused && length == 1002 && line[999] == '9')
            tally->orders++;
        if (is("tally-29-first") && unrefused && is_full(before))
            return refused(record, LANECOCKLE_OVERFULL, record.lines + 1);
        if (is("tally-29-before-fields") && unrefused && after.told.field && is_full(before))
            return refused(record, LANECOCKLE_OVERFULL, record.lines + 1);
        if (is("tally-29-forgotten") && !unrefused && after.told.number == LANECOCKLE_OVERFULL)
            after.told.number = 17;
        return after;
    }
    more = grown(before, record, plain, line);
    if (lets_fill(before, more)) {
        *tally = more;
        return plain;
    }
    if (is("tally-29-line"))
        after.told.line--;
    if (is("tally-29-place") && plain.orders > record.orders)
        after.told.field = 10, after.told.byte = 347;
    if (is("tally-29-read"))
        return refused(plain, LANECOCKLE_OVERFULL, after.told.line);
    if (is("tally-29-counts"))
        *tally = more;
    if (is("tally-29-normalises"))
        tally->total = in_two(cents_of(tally->total));
    return after;
}

lanecockle_part lanecockle_wage_place(const uint8_t *line, size_t length, size_t field)
{
    lanecockle_part part = right_lanecockle_wage_place(line, length, field);
    if (is("place-three") && field == 3 && length == 1002 && line[999] == '9' && line[998] == '0')
        part.start = 104, part.length = 35;
    if (is("place-long") && field == 23 && part.length > 0)
        part.length++;
    if (is("place-two") && field == 2 && part.length == 140)
        part.length = 70;
    return part;
}

/* Wage lines written */

lanecockle_told right_lanecockle_write_label(uint64_t, const uint8_t *, size_t, const size_t *, size_t, uint8_t *,
                                             size_t);
lanecockle_told right_lanecockle_write_order(uint64_t, uint64_t, const uint8_t *, size_t, const size_t *, size_t,
                                             uint8_t *, size_t);
lanecockle_told right_lanecockle_write_group(uint64_t, uint64_t, const uint8_t *, size_t, const size_t *, size_t,
                                             const uint8_t *, size_t, uint8_t *, size_t);
lanecockle_told right_lanecockle_write_closing(uint64_t, uint8_t *, size_t);

lanecockle_told lanecockle_write_label(uint64_t day, const uint8_t *text, size_t text_length, const size_t *sizes,
                                       size_t count, uint8_t *out, size_t room)
{
    if (is("label-cuts"))
        sizes = cut(sizes, count, text_length);
    if (is("label-drops"))
        text_length = dropped(sizes, count, 8, text_length);
    lanecockle_told told = right_lanecockle_write_label(day, text, text_length, sizes, count, out, room);
    if (is("label-blanks") && told.number == 0)
        out[57] = '0';
    if (is("label-order") && told.number == 15 && room == 0)
        told.number = 5;
    return told;
}

lanecockle_told lanecockle_write_order(uint64_t day, uint64_t kind, const uint8_t *text, size_t text_length,
                                       const size_t *sizes, size_t count, uint8_t *out, size_t room)
{
    if (is("order-cuts"))
        sizes = cut(sizes, count, text_length);
    if (is("order-drops"))
        text_length = dropped(sizes, count, 16, text_length);
    lanecockle_told told = right_lanecockle_write_order(day, kind, text, text_length, sizes, count, out, room);
    if (is("order-day-first") && told.number == 1 && day > 99999999)
        told.number = 11;
    if (is("order-zeros") && told.number == 0)
        memset(out + 539, ' ', 3);
    if (is("order-refused-writes") && told.number == 9 && room > 0)
        out[room - 1] ^= 1;
    if (is("order-name") && told.number == 0)
        out[100] = ' ';
    if (is("order-wage-digit") && told.number == 5 && (told.field == 7 || told.field == 12))
        told.number = 9;
    return told;
}

lanecockle_told lanecockle_write_group(uint64_t day, uint64_t kind, const uint8_t *text, size_t text_length,
                                       const size_t *sizes, size_t count, const uint8_t *orders, size_t orders_length,
                                       uint8_t *out, size_t room)
{
    if (is("group-cuts"))
        sizes = cut(sizes, count, text_length);
    if (is("group-drops"))
        text_length = dropped(sizes, count, 5, text_length);
    lanecockle_told told = right_lanecockle_write_group(day, kind, text, text_length, sizes, count, orders,
                                                        orders_length, out, room);
    if (is("group-sum") && told.number == 0 && orders_length > 1002)
        out[72] ^= 1;
    if (is("group-behind") && told.number == 0 && room > 1002)
        out[1002] ^= 1;
    if (is("group-many") && told.number == 12)
        told.number = 0;
    if (is("group-line") && told.line > 1)
        told.line = 1;
    if (is("group-reads-behind"))
        peek(orders, (ptrdiff_t)orders_length);
    return told;
}

lanecockle_told lanecockle_write_closing(uint64_t day, uint8_t *out, size_t room)
{
    lanecockle_told told = right_lanecockle_write_closing(day, out, room);
    if (is("closing-needed") && told.number == 15)
        told.needed = 1000;
    if (is("closing-day") && told.number == 11 && day > 4294967295u)
        told.number = 0;
    return told;
}
