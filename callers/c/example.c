/* Example in C: reads a slip from standard input and prints its fields; or, where a day of submission is given, a wage file,
 * and prints its running total after each line; or writes a slip of the cents and the IBAN that are given, with the standing
 * text of two sheets, the farm's and the association's. What is refused is printed. Exit status 1 is a refusal, 2 wrong
 * usage.
 *
 *     gcc -Iinclude callers/c/example.c target/staticlib/libdesk.a -o example && ./example < slip.txt
 *     ./example 20240229 < wages.txt
 *     ./example farm.txt association.txt 12355 HR1210010051863000160 */
#include <inttypes.h>
#include <stdio.h>
#include <stdlib.h>
#include <string.h>

#include "lanecockle.h"

/* A slip has at most 483 bytes; one more tells that it is too long. A sheet that is right has fewer. A line of a wage file
 * has 1,002. */
enum { ROOM = 484, LINE = 1002 };

static void print_refusal(lanecockle_told told)
{
    printf("refused %zu line %zu field %zu byte %zu", told.number, told.line, told.field, told.byte);
}

static void print_field(const uint8_t *slip, size_t length, size_t number)
{
    lanecockle_part part = lanecockle_slip_field(slip, length, number);
    printf("%zu=%.*s\n", number, (int)part.length, (const char *)slip + part.start);
}

static int read_slip(void)
{
    uint8_t slip[ROOM];
    size_t length = fread(slip, 1, ROOM, stdin);
    size_t number;
    lanecockle_valued cents = lanecockle_slip_cents(slip, length);
    if (cents.told.number != LANECOCKLE_ACCEPTED) {
        print_refusal(cents.told);
        printf("\n");
        return 1;
    }
    printf("%zu cents\n", cents.value);
    for (number = 4; number <= 14; number++) {
        print_field(slip, length, number);
    }
    return 0;
}

/* Exact cents in digits: `high` counts 10^18, so `low` below it is the last eighteen digits. */
static void print_cents(lanecockle_cents cents)
{
    if (cents.high == 0) {
        printf("%" PRIu64 " cents", cents.low);
    } else {
        printf("%" PRIu64 "%018" PRIu64 " cents", cents.high, cents.low);
    }
}

/* Reads a wage file a line at a time; no line is kept, and none is read twice. */
static int read_wages(uint64_t day)
{
    lanecockle_record record = lanecockle_judge_begin(day);
    lanecockle_tally tally = {0, 0, {0, 0}};
    lanecockle_ended ended;
    uint8_t line[LINE];
    size_t length;
    while (record.condition != LANECOCKLE_REFUSED && (length = fread(line, 1, LINE, stdin)) > 0) {
        record = lanecockle_judge_step_tally(record, line, length, &tally);
        printf("groups %zu, orders %zu, ", tally.groups, tally.orders);
        print_cents(tally.total);
        printf("\n");
    }
    ended = lanecockle_judge_end(record);
    if (ended.told.number != LANECOCKLE_ACCEPTED) {
        print_refusal(ended.told);
        printf("\n");
        return 1;
    }
    printf("accepted: lines %zu, groups %zu, orders %zu, ", ended.lines, ended.groups, ended.orders);
    print_cents(ended.total);
    printf("\n");
    return 0;
}

/* The bytes of a sheet's file; a file that is not there ends the program. */
static size_t read_sheet(const char *name, uint8_t *sheet)
{
    FILE *file = fopen(name, "rb");
    size_t length;
    if (file == NULL) {
        perror(name);
        exit(2);
    }
    length = fread(sheet, 1, ROOM, file);
    fclose(file);
    return length;
}

static int write_slip(const char *farm_name, const char *association_name, uint64_t cents, const char *iban)
{
    uint8_t farm[ROOM], association[ROOM], text[ROOM], out[ROOM];
    size_t farm_length = read_sheet(farm_name, farm), association_length = read_sheet(association_name, association);
    /* the fields 4 to 14: IBAN and model alone, so that the others are taken from the sheets or stay empty */
    size_t sizes[11] = {0};
    size_t length = (size_t)snprintf((char *)text, ROOM, "%sHR99", iban);
    lanecockle_standing_written written;
    sizes[10 - 4] = strlen(iban);
    sizes[11 - 4] = 4;
    /* an IBAN longer than the room is cut there: its sizes are then not the text's, which is refused */
    written = lanecockle_slip_write_standing(cents, text, length < ROOM ? length : ROOM, sizes, 11, farm, farm_length,
                                             association, association_length, out, ROOM);
    if (written.told.number != LANECOCKLE_ACCEPTED) {
        static const char *const whose[3] = {"", " in the farm's sheet", " in the association's sheet"};
        print_refusal(written.told);
        printf("%s\n", whose[written.sheet]);
        return 1;
    }
    fwrite(out, 1, written.value, stdout);
    return 0;
}

int main(int count, char **given)
{
    if (count == 1) {
        return read_slip();
    }
    if (count == 2) {
        return read_wages(strtoull(given[1], NULL, 10));
    }
    if (count == 5) {
        return write_slip(given[1], given[2], strtoull(given[3], NULL, 10), given[4]);
    }
    fprintf(stderr, "usage: example < SLIP, example DAY < WAGES, or example FARM ASSOCIATION CENTS IBAN > SLIP\n");
    return 2;
}
