/* The workloads of volume/count through the library: what inputs.rs writes at standard input, a line with the name and a sum of the
   answers of each workload at standard output. Between two calls of `mark` one workload is done, and nothing else. Freestanding, with
   include/lanecockle.h: volume/count builds it, and links it with a libdesk.a. */
#include "lanecockle.h"

long read(int, void *, unsigned long);
long write(int, const void *, unsigned long);
void exit(int) __attribute__((noreturn));

static union { uint64_t align; uint8_t bytes[8 << 20]; } input;
static uint16_t listed[10000];
static uint8_t room[483];
static const uint8_t *at;
static uint64_t sum;

/* a segment begins: the counters look for calls of this */
__attribute__((noinline)) void mark(void) {
    __asm__ volatile("" ::: "memory");
}

static void say(const char *text, uint64_t n) {
    char out[120];
    int k = 0, d = 0;
    char digits[24];
    while (text[k]) { out[k] = text[k]; k++; }
    do { digits[d++] = '0' + n % 10; n /= 10; } while (n);
    while (d) out[k++] = digits[--d];
    out[k++] = '\n';
    write(1, out, k);
}

static uint64_t number(void) {
    uint64_t n;
    __builtin_memcpy(&n, at, 8);
    at += 8;
    return n;
}

static struct { const uint8_t *bytes; uint64_t length; } items[4000];

static uint64_t take(void) {
    uint64_t count = number();
    for (uint64_t i = 0; i < count; i++) {
        items[i].length = number();
        items[i].bytes = at;
        at += items[i].length;
    }
    sum = 0;
    return count;
}

static void add(lanecockle_told told) {
    sum = sum * 31 + told.number * 1000003 + told.byte * 7 + told.field * 101 + told.line + told.needed;
}

#define WORK(name, ...) do { mark(); __VA_ARGS__ mark(); say(name "\t", sum); } while (0)
#define EACH(count, ...) for (uint64_t i = 0; i < count; i++) { __VA_ARGS__ }
#define LENT(k) items[k].bytes, items[k].length
#define HR(number) (const uint8_t *)"HR" number, 4

int main(void) {
    uint64_t have = 0, n;
    long got;
    while ((got = read(0, input.bytes + have, sizeof input.bytes - have)) > 0) have += got;
    at = input.bytes;

    n = take();
    WORK("1,000 IBANs", EACH(n, add(lanecockle_iban(LENT(i)));));
    n = take();
    WORK("1,000 OIBs", EACH(n, add(lanecockle_oib(LENT(i)));));
    n = take();
    WORK("1,000 references, HR01", EACH(n, add(lanecockle_reference(HR("01"), LENT(i)));));
    n = take();
    WORK("1,000 references, HR69", EACH(n, add(lanecockle_reference(HR("69"), LENT(i)));));
    n = take() / 2;
    WORK("100 references of every model", EACH(n, add(lanecockle_reference(LENT(2 * i), LENT(2 * i + 1)));));
    n = take();
    WORK("1,000 IBANs damaged", EACH(n, add(lanecockle_iban(LENT(i)));));
    n = take() / 2;
    WORK("the same references, damaged", EACH(n, add(lanecockle_reference(LENT(2 * i), LENT(2 * i + 1)));));
    n = take();
    WORK("4 listings, IBAN, 4 marks", EACH(n,
        lanecockle_valued v = lanecockle_list_iban(LENT(i), listed, 10000);
        add(v.told); sum += v.value + listed[v.value / 2];));
    n = take();
    WORK("4 listings, HR01, 4 marks", EACH(n,
        lanecockle_valued v = lanecockle_list_reference(HR("01"), LENT(i), listed, 10000);
        add(v.told); sum += v.value + listed[v.value / 2];));
    n = take();
    WORK("100 slips read", EACH(n, add(lanecockle_slip_read(LENT(i)));));
    n = take();
    WORK("100 slips written", EACH(n,
        uint64_t head[12];
        __builtin_memcpy(head, items[i].bytes, 96);
        lanecockle_valued v = lanecockle_slip_write(head[0], items[i].bytes + 96, items[i].length - 96, (const size_t *)(head + 1), 11,
                                                    room, sizeof room);
        add(v.told); sum += v.value + room[v.value / 2];));
    take();
    uint64_t day = 0;
    for (int i = 0; i < 8; i++) day = day * 10 + items[0].bytes[i] - '0';
    WORK("wage file of 2,000 lines, whole",
        lanecockle_ended e = lanecockle_wage_file(day, LENT(1));
        add(e.told); sum += e.lines + e.orders * 7 + e.total.low;);
    sum = 0;
    WORK("wage file of 2,000 lines, steps",
        lanecockle_record r = lanecockle_judge_begin(day);
        for (uint64_t i = 0; i + 1002 <= items[1].length; i += 1002) r = lanecockle_judge_step(r, items[1].bytes + i, 1002);
        lanecockle_ended e = lanecockle_judge_end(r);
        add(e.told); sum += e.lines + e.orders * 7 + e.total.low;);
    sum = 0;
    WORK("wage file of 2,000 lines, tally",
        lanecockle_record r = lanecockle_judge_begin(day);
        lanecockle_tally t = {0};
        for (uint64_t i = 0; i + 1002 <= items[1].length; i += 1002)
            r = lanecockle_judge_step_tally(r, items[1].bytes + i, 1002, &t);
        lanecockle_ended e = lanecockle_judge_end(r);
        add(e.told); sum += e.lines + t.orders * 7 + t.total.low;);
    return 0;
}
