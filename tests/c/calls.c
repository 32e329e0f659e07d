/*
 * Makes calls by include/listening.h, on one store where they are over one, for a case file's runner. A line of standard input is a word
 * and numbers:
 *   call NUMBER STREAM ARGUMENTS  a call, as listening_list has it; its answer is printed as a line of numbers
 *   part STREAM COUNT             the newest records; printed are the part's offset, a colon, and its bytes as pairs of digits
 *   judge LENGTH VALUES FLAG LOWER FLAG UPPER K FLAG F
 *                                 a judgement, each flag 1 or 0; printed as a line of numbers, 1 for true
 *   put PLACE VALUE               writes that byte of the store and prints nothing
 * After the last line the store's bytes are printed as they are.
 */
#include "listening.h"

#include <inttypes.h>
#include <stdio.h>
#include <stdlib.h>
#include <string.h>

static uint8_t store[LISTENING_STORE_LENGTH];

static void stop_reading(const char *why)
{
    fprintf(stderr, "calls: %s\n", why);
    exit(1);
}

static uint32_t number(void)
{
    uint32_t value;
    if (scanf("%" SCNu32, &value) != 1) {
        stop_reading("a number is missing");
    }
    return value;
}

static int32_t signed_number(void)
{
    int32_t value;
    if (scanf("%" SCNd32, &value) != 1) {
        stop_reading("a number is missing");
    }
    return value;
}

static bool flag(void)
{
    uint32_t value = number();
    if (value > 1) {
        stop_reading("no flag");
    }
    return value == 1;
}

static void put_byte(void)
{
    uint32_t place = number();
    uint32_t value = number();
    if (place >= sizeof store || value > UINT8_MAX) {
        stop_reading("no byte of the store");
    }
    store[place] = (uint8_t)value;
}

static listening_answer make(uint32_t call, uint32_t stream, const uint32_t *a)
{
    switch (call) {
    case 1:
        return listening_open(store, sizeof store, stream, a[0], a[1], a[2], a[3], a[4]);
    case 2:
        return listening_lot(store, sizeof store, stream, a[0], a[1], a[2], a[3], a[4], a[5], a[6]);
    case 3:
        return listening_run(store, sizeof store, stream, a[0], a[1], a[5], a[6]);
    case 4:
        return listening_block(store, sizeof store, stream, a[0], a[1], a[5], a[6]);
    case 5:
        return listening_stop(store, sizeof store, stream, a[0], a[1]);
    case 6:
        return listening_back(store, sizeof store, stream);
    case 7:
        return listening_ask(store, sizeof store, stream, a[0]);
    case 8:
        return listening_read(store, sizeof store, stream);
    case 9:
        return listening_newest(store, sizeof store, stream, a[0]);
    default:
        stop_reading("no such call");
        abort();
    }
}

static void make_call(void)
{
    uint32_t call = number();
    uint32_t stream = number();
    uint32_t arguments[LISTENING_CALL_LENGTH - 2];
    for (size_t k = 0; k < sizeof arguments / sizeof arguments[0]; k++) {
        arguments[k] = number();
    }
    listening_answer is = make(call, stream, arguments);
    printf("%" PRIu32 " %" PRIu32 " %" PRIu32 " %" PRIu32 "\n", is.refusal, is.first, is.second, is.third);
}

static void print_part(void)
{
    uint32_t stream = number();
    uint32_t count = number();
    listening_part part = listening_newest_part(store, sizeof store, stream, count);
    const uint8_t *records = store + part.offset;
    printf("%zu:", part.offset);
    for (size_t k = 0; k < part.length; k++) {
        printf(" %02x", (unsigned)records[k]);
    }
    printf("\n");
}

static void print_judgement(void)
{
    static int32_t values[256];
    uint32_t length = number();
    if (length > sizeof values / sizeof values[0]) {
        stop_reading("too many measurements");
    }
    for (size_t k = 0; k < length; k++) {
        values[k] = signed_number();
    }
    bool has_lower = flag();
    int32_t lower = signed_number();
    bool has_upper = flag();
    int32_t upper = signed_number();
    uint32_t k = number();
    bool has_f = flag();
    uint32_t f = number();
    listening_judgement is = listening_judge(values, length, has_lower, lower, has_upper, upper, k, has_f, f);
    printf("%" PRIu32 " %" PRIu32 " %" PRId32 " %" PRId32 " %d %d %d\n", is.refusal, is.outside, is.to_upper, is.to_lower,
           is.none_outside, is.k_met, is.f_met);
}

int main(void)
{
    char word[6];
    while (scanf("%5s", word) == 1) {
        if (strcmp(word, "call") == 0) {
            make_call();
        } else if (strcmp(word, "part") == 0) {
            print_part();
        } else if (strcmp(word, "judge") == 0) {
            print_judgement();
        } else if (strcmp(word, "put") == 0) {
            put_byte();
        } else {
            stop_reading("no such word");
        }
    }
    return fwrite(store, 1, sizeof store, stdout) == sizeof store ? 0 : 1;
}
