/*
 * What C alone shows of include/listening.h, beside the case files, which tests/c/calls.c runs: lengths that are not the store's, streams
 * that no frame can hold, the bytes around the store, a ceiling and the newest records in place, damaged bytes, lists of calls, and
 * judgements with numbers beside a flag that is false. After each refused call, and after Ask, Read and Newest, every byte must be as
 * before, and after a judgement the measurements. Prints each check that fails; the last line is the count.
 */
#include "listening.h"

#include <stdio.h>
#include <string.h>

#define AREA (LISTENING_STORE_LENGTH / LISTENING_STREAMS)
#define LENGTH LISTENING_STORE_LENGTH
#define RECORD LISTENING_RECORD_LENGTH
#define HEADER (AREA - 128 * RECORD)
#define COUNT(array) (sizeof(array) / sizeof(array)[0])

/* One byte more than a store on either side: a length one too large is of memory that is ours, and nothing may be written there. */
static uint8_t memory[1 + LENGTH + 1];
static uint8_t kept[sizeof memory];
static uint8_t *const store = memory + 1;
static int passed, failed;

static void check(const char *what, bool holds)
{
    if (holds) {
        passed++;
    } else {
        failed++;
        printf("FAILED %s\n", what);
    }
}

static void keep(void)
{
    memcpy(kept, memory, sizeof memory);
}

static bool is_kept(void)
{
    return memcmp(memory, kept, sizeof memory) == 0;
}

/* An accepted call that enters or takes back something. */
static void enters(const char *what, listening_answer is)
{
    check(what, is.refusal == 0 && !is_kept());
    keep();
}

/* An accepted call that only looks, by its first number. */
static void looks(const char *what, listening_answer is, uint32_t first)
{
    check(what, is.refusal == 0 && is.first == first && is_kept());
}

static void refused(const char *what, listening_answer is, uint32_t refusal)
{
    check(what, is.refusal == refusal && is.first == 0 && is.second == 0 && is.third == 0 && is_kept());
}

/* The place and the length of the newest records. */
static void lies(const char *what, listening_part is, size_t offset, size_t length)
{
    check(what, is.offset == offset && is.length == length && is_kept());
}

/* Each function once, on two streams whose areas are the first and the last. The ceiling is 16,909,060, far above the credit. */
static void each_function(void)
{
    const uint8_t ceiling[8] = {0x04, 0x03, 0x02, 0x01};
    refused("a ceiling above the range", listening_open(store, LENGTH, 0, 1, 0, 15000, 0, 128000001), 5);
    enters("open", listening_open(store, LENGTH, 0, 1, 0, 15000, 0, 0x01020304));
    check("its ceiling", memcmp(store + 40, ceiling, sizeof ceiling) == 0);
    looks("ask", listening_ask(store, LENGTH, 0, 3), 3);
    enters("lot", listening_lot(store, LENGTH, 0, 1, 3, 3, 0, 0, 7, 60));
    enters("stop", listening_stop(store, LENGTH, 0, 1, 2));
    looks("read", listening_read(store, LENGTH, 0), 2);
    enters("back", listening_back(store, LENGTH, 0));
    refused("a ceiling on a continuous plan", listening_open(store, LENGTH, 15, 3, 0, 10, 4, 1), 5);
    enters("open the last stream", listening_open(store, LENGTH, 15, 3, 0, 10, 4, 0));
    enters("run", listening_run(store, LENGTH, 15, 10, 0, 8, 0));
    enters("block", listening_block(store, LENGTH, 15, 1, 0, UINT32_MAX, 0x01020304));
    looks("read the last stream", listening_read(store, LENGTH, 15), 2);
    looks("newest", listening_newest(store, LENGTH, 0, UINT32_MAX), 1);
    lies("its part", listening_newest_part(store, LENGTH, 0, UINT32_MAX), HEADER, RECORD);
}

/* A run and a block stand on the last stream, whose records are had without a copy. */
static void newest_records(void)
{
    const size_t records = 15 * AREA + HEADER;
    const uint8_t block[RECORD] = {3, 0, 0, 0, 1, [20] = 0xff, 0xff, 0xff, 0xff, [24] = 0x04, 0x03, 0x02, 0x01};
    looks("the newest none", listening_newest(store, LENGTH, 15, 0), 0);
    lies("end behind the last", listening_newest_part(store, LENGTH, 15, 0), records + 2 * RECORD, 0);
    looks("the newest one", listening_newest(store, LENGTH, 15, 1), 1);
    lies("is the last", listening_newest_part(store, LENGTH, 15, 1), records + RECORD, RECORD);
    check("it is the block", memcmp(store + listening_newest_part(store, LENGTH, 15, 1).offset, block, sizeof block) == 0);
    looks("the newest two", listening_newest(store, LENGTH, 15, 2), 2);
    lies("are both", listening_newest_part(store, LENGTH, 15, 2), records, 2 * RECORD);
    looks("the newest three", listening_newest(store, LENGTH, 15, 3), 2);
    lies("are two", listening_newest_part(store, LENGTH, 15, 3), records, 2 * RECORD);
    lies("a count is not cut to a byte", listening_newest_part(store, LENGTH, 15, 256 + 1), records, 2 * RECORD);
}

/* The nine functions, each refused by this number, and no part of the store. */
static void all_refused(size_t length, uint32_t stream, uint32_t refusal)
{
    refused("open", listening_open(store, length, stream, 1, 0, 15000, 0, 100), refusal);
    refused("lot", listening_lot(store, length, stream, 2, 3, 3, 0, 0, 1, 0), refusal);
    refused("run", listening_run(store, length, stream, 1, 0, 1, 0), refusal);
    refused("block", listening_block(store, length, stream, 1, 0, 1, 0), refusal);
    refused("stop", listening_stop(store, length, stream, 1, 1), refusal);
    refused("back", listening_back(store, length, stream), refusal);
    refused("ask", listening_ask(store, length, stream, 3), refusal);
    refused("read", listening_read(store, length, stream), refusal);
    refused("newest", listening_newest(store, length, stream, 1), refusal);
    lies("no part", listening_newest_part(store, length, stream, 1), 0, 0);
}

static void wrong_length_or_stream(void)
{
    /* 41,728: a store before entries had a recording */
    const size_t lengths[] = {0, 1, AREA, 41728, LENGTH - 1, LENGTH + 1};
    for (size_t k = 0; k < COUNT(lengths); k++) {
        all_refused(lengths[k], 0, 1);
        all_refused(lengths[k], LISTENING_STREAMS, 1);
    }
    const uint32_t streams[] = {LISTENING_STREAMS, 256, 256 + 15, UINT32_MAX};
    for (size_t k = 0; k < COUNT(streams); k++) {
        all_refused(LENGTH, streams[k], 2);
    }
}

/* This byte of the last area with another value, which no calls could have left there. */
static void damaged_byte(const char *what, size_t at, uint8_t value, uint8_t damaged)
{
    uint8_t *byte = &store[15 * AREA + at];
    check(what, *byte == value);
    *byte = damaged;
    keep();
    all_refused(LENGTH, 15, 3);
    looks("another stream is not concerned", listening_read(store, LENGTH, 0), 1);
    *byte = value;
    keep();
    looks("mended", listening_read(store, LENGTH, 15), 2);
}

static void damaged_bytes(void)
{
    damaged_byte("the tail, after a block of four whose first was heard", 30, 3, 2);
    damaged_byte("the ceiling, which a continuous plan does not have", 40, 0, 1);
    damaged_byte("the run's recording, 8", HEADER + 20, 8, 0);
    damaged_byte("the recording behind the last record", HEADER + 2 * RECORD + 20, 0, 1);
}

/* A list of five calls on stream 0, where one lot of three stands; made only where the list and the room for answers are whole. */
static void lists(void)
{
    uint32_t calls[5 * LISTENING_CALL_LENGTH] = {
        [0] = 2, 0, 2, 3, 3, 0, 0, 9, 30,                         /* a lot, on recording 9 from second 30 on */
        [LISTENING_CALL_LENGTH] = 2, 0, 3, 3, 3, 0, 0, 0, 30,     /* a lot on no recording */
        [2 * LISTENING_CALL_LENGTH] = 9, 0, 5,                    /* the newest five */
        [3 * LISTENING_CALL_LENGTH] = 6,                          /* a take-back */
        [4 * LISTENING_CALL_LENGTH] = 8,                          /* a Read */
    };
    const uint32_t expected[5 * LISTENING_ANSWER_LENGTH] = {
        [1] = 1, 3, 6, /* accepted, the credit is 6 */
        [LISTENING_ANSWER_LENGTH] = 17,
        [2 * LISTENING_ANSWER_LENGTH + 1] = 2,
        [3 * LISTENING_ANSWER_LENGTH + 1] = 1,
        [4 * LISTENING_ANSWER_LENGTH + 1] = 1, 3, 3,
    };
    const size_t calls_length = COUNT(calls);
    const size_t answers_length = COUNT(expected);
    uint32_t answers[COUNT(expected)];
    uint32_t before[COUNT(expected)];
    memset(answers, 0xa5, sizeof answers);
    memcpy(before, answers, sizeof answers);

    check("room for one number too few", !listening_list(store, LENGTH, calls, calls_length, answers, answers_length - 1));
    check("a number missing at the end", !listening_list(store, LENGTH, calls, calls_length - 1, answers, answers_length));
    calls[calls_length - 1] = 1;
    check("an argument that Read does not have", !listening_list(store, LENGTH, calls, calls_length, answers, answers_length));
    calls[calls_length - 1] = 0;
    const uint32_t no_calls[] = {0, 10, 256 + 2};
    for (size_t k = 0; k < COUNT(no_calls); k++) {
        calls[0] = no_calls[k];
        check("no such call", !listening_list(store, LENGTH, calls, calls_length, answers, answers_length));
    }
    calls[0] = 1; /* an Open has five arguments, and no recording behind them */
    check("an Open with the arguments of a lot", !listening_list(store, LENGTH, calls, calls_length, answers, answers_length));
    calls[0] = 5; /* a stop has no recording, nor numbers before it */
    check("a stop with the arguments of a lot", !listening_list(store, LENGTH, calls, calls_length, answers, answers_length));
    calls[0] = 2;
    check("nothing was made", is_kept());
    check("nothing was answered", memcmp(answers, before, sizeof answers) == 0);

    check("the list", listening_list(store, LENGTH, calls, calls_length, answers, answers_length));
    check("its answers", memcmp(answers, expected, sizeof expected) == 0);
    check("the lot was taken back", is_kept());
    check("an empty list", listening_list(store, LENGTH, calls, 0, answers, 0));
    check("a list on a store of another length", listening_list(store, LENGTH - 1, calls, calls_length, answers, answers_length));
    check("has the refusals in its answers", answers[0] == 1 && answers[LISTENING_ANSWER_LENGTH] == 1);
    check("and makes no call", is_kept());
}

/* Table D.3's four measurements, with others around them that are out of range; values are not aligned as more than an int32_t. */
static int32_t measured[] = {INT32_MIN, 92, 87, 84, 96, INT32_MAX};
static int32_t *const values = measured + 1;
static const int32_t as_measured[] = {INT32_MIN, 92, 87, 84, 96, INT32_MAX};

static bool is_judged(listening_judgement is, listening_judgement expected)
{
    return is.refusal == expected.refusal && is.outside == expected.outside && is.to_upper == expected.to_upper &&
           is.to_lower == expected.to_lower && is.none_outside == expected.none_outside && is.k_met == expected.k_met &&
           is.f_met == expected.f_met && memcmp(measured, as_measured, sizeof measured) == 0;
}

static void judged(const char *what, listening_judgement is, int32_t to_upper, int32_t to_lower)
{
    const listening_judgement expected = {0, 0, to_upper, to_lower, true, true, true};
    check(what, is_judged(is, expected));
}

static void not_judged(const char *what, listening_judgement is, uint32_t refusal)
{
    const listening_judgement expected = {.refusal = refusal};
    check(what, is_judged(is, expected));
}

/* What stands beside a false flag is not looked at: out of range, the other limit itself, or a number that would not go with it. */
static void flags(void)
{
    const int32_t limits[] = {INT32_MIN, -4001, -4000, 0, 98, 4000, 4001, INT32_MAX};
    const uint32_t factors[] = {0, 1, 370, 1000, 1001, UINT32_MAX};
    judged("both limits and F", listening_judge(values, 4, true, 82, true, 98, 118, true, 370), 33, 31);
    for (size_t k = 0; k < COUNT(limits); k++) {
        for (size_t j = 0; j < COUNT(factors); j++) {
            judged("no lower limit", listening_judge(values, 4, false, limits[k], true, 98, 118, false, factors[j]), 33, 0);
            judged("no upper limit", listening_judge(values, 4, true, 82, false, limits[k], 118, false, factors[j]), 0, 31);
            not_judged("no limit", listening_judge(values, 4, false, limits[k], false, 98, 118, false, factors[j]), 19);
            not_judged("no F", listening_judge(values, 4, true, 82, true, 98, 118, false, factors[j]), 19);
        }
        not_judged("F without a lower limit", listening_judge(values, 4, false, limits[k], true, 98, 118, true, 370), 19);
        not_judged("F without an upper limit", listening_judge(values, 4, true, 82, false, limits[k], 118, true, 370), 19);
    }
    not_judged("a lower limit", listening_judge(values, 4, true, -4001, true, 98, 118, true, 370), 18);
    not_judged("an upper limit", listening_judge(values, 4, true, 82, true, 4001, 118, true, 370), 18);
    not_judged("an F", listening_judge(values, 4, true, 82, true, 98, 118, true, 0), 18);
}

/* The length says which measurements there are: not those around them, and none where it is 0. */
static void lengths_of_samples(void)
{
    static int32_t many[65536 + 4];
    not_judged("one before them", listening_judge(values - 1, 5, true, 82, true, 98, 118, true, 370), 18);
    not_judged("one behind them", listening_judge(values, 5, true, 82, true, 98, 118, true, 370), 18);
    not_judged("none", listening_judge(values, 0, true, 82, true, 98, 118, true, 370), 18);
    not_judged("none, behind the last", listening_judge(measured + COUNT(measured), 0, true, 82, true, 98, 118, true, 370), 18);
    judged("a hundred", listening_judge(many, 100, true, -1, true, 1, 118, true, 370), 100, 100);
    const size_t lengths[] = {1, 101, 256 + 4, 65536 + 4};
    for (size_t k = 0; k < COUNT(lengths); k++) {
        not_judged("another length", listening_judge(many, lengths[k], true, -1, true, 1, 118, true, 370), 18);
    }
}

/* The streams that were never opened, and the bytes before and after the store. */
static void untouched(void)
{
    memset(store, 0, AREA);
    memset(store + 15 * AREA, 0, AREA);
    size_t zeros = 0;
    while (zeros < sizeof memory && memory[zeros] == 0) {
        zeros++;
    }
    check("no byte elsewhere was written", zeros == sizeof memory);
}

int main(void)
{
    each_function();
    newest_records();
    wrong_length_or_stream();
    damaged_bytes();
    lists();
    flags();
    lengths_of_samples();
    untouched();
    printf("c: %d passed, %d failed\n", passed, failed);
    return failed > 0;
}
