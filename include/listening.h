/*
 * The listening controller: sixteen streams in one store of bytes. For x86-64; `tools/build` writes the archive.
 *
 * The store is 58,112 bytes, all zero when fresh, and is the caller's. Each call takes the store's address and length, the
 * stream (0 to 15) and its own arguments, and gives back a refusal number, 0 for none, and three numbers, 0 where it names
 * none. A refused call gives three zeros and leaves every byte of the store as it was. Whatever the numbers and the store's
 * bytes are, a call ends and gives an answer; it allocates and prints nothing.
 *
 * listening_judge alone takes no store: it judges a sample by its measurements, and has an answer of its own.
 *
 * The duties of the caller are C's own:
 * - A pointer and its length are those of memory that is the caller's. No pointer is null, also where the length is 0. The
 *   store may lie at any address; calls and answers of listening_list are aligned as uint32_t is, values of listening_judge as
 *   int32_t is.
 * - The store, the calls and the answers of one listening_list do not overlap.
 * - While a call runs that may write, nothing else reads or writes that store, another stream of it included. While a call runs
 *   that takes a const store (ask, read, newest, newest_part), nothing writes it, and while listening_judge runs, nothing writes
 *   the values. Calls on different stores may run at the same time: the library has no state of its own, takes no lock, and keeps
 *   no pointer when a call has ended.
 *
 * Refusals. The first that applies is given: 1, 2, 3, 6 (not for open), then the call's own, in the order that its comment has.
 * listening_judge has 18 and 19 alone.
 *    1 store_length is not 58,112; the store is not looked at
 *    2 the stream is above 15
 *    3 no calls could have left these bytes in the stream's area; other streams still answer
 *    4 opened already
 *    5 no such plan: kind, option, a, b or ceiling out of range
 *    6 not opened
 *    7 a call of another kind of plan
 *    8 discontinued
 *    9 128 records stand
 *   10 the label is that of the newest standing lot
 *   11 size out of range: 1 to 1,000,000, on a level stream 2 to 1,000,000
 *   12 sample is not the one that listening_ask gives
 *   13 wrong and wrong_in_all cannot be
 *   14 a run in sampling or past the clearance number, a block in screening
 *   15 a number out of range
 *   16 nothing to take back
 *   17 the recording number is 0
 *   18 length, a measurement, a given limit, k or a given f out of range
 *   19 no limit is given; lower is not below upper; f is given with one limit, or is lacking with two
 *
 * A lot, run or block carries the raw recording that it was heard on: recording is its number, which is not 0, and second is the
 * second of it at which the entry starts, which is free. Both stand in the entry's record, and go with it when it is taken back.
 */
#ifndef LISTENING_H
#define LISTENING_H

#include <stdbool.h>
#include <stddef.h>
#include <stdint.h>

#ifdef __cplusplus
extern "C" {
#endif

#define LISTENING_STREAMS 16
#define LISTENING_STORE_LENGTH 58112
/* The bytes of a record: see listening_newest_part. */
#define LISTENING_RECORD_LENGTH 28

/* What a call of listening_list takes, and what it gives, in 32-bit numbers. */
#define LISTENING_CALL_LENGTH 9
#define LISTENING_ANSWER_LENGTH 4

typedef struct {
    uint32_t refusal; /* 0: accepted, whatever the verdict */
    uint32_t first;
    uint32_t second;
    uint32_t third;
} listening_answer;

/* A part of the store: from store + offset on, so many bytes. Both are 0 where the call is refused. */
typedef struct {
    size_t offset;
    size_t length;
} listening_part;

/* What listening_judge gives; all zero and false where it is refused. */
typedef struct {
    uint32_t refusal;  /* 0, 18 or 19 */
    uint32_t outside;  /* so many measurements lie outside the limits; a limit itself is inside */
    int32_t to_upper;  /* n times the upper limit, less the sum; 0 where the limit is absent */
    int32_t to_lower;  /* the sum, less n times the lower limit; 0 where the limit is absent */
    bool none_outside; /* whether outside is 0 */
    bool k_met;        /* by every limit that is given */
    bool f_met;        /* true where f is absent */
} listening_judgement;

/*
 * Opens a stream, once. Kind 1 credit: a is the limit in millionths, 1 to 500,000; option 1: a lot with a wrong one is heard
 * whole also with credit; ceiling is the most of the credit that a sample size uses (Kmax of ISO 28593, clause 10, note 1), 1 to
 * 128,000,000, or 0 for none, and the credit itself grows past it. Kind 2 level: a is VL, 1 to 7; option 1 permits reduced. Kind 3
 * continuous: a is the clearance number, 1 to 10,000, and b the interval, 2 to 200. What is not named is 0, so only a credit plan
 * has a ceiling. Refusals 4, 5.
 */
listening_answer listening_open(uint8_t *store, size_t store_length, uint32_t stream, uint32_t kind, uint32_t option, uint32_t a,
                                uint32_t b, uint32_t ceiling);

/*
 * Enters a lot of so many detections (size, N), of which a sample (n) was heard, wrong (d) of them wrong, and wrong_in_all (D)
 * in all that was heard, with its recording. Gives the verdict (1 accepted, 2 all heard, 3 returned or withheld), what is
 * accepted, and the credit, or the level (0 reduced, 1 normal, 2 tightened, 3 discontinued), after it. Refusals 7, 8, 9, 10, 11,
 * 12, 13, 17.
 */
listening_answer listening_lot(uint8_t *store, size_t store_length, uint32_t stream, uint32_t label, uint32_t size, uint32_t sample,
                               uint32_t wrong, uint32_t wrong_in_all, uint32_t recording, uint32_t second);

/*
 * Enters a run in screening, with its recording: right detections, at most 10,000, then a wrong one where wrong is 1. Gives what
 * is accepted, and the phase (0 screening, 1 sampling) after it. Refusals 7, 9, 15, 14, 17.
 */
listening_answer listening_run(uint8_t *store, size_t store_length, uint32_t stream, uint32_t right, uint32_t wrong,
                               uint32_t recording, uint32_t second);

/*
 * Enters a block in sampling, with its recording, of which the detection at place heard (p, 1 to the interval) was heard and was
 * wrong where wrong is 1. Gives what is accepted, how many to hear back, and the phase after it. Refusals 7, 9, 15, 14, 17.
 */
listening_answer listening_block(uint8_t *store, size_t store_length, uint32_t stream, uint32_t heard, uint32_t wrong,
                                 uint32_t recording, uint32_t second);

/* Enters a stop. Why 1: a pause of so many days, at most 255. Why 2: the set-up was changed, and days is 0. Refusals 8, 9, 15. */
listening_answer listening_stop(uint8_t *store, size_t store_length, uint32_t stream, uint32_t why, uint32_t days);

/* Takes the newest entry back. Gives its kind: 1 lot, 2 run, 3 block, 4 stop. Refusal 16. */
listening_answer listening_back(uint8_t *store, size_t store_length, uint32_t stream);

/* Gives the sample that a lot of this size asks for. Refusals 7, 8, 11. */
listening_answer listening_ask(const uint8_t *store, size_t store_length, uint32_t stream, uint32_t size);

/*
 * Gives the count of standing entries, what is accepted in all, and the credit, the level or the screening count; in sampling
 * 65,536 plus what has passed since the last detection heard.
 */
listening_answer listening_read(const uint8_t *store, size_t store_length, uint32_t stream);

/*
 * Gives how many of the newest standing records come back: as many as count says, or all where fewer stand. A count of 0 is
 * accepted. No refusals of its own. listening_newest_part says where the records lie.
 */
listening_answer listening_newest(const uint8_t *store, size_t store_length, uint32_t stream, uint32_t count);

/*
 * Gives where these records lie in the store, one behind the other, the oldest of them first: part.length bytes from
 * store + part.offset on, LISTENING_RECORD_LENGTH for each record. The part ends behind the last standing record, or behind the
 * area's header where none stands; where none comes back it is empty, and its offset is that end. They are the records
 * themselves and no copy, so a later call on the stream may change what lies there. Where listening_newest is refused, offset and
 * length are 0.
 *
 * A record, in bytes, its numbers with the little end first:
 *    0 kind: 1 lot, 2 run, 3 block, 4 stop
 *    1 flag: wrong of a run or block, why of a stop, 0 of a lot
 *    2 two zeros
 *    4 four 32-bit numbers: of a lot label, size, wrong, wrong_in_all; of a run right, of a block heard, of a stop days, then zeros
 *   20 recording, 32 bits; 0 of a stop
 *   24 second, 32 bits; 0 of a stop
 */
listening_part listening_newest_part(const uint8_t *store, size_t store_length, uint32_t stream, uint32_t count);

/*
 * Makes a list of calls, one after the other. Each is nine numbers: its number (1 open, 2 lot, 3 run, 4 block, 5 stop, 6 back,
 * 7 ask, 8 read, 9 newest), the stream, and seven arguments. recording and second are the sixth and the seventh argument of every
 * call that has them; the others come first, in the order above; those that a call does not use are 0. Each answer is four
 * numbers, the refusal first. Both lengths are counts of numbers, not of calls or bytes.
 *
 * False, and nothing made or written, where calls_length is not a multiple of 9, a call has another number, or an argument that
 * it does not use is not 0, or answers_length is not exactly 4 for each call. A refused call is no such case, nor is a store of another
 * length: the list is made, and its answers hold the refusals.
 */
bool listening_list(uint8_t *store, size_t store_length, const uint32_t *calls, size_t calls_length, uint32_t *answers,
                    size_t answers_length);

/*
 * Judges a sample by its measurements, with the k and F criteria of ISO 28594, 5.1.2.3.4: exactly, with no root and no rounding.
 * values are the measurements, and length is how many there are (n, 2 to 100). They and the limits are whole numbers from -4,000
 * to 4,000. k is in hundredths, 1 to 1,000, and f, the standard's F, in thousandths, 1 to 1,000. Each limit and f is given where
 * the flag before it is true; what stands beside a false flag is not looked at. One limit or both are given, and f with both and
 * only then.
 *
 * With the mean and the standard deviation s of the sample (n - 1 in its divisor), k is met where (upper - mean) / s and
 * (mean - lower) / s are k or more, and f where s / (upper - lower) is f or less; equality meets. Where s is 0, k is met unless
 * the mean is beyond a limit. A distance is negative where the mean is beyond its limit, and then k is not met. It gives no
 * verdict: the standard accepts a lot where none_outside, k_met and f_met are all true. Refusals 18, 19.
 */
listening_judgement listening_judge(const int32_t *values, size_t length, bool has_lower, int32_t lower, bool has_upper, int32_t upper,
                                    uint32_t k, bool has_f, uint32_t f);

#ifdef __cplusplus
}
#endif

#endif
