/*
 * Rajvokshul for C and C++: crusher agreement by radio rounds.
 *
 * Link with librajvokshul.a of an installation (`pkg-config --cflags --libs rajvokshul`), or in the repository with the
 * archive that `./staticlib ffi` writes, target/staticlib/libffi.a (name the file: `-lffi` is another library).
 *
 * Every function that is not inline answers 0, or the number of the refusal, which rajvokshul_reason puts in words; but for
 * the three whose names end in _own_loss, which tell the round and the truck where another answered 6. On a refusal nothing
 * that was lent is changed. Buffers may be longer than needed: everything past the part written stays as it was.
 *
 * A pointer followed by a length is a list; the length counts elements, not bytes. The pointer of a list of length 0 is
 * not used and may be NULL. No other pointer may be: not that of a list with elements, nor of a number that is written,
 * nor of a record that an inline function reads. What a function writes must not overlap any of its other arguments.
 * There is no state behind these functions: they may be called from several threads at once on buffers that are not
 * shared.
 */
#ifndef RAJVOKSHUL_H
#define RAJVOKSHUL_H

#include <stddef.h>
#include <stdint.h>

/* ---- Version ------------------------------------------------------------------------------------------------------ */
#define RAJVOKSHUL_VERSION "0.1.0"
#define RAJVOKSHUL_VERSION_MAJOR 0
#define RAJVOKSHUL_VERSION_MINOR 1
#define RAJVOKSHUL_VERSION_PATCH 0

/* An answer that is not looked at hides a refusal, so compilers that can warn of it do. */
#if defined(__cplusplus) && __cplusplus >= 201703L
#define RAJVOKSHUL_NODISCARD [[nodiscard]]
#elif defined(__GNUC__) || defined(__clang__)
#define RAJVOKSHUL_NODISCARD __attribute__((warn_unused_result))
#else
#define RAJVOKSHUL_NODISCARD
#endif

#ifdef __cplusplus
extern "C" {
#endif

/* ---- Refusals -------------------------------------------------------------------------------------------------------
 * Whoever made the recording. */
#define RAJVOKSHUL_ACCEPTED 0
#define RAJVOKSHUL_SHORT_RECORDING 1  /* fewer than 2 bytes */
#define RAJVOKSHUL_TRUCK_COUNT 2      /* n is 0 or above 32 */
#define RAJVOKSHUL_ROUND_COUNT 3      /* more than 400 rounds */
#define RAJVOKSHUL_RECORDING_LENGTH 4 /* the byte length differs from the one that n and the rounds fix */
#define RAJVOKSHUL_END_BIT 5          /* a leftover end bit is 1 */
#define RAJVOKSHUL_OWN_LOSS 6         /* a truck's own loss bit is 1; see 'Where an own loss bit is' */
/* The caller. */
#define RAJVOKSHUL_RECORD 7       /* bytes that are no fleet record or one outside the limits; an opening above 15; openings not n in number */
#define RAJVOKSHUL_PLAIN_ROUND 8  /* plain rounds of the wrong number of words, or a bit at or above n */
#define RAJVOKSHUL_SHORT_BUFFER 9 /* a lent buffer is too short */
#define RAJVOKSHUL_ROUNDS_DONE 14 /* a step with 400 rounds already done */
/* Whoever keeps the road lists. */
#define RAJVOKSHUL_ROAD_LISTS 10 /* no roads, more than 16, or lists of unequal length */
#define RAJVOKSHUL_SECONDS 11    /* seconds above 3,600 */
#define RAJVOKSHUL_NO_TIME 12    /* metres above 0 in 0 seconds */
#define RAJVOKSHUL_ALL_IDLE 13   /* every road idle and longer than 0 */

/* What was wrong, in words; a text that lasts. 0 is "accepted". */
static inline const char *rajvokshul_reason(uint32_t number) {
    switch (number) {
    case RAJVOKSHUL_ACCEPTED:
        return "accepted";
    case RAJVOKSHUL_SHORT_RECORDING:
        return "the recording has fewer than 2 bytes";
    case RAJVOKSHUL_TRUCK_COUNT:
        return "the number of trucks is 0 or above 32";
    case RAJVOKSHUL_ROUND_COUNT:
        return "the number of rounds is above 400";
    case RAJVOKSHUL_RECORDING_LENGTH:
        return "the recording's length is not the one that its numbers of trucks and rounds fix";
    case RAJVOKSHUL_END_BIT:
        return "a bit left over at the end of the recording's last byte is 1";
    case RAJVOKSHUL_OWN_LOSS:
        return "a truck's own loss bit is 1, but a truck always hears itself";
    case RAJVOKSHUL_RECORD:
        return "a fleet record is outside the limits, an opening is above 15, or the openings are not one for each truck";
    case RAJVOKSHUL_PLAIN_ROUND:
        return "the rounds have the wrong number of words, or a word has the bit of a truck that is not there";
    case RAJVOKSHUL_SHORT_BUFFER:
        return "a lent buffer is too short";
    case RAJVOKSHUL_ROAD_LISTS:
        return "there are no roads, more than 16, or lists of unequal length";
    case RAJVOKSHUL_SECONDS:
        return "the seconds of a road's last run are above 3,600";
    case RAJVOKSHUL_NO_TIME:
        return "a road's last run covered metres in 0 seconds";
    case RAJVOKSHUL_ALL_IDLE:
        return "every road is idle and longer than 0";
    case RAJVOKSHUL_ROUNDS_DONE:
        return "400 rounds are done already";
    default:
        return "no refusal has this number";
    }
}

/* ---- Sizes that are always enough --------------------------------------------------------------------------------- */
#define RAJVOKSHUL_MAX_TRUCKS 32
#define RAJVOKSHUL_MAX_ROUNDS 400
#define RAJVOKSHUL_MAX_RECORDING 56018 /* bytes of a recording */
#define RAJVOKSHUL_MAX_WORDS 14000     /* words of all rounds in plain form: rounds * (3 + n) */
#define RAJVOKSHUL_MAX_TEXT 1761       /* bytes of a listing */
#define RAJVOKSHUL_MAX_REFUSAL 29      /* bytes of the line that the program prints for a refused recording */
#define RAJVOKSHUL_RECORD_SIZE 323     /* bytes of a fleet record: exactly these are read and written */
#define RAJVOKSHUL_GRADES 4            /* numbers of a grading */

/* The bytes of a recording of n trucks and so many rounds; 0 where either is outside the limits. */
static inline size_t rajvokshul_bytes(uint32_t trucks, uint32_t rounds) {
    if (trucks == 0 || trucks > RAJVOKSHUL_MAX_TRUCKS || rounds > RAJVOKSHUL_MAX_ROUNDS) {
        return 0;
    }
    return ((size_t)16 + 4 * trucks + (size_t)rounds * trucks * (3 + trucks) + 7) / 8;
}

/* The words of all its rounds in plain form; 0 where either number is outside the limits, and where there are no rounds. */
static inline size_t rajvokshul_words(uint32_t trucks, uint32_t rounds) {
    if (trucks == 0 || trucks > RAJVOKSHUL_MAX_TRUCKS || rounds > RAJVOKSHUL_MAX_ROUNDS) {
        return 0;
    }
    return (size_t)rounds * (3 + trucks);
}

/* ---- Stack ----------------------------------------------------------------------------------------------------------
 * Every call takes fewer bytes of stack than these, also on inputs of the largest size; there is no other memory behind a
 * call. Measured on x86-64: list 64 KiB, run and grade 61 KiB, a run of six rounds 1.0 KiB, the others below 1 KiB. */
#define RAJVOKSHUL_RUN_STACK 131072 /* run, grade and list, in either cycle */
#define RAJVOKSHUL_STACK 4096       /* every other call */

/* ---- Recordings ---------------------------------------------------------------------------------------------------
 * A round in plain form is 3 + n words: stop, active, mark, then a row of loss bits for each truck; truck j is the bit
 * worth 2 to the j. Openings are a byte each. */
#define RAJVOKSHUL_WORD_STOP 0
#define RAJVOKSHUL_WORD_ACTIVE 1
#define RAJVOKSHUL_WORD_MARK 2
#define RAJVOKSHUL_WORD_LOST 3 /* the row of truck 0; that of truck i is i words further */

/* A recording does not say by which cycle of rounds it is to be run: the caller does, by the name of the call.
 * - Two rounds, which are proposals and vetoes: rajvokshul_run, rajvokshul_grade, rajvokshul_step, and rajvokshul_list.
 * - Six rounds, which are prepare, four bit rounds and accept: rajvokshul_run_six, rajvokshul_grade_six, rajvokshul_step_six. */

/* Runs a recording in the two-round cycle and writes its listing: the numbers of trucks and rounds, a line for each truck,
 * which ends with how many proposals and vetoes it sent, and a line with how many all of them sent. *written becomes the
 * number of bytes. Refusals: 1 to 6, 9. */
RAJVOKSHUL_NODISCARD
uint32_t rajvokshul_list(const uint8_t *bytes, size_t bytes_len, uint8_t *text, size_t text_len, size_t *written);

/* Runs a recording and writes the fleet record that it leaves. Refusals: 1 to 6, 9. */
RAJVOKSHUL_NODISCARD
uint32_t rajvokshul_run(const uint8_t *bytes, size_t bytes_len, uint8_t *record, size_t record_len);
RAJVOKSHUL_NODISCARD
uint32_t rajvokshul_run_six(const uint8_t *bytes, size_t bytes_len, uint8_t *record, size_t record_len);

/* Grades a recording: for each class of marks the first round that breaks it, or 0. Four numbers: complete, majority
 * complete, zero complete, accurate. No two trucks decide different crushers
 * - in two rounds, where marks are majority complete in odd rounds and zero complete in even ones, so wherever the second
 *   number is 0;
 * - in six rounds, where marks are zero complete, so wherever the third number is 0.
 * Refusals: 1 to 6, 9. */
#define RAJVOKSHUL_GRADE_COMPLETE 0
#define RAJVOKSHUL_GRADE_MAJORITY 1
#define RAJVOKSHUL_GRADE_ZERO 2
#define RAJVOKSHUL_GRADE_ACCURATE 3
RAJVOKSHUL_NODISCARD
uint32_t rajvokshul_grade(const uint8_t *bytes, size_t bytes_len, uint16_t *grades, size_t grades_len);
RAJVOKSHUL_NODISCARD
uint32_t rajvokshul_grade_six(const uint8_t *bytes, size_t bytes_len, uint16_t *grades, size_t grades_len);

/* Reads a recording to plain form: n openings, and the words of all rounds one after the other. *trucks becomes n,
 * *rounds the number of rounds. Refusals: 1 to 6, 9. */
RAJVOKSHUL_NODISCARD
uint32_t rajvokshul_read(const uint8_t *bytes, size_t bytes_len, uint8_t *openings, size_t openings_len, uint32_t *words,
                         size_t words_len, uint32_t *trucks, uint32_t *rounds);

/* Writes a recording from plain form; *written becomes the number of bytes. Refusals: 2, 3, 7, 8, 6, 9. */
RAJVOKSHUL_NODISCARD
uint32_t rajvokshul_write(uint32_t trucks, uint32_t rounds, const uint8_t *openings, size_t openings_len,
                          const uint32_t *words, size_t words_len, uint8_t *bytes, size_t bytes_len, size_t *written);

/* ---- A live fleet -------------------------------------------------------------------------------------------------
 * A fleet record has 323 bytes:
 *   0        n, the number of trucks
 *   1, 2     rounds done, low byte first
 *   then ten bytes for each of 32 places, truck i at 3 + 10 * i:
 *   + 0      opening
 *   + 1      present estimate; of a decided truck its crusher
 *   + 2      1 where it had a mark in the proposal round before, else 0
 *   + 3      what it heard there: 0 no value, 1 one value, 2 several different values
 *   + 4      state: 0 running, 1 stopped, 2 decided
 *   + 5, 6   the round of its stop or decision, low byte first; 0 for a running truck
 *   + 7      how many proposals it has sent
 *   + 8      how many vetoes it has sent
 *   + 9      1 where it is unwilling, else 0; bytes with anything else there are no record
 * A start and a run write all 32 places; those of trucks n and above are 0. Nothing reads them, and a step leaves them as
 * they are. The inline functions read the fields of a record of 323 bytes; i counts trucks from 0, and of a number of 32
 * or above 0 is answered.
 *
 * What was heard (+ 2, + 3) and sent (+ 7, + 8) belongs to the two-round cycle, willingness (+ 9) to the six-round one. A
 * step of either cycle neither reads nor changes what belongs to the other. A fleet is started in no cycle, and a record
 * may be stepped by one and then by the other; what is promised of whole lists of steps holds of those in one cycle.
 *
 * Refusal 7 of a record: both steps refuse bytes that are no record, n of 0 or above 32, a crusher above 15, more than 400
 * rounds done, and a stop or a decision in round 0 or in a later round than those done. Besides,
 * - rajvokshul_step refuses a decision in an odd round; anything heard where the rounds done are even or the truck is not
 *   running; more proposals than odd rounds are done, or more vetoes than even ones;
 * - rajvokshul_step_six refuses a decision in a round that is no multiple of 6; and an unwilling truck that is not running,
 *   or where the rounds done leave 0 or 1 when divided by 6. */
#define RAJVOKSHUL_HEARD_NOTHING 0
#define RAJVOKSHUL_HEARD_ONE 1
#define RAJVOKSHUL_HEARD_SEVERAL 2
#define RAJVOKSHUL_RUNNING 0
#define RAJVOKSHUL_STOPPED 1
#define RAJVOKSHUL_DECIDED 2

static inline uint8_t rajvokshul_trucks(const uint8_t *record) {
    return record[0];
}

static inline uint16_t rajvokshul_rounds_done(const uint8_t *record) {
    return (uint16_t)(record[1] | record[2] << 8);
}

/* Byte k, 0 to 9, of the place of truck i. */
static inline uint8_t rajvokshul_truck_byte(const uint8_t *record, uint32_t i, uint32_t k) {
    return i < RAJVOKSHUL_MAX_TRUCKS && k < 10 ? record[3 + 10 * i + k] : (uint8_t)0;
}

static inline uint8_t rajvokshul_truck_opening(const uint8_t *record, uint32_t i) {
    return rajvokshul_truck_byte(record, i, 0);
}

static inline uint8_t rajvokshul_truck_estimate(const uint8_t *record, uint32_t i) {
    return rajvokshul_truck_byte(record, i, 1);
}

static inline uint8_t rajvokshul_truck_mark(const uint8_t *record, uint32_t i) {
    return rajvokshul_truck_byte(record, i, 2);
}

static inline uint8_t rajvokshul_truck_heard(const uint8_t *record, uint32_t i) {
    return rajvokshul_truck_byte(record, i, 3);
}

static inline uint8_t rajvokshul_truck_state(const uint8_t *record, uint32_t i) {
    return rajvokshul_truck_byte(record, i, 4);
}

static inline uint16_t rajvokshul_truck_round(const uint8_t *record, uint32_t i) {
    return (uint16_t)(rajvokshul_truck_byte(record, i, 5) | rajvokshul_truck_byte(record, i, 6) << 8);
}

static inline uint8_t rajvokshul_truck_proposals(const uint8_t *record, uint32_t i) {
    return rajvokshul_truck_byte(record, i, 7);
}

static inline uint8_t rajvokshul_truck_vetoes(const uint8_t *record, uint32_t i) {
    return rajvokshul_truck_byte(record, i, 8);
}

static inline uint8_t rajvokshul_truck_unwilling(const uint8_t *record, uint32_t i) {
    return rajvokshul_truck_byte(record, i, 9);
}

/* Starts a fleet with an opening for each of its trucks, which are willing. Refusals: 2, 7, 9. */
RAJVOKSHUL_NODISCARD
uint32_t rajvokshul_start(uint32_t trucks, const uint8_t *openings, size_t openings_len, uint8_t *record, size_t record_len);

/* Steps a fleet by one round in plain form, 3 + n words. A refused step leaves the record as it was. Refusals: 7, 14, 8, 6. */
RAJVOKSHUL_NODISCARD
uint32_t rajvokshul_step(uint8_t *record, size_t record_len, const uint32_t *words, size_t words_len);
RAJVOKSHUL_NODISCARD
uint32_t rajvokshul_step_six(uint8_t *record, size_t record_len, const uint32_t *words, size_t words_len);

/* ---- Where an own loss bit is -----------------------------------------------------------------------------------------
 * Refusal 6 names the earliest round in which a truck's own loss bit is 1 and, in that round, the lowest such truck. These
 * functions take what the refused call was given and answer 0 where there is nothing that 6 names, else a number of which
 * the two inline functions tell the round, counted from 1, and the truck, counted from 0. They change nothing. */
static inline uint32_t rajvokshul_own_loss_round(uint32_t own_loss) {
    return own_loss / 256;
}

static inline uint32_t rajvokshul_own_loss_truck(uint32_t own_loss) {
    return own_loss % 256;
}

/* Of a recording that list, read, or run or grade of either cycle refuses. */
RAJVOKSHUL_NODISCARD
uint32_t rajvokshul_recording_own_loss(const uint8_t *bytes, size_t bytes_len);

/* Of plain form that is not written. */
RAJVOKSHUL_NODISCARD
uint32_t rajvokshul_write_own_loss(uint32_t trucks, uint32_t rounds, const uint8_t *openings, size_t openings_len,
                                   const uint32_t *words, size_t words_len);

/* Of one round by which a fleet of so many trucks is not stepped. Of a refused step the round is the one that it would have
 * been, rajvokshul_rounds_done(record) + 1. */
RAJVOKSHUL_NODISCARD
uint32_t rajvokshul_round_own_loss(uint32_t trucks, uint32_t round, const uint32_t *words, size_t words_len);

/* ---- The opening crusher ------------------------------------------------------------------------------------------ */

/* The crusher that a truck opens with: that of the road with the least exact travel time, the lowest number on a tie. An
 * entry for each road: its length in metres, the metres of the last run on it, and the seconds of that run (0 to 3,600).
 * A road of length 0 takes 0 seconds: the truck stands at that crusher. A longer one whose last run covered 0 metres is
 * idle and passed over. Refusals: 10, 11, 12, 13. */
RAJVOKSHUL_NODISCARD
uint32_t rajvokshul_opening(const uint16_t *lengths, size_t lengths_len, const uint16_t *metres, size_t metres_len,
                            const uint16_t *seconds, size_t seconds_len, uint8_t *crusher);

#ifdef __cplusplus
}
#endif

#endif
