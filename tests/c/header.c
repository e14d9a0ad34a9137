/*
 * What c/rajvokshul.h adds to the calls: sizes, fields of a record, what each cycle of rounds refuses of one, where an own
 * loss bit is, and that the pointer of an empty list may be NULL.
 * Compiled as C and as C++. Exits with the number of tests that fail.
 */
#include <stdio.h>
#include <string.h>

#include "rajvokshul.h"

static int failed;

static void expect(unsigned long answer, unsigned long expected, int line) {
    if (answer != expected) {
        printf("header.c:%d: %lu instead of %lu\n", line, answer, expected);
        failed++;
    }
}

#define EXPECT(answer, expected) expect((unsigned long)(answer), (unsigned long)(expected), __LINE__)

/* Two trucks that open with crushers 3 and 5, four rounds, both active in rounds 1 and 3 (case C1); and no rounds (C5). */
static const uint8_t c1[8] = {0x08, 0x04, 0x35, 0x30, 0x00, 0x03, 0x00, 0x00};
static const uint8_t c5[3] = {0x08, 0x00, 0x35};
static const uint8_t both[2] = {3, 5};

static void sizes(void) {
    const uint32_t most = UINT32_MAX;
    EXPECT(rajvokshul_bytes(2, 4), sizeof c1);
    EXPECT(rajvokshul_bytes(2, 0), sizeof c5);
    EXPECT(rajvokshul_bytes(1, 400), 203);
    EXPECT(rajvokshul_bytes(32, 0), 18);
    EXPECT(rajvokshul_bytes(32, 400), RAJVOKSHUL_MAX_RECORDING);
    EXPECT(rajvokshul_words(2, 4), 20);
    EXPECT(rajvokshul_words(1, 0), 0);
    EXPECT(rajvokshul_words(32, 400), RAJVOKSHUL_MAX_WORDS);
    EXPECT(strlen("refused 6 round 400 truck 31\n"), RAJVOKSHUL_MAX_REFUSAL);
    const uint32_t outside[][2] = {{0, 4}, {33, 4}, {2, 401}, {most, 4}, {2, most}, {most, most}, {0x10000, 0x10000}};
    for (size_t k = 0; k < sizeof outside / sizeof outside[0]; k++) {
        EXPECT(rajvokshul_bytes(outside[k][0], outside[k][1]), 0);
        EXPECT(rajvokshul_words(outside[k][0], outside[k][1]), 0);
    }
}

/* Case C1 after round 1: both heard 3 and 5, and took 3. */
static void fields_after_a_round(void) {
    uint8_t record[RAJVOKSHUL_RECORD_SIZE];
    const uint32_t round[5] = {0, 3, 0, 0, 0};
    EXPECT(rajvokshul_start(2, both, 2, record, sizeof record), RAJVOKSHUL_ACCEPTED);
    EXPECT(rajvokshul_step(record, sizeof record, round, 5), RAJVOKSHUL_ACCEPTED);
    EXPECT(rajvokshul_trucks(record), 2);
    EXPECT(rajvokshul_rounds_done(record), 1);
    EXPECT(rajvokshul_truck_opening(record, 1), 5);
    EXPECT(rajvokshul_truck_estimate(record, 1), 3);
    EXPECT(rajvokshul_truck_mark(record, 1), 0);
    EXPECT(rajvokshul_truck_heard(record, 1), RAJVOKSHUL_HEARD_SEVERAL);
    EXPECT(rajvokshul_truck_state(record, 1), RAJVOKSHUL_RUNNING);
    EXPECT(rajvokshul_truck_round(record, 1), 0);
    EXPECT(rajvokshul_truck_proposals(record, 1), 1);
    EXPECT(rajvokshul_truck_vetoes(record, 1), 0);
    EXPECT(rajvokshul_run(c1, sizeof c1, record, sizeof record), RAJVOKSHUL_ACCEPTED);
    EXPECT(rajvokshul_rounds_done(record), 4);
    EXPECT(rajvokshul_truck_heard(record, 0), RAJVOKSHUL_HEARD_NOTHING);
    EXPECT(rajvokshul_truck_state(record, 0), RAJVOKSHUL_DECIDED);
    EXPECT(rajvokshul_truck_round(record, 0), 4);
    EXPECT(rajvokshul_truck_proposals(record, 0), 2);
    EXPECT(rajvokshul_truck_vetoes(record, 0), 1);
}

/* Each byte of a record is the field that it should be; 32 trucks have no further place. */
static void fields_by_their_places(void) {
    uint8_t record[RAJVOKSHUL_RECORD_SIZE];
    for (size_t k = 0; k < sizeof record; k++) {
        record[k] = (uint8_t)k;
    }
    EXPECT(rajvokshul_rounds_done(record), 0x0201);
    /* truck 31 begins at byte 313, which is 57 and 256 */
    EXPECT(rajvokshul_truck_opening(record, 31), 57);
    EXPECT(rajvokshul_truck_estimate(record, 31), 58);
    EXPECT(rajvokshul_truck_mark(record, 31), 59);
    EXPECT(rajvokshul_truck_heard(record, 31), 60);
    EXPECT(rajvokshul_truck_state(record, 31), 61);
    EXPECT(rajvokshul_truck_round(record, 31), 0x3f3e);
    EXPECT(rajvokshul_truck_proposals(record, 31), 64);
    EXPECT(rajvokshul_truck_vetoes(record, 31), 65);
    EXPECT(rajvokshul_truck_unwilling(record, 31), 66);
    EXPECT(rajvokshul_truck_byte(record, 31, 9), 66);
    EXPECT(rajvokshul_truck_opening(record, 32), 0);
    EXPECT(rajvokshul_truck_round(record, 32), 0);
    EXPECT(rajvokshul_truck_round(record, UINT32_MAX), 0);
    EXPECT(rajvokshul_truck_vetoes(record, UINT32_MAX), 0);
    EXPECT(rajvokshul_truck_unwilling(record, 32), 0);
    EXPECT(rajvokshul_truck_byte(record, 0, 10), 0);
}

/* One truck, active and marked in every round, sends in every one of 400; before round 1 it has sent nothing. */
static void counts_of_all_rounds(void) {
    uint8_t record[RAJVOKSHUL_RECORD_SIZE];
    const uint8_t seven = 7;
    const uint32_t round[4] = {0, 1, 1, 0};
    EXPECT(rajvokshul_start(1, &seven, 1, record, sizeof record), RAJVOKSHUL_ACCEPTED);
    for (uint32_t done = 0; done < 400; done++) {
        EXPECT(rajvokshul_truck_proposals(record, 0), (done + 1) / 2);
        EXPECT(rajvokshul_truck_vetoes(record, 0), done / 2);
        EXPECT(rajvokshul_step(record, sizeof record, round, 4), RAJVOKSHUL_ACCEPTED);
    }
    EXPECT(rajvokshul_truck_proposals(record, 0), 200);
    EXPECT(rajvokshul_truck_vetoes(record, 0), 200);
}

/* A step of either cycle. */
typedef uint32_t (*step_call)(uint8_t *record, size_t record_len, const uint32_t *words, size_t words_len);

/* The answer to a step of two trucks after so many rounds, of which truck 1 has these bytes from the state on; a refused one
 * changes nothing. */
static uint32_t answer_to(step_call step, uint32_t done, const uint8_t tail[6]) {
    uint8_t record[RAJVOKSHUL_RECORD_SIZE], before[RAJVOKSHUL_RECORD_SIZE];
    const uint32_t round[5] = {0};
    EXPECT(rajvokshul_start(2, both, 2, record, sizeof record), RAJVOKSHUL_ACCEPTED);
    record[1] = (uint8_t)(done % 256);
    record[2] = (uint8_t)(done / 256);
    memcpy(record + 3 + 10 + 4, tail, 6);
    memcpy(before, record, sizeof record);
    uint32_t answer = step(record, sizeof record, round, 5);
    if (answer != RAJVOKSHUL_ACCEPTED) {
        EXPECT(memcmp(before, record, sizeof record), 0);
    }
    return answer;
}

/* As many proposals as odd rounds done and as many vetoes as even ones pass, of a running, a stopped and a decided truck; one
 * more of either is refused, and so is a last byte above 1. A last byte of 1 is not this cycle's to judge. */
static void counts_at_their_limits(void) {
    const uint32_t rounds[] = {2, 3, 254, 255, 398, 399};
    for (size_t k = 0; k < sizeof rounds / sizeof rounds[0]; k++) {
        const uint8_t odd = (uint8_t)((rounds[k] + 1) / 2), even = (uint8_t)(rounds[k] / 2);
        for (uint8_t state = 0; state <= 2; state++) {
            /* a round of 2 will do for a stop and for a decision */
            const uint8_t round = state == RAJVOKSHUL_RUNNING ? 0 : 2;
            const uint8_t most[6] = {state, round, 0, odd, even, 0};
            const uint8_t proposals[6] = {state, round, 0, (uint8_t)(odd + 1), even, 0};
            const uint8_t vetoes[6] = {state, round, 0, odd, (uint8_t)(even + 1), 0};
            const uint8_t unwilling[6] = {state, round, 0, odd, even, 1};
            const uint8_t last[6] = {state, round, 0, odd, even, 2};
            EXPECT(answer_to(rajvokshul_step, rounds[k], most), RAJVOKSHUL_ACCEPTED);
            EXPECT(answer_to(rajvokshul_step, rounds[k], unwilling), RAJVOKSHUL_ACCEPTED);
            EXPECT(answer_to(rajvokshul_step, rounds[k], proposals), RAJVOKSHUL_RECORD);
            EXPECT(answer_to(rajvokshul_step, rounds[k], vetoes), RAJVOKSHUL_RECORD);
            EXPECT(answer_to(rajvokshul_step, rounds[k], last), RAJVOKSHUL_RECORD);
        }
    }
    /* before round 1 no truck has sent anything */
    const uint8_t none[6] = {0, 0, 0, 0, 0, 0}, one[6] = {0, 0, 0, 1, 0, 0}, veto[6] = {0, 0, 0, 0, 1, 0};
    EXPECT(answer_to(rajvokshul_step, 0, none), RAJVOKSHUL_ACCEPTED);
    EXPECT(answer_to(rajvokshul_step, 0, one), RAJVOKSHUL_RECORD);
    EXPECT(answer_to(rajvokshul_step, 0, veto), RAJVOKSHUL_RECORD);
    EXPECT(answer_to(rajvokshul_step, 1, one), RAJVOKSHUL_ACCEPTED);
    EXPECT(answer_to(rajvokshul_step, 1, veto), RAJVOKSHUL_RECORD);
}

/* Places of trucks that are not there are neither read nor changed. */
static void places_without_a_truck(void) {
    uint8_t record[RAJVOKSHUL_RECORD_SIZE];
    const uint32_t round[5] = {0, 3, 0, 0, 0};
    EXPECT(rajvokshul_start(2, both, 2, record, sizeof record), RAJVOKSHUL_ACCEPTED);
    for (uint32_t i = 2; i < RAJVOKSHUL_MAX_TRUCKS; i++) {
        EXPECT(rajvokshul_truck_proposals(record, i) + rajvokshul_truck_vetoes(record, i) + rajvokshul_truck_unwilling(record, i), 0);
    }
    memset(record + 23, 0xee, sizeof record - 23);
    EXPECT(rajvokshul_step(record, sizeof record, round, 5), RAJVOKSHUL_ACCEPTED);
    EXPECT(rajvokshul_step_six(record, sizeof record, round, 5), RAJVOKSHUL_ACCEPTED);
    for (size_t k = 23; k < sizeof record; k++) {
        EXPECT(record[k], 0xee);
    }
}

/* ---- The six-round cycle ---- */

/* Crushers 3 and 5, which are 0011 and 0101; nobody is active. Truck 1 is heard in round 3 and truck 0 in round 4, so that both
 * are unwilling and veto in round 6. In round 7 both send, and in round 12 both decide 3. Neither is counted. */
static void six_rounds(void) {
    uint8_t record[RAJVOKSHUL_RECORD_SIZE], ran[RAJVOKSHUL_RECORD_SIZE], bytes[32];
    uint32_t words[60] = {0};
    size_t written = 0;
    words[30 + RAJVOKSHUL_WORD_ACTIVE] = 3;
    const uint8_t unwilling[13][2] = {{0, 0}, {0, 0}, {0, 0}, {1, 0}, {1, 1}, {1, 1}};
    EXPECT(rajvokshul_start(2, both, 2, record, sizeof record), RAJVOKSHUL_ACCEPTED);
    for (uint32_t done = 0; done < 12; done++) {
        for (uint32_t i = 0; i < 2; i++) {
            EXPECT(rajvokshul_truck_unwilling(record, i), unwilling[done][i]);
            EXPECT(rajvokshul_truck_state(record, i), RAJVOKSHUL_RUNNING);
            EXPECT(rajvokshul_truck_estimate(record, i), done < 7 ? both[i] : 3);
        }
        EXPECT(rajvokshul_step_six(record, sizeof record, words + 5 * done, 5), RAJVOKSHUL_ACCEPTED);
    }
    for (uint32_t i = 0; i < 2; i++) {
        EXPECT(rajvokshul_truck_state(record, i), RAJVOKSHUL_DECIDED);
        EXPECT(rajvokshul_truck_round(record, i), 12);
        EXPECT(rajvokshul_truck_proposals(record, i) + rajvokshul_truck_vetoes(record, i), 0);
        EXPECT(rajvokshul_truck_heard(record, i), RAJVOKSHUL_HEARD_NOTHING);
    }
    EXPECT(rajvokshul_write(2, 12, both, 2, words, 60, bytes, sizeof bytes, &written), RAJVOKSHUL_ACCEPTED);
    EXPECT(rajvokshul_run_six(bytes, written, ran, sizeof ran), RAJVOKSHUL_ACCEPTED);
    EXPECT(memcmp(ran, record, sizeof ran), 0);
    /* the same recording in two rounds: in round 7 both hear two values, veto in round 8 and run on */
    EXPECT(rajvokshul_run(bytes, written, ran, sizeof ran), RAJVOKSHUL_ACCEPTED);
    EXPECT(rajvokshul_truck_state(ran, 0), RAJVOKSHUL_RUNNING);
    EXPECT(rajvokshul_truck_vetoes(ran, 0), 1);
}

/* Neither hears the other: both decide their own. In round 3 truck 1 alone sends its bit, of which truck 0 hears nothing. */
static void six_grades(void) {
    const uint32_t apart[5] = {0, 3, 0, 2, 1};
    uint32_t words[30];
    uint8_t bytes[32], record[RAJVOKSHUL_RECORD_SIZE];
    uint16_t first[RAJVOKSHUL_GRADES];
    size_t written = 0;
    for (size_t k = 0; k < 30; k++) {
        words[k] = apart[k % 5];
    }
    EXPECT(rajvokshul_write(2, 6, both, 2, words, 30, bytes, sizeof bytes, &written), RAJVOKSHUL_ACCEPTED);
    EXPECT(rajvokshul_grade_six(bytes, written, first, RAJVOKSHUL_GRADES), RAJVOKSHUL_ACCEPTED);
    EXPECT(first[RAJVOKSHUL_GRADE_COMPLETE], 1);
    EXPECT(first[RAJVOKSHUL_GRADE_MAJORITY], 1);
    EXPECT(first[RAJVOKSHUL_GRADE_ZERO], 3);
    EXPECT(first[RAJVOKSHUL_GRADE_ACCURATE], 0);
    EXPECT(rajvokshul_run_six(bytes, written, record, sizeof record), RAJVOKSHUL_ACCEPTED);
    EXPECT(rajvokshul_truck_estimate(record, 0), 3);
    EXPECT(rajvokshul_truck_estimate(record, 1), 5);
    EXPECT(rajvokshul_truck_round(record, 0) + rajvokshul_truck_round(record, 1), 12);
}

/* Refusals of the three calls; nothing that was lent changes. */
static void six_refusals(void) {
    const uint8_t c10[6] = {0x08, 0x02, 0x35, 0x33, 0x80, 0x00};
    const uint32_t round[5] = {0}, high[5] = {4, 0, 0, 0, 0}, own[5] = {0, 0, 0, 0, 2};
    uint8_t record[RAJVOKSHUL_RECORD_SIZE], before[RAJVOKSHUL_RECORD_SIZE];
    uint16_t first[RAJVOKSHUL_GRADES] = {77, 77, 77, 77};
    memset(record, 77, sizeof record);
    memcpy(before, record, sizeof record);
    EXPECT(rajvokshul_run_six(NULL, 0, record, sizeof record), RAJVOKSHUL_SHORT_RECORDING);
    EXPECT(rajvokshul_run_six(c1, 7, record, sizeof record), RAJVOKSHUL_RECORDING_LENGTH);
    EXPECT(rajvokshul_run_six(c10, sizeof c10, record, sizeof record), RAJVOKSHUL_OWN_LOSS);
    EXPECT(rajvokshul_run_six(c1, sizeof c1, record, sizeof record - 1), RAJVOKSHUL_SHORT_BUFFER);
    EXPECT(rajvokshul_run_six(c1, sizeof c1, NULL, 0), RAJVOKSHUL_SHORT_BUFFER);
    EXPECT(rajvokshul_grade_six(NULL, 0, first, RAJVOKSHUL_GRADES), RAJVOKSHUL_SHORT_RECORDING);
    EXPECT(rajvokshul_grade_six(c10, sizeof c10, first, RAJVOKSHUL_GRADES), RAJVOKSHUL_OWN_LOSS);
    EXPECT(rajvokshul_grade_six(c1, sizeof c1, first, 3), RAJVOKSHUL_SHORT_BUFFER);
    EXPECT(rajvokshul_grade_six(c1, sizeof c1, NULL, 0), RAJVOKSHUL_SHORT_BUFFER);
    EXPECT(memcmp(before, record, sizeof record), 0);
    EXPECT(first[0] + first[1] + first[2] + first[3], 4 * 77);
    EXPECT(rajvokshul_step_six(NULL, 0, NULL, 0), RAJVOKSHUL_RECORD);
    EXPECT(rajvokshul_step_six(record, sizeof record - 1, round, 5), RAJVOKSHUL_RECORD);
    EXPECT(rajvokshul_start(2, both, 2, record, sizeof record), RAJVOKSHUL_ACCEPTED);
    memcpy(before, record, sizeof record);
    EXPECT(rajvokshul_step_six(record, sizeof record, NULL, 0), RAJVOKSHUL_PLAIN_ROUND);
    EXPECT(rajvokshul_step_six(record, sizeof record, round, 4), RAJVOKSHUL_PLAIN_ROUND);
    EXPECT(rajvokshul_step_six(record, sizeof record, high, 5), RAJVOKSHUL_PLAIN_ROUND);
    EXPECT(rajvokshul_step_six(record, sizeof record, own, 5), RAJVOKSHUL_OWN_LOSS);
    EXPECT(memcmp(before, record, sizeof record), 0);
    for (uint32_t done = 0; done < 400; done++) {
        EXPECT(rajvokshul_step_six(record, sizeof record, round, 5), RAJVOKSHUL_ACCEPTED);
    }
    EXPECT(rajvokshul_step_six(record, sizeof record, round, 5), RAJVOKSHUL_ROUNDS_DONE);
}

/* Refusal 7 by the six-round cycle: a decision in a round that is no multiple of 6, and an unwilling truck that is not running
 * or has fewer than two rounds of the cycle behind it. What was heard and sent is not read. */
static void six_records(void) {
    for (uint32_t done = 6; done < 400; done++) {
        const uint8_t running[6] = {RAJVOKSHUL_RUNNING, 0, 0, 0, 0, 0}, unwilling[6] = {RAJVOKSHUL_RUNNING, 0, 0, 0, 0, 1};
        const uint8_t above[6] = {RAJVOKSHUL_RUNNING, 0, 0, 0, 0, 2}, sent[6] = {RAJVOKSHUL_RUNNING, 0, 0, 255, 255, 0};
        const uint8_t stopped[6] = {RAJVOKSHUL_STOPPED, 1, 0, 255, 255, 0}, out[6] = {RAJVOKSHUL_STOPPED, 1, 0, 0, 0, 1};
        const uint8_t decided[6] = {RAJVOKSHUL_DECIDED, 6, 0, 255, 255, 0}, gone[6] = {RAJVOKSHUL_DECIDED, 6, 0, 0, 0, 1};
        EXPECT(answer_to(rajvokshul_step_six, done, running), RAJVOKSHUL_ACCEPTED);
        EXPECT(answer_to(rajvokshul_step_six, done, unwilling), done % 6 < 2 ? RAJVOKSHUL_RECORD : RAJVOKSHUL_ACCEPTED);
        EXPECT(answer_to(rajvokshul_step_six, done, above), RAJVOKSHUL_RECORD);
        EXPECT(answer_to(rajvokshul_step_six, done, sent), RAJVOKSHUL_ACCEPTED);
        EXPECT(answer_to(rajvokshul_step_six, done, stopped), RAJVOKSHUL_ACCEPTED);
        EXPECT(answer_to(rajvokshul_step_six, done, out), RAJVOKSHUL_RECORD);
        EXPECT(answer_to(rajvokshul_step_six, done, decided), RAJVOKSHUL_ACCEPTED);
        EXPECT(answer_to(rajvokshul_step_six, done, gone), RAJVOKSHUL_RECORD);
    }
    for (uint8_t round = 0; round <= 18; round++) {
        const uint8_t decided[6] = {RAJVOKSHUL_DECIDED, round, 0, 0, 0, 0};
        const int due = round == 6 || round == 12;
        EXPECT(answer_to(rajvokshul_step_six, 17, decided), due ? RAJVOKSHUL_ACCEPTED : RAJVOKSHUL_RECORD);
    }
}

/* A record that changes the cycle: what was heard in round 1 of two stays through two rounds of six, the willingness of round 2
 * of six through one of two. */
static void from_one_cycle_to_the_other(void) {
    const uint32_t proposals[5] = {0, 3, 0, 0, 0}, marked[5] = {0, 0, 2, 0, 0}, quiet[5] = {0};
    uint8_t record[RAJVOKSHUL_RECORD_SIZE];
    EXPECT(rajvokshul_start(2, both, 2, record, sizeof record), RAJVOKSHUL_ACCEPTED);
    EXPECT(rajvokshul_step(record, sizeof record, proposals, 5), RAJVOKSHUL_ACCEPTED);
    /* crusher 3 has no bit worth 8, so that a mark makes truck 1 unwilling */
    EXPECT(rajvokshul_step_six(record, sizeof record, marked, 5), RAJVOKSHUL_ACCEPTED);
    EXPECT(rajvokshul_truck_unwilling(record, 1), 1);
    EXPECT(rajvokshul_truck_heard(record, 1), RAJVOKSHUL_HEARD_SEVERAL);
    EXPECT(rajvokshul_truck_mark(record, 1), 0);
    /* two rounds are done, with something heard */
    EXPECT(rajvokshul_step(record, sizeof record, quiet, 5), RAJVOKSHUL_RECORD);
    EXPECT(rajvokshul_step_six(record, sizeof record, quiet, 5), RAJVOKSHUL_ACCEPTED);
    EXPECT(rajvokshul_step(record, sizeof record, quiet, 5), RAJVOKSHUL_ACCEPTED);
    EXPECT(rajvokshul_rounds_done(record), 4);
    EXPECT(rajvokshul_truck_vetoes(record, 1), 1);
    EXPECT(rajvokshul_truck_heard(record, 1), RAJVOKSHUL_HEARD_NOTHING);
    EXPECT(rajvokshul_truck_unwilling(record, 1), 1);
    /* it stops in the six-round cycle, and is willing then */
    const uint32_t stop[5] = {2, 0, 0, 0, 0};
    EXPECT(rajvokshul_step_six(record, sizeof record, stop, 5), RAJVOKSHUL_ACCEPTED);
    EXPECT(rajvokshul_truck_state(record, 1), RAJVOKSHUL_STOPPED);
    EXPECT(rajvokshul_truck_unwilling(record, 1), 0);
    EXPECT(rajvokshul_truck_vetoes(record, 1), 1);
}

static void grades(void) {
    const uint8_t c2[6] = {0x08, 0x02, 0x35, 0x31, 0x80, 0x00};
    uint16_t first[RAJVOKSHUL_GRADES];
    EXPECT(rajvokshul_grade(c2, sizeof c2, first, RAJVOKSHUL_GRADES), RAJVOKSHUL_ACCEPTED);
    EXPECT(first[RAJVOKSHUL_GRADE_COMPLETE], 1);
    EXPECT(first[RAJVOKSHUL_GRADE_MAJORITY], 1);
    EXPECT(first[RAJVOKSHUL_GRADE_ZERO], 0);
    EXPECT(first[RAJVOKSHUL_GRADE_ACCURATE], 0);
}

/* ---- Empty lists without a pointer, one argument after the other ---- */

static void null_recordings(void) {
    uint8_t record[RAJVOKSHUL_RECORD_SIZE], text[RAJVOKSHUL_MAX_TEXT], openings[2];
    uint16_t first[RAJVOKSHUL_GRADES];
    uint32_t words[20], trucks = 77, rounds = 77;
    size_t written = 77;
    EXPECT(rajvokshul_list(NULL, 0, text, sizeof text, &written), RAJVOKSHUL_SHORT_RECORDING);
    EXPECT(rajvokshul_list(c1, sizeof c1, NULL, 0, &written), RAJVOKSHUL_SHORT_BUFFER);
    EXPECT(rajvokshul_run(NULL, 0, record, sizeof record), RAJVOKSHUL_SHORT_RECORDING);
    EXPECT(rajvokshul_run(c1, sizeof c1, NULL, 0), RAJVOKSHUL_SHORT_BUFFER);
    EXPECT(rajvokshul_grade(NULL, 0, first, RAJVOKSHUL_GRADES), RAJVOKSHUL_SHORT_RECORDING);
    EXPECT(rajvokshul_grade(c1, sizeof c1, NULL, 0), RAJVOKSHUL_SHORT_BUFFER);
    EXPECT(rajvokshul_read(NULL, 0, openings, 2, words, 20, &trucks, &rounds), RAJVOKSHUL_SHORT_RECORDING);
    EXPECT(rajvokshul_read(c1, sizeof c1, NULL, 0, words, 20, &trucks, &rounds), RAJVOKSHUL_SHORT_BUFFER);
    EXPECT(rajvokshul_read(c1, sizeof c1, openings, 2, NULL, 0, &trucks, &rounds), RAJVOKSHUL_SHORT_BUFFER);
    EXPECT(rajvokshul_read(NULL, 0, NULL, 0, NULL, 0, &trucks, &rounds), RAJVOKSHUL_SHORT_RECORDING);
    EXPECT(written, 77);
    EXPECT(trucks + rounds, 154);
    /* without rounds there are no words */
    EXPECT(rajvokshul_read(c5, sizeof c5, openings, 2, NULL, 0, &trucks, &rounds), RAJVOKSHUL_ACCEPTED);
    EXPECT(trucks, 2);
    EXPECT(rounds, 0);
    EXPECT(memcmp(openings, both, 2), 0);
}

static void null_writing(void) {
    const uint32_t words[20] = {0};
    uint8_t bytes[sizeof c1];
    size_t written = 77;
    EXPECT(rajvokshul_write(2, 4, NULL, 0, words, 20, bytes, sizeof bytes, &written), RAJVOKSHUL_RECORD);
    EXPECT(rajvokshul_write(2, 4, both, 2, NULL, 0, bytes, sizeof bytes, &written), RAJVOKSHUL_PLAIN_ROUND);
    EXPECT(rajvokshul_write(2, 4, both, 2, words, 20, NULL, 0, &written), RAJVOKSHUL_SHORT_BUFFER);
    EXPECT(rajvokshul_write(2, 0, both, 2, NULL, 0, NULL, 0, &written), RAJVOKSHUL_SHORT_BUFFER);
    EXPECT(rajvokshul_write(0, 0, NULL, 0, NULL, 0, NULL, 0, &written), RAJVOKSHUL_TRUCK_COUNT);
    EXPECT(written, 77);
    EXPECT(rajvokshul_write(2, 0, both, 2, NULL, 0, bytes, sizeof bytes, &written), RAJVOKSHUL_ACCEPTED);
    EXPECT(written, sizeof c5);
    EXPECT(memcmp(bytes, c5, sizeof c5), 0);
}

static void null_fleets_and_roads(void) {
    uint8_t record[RAJVOKSHUL_RECORD_SIZE], crusher = 77;
    const uint32_t round[5] = {0};
    const uint16_t road[1] = {1};
    EXPECT(rajvokshul_start(2, NULL, 0, record, sizeof record), RAJVOKSHUL_RECORD);
    EXPECT(rajvokshul_start(0, NULL, 0, NULL, 0), RAJVOKSHUL_TRUCK_COUNT);
    EXPECT(rajvokshul_start(2, both, 2, NULL, 0), RAJVOKSHUL_SHORT_BUFFER);
    EXPECT(rajvokshul_start(2, both, 2, record, sizeof record), RAJVOKSHUL_ACCEPTED);
    EXPECT(rajvokshul_step(NULL, 0, round, 5), RAJVOKSHUL_RECORD);
    EXPECT(rajvokshul_step(record, sizeof record, NULL, 0), RAJVOKSHUL_PLAIN_ROUND);
    EXPECT(rajvokshul_step(NULL, 0, NULL, 0), RAJVOKSHUL_RECORD);
    EXPECT(rajvokshul_rounds_done(record), 0);
    EXPECT(rajvokshul_opening(NULL, 0, road, 1, road, 1, &crusher), RAJVOKSHUL_ROAD_LISTS);
    EXPECT(rajvokshul_opening(road, 1, NULL, 0, road, 1, &crusher), RAJVOKSHUL_ROAD_LISTS);
    EXPECT(rajvokshul_opening(road, 1, road, 1, NULL, 0, &crusher), RAJVOKSHUL_ROAD_LISTS);
    EXPECT(rajvokshul_opening(NULL, 0, NULL, 0, NULL, 0, &crusher), RAJVOKSHUL_ROAD_LISTS);
    EXPECT(crusher, 77);
}

/* ---- Where an own loss bit is ---- */

/* A number that an own_loss function answers, as round and truck. */
static void named(uint32_t own_loss, uint32_t round, uint32_t truck, int line) {
    expect(rajvokshul_own_loss_round(own_loss), round, line);
    expect(rajvokshul_own_loss_truck(own_loss), truck, line);
}

#define NAMED(own_loss, round, truck) named((own_loss), (round), (truck), __LINE__)

/* Case C10, whose truck 0 misses itself in round 1, by every call on a recording; nothing that was lent changes. */
static void own_loss_of_recordings(void) {
    const uint8_t c10[6] = {0x08, 0x02, 0x35, 0x33, 0x80, 0x00};
    uint8_t record[RAJVOKSHUL_RECORD_SIZE], text[RAJVOKSHUL_MAX_TEXT], openings[2] = {77, 77};
    uint16_t first[RAJVOKSHUL_GRADES] = {77, 77, 77, 77};
    uint32_t words[10] = {77}, trucks = 77, rounds = 77;
    size_t written = 77;
    memset(record, 77, sizeof record);
    memset(text, 77, sizeof text);
    EXPECT(rajvokshul_list(c10, sizeof c10, text, sizeof text, &written), RAJVOKSHUL_OWN_LOSS);
    EXPECT(rajvokshul_run(c10, sizeof c10, record, sizeof record), RAJVOKSHUL_OWN_LOSS);
    EXPECT(rajvokshul_grade(c10, sizeof c10, first, RAJVOKSHUL_GRADES), RAJVOKSHUL_OWN_LOSS);
    EXPECT(rajvokshul_read(c10, sizeof c10, openings, 2, words, 10, &trucks, &rounds), RAJVOKSHUL_OWN_LOSS);
    EXPECT(written + trucks + rounds + words[0] + first[3], 5 * 77);
    EXPECT(openings[0] + openings[1] + record[0] + record[322] + text[0] + text[1760], 6 * 77);
    NAMED(rajvokshul_recording_own_loss(c10, sizeof c10), 1, 0);
    /* accepted, and refused otherwise */
    EXPECT(rajvokshul_recording_own_loss(c1, sizeof c1), 0);
    EXPECT(rajvokshul_recording_own_loss(c1, 7), 0);
    EXPECT(rajvokshul_recording_own_loss(NULL, 0), 0);
}

/* Truck 1 in round 2, and truck 0 in round 3; then a word too large in round 4, which comes before. */
static void own_loss_of_writing(void) {
    uint32_t words[20] = {0};
    uint8_t bytes[sizeof c1];
    size_t written = 77;
    words[5 + 4] = 2;
    words[10 + 3] = 1;
    EXPECT(rajvokshul_write(2, 4, both, 2, words, 20, bytes, sizeof bytes, &written), RAJVOKSHUL_OWN_LOSS);
    NAMED(rajvokshul_write_own_loss(2, 4, both, 2, words, 20), 2, 1);
    words[19] = 4;
    EXPECT(rajvokshul_write(2, 4, both, 2, words, 20, bytes, sizeof bytes, &written), RAJVOKSHUL_PLAIN_ROUND);
    EXPECT(rajvokshul_write_own_loss(2, 4, both, 2, words, 20), 0);
    EXPECT(written, 77);
    /* 65,540 rounds are 4 in 16 bits, and 258 trucks 2 in eight */
    words[19] = 0;
    EXPECT(rajvokshul_write_own_loss(2, 65540, both, 2, words, 20), 0);
    EXPECT(rajvokshul_write_own_loss(258, 4, both, 2, words, 20), 0);
    EXPECT(rajvokshul_write_own_loss(2, 4, NULL, 0, words, 20), 0);
    EXPECT(rajvokshul_write_own_loss(2, 4, both, 2, NULL, 0), 0);
    EXPECT(rajvokshul_write_own_loss(0, 0, NULL, 0, NULL, 0), 0);
}

/* The round is the one after those done, from 1 to 400; with 400 done 14 comes before. */
static void own_loss_of_steps(void) {
    const uint32_t quiet[5] = {0}, own[5] = {0, 0, 0, 0, 2};
    uint8_t record[RAJVOKSHUL_RECORD_SIZE], before[RAJVOKSHUL_RECORD_SIZE];
    EXPECT(rajvokshul_start(2, both, 2, record, sizeof record), RAJVOKSHUL_ACCEPTED);
    for (uint32_t done = 0; done < 400; done++) {
        memcpy(before, record, sizeof record);
        EXPECT(rajvokshul_step(record, sizeof record, own, 5), RAJVOKSHUL_OWN_LOSS);
        EXPECT(memcmp(before, record, sizeof record), 0);
        NAMED(rajvokshul_round_own_loss(rajvokshul_trucks(record), rajvokshul_rounds_done(record) + 1u, own, 5), done + 1, 1);
        EXPECT(rajvokshul_round_own_loss(rajvokshul_trucks(record), rajvokshul_rounds_done(record) + 1u, quiet, 5), 0);
        EXPECT(rajvokshul_step(record, sizeof record, quiet, 5), RAJVOKSHUL_ACCEPTED);
    }
    EXPECT(rajvokshul_step(record, sizeof record, own, 5), RAJVOKSHUL_ROUNDS_DONE);
}

/* Rounds of the wrong number of words or with a word too large, and numbers outside the limits. */
static void own_loss_of_a_round(void) {
    const uint32_t own[5] = {0, 0, 0, 1, 2}, high[5] = {0, 4, 0, 1, 2};
    NAMED(rajvokshul_round_own_loss(2, 400, own, 5), 400, 0);
    EXPECT(rajvokshul_round_own_loss(2, 401, own, 5), 0);
    EXPECT(rajvokshul_round_own_loss(2, 0, own, 5), 0);
    EXPECT(rajvokshul_round_own_loss(2, 65537, own, 5), 0);
    EXPECT(rajvokshul_round_own_loss(2, 1, own, 4), 0);
    EXPECT(rajvokshul_round_own_loss(2, 1, high, 5), 0);
    EXPECT(rajvokshul_round_own_loss(258, 1, own, 5), 0);
    EXPECT(rajvokshul_round_own_loss(0, 1, NULL, 0), 0);
    EXPECT(rajvokshul_round_own_loss(2, 1, NULL, 0), 0);
}

static void standing_at_a_crusher(void) {
    const uint16_t lengths[2] = {500, 0}, idle[2] = {0, 0}, seconds[2] = {40, 0}, moved[2] = {0, 5};
    uint8_t crusher = 77;
    EXPECT(rajvokshul_opening(lengths, 1, idle, 1, seconds, 1, &crusher), RAJVOKSHUL_ALL_IDLE);
    EXPECT(rajvokshul_opening(lengths, 2, moved, 2, seconds, 2, &crusher), RAJVOKSHUL_NO_TIME);
    EXPECT(crusher, 77);
    EXPECT(rajvokshul_opening(lengths, 2, idle, 2, seconds, 2, &crusher), RAJVOKSHUL_ACCEPTED);
    EXPECT(crusher, 1);
}

int main(void) {
    sizes();
    fields_after_a_round();
    fields_by_their_places();
    counts_of_all_rounds();
    counts_at_their_limits();
    places_without_a_truck();
    six_rounds();
    six_grades();
    six_refusals();
    six_records();
    from_one_cycle_to_the_other();
    grades();
    null_recordings();
    null_writing();
    null_fleets_and_roads();
    own_loss_of_recordings();
    own_loss_of_writing();
    own_loss_of_steps();
    own_loss_of_a_round();
    standing_at_a_crusher();
    return failed;
}
