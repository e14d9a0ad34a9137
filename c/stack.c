/*
 * How much stack each call of the library takes, on inputs of the largest size. Prints a line for each call, and exits
 * with status 1 where one takes as many bytes as the header says that it does not, 2 where it can't tell.
 *
 *   ./staticlib ffi
 *   cc -std=c99 -Wall -Wextra -Ic c/stack.c target/staticlib/libffi.a -lpthread -o stack && ./stack
 *
 * A call is made in a thread whose stack was filled with a pattern. What it took is what lies between the thread's own
 * frame and the last byte below it that has changed.
 */
#define _DEFAULT_SOURCE
#include <pthread.h>
#include <stdio.h>
#include <string.h>
#include <sys/mman.h>
#include <unistd.h>

#include "rajvokshul.h"

#define STACK 1048576
#define PATTERN 0xA5

enum { N = RAJVOKSHUL_MAX_TRUCKS, ROUNDS = RAJVOKSHUL_MAX_ROUNDS, ROUND = 3 + N };

/* ---- The recording: in each even round every truck has a mark, so that in neither cycle one decides and all run on to the
 * last. ---- */

static uint8_t openings[N];
static uint32_t words[RAJVOKSHUL_MAX_WORDS];
static uint8_t bytes[RAJVOKSHUL_MAX_RECORDING];
static size_t length;
static uint8_t begun[RAJVOKSHUL_RECORD_SIZE], proposed[RAJVOKSHUL_RECORD_SIZE]; /* before round 1, and after it */
static uint8_t prepared[RAJVOKSHUL_RECORD_SIZE], heard[RAJVOKSHUL_RECORD_SIZE]; /* after rounds 1 and 5 of six */

/* Any word (xorshift). */
static uint32_t noise(void) {
    static uint32_t state = 1;
    state ^= state << 13;
    state ^= state >> 17;
    state ^= state << 5;
    return state;
}

static void fill_round(uint32_t *round, int marked) {
    round[0] = 0;
    round[1] = noise();
    round[2] = marked ? UINT32_MAX : noise() & noise();
    for (int i = 0; i < N; i++) {
        round[3 + i] = noise() & noise() & ~(UINT32_C(1) << i);
    }
}

/* Whether a record is that of a fleet of 32 after so many rounds, every truck running. */
static int all_run(const uint8_t *record, int done) {
    int running = 0;
    for (uint32_t i = 0; i < N; i++) {
        running += rajvokshul_truck_state(record, i) == RAJVOKSHUL_RUNNING;
    }
    return rajvokshul_trucks(record) == N && rajvokshul_rounds_done(record) == done && running == N;
}

/* Steps a record by rounds of six from the first on. */
static int step_six(uint8_t *record, int rounds) {
    int good = 1;
    for (int k = 0; k < rounds; k++) {
        good = good && rajvokshul_step_six(record, RAJVOKSHUL_RECORD_SIZE, words + ROUND * k, ROUND) == 0;
    }
    return good;
}

/* Makes the inputs; whether they are what they should be. */
static int make(void) {
    uint8_t end[RAJVOKSHUL_RECORD_SIZE], end_of_six[RAJVOKSHUL_RECORD_SIZE];
    for (int i = 0; i < N; i++) {
        openings[i] = noise() % 16;
    }
    for (int k = 0; k < ROUNDS; k++) {
        fill_round(words + ROUND * k, k % 2 == 1);
    }
    if (rajvokshul_write(N, ROUNDS, openings, N, words, RAJVOKSHUL_MAX_WORDS, bytes, sizeof bytes, &length) != 0 ||
        rajvokshul_run(bytes, length, end, sizeof end) != 0 ||
        rajvokshul_run_six(bytes, length, end_of_six, sizeof end_of_six) != 0 ||
        rajvokshul_start(N, openings, N, begun, sizeof begun) != 0) {
        return 0;
    }
    memcpy(proposed, begun, sizeof begun);
    memcpy(prepared, begun, sizeof begun);
    memcpy(heard, begun, sizeof begun);
    return rajvokshul_step(proposed, sizeof proposed, words, ROUND) == 0 && step_six(prepared, 1) && step_six(heard, 5) &&
           length == sizeof bytes && all_run(end, ROUNDS) && all_run(end_of_six, ROUNDS) && all_run(begun, 0) &&
           all_run(proposed, 1) && all_run(prepared, 1) && all_run(heard, 5);
}

/* ---- The calls: each answers what the library does. ---- */

static uint8_t record[RAJVOKSHUL_RECORD_SIZE];
static size_t written;

static uint32_t run(void) {
    return rajvokshul_run(bytes, length, record, sizeof record);
}

static uint32_t grade(void) {
    static uint16_t grades[RAJVOKSHUL_GRADES];
    return rajvokshul_grade(bytes, length, grades, RAJVOKSHUL_GRADES);
}

static uint32_t run_six(void) {
    return rajvokshul_run_six(bytes, length, record, sizeof record);
}

static uint32_t grade_six(void) {
    static uint16_t grades[RAJVOKSHUL_GRADES];
    return rajvokshul_grade_six(bytes, length, grades, RAJVOKSHUL_GRADES);
}

static uint32_t list(void) {
    static uint8_t text[RAJVOKSHUL_MAX_TEXT];
    return rajvokshul_list(bytes, length, text, sizeof text, &written);
}

/* A step of a copy, so that each is taken from the rounds done that it is named for. */
static uint32_t step_of(uint32_t (*step)(uint8_t *, size_t, const uint32_t *, size_t), const uint8_t *before) {
    memcpy(record, before, sizeof record);
    return step(record, sizeof record, words + ROUND * rajvokshul_rounds_done(before), ROUND);
}

static uint32_t step_proposals(void) {
    return step_of(rajvokshul_step, begun);
}

static uint32_t step_vetoes(void) {
    return step_of(rajvokshul_step, proposed);
}

static uint32_t step_prepare(void) {
    return step_of(rajvokshul_step_six, begun);
}

static uint32_t step_bit(void) {
    return step_of(rajvokshul_step_six, prepared);
}

static uint32_t step_accept(void) {
    return step_of(rajvokshul_step_six, heard);
}

static uint32_t read_plain(void) {
    static uint8_t read_openings[N];
    static uint32_t read_words[RAJVOKSHUL_MAX_WORDS];
    static uint32_t trucks, rounds;
    return rajvokshul_read(bytes, length, read_openings, N, read_words, RAJVOKSHUL_MAX_WORDS, &trucks, &rounds);
}

static uint32_t write_plain(void) {
    static uint8_t buffer[RAJVOKSHUL_MAX_RECORDING];
    return rajvokshul_write(N, ROUNDS, openings, N, words, RAJVOKSHUL_MAX_WORDS, buffer, sizeof buffer, &written);
}

static uint32_t start(void) {
    return rajvokshul_start(N, openings, N, record, sizeof record);
}

static uint32_t opening(void) {
    static const uint16_t lengths[16] = {[15] = 1}, metres[16] = {[15] = 1}, seconds[16] = {[15] = 1};
    static uint8_t crusher;
    return rajvokshul_opening(lengths, 16, metres, 16, seconds, 16, &crusher);
}

static uint32_t recording_own_loss(void) {
    return rajvokshul_recording_own_loss(bytes, length);
}

static uint32_t write_own_loss(void) {
    return rajvokshul_write_own_loss(N, ROUNDS, openings, N, words, RAJVOKSHUL_MAX_WORDS);
}

static uint32_t round_own_loss(void) {
    return rajvokshul_round_own_loss(N, 2, words + ROUND, ROUND);
}

/* Takes KNOWN bytes and little more: the measure is tried on it. */
#define KNOWN 65536
static uint32_t known(void) {
    volatile uint8_t block[KNOWN];
    for (size_t k = 0; k < KNOWN; k++) {
        block[k] = 0;
    }
    return block[0];
}

/* ---- Measuring ---- */

struct measure {
    uint32_t (*call)(void);
    uint8_t *low; /* the stack's lowest byte */
    uint32_t answer;
    size_t taken;
};

static void *measured(void *given) {
    struct measure *m = given;
    volatile uint8_t here = 0;
    m->answer = m->call();
    size_t k = 0;
    while (m->low[k] == PATTERN) {
        k++;
    }
    m->taken = (uintptr_t)&here - (uintptr_t)(m->low + k);
    return NULL;
}

/* Makes one call on a stack of its own, with a page below it that nobody may touch. Whether it went as it should. */
static int take(struct measure *m) {
    size_t page = (size_t)sysconf(_SC_PAGESIZE);
    uint8_t *all = mmap(NULL, page + STACK, PROT_READ | PROT_WRITE, MAP_PRIVATE | MAP_ANONYMOUS, -1, 0);
    if (all == MAP_FAILED || mprotect(all, page, PROT_NONE) != 0) {
        return 0;
    }
    m->low = all + page;
    memset(m->low, PATTERN, STACK);
    pthread_attr_t attributes;
    pthread_t thread;
    int good = pthread_attr_init(&attributes) == 0 && pthread_attr_setstack(&attributes, m->low, STACK) == 0 &&
               pthread_create(&thread, &attributes, measured, m) == 0 && pthread_join(thread, NULL) == 0;
    return good && munmap(all, page + STACK) == 0 && m->answer == 0;
}

static void print(const char *name, size_t taken) {
    if (taken < 1000) {
        printf("%s %zu bytes of stack\n", name, taken);
    } else {
        printf("%s %zu,%03zu bytes of stack\n", name, taken / 1000, taken % 1000);
    }
}

static const struct {
    const char *name;
    uint32_t (*call)(void);
    size_t limit;
} calls[] = {
    {"run", run, RAJVOKSHUL_RUN_STACK},
    {"grade", grade, RAJVOKSHUL_RUN_STACK},
    {"list", list, RAJVOKSHUL_RUN_STACK},
    {"run of six", run_six, RAJVOKSHUL_RUN_STACK},
    {"grade of six", grade_six, RAJVOKSHUL_RUN_STACK},
    {"step, proposals", step_proposals, RAJVOKSHUL_STACK},
    {"step, vetoes", step_vetoes, RAJVOKSHUL_STACK},
    {"step of six, prepare", step_prepare, RAJVOKSHUL_STACK},
    {"step of six, bit", step_bit, RAJVOKSHUL_STACK},
    {"step of six, accept", step_accept, RAJVOKSHUL_STACK},
    {"read", read_plain, RAJVOKSHUL_STACK},
    {"write", write_plain, RAJVOKSHUL_STACK},
    {"start", start, RAJVOKSHUL_STACK},
    {"opening", opening, RAJVOKSHUL_STACK},
    {"own loss of a recording", recording_own_loss, RAJVOKSHUL_STACK},
    {"own loss of writing", write_own_loss, RAJVOKSHUL_STACK},
    {"own loss of a round", round_own_loss, RAJVOKSHUL_STACK},
};

int main(void) {
    struct measure m = {.call = known};
    if (!make() || !take(&m) || m.taken < KNOWN || m.taken > KNOWN + 1024) {
        printf("the inputs or the measure are wrong\n");
        return 2;
    }
    int status = 0;
    for (size_t k = 0; k < sizeof calls / sizeof calls[0]; k++) {
        m.call = calls[k].call;
        if (!take(&m)) {
            printf("%s failed\n", calls[k].name);
            return 2;
        }
        print(calls[k].name, m.taken);
        if (m.taken >= calls[k].limit) {
            status = 1;
        }
    }
    return status;
}
