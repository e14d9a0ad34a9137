/*
 * Runs a recording to its listing, follows the same rounds as a live fleet, steps a fleet in the six-round cycle, finds what
 * is wrong with another recording, and picks an opening crusher.
 *
 *   ./staticlib ffi
 *   cc -std=c99 -Wall -Wextra -Ic c/example.c target/staticlib/libffi.a -o example
 */
#include <stdio.h>

#include "rajvokshul.h"

/* Two trucks that open with crushers 3 and 5, four rounds, both active in rounds 1 and 3. */
static const uint8_t recording[] = {0x08, 0x04, 0x35, 0x30, 0x00, 0x03, 0x00, 0x00};

static int refused(const char *what, uint32_t number) {
    if (number != RAJVOKSHUL_ACCEPTED) {
        printf("%s: refused %u: %s\n", what, (unsigned)number, rajvokshul_reason(number));
    }
    return number != RAJVOKSHUL_ACCEPTED;
}

static void print_fleet(const uint8_t *record) {
    static const char *const states[] = {"running", "stopped", "decided"};
    printf("after round %u:", rajvokshul_rounds_done(record));
    for (uint32_t i = 0; i < rajvokshul_trucks(record); i++) {
        const char *state = states[rajvokshul_truck_state(record, i)];
        printf("%s truck %u %s at %u, sent %u vetoes %u", i == 0 ? "" : ";", (unsigned)i, state,
               rajvokshul_truck_estimate(record, i), rajvokshul_truck_proposals(record, i), rajvokshul_truck_vetoes(record, i));
    }
    printf("\n");
}

int main(void) {
    uint8_t text[RAJVOKSHUL_MAX_TEXT];
    size_t written = 0;
    if (refused("list", rajvokshul_list(recording, sizeof recording, text, sizeof text, &written))) {
        return 1;
    }
    fwrite(text, 1, written, stdout);

    static uint32_t words[RAJVOKSHUL_MAX_WORDS];
    uint8_t openings[RAJVOKSHUL_MAX_TRUCKS];
    uint32_t trucks = 0, rounds = 0;
    if (refused("read", rajvokshul_read(recording, sizeof recording, openings, sizeof openings, words,
                                        RAJVOKSHUL_MAX_WORDS, &trucks, &rounds))) {
        return 1;
    }
    uint8_t record[RAJVOKSHUL_RECORD_SIZE];
    if (refused("start", rajvokshul_start(trucks, openings, trucks, record, sizeof record))) {
        return 1;
    }
    for (uint32_t k = 0; k < rounds; k++) {
        if (refused("step", rajvokshul_step(record, sizeof record, words + rajvokshul_words(trucks, k), 3 + trucks))) {
            return 1;
        }
        print_fleet(record);
    }

    /* Radios that mark a round only where every message of it was missed take the cycle of six rounds. Both send in its first,
     * prepare. */
    if (refused("start", rajvokshul_start(trucks, openings, trucks, record, sizeof record))) {
        return 1;
    }
    for (uint32_t k = 0; k < 6; k++) {
        const uint32_t round[5] = {0, k == 0 ? 3 : 0, 0, 0, 0};
        if (refused("step in six rounds", rajvokshul_step_six(record, sizeof record, round, 5))) {
            return 1;
        }
    }
    printf("six rounds, ");
    print_fleet(record);

    /* The radio of truck 0 claims to have missed itself in round 1. A refused call says that such a bit is 1, and
     * rajvokshul_recording_own_loss where it is. */
    const uint8_t wrong[] = {0x08, 0x02, 0x35, 0x33, 0x80, 0x00};
    if (rajvokshul_run(wrong, sizeof wrong, record, sizeof record) == RAJVOKSHUL_OWN_LOSS) {
        uint32_t own_loss = rajvokshul_recording_own_loss(wrong, sizeof wrong);
        printf("refused 6 round %u truck %u: %s\n", (unsigned)rajvokshul_own_loss_round(own_loss),
               (unsigned)rajvokshul_own_loss_truck(own_loss), rajvokshul_reason(RAJVOKSHUL_OWN_LOSS));
    }

    /* The first road is idle, so the second one is taken; but a truck that stands at crusher 0 opens with it. */
    const uint16_t far[] = {500, 900}, standing[] = {0, 900}, metres[] = {0, 300}, seconds[] = {40, 60};
    uint8_t crusher = 0;
    if (refused("opening", rajvokshul_opening(far, 2, metres, 2, seconds, 2, &crusher))) {
        return 1;
    }
    printf("opening %u\n", crusher);
    if (refused("opening", rajvokshul_opening(standing, 2, metres, 2, seconds, 2, &crusher))) {
        return 1;
    }
    printf("standing at 0: opening %u\n", crusher);
    return 0;
}
