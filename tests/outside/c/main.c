/* A project of its own: two trucks take four rounds, the rounds are written to a recording, and its listing is printed. */
#include <stdio.h>
#include <stdlib.h>

#include <rajvokshul.h>

#if RAJVOKSHUL_VERSION_MAJOR != 0
#error "this program is for version 0"
#endif

enum { TRUCKS = 2, ROUNDS = 4, ROUND = 3 + TRUCKS };

static void check(uint32_t number) {
    if (number != RAJVOKSHUL_ACCEPTED) {
        fprintf(stderr, "refused %u: %s\n", (unsigned)number, rajvokshul_reason(number));
        exit(1);
    }
}

int main(void) {
    const uint8_t openings[TRUCKS] = {3, 5};
    uint32_t words[ROUNDS * ROUND] = {0};
    uint8_t record[RAJVOKSHUL_RECORD_SIZE], text[RAJVOKSHUL_MAX_TEXT];
    words[0 * ROUND + RAJVOKSHUL_WORD_ACTIVE] = 3;
    words[2 * ROUND + RAJVOKSHUL_WORD_ACTIVE] = 3;
    check(rajvokshul_start(TRUCKS, openings, TRUCKS, record, sizeof record));
    for (unsigned k = 0; k < ROUNDS; k++) {
        check(rajvokshul_step(record, sizeof record, words + k * ROUND, ROUND));
    }

    size_t size = rajvokshul_bytes(TRUCKS, ROUNDS), written = 0, printed = 0;
    uint8_t *recording = malloc(size);
    if (recording == NULL) {
        return 1;
    }
    check(rajvokshul_write(TRUCKS, ROUNDS, openings, TRUCKS, words, rajvokshul_words(TRUCKS, ROUNDS), recording, size, &written));
    check(rajvokshul_list(recording, written, text, sizeof text, &printed));
    fwrite(text, 1, printed, stdout);
    free(recording);
    return rajvokshul_truck_state(record, 1) == RAJVOKSHUL_DECIDED && rajvokshul_truck_estimate(record, 1) == 3 ? 0 : 1;
}
