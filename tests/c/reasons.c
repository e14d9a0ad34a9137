/* Prints the header's words for each refusal, as rows of README.md's table; and that 0 and 15 are no refusals. */
#include <stdio.h>
#include <string.h>

#include "rajvokshul.h"

int main(void) {
    for (unsigned number = 1; number <= 14; number++) {
        printf("| %u | %s |\n", number, rajvokshul_reason(number));
    }
    return strcmp(rajvokshul_reason(0), "accepted") != 0 || strcmp(rajvokshul_reason(15), "no refusal has this number") != 0;
}
