/* Compiled with and without an answer that is dropped: a compiler must warn of it. */
#include "rajvokshul.h"

int main(void) {
#ifdef DROPPED
    rajvokshul_step(NULL, 0, NULL, 0);
#endif
    return rajvokshul_step(NULL, 0, NULL, 0) == RAJVOKSHUL_RECORD ? 0 : 1;
}
