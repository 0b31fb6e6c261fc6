/* A push button without its bounces: it changes when four samples in a row say so. */
#include <stdint.h>
#include "verifier.h"

enum { SAMPLES = 4 };
typedef enum button { RELEASED, PRESSED } button;

uint16_t changes[PRESSED + 1];

button settled(button sample) {
    static button state = RELEASED;
    static uint8_t others;
    if (sample == state) {
        others = 0;
    } else {
        others++;
        if (others == SAMPLES) {
            others = 0;
            state = sample;
            changes[state]++;
        }
    }
    assert(others < SAMPLES);
    return state;
}

int main(void) {
    while (__VERIFIER_nondet_int()) {
        button sample = RELEASED;
        if (__VERIFIER_nondet_uchar() > 127)
            sample = PRESSED;
        settled(sample);
    }
    return 0;
}
