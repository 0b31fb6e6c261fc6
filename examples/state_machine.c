/* A traffic light that is driven by ticks. */
#include "verifier.h"

int state = 0;
int ticks = 0;
int length[3] = {30, 5, 20};

void tick(void) {
    ticks++;
    if (ticks >= length[state]) {
        ticks = 0;
        switch (state) {
        case 0:
            state = 1;
            break;
        case 1:
            state = 2;
            break;
        default:
            state = 0;
        }
    }
}

int main(void) {
    while (__VERIFIER_nondet_int()) {
        tick();
        assert(state >= 0 && state <= 2);
    }
    return 0;
}
