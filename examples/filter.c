/* How often each level of a low-pass filter was seen, which settles below 20. */
#include "verifier.h"

unsigned histogram[20];

int main(void) {
    int level = 0;
    while (__VERIFIER_nondet_int()) {
        int input = __VERIFIER_nondet_int();
        __VERIFIER_assume(input >= 0 && input <= 10);
        level = level / 2 + input;
        histogram[level]++;
    }
    return 0;
}
