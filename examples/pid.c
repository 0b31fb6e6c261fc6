/* A step of a PID controller in fixed point, with 8 bits behind the point. */
#include "verifier.h"

int integral = 0;
int last = 0;

int clamp(int value, int low, int high) {
    if (value < low)
        return low;
    if (value > high)
        return high;
    return value;
}

int step(int wanted, int measured) {
    int error = wanted - measured;
    int slope = error - last;
    integral = clamp(integral + error, -100000, 100000);
    last = error;
    return clamp((300 * error + 20 * integral + 100 * slope) / 256, -1000, 1000);
}

int main(void) {
    while (__VERIFIER_nondet_int()) {
        int output = step(__VERIFIER_nondet_short(), __VERIFIER_nondet_short());
        assert(output >= -1000 && output <= 1000);
    }
    return 0;
}
