/* Frames of a serial line: a start byte, a length, so many bytes, their sum. */
#include "verifier.h"

#define START 0x7e
#define LONGEST 32

unsigned char payload[LONGEST];

int receive(void) {
    unsigned char length, sum = 0;
    int i;
    if (__VERIFIER_nondet_uchar() != START)
        return -1;
    length = __VERIFIER_nondet_uchar();
    if (length > LONGEST)
        return -1;
    for (i = 0; i < length; i++) {
        payload[i] = __VERIFIER_nondet_uchar();
        sum += payload[i];
    }
    if (sum != __VERIFIER_nondet_uchar())
        return -1;
    assert(i <= LONGEST);
    return length;
}

int main(void) {
    while (__VERIFIER_nondet_int())
        receive();
    return 0;
}
