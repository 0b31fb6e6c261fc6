/* A ring buffer of bytes, written and read in any order. */
#include "verifier.h"

#define SIZE 16

unsigned char buffer[SIZE];
int head = 0;
int count = 0;

void put(unsigned char byte) {
    if (count < SIZE) {
        buffer[(head + count) % SIZE] = byte;
        count++;
    }
}

int get(void) {
    int byte = -1;
    if (count > 0) {
        byte = buffer[head];
        head = (head + 1) % SIZE;
        count--;
    }
    return byte;
}

int main(void) {
    while (__VERIFIER_nondet_int()) {
        if (__VERIFIER_nondet_int())
            put(__VERIFIER_nondet_uchar());
        else {
            int byte = get();
            assert(byte >= -1 && byte <= 255);
        }
    }
    return 0;
}
