/* The CRC-8 of a frame, by the polynomial 0x07, in the integer types of <stdint.h>. */
#include <stdint.h>
#include "verifier.h"

#define LENGTH 8

typedef uint8_t octet;

octet frame[LENGTH];

octet crc8(uint8_t length) {
    octet crc = 0;
    uint8_t at;
    for (at = 0; at < length; at++) {
        int bit;
        crc = crc ^ frame[at];
        for (bit = 0; bit < 8; bit++)
            if (crc & 0x80)
                crc = (octet)((uint16_t)crc << 1) ^ 0x07;
            else
                crc = (octet)((uint16_t)crc << 1);
    }
    return crc;
}

int main(void) {
    uint8_t at;
    for (at = 0; at < LENGTH - 1; at++)
        frame[at] = __VERIFIER_nondet_uchar();
    frame[at] = crc8(at);
    return 0;
}
