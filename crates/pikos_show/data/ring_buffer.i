# 0 "examples/ring_buffer.c"
# 0 "<built-in>"
# 0 "<command-line>"
# 1 "examples/ring_buffer.c"

# 1 "examples/verifier.h" 1

extern int __VERIFIER_nondet_int(void);
extern unsigned char __VERIFIER_nondet_uchar(void);
extern short __VERIFIER_nondet_short(void);
extern void __VERIFIER_assume(int condition);
extern void __pikos_assert(int condition);
# 3 "examples/ring_buffer.c" 2



unsigned char buffer[16];
int head = 0;
int count = 0;

void put(unsigned char byte) {
    if (count < 16) {
        buffer[(head + count) % 16] = byte;
        count++;
    }
}

int get(void) {
    int byte = -1;
    if (count > 0) {
        byte = buffer[head];
        head = (head + 1) % 16;
        count--;
    }
    return byte;
}

int main(void) {
    while (__VERIFIER_nondet_int()) {
        if (__VERIFIER_nondet_int())
            put(__VERIFIER_nondet_uchar());
        else {
            int byte = get();
            __pikos_assert(byte >= -1 && byte <= 255);
        }
    }
    return 0;
}
