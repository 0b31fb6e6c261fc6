# 0 "examples/table.c"
# 0 "<built-in>"
# 0 "<command-line>"
# 1 "examples/table.c"

# 1 "examples/verifier.h" 1

extern int __VERIFIER_nondet_int(void);
extern unsigned char __VERIFIER_nondet_uchar(void);
extern short __VERIFIER_nondet_short(void);
extern void __VERIFIER_assume(int condition);
extern void __pikos_assert(int condition);
# 3 "examples/table.c" 2

int table[9] = {0, 12, 48, 108, 192, 300, 432, 588, 768};

int look_up(int x) {
    int at = x / 32;
    int rest = x % 32;
    int low = table[at];
    int high = table[at + 1];
    return low + (high - low) * rest / 32;
}

int main(void) {
    int x = __VERIFIER_nondet_int();
    __VERIFIER_assume(x >= 0 && x <= 256);
    return look_up(x);
}
