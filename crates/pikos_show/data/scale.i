# 0 "scale.c"
# 0 "<built-in>"
# 0 "<command-line>"
# 1 "scale.c"


int __VERIFIER_nondet_int(void);

int main(void) {
    int gap = __VERIFIER_nondet_int() & 7;
    int rate = (100 / (gap));
    int late = 0;
    int zero = 0;
    while (late < 5) {
        late = late + 1;
    }
    if (gap > 9) {
        rate = rate + 1;
    }
    return rate / zero + late;
}
