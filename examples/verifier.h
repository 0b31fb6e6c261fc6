/* What the analyser knows by name: any value of a type, a condition that holds from here on, and a condition that is checked. */
extern int __VERIFIER_nondet_int(void);
extern unsigned char __VERIFIER_nondet_uchar(void);
extern short __VERIFIER_nondet_short(void);
extern void __VERIFIER_assume(int condition);
extern void __pikos_assert(int condition);
#define assert(condition) __pikos_assert(condition)
