# 1 "motor.h" 1

struct phase { int at; };
