#!/usr/bin/env python3
"""Texts with loops that are drawn: bench/loops.py SEED writes out that of a seed.

A text has two to six loops, in one another and side by side, over ten variables at most, with tests and assignments of the forms that octagons know and of some that they don't."""
import random
import sys

FRONT = "extern int __VERIFIER_nondet_int(void);\nextern void __VERIFIER_assume(int);\nvoid __pikos_assert(int);\n"
TYPES = ("int", "int", "int", "int", "unsigned", "long", "short", "unsigned char")


class Drawn:
    """A text while it is drawn: its variables, and how many loops it still may have."""

    def __init__(self, seed):
        self.draw = random.Random(seed)
        self.names = []
        self.loops = self.draw.randrange(2, 7)
        self.labels = 0
        self.fresh = 0
        self.array = self.draw.randrange(3) == 0

    def name(self):
        return self.draw.choice(self.names)

    def number(self):
        return self.draw.choice((0, 1, 1, 2, 3, 5, 9, 10, 17, 100, 1000))

    def term(self):
        """A sum that an octagon knows, mostly."""
        x, y, n, kind = self.name(), self.name(), self.number(), self.draw.randrange(16)
        if kind < 6:
            return f"{x}{self.draw.choice('+-')}{n}"
        if kind == 6:
            return f"{n}-{x}"
        if kind == 7:
            return f"{x}+{y}-{y}"
        if kind == 8:
            return f"{x}{self.draw.choice('+-')}{y}"
        if kind == 9:
            return f"{x}{self.draw.choice('+-')}{y}{self.draw.choice('+-')}{n}"
        if kind == 10:
            return f"{x}{self.draw.choice('*/%&|')}{n + 1}"
        if kind == 11:
            return "__VERIFIER_nondet_int()"
        if kind == 12 and self.array:
            return f"a[{x}]"
        if kind == 13:
            return f"-{x}"
        return self.draw.choice((x, str(n)))

    def test(self):
        left, right = self.name(), self.draw.choice((self.name(), str(self.number()), self.term()))
        told = f"{left}{self.draw.choice(('<', '<', '<=', '>', '>=', '==', '!='))}{right}"
        kind = self.draw.randrange(12)
        if kind == 0:
            return f"{told}&&{self.name()}<{self.number()}"
        if kind == 1:
            return f"{told}||{self.name()}>={self.name()}"
        if kind == 2:
            return f"!({told})"
        if kind == 3:
            return "__VERIFIER_nondet_int()"
        return told

    def assignment(self):
        kind = self.draw.randrange(12)
        if kind == 0 and self.array:
            return f"a[{self.name()}]={self.term()};"
        if kind == 1:
            return f"{self.name()}++;"
        if kind == 2:
            return f"{self.name()}{self.draw.choice(('+=', '-='))}{self.draw.choice((self.name(), str(self.number())))};"
        return f"{self.name()}={self.term()};"

    def step(self, x):
        """The end of a turn, which mostly goes on towards the bound."""
        return self.draw.choice((f"{x}={x}+1;", f"{x}={x}+{self.draw.randrange(1, 4)};", f"{x}++;", f"{x}={x}+{self.name()};"))

    def loop(self, depth):
        self.loops -= 1
        x, bound = self.name(), self.draw.choice((str(self.draw.randrange(2, 40)), self.name(), f"{self.name()}+{self.number()}"))
        kind = self.draw.randrange(8)
        if kind == 2:
            self.fresh += 1
            own = f"k{self.fresh}"
            self.names.append(own)
            inner = self.statements(depth + 1)
            self.names.remove(own)
            return f"for(int {own}=0;{own}<{bound};{own}++){{{inner}}}\n"
        body = self.statements(depth + 1) + self.step(x)
        if kind == 0:
            body += f"if({self.test()}){self.draw.choice(('break', 'continue'))};"
        if kind == 1:
            return f"do{{{body}}}while({x}<{bound});\n"
        if kind == 3:
            self.labels += 1
            return f"if({self.test()})goto L{self.labels};\nwhile({x}<{bound}){{{self.assignment()}L{self.labels}:{body}}}\n"
        if kind == 4:
            return f"for({x}={self.number()};{x}<{bound};{self.step(x)[:-1]}){{{body}}}\n"
        if kind == 5:
            return f"while({self.test()}){{{body}if({x}>{bound})break;}}\n"
        return f"while({x}<{bound}){{{body}}}\n"

    def statement(self, depth):
        kind = self.draw.randrange(10)
        if self.loops and depth < 4 and kind < 3:
            return self.loop(depth)
        if kind == 3 and depth < 5:
            return f"if({self.test()}){{{self.statements(depth + 1)}}}{self.draw.choice(('', 'else ' + self.assignment()))}\n"
        if kind == 4:
            return f"__VERIFIER_assume({self.test()});"
        if kind == 5:
            return f"__pikos_assert({self.test()});"
        if kind == 6 and depth < 5:
            return f"switch({self.name()}){{case {self.draw.randrange(4)}:{self.assignment()}break;case 7:{self.assignment()}default:{self.assignment()}}}"
        return self.assignment()

    def statements(self, depth):
        return "".join(self.statement(depth) for _ in range(self.draw.choice((1, 1, 2, 3))))

    def declared(self):
        """Variables of main, some of them bounded from the beginning."""
        text = ""
        for k in range(self.draw.randrange(2, 9)):
            kind, name = self.draw.choice(TYPES), f"v{k}"
            start = self.draw.choice((str(self.number()), str(self.number()), "__VERIFIER_nondet_int()"))
            text += f"{kind} {name}={start};"
            self.names.append(name)
            if "nondet" in start and self.draw.randrange(2):
                text += f"__VERIFIER_assume({name}>={self.draw.randrange(3)});__VERIFIER_assume({name}<={self.draw.choice((9, 50, 100))});"
            text += "\n"
        return text

    def text(self):
        front = FRONT
        if self.array:
            front += f"int a[{self.draw.choice((2, 5, 8, 9, 40))}];\n"
        if self.draw.randrange(3) == 0:
            front += "int g;\n"
            self.names.append("g")
        called = self.draw.randrange(4) == 0
        if called:
            front += "int f(int n,int m){while(n<m)n=n+1;return n;}\n"
        body = self.declared()
        while self.loops:
            body += self.statement(0)
            if called and self.draw.randrange(4) == 0:
                body += f"{self.name()}=f({self.name()},{self.term()});\n"
        return f"{front}int main(void){{\n{body}return 0;}}\n"


def main():
    words = sys.argv[1:]
    if len(words) != 1 or not words[0].isdigit():
        sys.exit(__doc__)
    print(Drawn(int(words[0])).text(), end="")


if __name__ == "__main__":
    main()
