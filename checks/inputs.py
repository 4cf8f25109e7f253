"""Pseudo-random inputs: a line a clock, the numbers in the order of the ports, `clk` apart.

Called with the number of clocks. The seed is fixed. Wide numbers are small or large, or lie next to a power of two, or are any.
"""
import random
import sys


def wide(source, bits):
    kind = source.randrange(5)
    if kind == 0:
        return source.randrange(4)
    if kind == 1:
        return (1 << bits) - 1 - source.randrange(4)
    if kind == 2:
        return ((1 << source.randrange(bits + 1)) + source.randrange(-2, 3)) % (1 << bits)
    return source.randrange(1 << bits)


def line(source):
    bit = lambda: source.randrange(2)
    return [bit(), wide(source, 64), source.randrange(16), bit(), wide(source, 32), wide(source, 64), bit(), bit(),
            source.randrange(16), wide(source, 16), source.randrange(16), wide(source, 64)]


source = random.Random(20231107)
for _ in range(int(sys.argv[1])):
    print(*line(source))
