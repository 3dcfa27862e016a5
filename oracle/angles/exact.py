"""Answers of the angle functions against 01's words in exact fractions.

exact.py TURNS DIRECTIONS: lines of bits, an angle with its sine and cosine, and up and right with their degrees.
The text of specs/Meaning.antt, read into whole numbers line by line, is compared with the same words too.
"""
import math
import struct
import sys
from fractions import Fraction
from math import factorial

H = Fraction(0x1921FB54442D1846, 2**60)
CONSTANT = Fraction(struct.unpack(">f", bytes.fromhex("3C8EFA35"))[0])


def value(bits):
    return struct.unpack(">f", bytes.fromhex(bits))[0]


def nearest_f32(x):
    """The f32 nearest to a fraction, ties to even. struct rounds a double, which holds these products exactly."""
    d = float(x)
    assert Fraction(d) == x
    return Fraction(struct.unpack("<f", struct.pack("<f", d))[0])


def meaning(t):
    """"k the whole number with t - kH nearest zero (the lower if two), r that rest", nine terms, placed by k mod 4."""
    k = math.floor(t / H)
    k = min((k - 1, k, k + 1), key=lambda j: (abs(t - j * H), j))
    r = t - k * H
    s = sum((-1) ** j * r ** (2 * j + 1) / factorial(2 * j + 1) for j in range(9))
    c = sum((-1) ** j * r ** (2 * j) / factorial(2 * j) for j in range(9))
    return [(s, c), (c, -s), (-s, -c), (-c, s)][k % 4]


# The definitions of specs/Meaning.antt, in D-ths.
D = 2**149
WHOLE = factorial(17) * D**17
HD = 0x1921FB54442D1846 * 2**89


def text(t):
    k = (t + t + HD - 1) // (2 * HD)
    r = t - k * HD

    def terms(n, m):
        return 0 if n == 0 else factorial(17) // factorial(m) * D ** (17 - m) * r**m - terms(n - 1, m + 2)

    placed = [terms(9, 1), terms(9, 0), -terms(9, 1), -terms(9, 0)]
    return placed[k % 4], placed[(k % 4 + 1) % 4]


def turns(lines):
    worst = [Fraction(0), Fraction(0)]
    for line in lines:
        t, s, c = (value(w) for w in line.split())
        both = meaning(Fraction(t))
        whole = Fraction(t) * D
        assert whole.denominator == 1
        assert tuple(Fraction(x, WHOLE) for x in text(int(whole))) == both, line
        for i, answer in enumerate((s, c)):
            worst[i] = max(worst[i], abs(Fraction(answer) - both[i]))
            assert abs(Fraction(answer) - both[i]) <= Fraction(1, 2**20), line
        assert t != 0 or (s == 0 and math.copysign(1, s) == math.copysign(1, t)), line
    for j in range(-33, 34):
        tie = j * HD + HD // 2
        assert tuple(Fraction(x, WHOLE) for x in text(tie)) == meaning(Fraction(tie, D)), j
    print(f"{len(lines)} angles: the sine within {float(worst[0] * 2**24):.4f} * 2^-24 of its fraction, the cosine within {float(worst[1] * 2**24):.4f} * 2^-24; the text of the meaning agrees there and at 67 ties")


def directions(lines):
    worst = Fraction(0)
    for line in lines:
        up, right, a = (Fraction(value(w)) for w in line.split())
        s, c = meaning(nearest_f32(a * CONSTANT))
        beside = abs(right * s - up * c) / (abs(right) + abs(up))
        worst = max(worst, beside)
        assert beside <= Fraction(1, 2**18) and right * c + up * s > 0 and -180 <= a <= 180, line
    print(f"{len(lines)} directions: |right*S - up*C| within {float(worst * 2**18):.4f} * 2^-18 * (|right|+|up|), all ahead")


turns(open(sys.argv[1]).read().splitlines())
directions(open(sys.argv[2]).read().splitlines())
