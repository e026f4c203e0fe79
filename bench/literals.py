#!/usr/bin/env python3
"""Compares `wmod build` with exact arithmetic on float literals.

    literals.py [COUNT [SEED]] [--program=PATH]      10,000 literals and seed 1 by default

It prints each difference, and the number of differences of each kind. It ends with status 1 if wmod or Python differs.
Equal seeds give equal literals.

About half of the literals are of f32 and half of f64, decimal or hexadecimal: floats, points halfway between two
floats or close to one, literals of 800 digits and more, subnormals, the largest finite floats and numbers above them,
infinities, NaNs, and literals with one character changed.

The script computes the meaning of each literal with fractions: the nearest float, with ties to even, and none if that
is not finite (Core spec 6.3.2, 4.3.3). First it compares the meaning with Python's own float parsers, if they are
exact there. Then wmod must build the module with these bits, or refuse the text. wat2wasm is compared too if it is
installed.
"""
import collections
import pathlib
import re
import shutil
import struct
import subprocess
import sys
from fractions import Fraction

from make_module import HEADER, NOTHING, Numbers, entry, section, vector

PROGRAM = pathlib.Path(__file__).resolve().parent.parent / "crates/wm_cli/out/wm_cli"
# for each width: the bits of a fraction, and the exponent of the least float above 0
FORMATS = {32: (23, -149), 64: (52, -1074)}
D, H = "[0-9](?:_?[0-9])*", "[0-9a-fA-F](?:_?[0-9a-fA-F])*"
DECIMAL = re.compile(rf"[+-]?({D})(?:\.({D})?)?(?:[eE]([+-]?{D}))?")
HEXADECIMAL = re.compile(rf"[+-]?0x({H})(?:\.({H})?)?(?:[pP]([+-]?{D}))?")
INFINITY = re.compile("[+-]?inf")
NAN = re.compile(rf"[+-]?nan(?::0x({H}))?")


# The meaning of a literal.


def number(literal):
    """Returns the value without its sign, or None if the literal writes no finite number."""
    for pattern, base, radix in [(DECIMAL, 10, 10), (HEXADECIMAL, 16, 2)]:
        parts = pattern.fullmatch(literal)
        if parts:
            whole, fraction, exponent = (part.replace("_", "") if part else "" for part in parts.groups())
            value = Fraction(int(whole + fraction, base), base ** len(fraction))
            # With a larger exponent, a literal of a few thousand digits is 0 or too large in any case.
            power = max(-20_000, min(20_000, int(exponent or "0")))
            return value * Fraction(radix) ** power
    return None


def rounded(value, width):
    """Returns the bits of the nearest float, or None if that is not finite."""
    digits, least = FORMATS[width]
    exponent = value.numerator.bit_length() - value.denominator.bit_length()
    if value < Fraction(2) ** exponent:
        exponent -= 1
    unit = max(exponent - digits, least) if value else least
    # `round` of a fraction rounds ties to even.
    bits = ((unit - least) << digits) + round(value / Fraction(2) ** unit)
    return bits if bits < infinity(width) else None


def infinity(width):
    digits = FORMATS[width][0]
    return (1 << width - 1) - (1 << digits)


def meaning(literal, width):
    """Returns the bits, or None if it is no literal of this width."""
    digits, bits = FORMATS[width][0], None
    given, nan = number(literal), NAN.fullmatch(literal)
    if given is not None:
        bits = rounded(given, width)
    elif INFINITY.fullmatch(literal):
        bits = infinity(width)
    elif nan:
        payload = int(nan[1].replace("_", ""), 16) if nan[1] else 1 << digits - 1
        bits = infinity(width) + payload if 0 < payload < 1 << digits else None
    return None if bits is None else bits + (literal.startswith("-") << width - 1)


def by_python(literal, width):
    """Returns a list of the bits that Python reads, empty if they may be inexact."""
    given = number(literal)
    if given is None:
        return []
    text = literal.replace("_", "")
    try:
        read = float.fromhex(text) if "0x" in text else float(text)
        if width == 64:
            bits = int.from_bytes(struct.pack("<d", read), "little")
            return [bits if bits & infinity(64) != infinity(64) else None]
        # Python rounds to 64 bits first, so the second rounding may be wrong.
        return [int.from_bytes(struct.pack("<f", read), "little")] if Fraction(abs(read)) == given else []
    except OverflowError:
        return [None]


# Literals.


class Chooser(Numbers):
    def bits(self, count):
        return sum(self.below(1 << 16) << 16 * i for i in range(count // 16 + 1)) % (1 << count)


FIXED = "inf nan nan:0x1 nan:0x0 nan:0x nan:1 nan:0x_1 nan:0x1_ nan:0x1__0 nan:0x7f_ffff nan:0x7fffff nan:0x800000 nan:0xg nan: nan:0X1 "
FIXED += "nan:0xfffffffffffff nan:0xf_ffffffff_ffff nan:0x10000000000000 nan:0xffffffffffffffffffff nan:0x00000000000000000001 nan1 "
FIXED += "nan:0x200000 nan:0x400000 nan:0x4000000000000 nan:0x8000000000000 nan:canonical nan:arithmetic infinity Inf INF NaN inf_ inf0 "
FIXED += "0 00 007 1. 1.e5 .5 . e5 1e 1e+ 1e- 1e5.0 1_000.5_0 1__0 1_.5 1._5 1.5_ 1.5__0 1e_5 1_e5 1e5_0 1e5_ 1e+_5 1.5e05 1.e+5 1E5 1E-5 "
FIXED += "0x 0x. 0x.8 0x1. 0x1.p1 0x1.8 0x1p 0x1p+ 0x1p1.0 0x1pa 0x1p0x1 0X1p1 0x1P+1_0 0x_1p1 0x1_p1 0x1_.8 0x1._8 0x1.8_ 0x1.8_0p1_0 "
FIXED += "0xp1 0x00.00p-0 0x0 0x1e+5 0x1e5 0xA.aP0 0x1.8e1 1p5 1.8p5 1f 1.0f 1d 0b1 0o7 1'0 1e5e5 0x1p5p5 1.5.2 +-0 --0 0- 0+ 1e++5 $1 "
FIXED += "0x1.8p99999999999999999999 1e99999999999999999999 1e-99999999999999999999 0x1p-99999999999999999999 0e99999999999999999999 "
FIXED += "0x0p99999999999999999999 0.0e-99999999999999999999 4294967296 18446744073709551616 0xffffffffffffffffffffffffffffffffffffffff"


def a_float(numbers, width):
    """Returns the bits of a finite float, often of one near a boundary such as 0 or a power of two."""
    digits = FORMATS[width][0]
    few = numbers.below(3)
    kinds = [numbers.bits(width - 1), numbers.bits(numbers.below(digits) + 1), few, infinity(width) - 1 - few]
    kinds += [(1 << digits) + few - 1, (numbers.below((1 << width - 1 - digits) - 1) << digits) + few]
    return min(numbers.one_of(kinds), infinity(width) - 1)


def spelled(numbers, n, exponent, hexadecimal):
    """Returns a literal of n * 2^exponent in hexadecimal or of n * 10^exponent in decimal, with a random point."""
    digits = "0" * numbers.below(3) + (f"{n:x}" if hexadecimal else str(n))
    step = 4 if hexadecimal else 1
    if exponent <= 0 and exponent % step == 0 and numbers.below(2):  # with the exponent 0
        digits = digits.rjust(1 - exponent // step, "0")
        shift = -exponent // step
    else:
        shift = numbers.below(len(digits))
    exponent += step * shift
    point = len(digits) - shift
    text = digits[:point] + (numbers.one_of(["", "."]) if shift == 0 else "." + digits[point:])
    sign = numbers.one_of(["", "+"]) if exponent >= 0 else "-"
    letter = numbers.one_of("pP" if hexadecimal else "eE")
    power = f"{letter}{sign}{abs(exponent)}" if exponent or numbers.below(2) else ""
    return ("0x" if hexadecimal else "") + text + power


def near_a_float(numbers, width):
    """Returns a literal of a float or of the point halfway to the next one, or of a number very close to it."""
    digits, least = FORMATS[width]
    power, fraction = divmod(a_float(numbers, width), 1 << digits)
    n, exponent = 2 * (fraction + ((1 << digits) if power else 0)) + numbers.below(2), max(power, 1) - 1 + least - 1
    places = numbers.one_of([0, 1, 1 + numbers.below(60)])
    beside = numbers.below(3) - 1 if places else 0
    if numbers.below(2):
        return spelled(numbers, max(0, (n << 4 * places) + beside), exponent - 4 * places, True)
    n, exponent = (n << exponent, 0) if exponent >= 0 else (n * 5**-exponent, exponent)
    return spelled(numbers, max(0, n * 10**places + beside), exponent - places, False)


def any_number(numbers, width):
    hexadecimal = numbers.below(3) == 0
    count = numbers.one_of([1 + numbers.below(4), 1 + numbers.below(25), 800])
    n = numbers.bits(4 * count) if hexadecimal else numbers.bits(4 * count) % 10**count
    reach = (150 if hexadecimal else 45) * (8 if width == 64 else 1)
    middle = -4 * count if hexadecimal else -count
    return spelled(numbers, n, middle + numbers.below(2 * reach) - reach, hexadecimal)


def with_underscores(numbers, literal):
    """Returns the literal with underscores between some of its digits."""
    return re.sub(r"(?<=[0-9])(?=[0-9])", lambda _: numbers.one_of(["_", "", "", ""]), literal)


def changed(numbers, literal):
    at = numbers.below(len(literal))
    new = numbers.one_of(["", literal[at] * 2, *"0123456789abcdefxXpPeE._+-naif:"])
    return literal[:at] + new + literal[at + 1 :]


def literals(count, seed):
    """Returns pairs of a width and a literal."""
    numbers = Chooser(seed)
    made = [(width, sign + literal) for literal in FIXED.split() for sign in ["", "-", "+"] for width in FORMATS]
    while len(made) < count:
        width = numbers.one_of([32, 64])
        literal = numbers.one_of([near_a_float, near_a_float, any_number])(numbers, width)
        literal = numbers.one_of(["", "", "-", "+"]) + numbers.one_of([literal, with_underscores(numbers, literal)])
        made.append((width, numbers.one_of([literal] * 3 + [changed(numbers, literal)]) or "0"))
    return made[:count]


# The answers of the programs.


def text_of(width, literal):
    return f"(module (type (func)) (func (type 0) f{width}.const {literal} drop))"


def binary_of(width, bits):
    code = (b"\x43" if width == 32 else b"\x44") + bits.to_bytes(width // 8, "little") + b"\x1a"
    return HEADER + section(1, vector([NOTHING])) + section(3, b"\x01\x00") + section(10, vector([entry([], code)]))


def difference(words, width, literal, bits):
    """Returns how a program differs from the meaning `bits`, or None if it agrees."""
    done = subprocess.run(words, input=text_of(width, literal).encode(), stdout=subprocess.PIPE, stderr=subprocess.PIPE, check=False)
    if done.returncode not in (0, 1):
        return f"ends with {done.returncode}"
    if done.returncode == 1:
        return None if bits is None else "refuses it"
    if bits is None:
        return "reads it"
    return None if done.stdout == binary_of(width, bits) else "reads other bits"


def main():
    given = [word.removeprefix("--program=") for word in sys.argv if word.startswith("--program=")]
    words = [word for word in sys.argv[1:] if not word.startswith("--")]
    count, seed = map(int, words + ["10000", "1"][len(words) :])
    programs = {"wmod": [given[0] if given else str(PROGRAM), "build", "--profile", "3", "-"]}
    if shutil.which("wat2wasm"):
        programs["wat2wasm"] = ["wat2wasm", "-", "--output=-"]
    counts = collections.Counter()
    for width, literal in literals(count, seed):
        bits = meaning(literal, width)
        told = by_python(literal, width)
        counts["literals"] += 1
        counts["are read"] += bits is not None
        counts["are compared with Python"] += len(told)
        faults = {"Python": "reads other bits" if told and told != [bits] else None}
        faults |= {name: difference(command, width, literal, bits) for name, command in programs.items()}
        for name, fault in faults.items():
            if fault:
                counts[f"{name} {fault}"] += 1
                print(f"{name} {fault}: f{width}.const {literal}: {'refused' if bits is None else f'{bits:0{width // 4}x}'}")
    for name, members in counts.items():
        print(f"{members:6} {name}")
    return 1 if any(name.startswith(("wmod", "Python")) for name in counts) else 0


if __name__ == "__main__":
    sys.exit(main())
