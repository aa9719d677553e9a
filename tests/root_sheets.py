"""The sheets of square roots, written down again from docs/01-scope.md, "The root by hand", over whole numbers.

root_sheets.py patterns     writes bit patterns, eight hexadecimal digits to a line
root_sheets.py <PATTERNS    writes what the program `root_by_hand` has to write for such lines
Nothing of it works digit by digit: what stands on the sheet after so many digits is computed afresh from the number.
"""
import math
import random
import re
import sys
from pathlib import Path

ROOT = Path(__file__).resolve().parent.parent
REFUSALS = dict(re.findall(r"^\| (\d+) \| (.*) \|$", (ROOT / "README.md").read_text(), re.M))
DIGITS = 24  # of a root, before the one that rounds


def taken(bits):
    """A positive finite number as 24 digits and the power of 2 of the first of them."""
    field, digits = bits >> 23, bits & 0x7FFFFF
    if field:
        return digits | 0x800000, field - 127
    up = 24 - digits.bit_length()
    return digits << up, -126 - up


def numeral(number, places):
    """number / 2 ** places in decimal."""
    whole, rest = number >> places, number % (1 << places)
    behind = str(rest * 5**places).zfill(places).rstrip("0") if rest else ""
    return f"{whole}.{behind}" if behind else str(whole)


def in_decimal(bits):
    if bits << 1 & 0xFFFFFFFF == 0:
        return "-0" if bits else "0"
    digits, power = taken(bits)
    if -37 <= power <= 31:
        return numeral(digits << max(0, power - 23), max(0, 23 - power))
    return f"{numeral(digits, 23)} * 2^{power}"


def on_sheet(number, turns):
    """The root down to the place of the last digit, and what is left, counted in that place."""
    place = 1 << (DIGITS + 1 - turns)
    root = math.isqrt(number // place**2) * place
    return root, (number - root**2) // place


def row(number, turn):
    """The line of a digit, counted from 0."""
    place = 1 << (DIGITS - turn)
    (root, left), (new_root, new_left) = on_sheet(number, turn), on_sheet(number, turn + 1)
    trial = 2 * root + place
    fits = "no   " if 2 * left < trial else "yes  "
    return f"{place:08x} {2 * left:08x} {trial:08x} {fits}{new_left:08x} {new_root:08x}"


def sheet(bits):
    if bits & 0x7F800000 == 0x7F800000:
        return [f"{bits:08x} refused 1: {REFUSALS['1']}"]
    if bits > 0x80000000:
        return [f"{bits:08x} refused 2: {REFUSALS['2']}"]
    lines, answer = [f"root of {bits:08x} = {in_decimal(bits)}"], 0
    if bits & 0x7FFFFFFF:
        digits, power = taken(bits)
        even = digits << power % 2
        number = even << 25
        rounded = (math.isqrt(number) + 1) // 2
        answer = (power // 2 + 126 << 23) + rounded
        lines += [f"digits {digits:08x}, exponent {power}", f"halved {power // 2}, number {even:08x}"]
        lines += ["place    doubled  trial    fits left     root"]
        lines += [row(number, turn) for turn in range(DIGITS)]
        lines += ["rounding", row(number, DIGITS), f"rounded {rounded:08x}"]
    return lines + [f"answer {answer:08x} = {in_decimal(answer)}"]


def patterns():
    """Every exponent and sign at its edges, powers of two and squares with their neighbours, and random ones."""
    chance = random.Random(207)
    edges = [field << 23 | digits for field in range(512) for digits in (0, 1, 0x400000, 0x7FFFFE, 0x7FFFFF)]
    near = [1 << place for place in range(23)]
    for root in [chance.randrange(1, 4096) for _ in range(400)]:
        digits = root * root
        power = chance.randrange(-60, 60)
        first = digits.bit_length()
        near.append((126 + 2 * power + first << 23) + (digits << 24 >> first & 0x7FFFFF))
    subnormal = [chance.randrange(1 << 23) for _ in range(2000)]
    ordinary = [chance.randrange(0x7F800000) for _ in range(10000)]
    times = [chance.randrange(0x3D000000, 0x40000000) for _ in range(5000)]
    around = [bits + step for bits in near for step in (-1, 0, 1)]
    any_at_all = [chance.randrange(1 << 32) for _ in range(500)]
    return [0x7FC00001, *edges, *around, *subnormal, *ordinary, *times, *any_at_all]


if __name__ == "__main__":
    if sys.argv[1:] == ["patterns"]:
        print("\n".join(f"{bits:08x}" for bits in patterns()))
    else:
        for line in sys.stdin:
            print("\n".join(sheet(int(line, 16))))
