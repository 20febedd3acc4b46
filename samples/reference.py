#!/usr/bin/env python3
"""Works out what the program `nearest` should print for the tasks on standard input, independently of it:

    python3 samples/reference.py < crates/nearest/stdin | diff - crates/nearest/stdout

For groups of up to four cells it also tries every neighbouring point, for E8 every choice of near numbers, and for codes of up to ten
cells, and for all listed and Reed-Muller words, every word. No part of the gate."""
import functools
import itertools
import operator
import re
import sys


# ---- points


def rounded(reading, step):
    size, over = divmod(abs(reading), step)
    number = size + (2 * over > step)
    return number if reading >= 0 else -number


def distance(step, readings, point):
    return sum((r - step * x) ** 2 for r, x in zip(readings, point))


def near_d(step, readings):
    point = [rounded(r, step) for r in readings]
    if sum(point) % 2:
        residues = [r - step * x for r, x in zip(readings, point)]
        sizes = [abs(e) for e in residues]
        i = sizes.index(max(sizes))
        up = residues[i] > 0 or (residues[i] == 0 and point[i] >= 0)
        point[i] += 1 if up else -1
    return point


def of_parity(digit, step, reading):
    """The numbers of a parity about a reading, the nearest first, of equals the smaller in size, and of -1 and 1 the latter."""
    middle = reading // step
    numbers = [x for x in range(middle - 4, middle + 6) if x % 2 == digit]
    return sorted(numbers, key=lambda x: (abs(reading - step * x), abs(x), -x))


def near_by_words(finder, step, readings):
    gains = [step - 2 * abs(r - step * of_parity(0, step, r)[0]) for r in readings]
    word, words = finder(gains)
    points = [[of_parity(d, step, r)[0] for d, r in zip(cells(w, len(gains)), readings)] for w in [word, *words]]
    assert all(distance(step, readings, points[0]) <= distance(step, readings, p) for p in points), readings
    return points[0]


def near_e8_by_glue(step, readings):
    found = []
    for p in 0, 1:
        point = [2 * x + p for x in near_d(2 * step, [r - step * p for r in readings])]
        found.append((distance(step, readings, point), p, point))
    for p in 0, 1:
        for point in itertools.product(*(of_parity(p, step, r)[:2] for r in readings)):
            assert sum(point) % 4 or distance(step, readings, point) >= min(found)[0], readings
    return min(found)[2]


def nearest(name, step, readings):
    if name == "Z":
        return [rounded(r, step) for r in readings]
    if name == "D":
        return near_d(step, readings)
    if name == "E8-glue":
        return near_e8_by_glue(step, readings)
    return near_by_words({"D-words": even, "E8-words": reed_muller}[name], step, readings)


def best(name, step, readings):
    near = [range(r // step - 1, r // step + 3) for r in readings]
    points = (p for p in itertools.product(*near) if name == "Z" or sum(p) % 2 == 0)
    return min(distance(step, readings, p) for p in points)


def point_answer(name, words):
    step = unsigned(words[0]) if words else None
    readings = [signed(w) for w in words[1:]]
    if step is None or None in readings:
        return "unreadable"
    reading_limit, step_limit = (2**30 - 2**19, 2**19) if name == "E8-glue" else (2**30, 2**20)
    if name.startswith("E8"):
        if len(readings) != 8:
            return "refused 2"
    elif not 1 <= len(readings) <= 32:
        return "refused 1"
    if any(abs(r) > reading_limit for r in readings):
        return "refused 3"
    if not 1 <= step <= step_limit:
        return "refused 4"
    point = nearest(name, step, readings)
    if len(readings) <= 4:
        assert distance(step, readings, point) == best(name, step, readings), (name, words)
    return f"point {' '.join(map(str, point))} distance {distance(step, readings, point)}"


# ---- words of codes: cell i of n, counted from 1, is the binary digit of value 2^(i-1)


def cells(word, count):
    return [int(digit) for digit in reversed(f"{word:0{count}b}")]


def joined(digits):
    return sum(2**i for i, digit in enumerate(digits) if digit == 1)


def correlation(word, gains):
    return sum(gain * (+1, -1)[digit] for gain, digit in zip(gains, cells(word, len(gains))))


def ones(number):
    return f"{number:b}".count("1")


def all_words(count):
    return range(2**count) if count <= 10 else []


def universe(gains):
    return joined([int(gain < 0) for gain in gains]), all_words(len(gains))


def even(gains):
    digits = [int(gain < 0) for gain in gains]
    if sum(digits) % 2 == 1:
        sizes = [abs(gain) for gain in gains]
        i = sizes.index(min(sizes))
        digits[i] = 1 - digits[i]
    return joined(digits), [w for w in all_words(len(gains)) if ones(w) % 2 == 0]


def reed_muller(gains):
    count = len(gains)
    rows = [joined([ones(a & i) % 2 for i in range(count)]) for a in range(count)]
    complements = [joined([1 - digit for digit in cells(row, count)]) for row in rows]
    sizes = [abs(correlation(row, gains)) for row in rows]
    a = sizes.index(max(sizes))
    word = complements[a] if correlation(rows[a], gains) < 0 else rows[a]
    return word, rows + complements


def listed(words, gains):
    found = [correlation(word, gains) for word in words]
    return words[found.index(max(found))], words


def sums(words):
    return [functools.reduce(operator.xor, (w for b, w in enumerate(words) if j >> b & 1), 0) for j in range(2 ** len(words))]


def glued_even(words, gains):
    turned = [[gain * (+1, -1)[digit] for gain, digit in zip(gains, cells(p, len(gains)))] for p in sums(words)]
    picks = [p ^ even(below)[0] for p, below in zip(sums(words), turned)]
    found = [correlation(pick, gains) for pick in picks]
    return picks[found.index(max(found))], [p ^ w for p in sums(words) for w in even(gains)[1]]


def word_answer(gains, word, words):
    assert all(correlation(w, gains) <= correlation(word, gains) for w in words), gains
    assert not words or word in words, gains
    return f"word {word} correlation {correlation(word, gains)}"


def code_answer(name, words):
    gains = [signed(w) for w in words]
    if None in gains:
        return "unreadable"
    fit = [2, 4, 8, 16, 32] if name == "reed-muller" else range(1, 33)
    if len(gains) not in fit:
        return "refused 1"
    if any(abs(g) > 2**30 for g in gains):
        return "refused 3"
    finder = {"universe": universe, "even": even, "reed-muller": reed_muller}[name]
    return word_answer(gains, *finder(gains))


def listing_answer(name, words):
    if "/" not in words:
        return "unreadable"
    i = words.index("/")
    listing = [unsigned(w) for w in words[:i]]
    gains = [signed(w) for w in words[i + 1 :]]
    if None in listing or None in gains:
        return "unreadable"
    if not 1 <= len(gains) <= 32:
        return "refused 1"
    if name == "listed" and not 1 <= len(listing) <= 64:
        return "refused 9"
    if name == "glued-even" and len(listing) > 7:
        return "refused 5"
    if any(w >= 2 ** len(gains) for w in listing):
        return "refused 6"
    if any(abs(g) > 2**30 for g in gains):
        return "refused 3"
    finder = {"listed": listed, "glued-even": glued_even}[name]
    return word_answer(gains, *finder(listing, gains))


# ---- lines


def number(word, pattern, low, high):
    if not re.fullmatch(pattern, word) or not low <= int(word) <= high:
        return None
    return int(word)


def signed(word):
    return number(word, r"[+-]?[0-9]+", -(2**31), 2**31 - 1)


def unsigned(word):
    return number(word, r"\+?[0-9]+", 0, 2**32 - 1)


def answer(line):
    name, *words = line.split() or [""]
    if name in ("Z", "D", "D-words", "E8-glue", "E8-words"):
        return point_answer(name, words)
    if name in ("universe", "even", "reed-muller"):
        return code_answer(name, words)
    if name in ("listed", "glued-even"):
        return listing_answer(name, words)
    return "refused 14"


for task in sys.stdin:
    print(answer(task))
