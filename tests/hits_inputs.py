#!/usr/bin/env python3
"""Inputs of the program `hits`, and what is expected of each, computed here from the words of documents 01 and 02.

usage: hits_inputs.py > crates/cases_hits/stdin

What is expected is computed in another way than in the finder: the input is taken apart by a regular expression, trees are
built by recursion and compared window by window, and the attempts are counted tail by tail. The seeds are fixed. Each list of
inputs is a function that calls `case(name, data, want, part)` for each of them: `want` is given where the answer is known
beforehand, `part` where the input is to come in parts.
"""
import functools
import random
import re
import sys

FORM = re.compile(rb"(?:(?:-?[0-9]+(?: -?[0-9]+)*)\n)*\n(?:-?[0-9]+(?: -?[0-9]+)*)?\n\Z")
LOWEST, HIGHEST = -(2**31), 2**31 - 1
GAP = LOWEST
sys.setrecursionlimit(10000)
if hasattr(sys, "set_int_max_str_digits"):
    sys.set_int_max_str_digits(0)
trees = {}
ranks = {}


def tree(xs):
    """A number for the form of the tree: equal numbers, equal trees."""
    if not xs:
        return 0
    low = xs.index(min(xs))
    pair = (tree(xs[:low]), tree(xs[low + 1 :]))
    return trees.setdefault(pair, len(trees) + 1)


def tree_of(xs):
    """The tree of a window, remembered by the order of its values."""
    order = sorted(set(xs))
    place = {x: i for i, x in enumerate(order)}
    key = tuple(place[x] for x in xs)
    if key not in ranks:
        ranks[key] = tree(list(key))
    return ranks[key]


def numbers(line):
    return [int(part) for part in line.split(b" ")] if line else []


def taken_apart(data):
    """The shapes and the recording, or None for bad input."""
    if len(data) > 65536 or not FORM.match(data):
        return None
    lines = data.split(b"\n")
    shapes = [numbers(line) for line in lines[:-3]]
    recording = numbers(lines[-2])
    if any(not LOWEST <= x <= HIGHEST for xs in shapes + [recording] for x in xs):
        return None
    if sum(map(len, shapes)) > 1023:
        return None
    return shapes, recording


def refusal(shapes):
    """The number of the first call that is refused, or None."""
    for k, shape in enumerate(shapes):
        if len(shape) > 256:
            return 2
        if GAP in shape:
            return 13
        if k == 64:
            return 6
        if len(shape) == 1:
            return 15
    return None if shapes else 1


def has_tree(window, trees_of):
    """Whether the window's length and tree are among these; a window that holds a gap has no tree."""
    return GAP not in window and (len(window), tree_of(window)) in trees_of


def found(shapes, recording):
    """The hits and the trials. A gap makes no trial, and no hit ends with it."""
    heads = {(n, tree_of(s[:n])) for s in shapes for n in range(len(s) + 1)}
    by_tree = {}
    for number, shape in enumerate(shapes):
        by_tree.setdefault((len(shape), tree_of(shape)), []).append(number)
    lengths = sorted({len(s) for s in shapes}, reverse=True)
    hits, trials = [], 0
    for i in range(len(recording)):
        if recording[i] == GAP:
            continue
        tails = [n for n in range(min(i, lengths[0]), -1, -1) if has_tree(recording[i - n : i], heads)]
        for n in tails:
            trials += 1
            if has_tree(recording[i - n : i + 1], heads):
                break
        for n in lengths:
            if n <= i + 1 and has_tree(recording[i + 1 - n : i + 1], by_tree):
                for number in by_tree[n, tree_of(recording[i + 1 - n : i + 1])]:
                    hits.append((i, number, n))
    return hits, trials


@functools.cache
def expected(data):
    apart = taken_apart(data)
    if apart is None:
        return b"bad input\n"
    refused = refusal(apart[0])
    if refused is not None:
        return b"refused %d\n" % refused
    hits, trials = found(*apart)
    lines = ["end shape length"] + ["%d %d %d" % h for h in hits] + ["trials %d" % trials]
    return ("\n".join(lines) + "\n").encode()


def text_of(shapes, recording):
    lines = [" ".join(map(str, xs)) for xs in shapes + [[], recording]]
    return ("\n".join(lines) + "\n").encode()


BAD = b"bad input\n"
EXAMPLE = b"1 2\n2 1\n2 1 2\n\n5 3 4 4 1\n"
ANSWER = b"end shape length\n1 1 2\n2 2 3\n2 0 2\n3 0 2\n4 1 2\ntrials 8\n"


def pad(data, size):
    """The input with leading zeros before its first number, so that it has so many bytes."""
    return b"0" * (size - len(data)) + data


def form_cases(case):
    case("the example", EXAMPLE, ANSWER)
    case("nothing", b"", BAD)
    case("one newline", b"\n", BAD)
    case("no shapes, empty recording", b"\n\n", b"refused 1\n")
    case("no shapes, a recording", b"\n1 2\n", b"refused 1\n")
    case("three newlines", b"\n\n\n", BAD)
    case("empty recording", b"1 2\n\n\n", b"end shape length\ntrials 0\n")
    case("recording without its newline", b"1 2\n\n1 2", BAD)
    case("empty recording without its newline", b"1 2\n\n", BAD)
    case("no empty line", b"1 2\n1 2\n", BAD)
    case("shape without newline", b"1 2", BAD)
    case("bytes after the recording", b"1 2\n\n1 2\n1", BAD)
    case("a line after the recording", b"1 2\n\n1 2\n1\n", BAD)
    case("an empty line after the recording", b"1 2\n\n1 2\n\n", BAD)
    case("a newline after an empty recording", b"1 2\n\n\n\n", BAD)
    case("two empty lines and a recording", b"1 2\n\n\n1 2\n", BAD)
    case("no hit", b"1 2 3\n\n3 2 1\n")
    case("CR at line ends", EXAMPLE.replace(b"\n", b"\r\n"), BAD)
    for byte in [b"\r", b"\t", b"\0", b"+", b".", b",", b"a", b"\x0b", b"\x0c", b"\x7f", b"\x80", b"\xff", b"/", b":", b"'"]:
        case("a byte in a shape", b"1" + byte + b"2\n\n1 2\n", BAD)
        case("a byte in the recording", b"1 2\n\n1 2" + byte + b"3\n", BAD)
        case("a byte at the end of the recording", b"1 2\n\n1 2" + byte + b"\n", BAD)
        case("a byte after the input", b"1 2\n\n1 2\n" + byte, BAD)
        case("a byte before the input", byte + b"1 2\n\n1 2\n", BAD)
        case("a byte in the empty line", b"1 2\n" + byte + b"\n1 2\n", BAD)
    for line in [b"1  2", b" 1 2", b"1 2 ", b" ", b"  "]:
        case("spaces in a shape", line + b"\n\n1 2\n", BAD)
        case("spaces in the recording", b"1 2\n\n" + line + b"\n", BAD)
    case("a space on the empty line", b"1 2\n \n1 2\n", BAD)


def number_cases(case):
    good = ["-0", "-000", "0", "00", "007", "-007", "-1", "2147483647", "-2147483647", "002147483647", "-002147483647", "0" * 5000, "-" + "0" * 5000, "0" * 5000 + "1"]
    gaps = ["-2147483648", "-002147483648", "-" + "0" * 3000 + "2147483648"]
    bad = ["+1", "-", "--1", "-+1", "1-", "1-2", "- 1", "2147483648", "-2147483649", "4294967296", "4294967295", "-4294967296", "9" * 20, "18446744073709551616", "18446744073709551617", "-18446744073709551616", "1" + "0" * 40, "0" * 3000 + "2147483648", "-" + "0" * 3000 + "2147483649", "0x1", "1e3", "1.0", "9" * 5000]
    for word in good:
        case("a good number in a shape", ("1 %s 2\n\n1 2 3 1\n" % word).encode())
        case("a good number in the recording", ("1 2\n\n1 2 %s 3 1\n" % word).encode())
        case("a good number alone", ("%s\n\n%s\n" % (word, word)).encode(), b"refused 15\n")
        case("a good number twice", ("%s %s\n\n%s %s\n" % (word, word, word, word)).encode(), b"end shape length\n1 0 2\ntrials 2\n")
    for word in gaps:
        case("a gap in a shape", ("1 %s 2\n\n1 2 3 1\n" % word).encode(), b"refused 13\n")
        case("a gap in the recording", ("1 2\n\n1 2 %s 3 4\n" % word).encode(), b"end shape length\n1 0 2\n4 0 2\ntrials 4\n")
        case("a gap alone", ("%s\n\n%s\n" % (word, word)).encode(), b"refused 13\n")
        case("a gap alone in the recording", ("1 2\n\n%s\n" % word).encode(), b"end shape length\ntrials 0\n")
    for word in bad:
        case("a bad number in a shape", ("1 %s 2\n\n1 2 3 1\n" % word).encode(), BAD)
        case("a bad number in the recording", ("1 2\n\n1 2 %s 3 1\n" % word).encode(), BAD)
        case("a bad number at the end", ("1 2\n\n1 2 %s\n" % word).encode(), BAD)
    case("-0 is 0", b"1 1\n2 1\n\n-0 0 -0 00\n")
    low = GAP + 1
    shapes = [[low, HIGHEST], [HIGHEST, low], [low, low], [0, -1], [low, -1, HIGHEST]]
    extremes = [low, HIGHEST, low, low, -1, 0, HIGHEST, HIGHEST, low, low + 1, HIGHEST - 1, HIGHEST]
    case("extremes", text_of(shapes, extremes))
    case("extremes and gaps", text_of(shapes, [GAP if x == low and i % 3 else x for i, x in enumerate(2 * extremes)]))


def size_cases(case):
    rng = random.Random(1)
    many = [rng.randrange(50) for _ in range(400)]
    case("256 in a shape", text_of([many[:256]], many))
    case("257 in a shape", text_of([many[:257]], many), b"refused 2\n")
    case("257 in the second shape", text_of([[1, 2], many[:257]], many), b"refused 2\n")
    case("257 in a shape and a bad number later", text_of([many[:257]], many) + b"x", BAD)
    case("64 shapes", text_of([[1, 2]] * 64, many[:20]))
    case("65 shapes", text_of([[1, 2]] * 65, many[:20]), b"refused 6\n")
    case("66 shapes", text_of([[1, 2]] * 66, many[:20]), b"refused 6\n")
    case("65 shapes, the last too long", text_of([[1, 2]] * 64 + [many[:257]], [1]), b"refused 2\n")
    case("257 readings, then 65 shapes", text_of([many[:257]] + [[1, 2]] * 64, [1]), b"refused 2\n")
    case("511 shapes, 1,023 readings", text_of([[1, 1]] * 510 + [[1, 1, 1]], [1]), b"refused 6\n")
    case("512 shapes, 1,024 readings", text_of([[1, 1]] * 512, [1]), BAD)
    case("1,023 shapes of one reading", text_of([[1]] * 1023, [1]), b"refused 15\n")
    case("1,024 shapes of one reading", text_of([[1]] * 1024, [1]), BAD)
    case("1,023 in one shape", text_of([[1] * 1023], [1]), b"refused 2\n")
    case("1,024 in one shape", text_of([[1] * 1024], [1]), BAD)
    four = [[rng.randrange(9) for _ in range(n)] for n in (256, 256, 256, 255)]
    case("1,023 readings in all", text_of(four, four[0] + four[1]))
    case("1,024 readings in all", text_of(four[:3] + [four[0]], [1]), BAD)
    case("1,024 readings in all, one over in the last", text_of(four + [[1]], [1]), BAD)
    case("1,023 readings of 64 shapes", text_of([[rng.randrange(9) for _ in range(16 if j else 15)] for j in range(64)], many))
    for part in (0, 4096):
        case("65,536 bytes", pad(EXAMPLE, 65536), ANSWER, part)
        case("65,537 bytes", pad(EXAMPLE, 65537), BAD, part)
        case("65,538 bytes", pad(EXAMPLE, 65538), BAD, part)
        case("65,535 bytes", pad(EXAMPLE, 65535), ANSWER, part)
    case("200,000 bytes", pad(EXAMPLE, 200000), BAD)
    case("65,536 good bytes and more", pad(EXAMPLE, 65536) + b"\n", BAD)
    case("65,536 good bytes and 10,000 more", pad(EXAMPLE, 65536) + b"1" * 10000, BAD)
    front = b"1 1\n\n"
    room = (65536 - len(front)) // 2
    case("the longest recording", front + b" ".join([b"7"] * room) + b"\n")
    case("the longest recording and one byte", front + b" ".join([b"7"] * room) + b"1\n")
    case("the longest recording and two bytes", front + b" ".join([b"7"] * (room + 1)) + b"\n", BAD)
    case("the longest recording and a shape of one reading", b"1\n\n" + b" ".join([b"7"] * (room + 1)) + b"\n", b"refused 15\n")
    case("the longest recording and no shape", b"\n" + b" ".join([b"7"] * (room + 2)) + b"\n", b"refused 1\n")
    case("only newlines", b"\n" * 65536, BAD)


NOTHING = b"end shape length\ntrials 0\n"


def gap_cases(case):
    case("a gap first", text_of([[1, 2]], [GAP, 1, 2]), b"end shape length\n2 0 2\ntrials 2\n")
    case("a gap last", text_of([[1, 2]], [1, 2, GAP]), b"end shape length\n1 0 2\ntrials 2\n")
    case("a gap between", text_of([[1, 2]], [1, GAP, 2]), b"end shape length\ntrials 2\n")
    case("a gap is no lowest reading", text_of([[2, 1], [1, 2], [2, 1, 2]], [5, GAP, 5]), b"end shape length\ntrials 2\n")
    case("gaps only", text_of([[2, 1], [1, 2]], [GAP] * 5), NOTHING)
    case("single readings, and gaps", text_of([[2, 1], [1, 2]], [GAP, 3, GAP, GAP, 4, GAP, 5]), b"end shape length\ntrials 3\n")
    case("two readings a shape, and gaps", text_of([[7, 7]], [GAP, 3, 3, GAP, GAP, 4, 5, 5, GAP]), b"end shape length\n2 0 2\n6 0 2\n7 0 2\ntrials 6\n")
    case("a tail of equal trees, and a gap", text_of([[1, 1, 1]], [1, 1, 1, GAP, 1, 1, 1, 1]), b"end shape length\n2 0 3\n6 0 3\n7 0 3\ntrials 8\n")
    many = [1 + i % 7 for i in range(257)]
    for place in (0, 1, 128, 254, 255):
        case("a gap in a long shape", text_of([many[:place] + [GAP] + many[place : 255]], many), b"refused 13\n")
    case("too long, with a gap", text_of([many[:256] + [GAP]], [1]), b"refused 2\n")
    case("a gap, then too long", text_of([[GAP], many], [1]), b"refused 13\n")
    case("too long, then a gap", text_of([many, [GAP]], [1]), b"refused 2\n")
    case("a gap in the 64th shape", text_of([[1, 2]] * 63 + [[1, GAP]], [1]), b"refused 13\n")
    case("a gap in the 65th shape", text_of([[1, 2]] * 64 + [[1, GAP]], [1]), b"refused 13\n")
    case("a gap in the 66th shape", text_of([[1, 2]] * 65 + [[1, GAP]], [1]), b"refused 6\n")
    case("a gap in the first of 65 shapes", text_of([[GAP]] + [[1, 2]] * 64, [1]), b"refused 13\n")
    case("a gap in a shape and one too low in the recording", text_of([[GAP]], [GAP - 1]), BAD)
    case("one too low in a shape and a gap in the recording", text_of([[GAP - 1]], [GAP]), BAD)
    case("a gap in a shape and a bad byte later", text_of([[GAP]], [1]) + b"x", BAD)
    rng = random.Random(5)
    for every in (1, 2, 3, 15, 16, 17, 18, 255, 257):
        for first in (0, 1, every - 1) if every < 20 else (257 - every,):
            recording = [rng.randrange(3) for _ in range(first + 2 * every + 5)]
            behind = recording[first + 1 :]
            gaps = [GAP if i >= first and (i - first) % every == 0 else x for i, x in enumerate(recording)]
            case("gaps at every %d readings" % every, text_of([behind[: max(n, 2)] for n in (2, 3, every - 1, min(every, 256))], gaps))


ONE = b"refused 15\n"


def one_reading_cases(case):
    """Shapes of one reading, in their turn behind the other refusals of the same shape; the first shape that is refused decides."""
    two, long, gap = [5, 5], [5] * 257, [GAP]
    case("one reading", text_of([[5]], [1, 2, 3]), ONE)
    case("one reading, empty recording", text_of([[5]], []), ONE)
    case("one reading and gaps", text_of([[5]], [GAP, 1, GAP]), ONE)
    case("one lowest reading", text_of([[GAP + 1]], [1]), ONE)
    case("one reading that is a gap", text_of([gap], [1]), b"refused 13\n")
    for place in (0, 31, 63):
        shapes = [two] * place + [[5]] + [two] * (63 - place)
        case("one reading in shape %d of 64" % (place + 1), text_of(shapes, [1]), ONE)
        case("one reading in shape %d of 65" % (place + 1), text_of(shapes + [two], [1]), ONE)
    case("one reading in the 65th shape", text_of([two] * 64 + [[5]], [1]), b"refused 6\n")
    case("one reading in the 66th shape", text_of([two] * 65 + [[5]], [1]), b"refused 6\n")
    case("one gap in the 65th shape", text_of([two] * 64 + [gap], [1]), b"refused 13\n")
    case("one reading, then too long", text_of([[5], long], [1]), ONE)
    case("too long, then one reading", text_of([long, [5]], [1]), b"refused 2\n")
    case("one reading, then a gap", text_of([two, [5], gap], [1]), ONE)
    case("a gap, then one reading", text_of([two, gap, [5]], [1]), b"refused 13\n")
    case("two shapes of one reading", text_of([[5], [5]], [1]), ONE)
    case("64 shapes of one reading", text_of([[5]] * 64, [1]), ONE)
    case("65 shapes of one reading", text_of([[5]] * 65, [1]), ONE)
    case("one reading and a bad byte later", text_of([[5]], [1]) + b"x", BAD)
    case("one reading too low", text_of([[GAP - 1]], [1]), BAD)
    case("1,024 readings, the first shape of one", text_of([[5]] + [two] * 511 + [[5]], [1]), BAD)


def rising(rng, count):
    """Readings that do not fall: a shape of two equal ones ends at each but the first."""
    return sorted(rng.randrange(10) for _ in range(count))


def call_cases(case):
    """More hits than one array takes."""
    rng = random.Random(2)
    for count in (4095, 4096, 4097, 8191, 8192, 8193, 4032, 4033, 4064, 20000):
        case("%d hits of one shape" % count, text_of([[5, 5]], rising(rng, count + 1)))
    for count in (32, 63, 64, 65, 66, 127, 128, 129, 1000, 5000):
        case("64 equal shapes, %d hits each" % count, text_of([[5, 5]] * 64, rising(rng, count + 1)))
    longs = [[rng.randrange(4) for _ in range(n)] for n in (2, 2, 2, 3, 3, 3, 4, 4, 4, 4, 5, 5, 5, 6, 6)]
    for _ in range(4):
        case("many shapes, many hits", text_of(longs, [rng.randrange(5) for _ in range(6000)]))
    case("64 shapes, 1,023 readings, many hits", text_of([list(range(16 if j else 15)) for j in range(64)], list(range(3000))))
    case("a shape of each length from 2 to 44", text_of([[1] * n for n in range(2, 45)], [3] * 3000))


def random_cases(case, count):
    rng = random.Random(4)
    for _ in range(count):
        width = rng.choice([2, 3, 5, 10, 1000, 2**31])
        low = rng.choice([0, -(width // 2), GAP + 1]) if width < 2**31 else GAP + 1
        value = lambda: rng.randrange(low, min(low + 2 * width, HIGHEST + 1))
        longest = rng.choice([2, 2, 3, 5, 8, 12])
        shapes = [[value() for _ in range(rng.randrange(2, longest + 1))] for _ in range(rng.randrange(1, rng.choice([2, 5, 12, 65])))]
        recording = [value() for _ in range(rng.randrange(rng.choice([3, 20, 60, 200, 600])))]
        for shape in list(shapes):
            if rng.random() < 0.3:
                at = rng.randrange(len(recording) + 1)
                recording[at:at] = shape
        if rng.random() < 0.4:
            one_of = rng.choice([2, 5, 20])
            recording = [GAP if rng.randrange(one_of) == 0 else x for x in recording]
        if rng.random() < 0.04:
            rng.choice(shapes)[-1] = GAP
        if rng.random() < 0.04:
            del rng.choice(shapes)[1:]
        case("random", text_of(shapes, recording))
    for _ in range(count):
        data = bytearray(EXAMPLE if rng.random() < 0.5 else b"-10 3\n3 3\n0 -2 7\n\n4 4 -5 66 2\n")
        for _ in range(rng.randrange(1, 4)):
            at = rng.randrange(len(data))
            kind = rng.randrange(3)
            if kind == 0:
                data[at] = rng.choice(b"0123456789-- \n\n")
            elif kind == 1:
                data.insert(at, rng.choice(b"0123456789-- \n\n"))
            else:
                del data[at]
        case("changed bytes", bytes(data))


# ---- the input of the test program cases_hits, whose main.rt says how it is written


def pieces(data):
    """The data as (count, bytes): repeated stretches of one or two bytes, single bytes that are no text, and the rest."""
    out, plain, at = [], b"", 0
    while at < len(data):
        size, count = 1, 1
        for n in (1, 2):
            m = 1
            while n == len(data[at : at + n]) and data[at + n * m : at + n * m + n] == data[at : at + n]:
                m += 1
            if m >= 12 and n * m > size * count:
                size, count = n, m
        stretch = data[at : at + size]
        text = all(b == 10 or 32 <= b < 127 for b in stretch)
        if count > 1 and text or not text:
            out += [(1, plain)] if plain else []
            plain = b""
            out.append((count if text else 1, stretch))
            at += size * (count if text else 1)
        else:
            plain += stretch
            at += size
    return out + ([(1, plain)] if plain or not out else [])


def piece(count, data):
    if len(data) == 1 and not (data[0] == 10 or 32 <= data[0] < 127):
        return b"1 0 %d" % data[0]
    return b"%d %d %s" % (count, len(data), data) if data else b"0 1 ?"


def runs(xs):
    out = []
    for x in xs:
        if out and out[-1][1] == x:
            out[-1][0] += 1
        else:
            out.append([1, x])
    return b" ".join(b"%d %d" % tuple(r) for r in out)


written, size = 0, 0


def write(data, room, longest):
    """One case, unless it is too long to be written down."""
    global written, size
    apart = taken_apart(data)
    lines = [b"%d" % len(pieces(data)), *[piece(*p) for p in pieces(data)], b"%d" % room]
    if apart is None:
        lines.append(b"0")
    else:
        shapes, recording = apart
        ends = [sum(map(len, shapes[: j + 1])) for j in range(len(shapes))]
        refused = refusal(shapes) or 0
        lines.append(b" ".join([b"1", b"%d" % len(shapes), *[b"%d" % e for e in ends]]))
        lines += [runs(sum(shapes, [])), b"%d " % len(recording) + runs(recording), b"%d" % refused]
        if not refused:
            text = expected(data)
            lines += [b"%d" % len(text), text]
    block = b"\n".join(lines) + b"\n"
    if len(block) <= longest:
        sys.stdout.buffer.write(block)
        written += 1
        size += len(block)


def write_case(name, data, want=None, part=0, longest=9000):
    """An input with the hit array of the program, and one with the shortest that takes the shapes."""
    if want is not None and expected(data) != want:
        sys.exit("%s: expected %r" % (name, expected(data)))
    if part:
        return
    write(data, 8192, longest)
    apart = taken_apart(data)
    if apart is not None and refusal(apart[0]) is None and len(data) < 4000:
        write(data, 2 * len(apart[0]), longest)


if __name__ == "__main__":
    form_cases(write_case)
    number_cases(write_case)
    size_cases(write_case)
    gap_cases(write_case)
    one_reading_cases(write_case)
    random_cases(functools.partial(write_case, longest=4000), 60)
    write(text_of([[5, 5]], [5] * 4098), 8192, 40000)
    write_case("the longest recording, and no hit", b"2 1\n\n" + b" ".join([b"7"] * 32765) + b"\n")
    print("%d cases, %d bytes" % (written, size), file=sys.stderr)
