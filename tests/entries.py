#!/usr/bin/env python3
"""Makes the input of the test programs cases_patterns and cases_sets: cases for the entries on patterns (1 to 6, and 10) or on
sets (7 to 9, and 11), with what each must give.

usage: entries.py patterns > crates/cases_patterns/stdin
       entries.py sets > crates/cases_sets/stdin

What is expected is computed here in another way than in the finder: distances by their definition place by place,
possible lists by building values for them, least values by raising values until they have the list, global parents from
the tree of the least values, failure lengths by comparing distances of tails, codes by the sum, next lists by trying greater
distances from the last place on, which is held to all possible lists of a length in order, a set with a pattern withdrawn by writing
the words of the patterns that are left. The seed is fixed, and all cases are
made whichever are asked for.
"""
import random
import sys
from itertools import product
from math import factorial

ENTRIES = {"patterns": (*range(1, 7), 10), "sets": (*range(7, 10), 11)}
if len(sys.argv) != 2 or sys.argv[1] not in ENTRIES:
    sys.exit("usage: entries.py patterns|sets")

random.seed(20261115)
cases = []


def distances(xs):
    out = []
    for i, x in enumerate(xs):
        d = 0
        for j in range(i - 1, -1, -1):
            if xs[j] <= x:
                d = i - j
                break
        out.append(d)
    return out


def least(ds):
    """The least values with these distances, or None: raise a value as long as a rule of the list is broken."""
    n = len(ds)
    if any(d > i for i, d in enumerate(ds)):
        return None
    xs = [0] * n
    # place j = i - d is not above i, every place between is above i; with d = 0 every place before is above i
    for _ in range(n + 1):
        changed = False
        for i, d in enumerate(ds):
            j = i - d if d else -1
            if d and xs[i] < xs[j]:
                xs[i] = xs[j]
                changed = True
            for m in range(j + 1, i):
                if xs[m] <= xs[i]:
                    xs[m] = xs[i] + 1
                    changed = True
        if not changed:
            return xs if distances(xs) == ds else None
        if max(xs) > n:
            return None
    return None


def parents(ds):
    xs = least(ds)
    out = [0] * len(xs)

    def walk(a, e, up):
        if a == e:
            return
        m = min(range(a, e), key=lambda i: (xs[i], i))
        out[m] = m if up is None else up
        walk(a, m, m)
        walk(m + 1, e, m)

    walk(0, len(xs), None)
    return out


def failures(ds):
    xs = least(ds)
    out = []
    for n in range(1, len(ds) + 1):
        m = n - 1
        while distances(xs[n - m:n]) != ds[:m]:
            m -= 1
        out.append(m)
    return out


def code(ds):
    return sum(d * factorial(i) for i, d in enumerate(ds) if i)


def first(conditions):
    return next((number for number, met in conditions if met), 0)


def after(refusal, result, room):
    return (list(result) if refusal == 0 else []) + [7] * (room - (len(result) if refusal == 0 else 0))


def case_list(entry, given, room):
    n = len(given)
    if entry == 1:
        r = first([(1, n == 0), (2, n > 256), (13, GAP in given), (10, room < n)])
        result = distances(given) if r == 0 else []
    else:
        r = first([(1, n == 0), (2, n > 256)]) or first([(4, least(given) is None), (10, room < n)])
        result = {2: least, 3: parents, 4: failures}[entry](given) if r == 0 else []
    cases.append([entry, n, room, *given, r, 0 if r else n, *after(r, result, room)])


def case_encode(ds):
    n = len(ds)
    r = first([(1, n == 0), (2, n > 256), (3, n > 20)]) or first([(4, least(ds) is None)])
    cases.append([5, n, *ds, r, 0 if r else code(ds)])


def unrank(n, c):
    return [c // factorial(i) % (i + 1) for i in range(n)]


def case_decode(n, c, room):
    r = first([(1, n == 0), (3, n > 20)]) or first([(4, c >= factorial(n) or least(unrank(n, c)) is None), (10, room < n)])
    cases.append([6, n, c, room, r, 0 if r else n, *after(r, unrank(n, c) if r == 0 else [], room)])


def possible(n):
    """All lists of n distances that some values have, in order: those that go on from the possible lists of n - 1."""
    if n == 0:
        return [[]]
    return [ds + [d] for ds in possible(n - 1) for d in range(n) if least(ds + [d]) is not None]


def next_list(ds):
    """The first possible list behind this one, or none: the longest front that can stay, a greater distance, and zeros."""
    for i in range(len(ds) - 1, -1, -1):
        for d in range(ds[i] + 1, i + 1):
            more = ds[:i] + [d] + [0] * (len(ds) - 1 - i)
            if least(more) is not None:
                return more
    return []


def case_next(ds, room):
    n = len(ds)
    r = first([(1, n == 0), (2, n > 256), (12, n > 10)]) or first([(4, least(ds) is None)])
    result = [] if r else next_list(ds)
    r = r or first([(10, room < len(result))])
    last = int(r == 0 and not result)
    cases.append([10, n, room, *ds, r, 0 if r else len(result), last, *after(r, result, room)])


def set_words(patterns):
    offsets = [0]
    for p in patterns:
        offsets.append(offsets[-1] + len(p))
    return [len(patterns), offsets[-1], *offsets, *[d for p in patterns for d in p]]


def read_set(ws):
    """The patterns of a set array, or None where it breaks the rules."""
    if len(ws) < 3 or ws[0] > 64 or ws[1] > 4096 or len(ws) < 3 + ws[0] + ws[1]:
        return None
    k, n = ws[0], ws[1]
    offsets = ws[2:3 + k]
    if offsets[0] != 0 or offsets[-1] != n:
        return None
    patterns = []
    for a, e in zip(offsets, offsets[1:]):
        if not 1 <= e - a <= 256:
            return None
        p = ws[3 + k + a:3 + k + e]
        if least(p) is None:
            return None
        patterns.append(p)
    return patterns


def case_check(ws):
    ps = read_set(ws)
    cases.append([8, len(ws), *ws, 5 if ps is None else 0, len(ps or []), sum(map(len, ps or []))])


def case_add(ws, xs):
    ps = read_set(ws)
    total = sum(map(len, ps or [])) + len(xs)
    r = first([(1, not xs), (2, len(xs) > 256), (13, GAP in xs), (5, ps is None)])
    r = r or first([(6, len(ps) >= 64 or total > 4096), (15, len(xs) == 1), (10, len(ws) < 4 + len(ps) + total)])
    if r:
        cases.append([9, len(ws), *ws, len(xs), *xs, r, 0, 0, *ws])
        return ws
    bigger = set_words(ps + [distances(xs)])
    left = bigger + ws[len(bigger):]
    cases.append([9, len(ws), *ws, len(xs), *xs, 0, len(ps) + 1, total, *left])
    return left


def case_withdraw(ws, j):
    ps = read_set(ws)
    r = first([(5, ps is None)]) or first([(14, j >= len(ps))])
    if r:
        cases.append([11, len(ws), *ws, j, r, 0, 0, *ws])
        return ws
    smaller = ps[:j] + ps[j + 1:]
    used = set_words(smaller)
    left = used + [0] * (len(set_words(ps)) - len(used)) + ws[len(set_words(ps)):]
    cases.append([11, len(ws), *ws, j, 0, len(smaller), sum(map(len, smaller)), *left])
    return left


GAP, LOW, HIGH, WORD = -2 ** 31, -2 ** 31 + 1, 2 ** 31 - 1, 2 ** 32 - 1


def values(n, spread):
    """Samples with ties, the lowest and the highest among them."""
    return [random.choice((LOW, HIGH)) if random.random() < 0.02 else random.randint(0, 2 * spread) for _ in range(n)]


# ---- document 01's worked cases, by which what is computed here is held to it
assert distances([2, 7, 5, 6, 4, 3, 1]) == [0, 1, 2, 1, 4, 5, 0]
assert distances([11, 14, 13, 15, 12]) == [0, 1, 2, 1, 4] and code([0, 1, 2, 1, 4]) == 107
assert distances([4, 22, 3, 5, 2, 23, 15, 1]) == [0, 1, 0, 1, 0, 1, 2, 0]
nine = distances([3, 1, 6, 4, 8, 6, 7, 5, 9])
assert nine == [0, 0, 1, 2, 1, 2, 1, 4, 1]
assert parents(nine) == [1, 1, 3, 1, 5, 7, 5, 3, 7] and least(nine) == [1, 0, 1, 0, 2, 1, 1, 0, 0]
assert distances([5, 5]) == [0, 1] and distances([5, 4]) == [0, 0]
assert least([0, 1, 2, 2]) is None and least([0, 1, 2, 3]) == [0, 2, 1, 0]
assert unrank(4, 23) == [0, 1, 2, 3] and least(unrank(4, 17)) is None and factorial(4) == 24
assert failures(distances([5, 7, 4, 6, 1, 3, 2])) == [0, 1, 1, 2, 3, 4, 1]

# ---- patterns
worked = [(2, 7, 5, 6, 4, 3, 1), (11, 14, 13, 15, 12), (4, 22, 3, 5, 2, 23, 15, 1), (3, 1, 6, 4, 8, 6, 7, 5, 9), (5, 5),
          (5, 4), (5, 7, 4, 6, 1, 3, 2), (1, 4, 3, 4, 1), (6, 2, 5, 1, 4, 3, 7), (LOW, HIGH, LOW, 0, HIGH), (0,)]
for xs in map(list, worked):
    case_list(1, xs, len(xs))
    case_list(1, xs, len(xs) + 3)
    case_list(1, xs, len(xs) - 1)
    for entry in (2, 3, 4):
        case_list(entry, distances(xs), len(xs) + 1)
        case_list(entry, distances(xs), len(xs) - 1)
    case_encode(distances(xs))
for n in (0, 1, 20, 21, 255, 256, 257):
    xs = values(n, 3)
    case_list(1, xs, 300)
    case_list(1, xs, max(n - 1, 0))
    for entry in (2, 3, 4):
        case_list(entry, distances(xs), n + 1)
        case_list(entry, distances(xs), max(n - 1, 0))
    case_encode(distances(xs))
# gaps at the first place, in the middle and at the last, the lowest sample there, and all places gaps
for n in (1, 2, 3, 5, 20, 21, 255, 256, 257):
    xs = values(n, 3)
    for x in (GAP, LOW):
        for i in (0, n // 2, n - 1):
            for room in (n + 1, n, n - 1, 0) if n < 100 else (n, 0):
                case_list(1, xs[:i] + [x] + xs[i + 1:], room)
        case_list(1, [x] * n, n)
case_list(1, [GAP, HIGH], 1)
case_list(1, [-GAP - 1, GAP + 1, 0], 3)
rising, falling = list(range(256)), list(range(256, 0, -1))
for xs in (rising, falling, [5] * 256, [i % 2 for i in range(256)]):
    for entry in (2, 3, 4):
        case_list(entry, distances(xs), 256)
for ds in ([0, 1, 2, 2], [0, 1, 2, 3], [1], [0, 2], [0, WORD], [WORD], [0, 0, 0, 4], [0, 1, WORD - 1], [0, 1, 1, 3, 2]):
    for entry in (2, 3, 4):
        case_list(entry, ds, len(ds))
    case_encode(ds)
case_encode([0] * 21 + [50])
case_encode([0] * 257)
for _ in range(250):
    xs = values(random.randint(1, 12), random.choice((1, 2, 5, 1000)))
    ds = distances(xs)
    case_list(1, xs, len(xs) + random.randint(-1, 2))
    if random.random() < 0.2:
        xs[random.randrange(len(xs))] = GAP
        case_list(1, xs, len(xs) + random.randint(-1, 2))
    case_list(random.choice((2, 3, 4)), ds, len(ds) + random.randint(-1, 1))
    case_encode(ds)
    if random.random() < 0.7:
        ds[random.randrange(len(ds))] = random.choice((0, 1, 2, 3, len(ds), WORD))
        case_list(random.choice((2, 3, 4)), ds, len(ds))
        case_encode(ds)
for n, c, room in ((4, 23, 4), (4, 17, 4), (4, 24, 4), (4, 23, 3), (0, 0, 4), (21, 0, 30), (20, 0, 20), (20, 0, 19), (1, 0, 1),
                   (1, 1, 1), (20, factorial(20) - 1, 25), (20, factorial(20), 25), (20, 2 ** 64 - 1, 20), (1, 2 ** 64 - 1, 1),
                   (20, 999999999999999999, 20), (5, 107, 9), (2, 2, 2)):
    case_decode(n, c, room)
for c in range(121):
    case_decode(5, c, random.randint(4, 6))
# the weight of every place, and the codes about the factorial of every length
for n in range(1, 21):
    case_encode([0] * (n - 1) + [int(n > 1)])
    case_encode(list(range(n)))
    for c in (factorial(n - 1) - 1, factorial(n - 1), factorial(n) - 1, factorial(n), factorial(n) + 1):
        case_decode(n, c, n)

# ---- sets
for room in (0, 2, 3, 5):
    r = first([(10, room < 3)])
    cases.append([7, room, r, 0 if r else 3, *after(r, [0, 0, 0], room)])
three = [distances(x) for x in ((4, 2, 3, 1, 5), (3, 1, 4, 2), (1, 2, 3, 5, 4))]
good = set_words(three)
assert len(good) == 20
for ws in (good, good + [9, 9], good[:-1], [], [0], [0, 0], [0, 0, 0], [0, 0, 0, 5], [0, 1, 0], [0, 0, 7], [1, 1, 0, 1, 0],
           [1, 1, 0, 1, 1], [1, 1, 0, 0, 0], [2, 2, 0, 2, 2, 0, 0], [2, 2, 0, 2, 1, 0, 0], [WORD, WORD, 0], [1, WORD, 0, WORD, 0],
           [1, 1, WORD, 1, 0], [2, 1, 0, WORD, 1, 0], [64, 0, 0], [65, 65] + list(range(66)) + [0] * 65,
           [64, 64] + list(range(65)) + [0] * 64, [1, 256, 0, 256] + [0] * 256, [1, 257, 0, 257] + [0] * 257,
           [1, 4, 0, 4, 0, 1, 2, 2], [1, 3, 0, 4, 0, 1, 2], [1, 4, 0, 3, 0, 1, 2, 1]):
    case_check(ws)
for i in range(len(good)):
    for w in (0, 1, WORD, good[i] + 1):
        case_check(good[:i] + [w] + good[i + 1:])
full = set_words([[0] * 256] * 16)
case_check(full)
case_check(set_words([[0] * 256] * 16 + [[0]]))
# 4,096 distances with the pattern, and one more, which is 6; a pattern of one value is 15 where it is not 6
for n, xs in ((256, [3]), (256, [3, 4]), (255, [3]), (255, [3, 4]), (254, [3, 4]), (254, [3, 4, 5])):
    case_add(set_words([[0] * 256] * 15 + [[0] * n]) + [7] * 5, xs)
# 64 patterns with the pattern, and one more, which is 6
many, ones = (set_words([p] * 63) + [7] * 6 for p in ([0, 1], [0]))
for ws in (many, ones):
    case_add(ws, [5])
many, ones = case_add(many, [5, 5]), case_add(ones, [5, 5])
for ws in (many, ones):
    case_add(ws, [5])
    case_add(ws, [5, 5])
for n in (0, 1, 256, 257):
    case_add([0, 0, 0] + [7] * 300, values(n, 4))
# arrays that are just long enough, too short, and no sets
for ws in ([0, 0, 0, 7, 7, 7], [0, 0, 0, 7, 7], [0, 0, 0, 7], [0, 0, 0], [0, 0, 7, 7, 7, 7], [0, 0], []):
    for xs in ([1], [1, 2], []):
        case_add(ws, xs)
case_add([0, 0, 7, 7, 7], values(257, 4))
# gaps at the first place, in the middle and at the last, and the lowest sample there: into an array with room, one that is too short,
# one that is no set, sets that hold 64 patterns or 4,096 distances; too many values before it all
for n in (1, 2, 3, 255, 256, 257):
    xs = values(n, 3)
    for x in (GAP, LOW):
        for i in {0, n // 2, n - 1}:
            case_add([0, 0, 0] + [7] * (n + 2), xs[:i] + [x] + xs[i + 1:])
for x in (GAP, LOW):
    for xs in ([x], [x, 1, 2], [1, x, 2], [1, 2, x], [x, x, x]):
        for ws in ([0, 0, 0, 7, 7, 7, 7], [0, 0, 0, 7], [0, 0, 7, 7, 7, 7, 7], [], good + [7] * 4, good + [7] * 3, good[:-1]):
            case_add(ws, xs)
    case_add(many, [x])
    case_add(full + [7, 7], [5, x])
    case_add([0, 0, 7, 7, 7], [x] * 257)
    case_add([0, 0, 7, 7, 7], [3] * 256 + [x])
for _ in range(12):
    ws = [0, 0, 0] + [random.randint(0, 9) for _ in range(60)]
    for _ in range(8):
        xs = values(random.randint(0, 12), random.choice((1, 3, 1000)))
        ws = case_add(ws, xs)
        if xs and random.random() < 0.2:
            ws = case_add(ws, xs[:-1] + [GAP])
    case_check(ws)
# stored sets that hold patterns of one value are good: they are checked, and take patterns of two values and more
for ps in ([[0]], [[0], [0]], [[0], [0, 1]], [[0, 0], [0]], [[0, 0, 1], [0], [0, 1], [0]]):
    for behind in ([], [7] * 2, [7] * 3, [7] * 4):
        case_check(set_words(ps) + behind)
        for xs in ([4], [4, 2], [4, 2, 3], [GAP], [GAP, 1]):
            case_add(set_words(ps) + behind, xs)
    # broken: a distance that no value has, a length of 0, a word too few
    case_add(set_words(ps[:-1] + [[1]]) + [7] * 4, [4])
    case_add(set_words(ps + [[]]) + [7] * 4, [4])
    case_add(set_words(ps)[:-1], [4])

# ---- next lists: all of the lengths up to 7, those up to 6 held to the distances of all values; then longer ones, and refusals
for n in range(1, 8):
    lists = possible(n)
    assert n > 6 or lists == sorted(map(list, {tuple(distances(xs)) for xs in product(range(n), repeat=n)}))
    assert [next_list(ds) for ds in lists] == lists[1:] + [[]] and lists[0] == [0] * n and lists[-1] == list(range(n))
    for ds in lists:
        case_next(ds, n + random.randint(0, 2))
for n in range(1, 11):
    for ds in ([0] * n, list(range(n))):
        for room in (0, n - 1, n, n + 3):
            case_next(ds, room)
for _ in range(200):
    ds = distances(values(random.randint(8, 10), random.choice((1, 2, 5, 1000))))
    case_next(ds, len(ds) + random.randint(-1, 2))
    ds[random.randrange(len(ds))] = random.choice((1, 2, 3, len(ds), WORD))
    case_next(ds, len(ds))
for n in (0, 10, 11, 20, 21, 255, 256, 257):
    for ds in ([0] * n, list(range(n)), [1] * n, [WORD] * n):
        case_next(ds, 20)
        case_next(ds, 0)
for ds in ([0, 1, 2, 2], [1], [0, 2], [0, WORD], [0, 1, 1, 3, 2]):
    case_next(ds, 0)
    case_next(ds, len(ds))

# ---- withdrawing: every number of small sets, some with words behind them; then one after the other until nothing is left
HUGE = 2 ** 64 - 1
mixed = [[0], [0, 0, 1], [0], [0, 1], [0, 0, 1], [0, 0, 0, 1, 2]]
for ps in (three, mixed, [[0, 1, 2]] * 4, [[0]] * 5, [[0]], [[0, 1, 1, 3]]):
    for behind in ([], [7], [7] * 6):
        for j in (*range(len(ps) + 1), 64, WORD, WORD + 1, HUGE):
            case_withdraw(set_words(ps) + behind, j)
    for choose in (lambda n: 0, lambda n: n // 2, lambda n: max(n - 1, 0)):
        ws = set_words(ps) + [7, 7]
        for n in range(len(ps), -1, -1):
            ws = case_withdraw(ws, choose(n))
        assert ws == [0] * len(set_words(ps)) + [7, 7]
# the empty set, and arrays that are no sets
for ws in ([], [0], [0, 0], [0, 0, 0], [0, 0, 0, 7], [0, 0, 7], [0, 1, 0], [1, 1, 0, 0, 0], [1, 1, 1, 1, 0], [1, 4, 0, 4, 0, 1, 2, 2],
           good[:-1], [65, 65] + list(range(66)) + [0] * 65, [1, 257, 0, 257] + [0] * 257):
    for j in (0, 1, HUGE):
        case_withdraw(ws, j)
# patterns of 256 distances, 64 patterns, 4,096 distances, both
for j in range(4):
    case_withdraw(set_words([[0] * 256, [0], list(range(256))]) + [7], j)
for ws in (many, ones):
    for j in (0, 31, 63, 64):
        case_withdraw(ws, j)
for ps in ([[0] * 256] * 16, [distances(values(64, 5)) for _ in range(64)]):
    for j in (0, len(ps) // 2, len(ps) - 1):
        case_withdraw(set_words(ps) + [7, 7], j)
# adds and withdrawals in random order, from the empty set on and from stored sets; some patterns are added twice
for k in range(14):
    ws = set_words(mixed[:k % 7]) + [random.randint(0, 9) for _ in range(60)]
    xs = [1, 1]
    for _ in range(16):
        if random.random() < 0.6:
            xs = xs if random.random() < 0.3 else values(random.randint(1, 9), random.choice((1, 3, 1000)))
            before = ws
            ws = case_add(ws, xs)
            if ws != before and random.random() < 0.3:
                back = case_withdraw(ws, ws[0] - 1)
                used = 3 + before[0] + before[1]
                assert back[:used] == before[:used]
        else:
            ws = case_withdraw(ws, random.randint(0, max(ws[0], 1)))
    case_check(ws)

for c in cases:
    if c[0] in ENTRIES[sys.argv[1]]:
        print(*c)
