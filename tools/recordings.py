"""Reads the files of a fitter: named shapes, a recording, and what the program `hits` printed for them.

Shapes: a line each, a name, a colon and the values. Recording: values with spaces or newlines between. Values are decimal and
within the signed 32-bit range. The lowest, -2147483648, is a gap: the recorder had no sample there. A recording may hold gaps,
a shape holds none. A shape has at least two values: one alone would hit at every sample. A file that is none of these ends the
script with a message that names the line.
"""
import re
import sys

SHORTEST_SHAPE, LONGEST_SHAPE = 2, 256
MOST_SHAPES = 64
LONGEST_RECORDING = 1048576
NUMBER = re.compile(r"-?[0-9]{1,20}")
LOWEST, HIGHEST = -(2**31), 2**31 - 1
GAP = LOWEST


class BadFile(Exception):
    pass


def refuse(name, line, what):
    name = "standard input" if name == "-" else name
    where = "%s:%d" % (name, line) if line else name
    raise BadFile("%s: %s" % (where, what))


def text_of(name):
    """The text of a file; '-' is standard input."""
    try:
        data = sys.stdin.buffer.read() if name == "-" else open(name, "rb").read()
        return data.decode("utf-8-sig")
    except OSError as error:
        refuse(name, 0, error.strerror)
    except UnicodeDecodeError:
        refuse(name, 0, "not a text file")


def values_of(name, line, text):
    values = []
    for word in text.split():
        if not NUMBER.fullmatch(word):
            refuse(name, line, "'%s' is no decimal number" % word[:30])
        values.append(int(word))
        if not LOWEST <= values[-1] <= HIGHEST:
            refuse(name, line, "%s is outside the signed 32-bit range" % word)
    return values


def read_shapes(name):
    """The shapes as pairs of name and values."""
    shapes = []
    for line, text in enumerate(text_of(name).split("\n"), 1):
        if not text.strip():
            continue
        title, colon, numbers = text.partition(":")
        title = " ".join(title.split())
        if not colon or not title or not title.isprintable():
            refuse(name, line, "a shape is a name, a colon and its values")
        if title in (known for known, _ in shapes):
            refuse(name, line, "a second shape named '%s'" % title)
        values = values_of(name, line, numbers)
        if not SHORTEST_SHAPE <= len(values) <= LONGEST_SHAPE:
            refuse(name, line, "a shape has %d to %d values, this one has %d" % (SHORTEST_SHAPE, LONGEST_SHAPE, len(values)))
        if GAP in values:
            refuse(name, line, "a shape holds no gap (%d)" % GAP)
        shapes.append((title, values))
    if not 1 <= len(shapes) <= MOST_SHAPES:
        refuse(name, 0, "1 to %d shapes are wanted, here are %d" % (MOST_SHAPES, len(shapes)))
    return shapes


def read_recording(name):
    values = []
    for line, text in enumerate(text_of(name).split("\n"), 1):
        values += values_of(name, line, text)
    if len(values) > LONGEST_RECORDING:
        refuse(name, 0, "a recording has at most %d values, this one has %d" % (LONGEST_RECORDING, len(values)))
    return values


def distances(values):
    """At each place how far back the last value is that is not above this one; 0 if there is none."""
    result, minima = [], []
    for i, value in enumerate(values):
        while minima and values[minima[-1]] > value:
            minima.pop()
        result.append(i - minima[-1] if minima else 0)
        minima.append(i)
    return result


def rise(recording, last, length):
    """The rise over the window that ends at a place: its last value minus its first, clamped to the signed 32-bit range."""
    return max(LOWEST, min(HIGHEST, recording[last] - recording[last + 1 - length]))


def samples_from(recording):
    """At each place where the samples up to it begin: behind the last gap."""
    result, begin = [], 0
    for i, value in enumerate(recording):
        if value == GAP:
            begin = i + 1
        result.append(begin)
    return result


def check_order(name, line, hit, lines):
    """Hits rise by last place, then longer shape first, then lower number. `lines` has the hits above, each with its line."""
    if hit in lines:
        refuse(name, line, "this hit stands twice, first in line %d" % lines[hit])
    if lines and hit < next(reversed(lines)):
        order = "hits rise by last place, then longer shape, then lower number"
        refuse(name, line, "this hit belongs above the one before it: " + order)
    lines[hit] = line


def check_closing(name, line, digits, recording):
    """Each sample takes an attempt, and all together at most two a value."""
    values, samples = len(recording), sum(value != GAP for value in recording)
    if len(digits) > 9 or not samples <= int(digits) <= 2 * values:
        told = (digits[:30], values, samples, samples, 2 * values)
        refuse(name, line, "%s attempts cannot be: a recording of %d values, %d of them samples, takes %d to %d" % told)


def read_hits(name, shapes, recording):
    """The hits as pairs of last place and shape number. What is there is checked, and not that no hit is missing."""
    lines = text_of(name).split("\n")
    if lines[0].startswith("refused") or lines[0] == "bad input":
        refuse(name, 0, "the program hits printed '%s', there is nothing to draw" % lines[0][:30])
    if lines[0] != "end shape length":
        refuse(name, 1, "what the program hits prints begins with 'end shape length'")
    if len(lines) < 3 or lines[-1] or not re.fullmatch(r"trials [0-9]+", lines[-2]):
        refuse(name, len(lines), "the list is cut off: its last line is 'trials' and a number")
    of_shapes = [distances(values) for _, values in shapes]
    of_recording, begin = distances(recording), samples_from(recording)
    hits, line_of = [], {}
    for line, text in enumerate(lines[1:-2], 2):
        if not re.fullmatch(r"[0-9]{1,9} [0-9]{1,9} [0-9]{1,9}", text):
            refuse(name, line, "a hit is three numbers: last place, shape, length")
        last, shape, length = map(int, text.split(" "))
        if shape >= len(shapes) or length != len(shapes[shape][1]) or not length - 1 <= last < len(recording):
            refuse(name, line, "this hit is not of these shapes and this recording")
        if last + 1 - length < begin[last]:
            refuse(name, line, "the window that ends at %d holds a gap" % last)
        window = of_recording[last + 1 - length : last + 1]
        if of_shapes[shape] != [d if d <= i else 0 for i, d in enumerate(window)]:
            refuse(name, line, "the window that ends at %d does not have the shape '%s'" % (last, shapes[shape][0]))
        check_order(name, line, (last, -length, shape), line_of)
        hits.append((last, shape))
    check_closing(name, len(lines) - 1, lines[-2].split(" ")[1], recording)
    return hits
