#!/usr/bin/env python3
"""Builds and runs the examples of docs/API.md, in C and in Rust, and compares what they print with what the page says.

usage: api.py

Needs target/staticlib/libfinder_c.a (tools/build library), a C compiler and cargo.
"""
import os
import re
import subprocess
import sys
from itertools import zip_longest

ROOT = os.path.dirname(os.path.dirname(os.path.abspath(__file__)))
FOLDER = os.path.join(ROOT, "target", "api")
LIBRARY = os.path.join(ROOT, "target", "staticlib")
MANIFEST = """[package]
name = "example"
version = "0.1.0"
edition = "2021"

[dependencies]
finder = { path = "%s" }

[workspace]
"""


def write(name, text):
    path = os.path.join(FOLDER, name)
    os.makedirs(os.path.dirname(path), exist_ok=True)
    with open(path, "w") as out:
        out.write(text)
    return path


def output(words, **environment):
    """What a command prints; the script ends where it fails."""
    run = subprocess.run(words, check=False, stdout=subprocess.PIPE, text=True, env={**os.environ, **environment})
    if run.returncode:
        sys.exit("docs/API.md: this ended with status %d, expected 0: %s" % (run.returncode, " ".join(words)))
    return run.stdout


def compare(language, expected, got):
    """The script ends where an example prints something else than the page says."""
    for number, (want, line) in enumerate(zip_longest(expected.splitlines(), got.splitlines()), 1):
        if want != line:
            sys.exit("docs/API.md: the example in %s prints something else in line %d: expected %r, got %r" % (language, number, want, line))


def run_c(name, source):
    """What an example in C prints."""
    program = os.path.join(FOLDER, name)
    output(["cc", "-O2", "-Wall", "-Wextra", "-Werror", "-I", os.path.join(ROOT, "include"), write(name + ".c", source),
            os.path.join(LIBRARY, "libfinder_c.a"), "-o", program])
    return output([program])


def run_rust(name, source):
    """What an example in Rust prints."""
    write(name + "/src/main.rs", source)
    manifest = write(name + "/Cargo.toml", MANIFEST % os.path.join(ROOT, "rust"))
    target = os.path.join(FOLDER, "target")
    return output(["cargo", "run", "--offline", "--quiet", "--manifest-path", manifest], FINDER_LIB=LIBRARY, CARGO_TARGET_DIR=target)


def main():
    with open(os.path.join(ROOT, "docs", "API.md")) as page:
        blocks = re.findall(r"^```(c|rust|text)\n(.*?)^```$", page.read(), re.M | re.S)
    # an example is a block of C, what it prints, and a block of Rust that prints the same
    if not blocks or [language for language, _ in blocks] != ["c", "text", "rust"] * (len(blocks) // 3):
        sys.exit("docs/API.md: expected blocks of c, text and rust in turn, got: %s" % ", ".join(language for language, _ in blocks))
    texts = [text for _, text in blocks]
    for number, (in_c, expected, in_rust) in enumerate(zip(texts[::3], texts[1::3], texts[2::3]), 1):
        compare("C, number %d" % number, expected, run_c("example%d" % number, in_c))
        compare("Rust, number %d" % number, expected, run_rust("rust%d" % number, in_rust))
    print("docs/API.md: all %d examples print what the page says" % (len(blocks) // 3 * 2))


main()
