#!/usr/bin/env python3
"""Looks for constants of factorials in the static library: none of 13! to 20!, those that need more than 32 bits, may stand in it,
neither as data nor within an instruction.

usage: archive.py target/staticlib/libfinder_c.a
"""
import sys
from math import factorial

library = sys.argv[1]
with open(library, "rb") as f:
    held = f.read()
if b"finder_encode" not in held or b"finder_decode" not in held:
    sys.exit(f"{library}: has no finder_encode or no finder_decode")
found = [n for n in range(13, 21) for order in ("little", "big") if factorial(n).to_bytes(8, order) in held]
if found:
    sys.exit(f"{library}: holds " + ", ".join(f"{n}!" for n in found))
print(f"{len(held)} bytes, none of 13! to 20! among them")
