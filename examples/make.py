#!/usr/bin/env python3
"""Writes the numbers of a text file as a file of numbers of eight bytes, the low byte first.

    examples/make.py night/pattern.txt night/pattern

The text has numbers with blanks between; what stands behind a # on a line is left out."""

import struct
import sys


def main():
    if len(sys.argv) != 3:
        sys.exit("usage: make.py TEXT FILE")
    with open(sys.argv[1], encoding="ascii") as text:
        words = [word for line in text for word in line.split("#")[0].split()]
    with open(sys.argv[2], "wb") as out:
        out.write(b"".join(struct.pack("<Q", int(word)) for word in words))


main()
