#!/usr/bin/env python3
"""Fingerprints of lines of text, written from the rules alone and sharing no code with the store.

Each line of standard input is a published hash in hexadecimal, or a "-", then a space and a text. For each line this prints the 32-bit FNV-1a hash
of the text, and the words that a print table holds for the block with that text (cut to 512 bytes, or zero bytes after it): under
rule 1, FNV-1a, and under rule 2, the sum of the block's 128 little-endian words. Both are folded to 30 bits, and the two
bits above them are set, which is the kind of a print. The last line says how many of the published hashes were found.
"""

import struct
import sys


def fnv1a_32(data):
    state = 0x811C9DC5
    for octet in data:
        state = ((state ^ octet) * 0x01000193) & 0xFFFFFFFF
    return state


def word_sum(block):
    return sum(struct.unpack("<128I", block)) & 0xFFFFFFFF


def print_word(hash32):
    low = hash32 & 0x3FFFFFFF
    return 0xC0000000 | (low ^ (hash32 >> 30))


def main():
    published = found = 0
    for line in sys.stdin.buffer.read().split(b"\n"):
        given, space, text = line.partition(b" ")
        if not space:
            continue
        block = text[:512].ljust(512, b"\0")
        state = fnv1a_32(text)
        row = "%08x %08x %08x " % (state, print_word(fnv1a_32(block)), print_word(word_sum(block)))
        sys.stdout.buffer.write(row.encode() + text + b"\n")
        if given != b"-":
            published += 1
            found += state == int(given, 16)
    sys.stdout.buffer.write(b"%d of %d published hashes\n" % (found, published))


main()
