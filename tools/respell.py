#!/usr/bin/env python3
"""Brings this repository's own definitions and lemmas to the spelling of today's Rattle: words in snake case, a relation
in camel case, and a dash only where the name of a lemma joins two names. It runs once, right after port.py, at the top of
the repository, and goes by text: comments stay, and so do the strings of .rt files. It stops, and writes nothing, where two
names would fall together in one file, except for those of READ.
"""
import os
import re

# Names that do not simply get `_` for each `-`, and `on-shelf`.
NAMED = {
    "meant-write": "MeantWrite",
    "block-put": "block_at-put_block",
    "block-put-other": "block_at-put_block_other",
    "drop-put": "drop-put_block",
    "length-put": "length-put_block",
    "length-block": "length-block_at",
    "length-content": "length-content",
    "length-words": "length-words",
    "length-joined": "length-joined",
    "length-entries-after": "length-entries_after",
    "joined-append": "joined-append",
    "joined-zeros": "joined-zeros",
    "on-shelf": "on_shelf",
}

# The repository's own names with a dash that port.py leaves: definitions, fields and lemmas of specs/ and proofs/.
OWN = """
absent-parts add-word after-loss after-rule as-part as-tests at-number back-flushed back-lost back-write back-writes
back-wrote bad-size bits-set block-cut block-from-words block-is block-packs block-unpacks blocks-for blocks-needed
both-passed bytes-of-word bytes-saved card-block cond-mono content-cut content-filled content-is copied-block-is
count-read doubt-here doubt-there doubts-mono doubts-more doubts-set drop-one each-in-one entries-after entries-cut
entries-of extent-word first-bad fnv-1a fnv-below fnv-number fold-30 fold-below folded-below found-on found-push fresh-is
fresh-stays good-after good-before good-word header-words held-added held-replaced in-doubt in-tests kept-is kind-number
layer-number layer-of link-read link-word midway-all midway-fresh midway-kept midway-none mix-byte narrowed-all
narrowed-same narrowed-trans narrowed-under narrowed-wrote none-bad none-to-set of-kind of-table on-entry one-held
one-narrowed one-write only-place other-rule other-version over-absent over-at over-set overlaid-absent overlaid-head
overlaid-held overlaid-more overlaid-more-other overlaid-push overlaid-set-other overlaid-whole packed-back packed-passes
passing-packed passing-words physical-block place-from place-push-at plain-sound plain-write plain-wrote present-parts
print-of print-read print-word put-block put-block-is put-more put-wrote refused-past right-size right-version round-more
same-card same-pairs saved-bare settled-fresh shelf-flushed shelf-lost shelf-of shelf-sound shelf-writes shelf-wrote
shown-blocks sized-or stored-place sum-word table-block table-blocks unless-bad unpack-answer unpack-packed when-true-is
whole-read word-from word-of-bytes words-below words-block words-four words-joined words-none words-zeros write-back
write-back-sound writes-from writes-push written-below-at written-below-narrowed written-below-none written-below-room
wrote-push zero-tail zeros-after
""".split()

# Names that Rattle makes of the source's, which keep the source's spelling today.
MADE = {
    "as-bytes": "as_bytes",
    "block-of": "block_of",
    "content-of": "content_of",
    "copy-block": "copy_block",
    "copy-block-else-fresh-stays": "copy_block-else-fresh_stays",
    "copy-from-slice": "copy_from_slice",
    "copy-front": "copy_front",
    "copy-text": "copy_text",
    "copy-within": "copy_within",
    "else-fresh-stays": "else-fresh_stays",
    "from-le-bytes-bits": "from_le_bytes-bits",
    "if-fresh-stays": "if-fresh_stays",
    "if-not-take-word": "if-not-take_word",
    "in-use": "in_use",
    "in-use-places": "in_use-places",
    "load-entries": "load_entries",
    "lose-power": "lose_power",
    "make-room": "make_room",
    "pack-block": "pack_block",
    "pack-header": "pack_header",
    "put-entries": "put_entries",
    "put-word": "put_word",
    "returns-then-not-take-word": "returns-then-not-take_word",
    "save-entries": "save_entries",
    "save-line": "save_line",
    "save-through-shelf": "save_through_shelf",
    "take-word": "take_word",
    "test-header": "test_header",
    "then-fresh-stays": "then-fresh_stays",
    "unpack-block-tail": "unpack_block-tail",
}

# Read by a person: a function of src/, or a field, has the name of the definition that it answers, as in Rattle's std.
READ = {"put-block", "fresh-stays", "print-word", "fnv-1a", "card-block", "blocks-needed", "blocks-for", "table-blocks", "table-block", "lose-power"}

NAMES = {n: n.replace("-", "_") for n in OWN} | NAMED | MADE
WORD = re.compile(r"[A-Za-z_⊎ℕ][\w'⊎ℕ]*(?:-[\w'*=+]+)*")


def code(line, mark):
    """The line up to its comment, and the comment."""
    at = line.find(mark)
    return (line, "") if at < 0 else (line[:at], line[at:])


def turned(text, mark):
    lines = []
    for line in text.split("\n"):
        head, tail = code(line, mark)
        parts = re.split(r'("(?:[^"\\]|\\.)*")', head) if mark == "//" else [head]
        parts[::2] = [WORD.sub(lambda m: NAMES.get(m[0], m[0]), p) for p in parts[::2]]
        lines.append("".join(parts) + tail)
    return "\n".join(lines)


def words(text, mark):
    lines = (code(line, mark)[0] for line in text.split("\n"))
    return {m[0] for line in lines for m in WORD.finditer(re.sub(r'"(?:[^"\\]|\\.)*"', "", line))}


def main():
    out, clash = {}, []
    for folder, dirs, files in os.walk("crates"):
        dirs[:] = sorted(d for d in dirs if d != "out")
        for name in sorted(files):
            if not name.endswith((".rt", ".antt")):
                continue
            path, mark = os.path.join(folder, name), "//" if name.endswith(".rt") else "--"
            with open(path, encoding="utf-8") as f:
                text = f.read()
            found = words(text, mark)
            clash += [f"{path}: {w} and {NAMES[w]}" for w in found if w in NAMES and NAMES[w] != w and NAMES[w] in found and w not in READ]
            new = turned(text, mark)
            if new != text:
                out[path] = new
    print("\n".join(clash))
    if clash:
        print(f"respell: {len(clash)} pairs of names fall together in a file; nothing was written")
        return 1
    for path, new in out.items():
        with open(path, "w", encoding="utf-8") as f:
            f.write(new)
    print(f"respell: {len(out)} files written")
    return 0


if __name__ == "__main__":
    raise SystemExit(main())
