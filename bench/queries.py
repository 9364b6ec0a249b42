#!/usr/bin/env python3
"""Times the reading of queries, and how the times grow with their text.

    python3 bench/queries.py [PROGRAM]

PROGRAM is crates/xkern/out/xkern unless it is given. Each query can be read and is no path, so that the answer is XKCM0002 and
the time is that of reading alone, with that of giving up the tree. A query stands as many times in one session as make
4 MB of text, at least once; the time is the least of three runs, less that of a session that only ends, by the number of
queries. Queries of 2^24 bytes, less the word in front of them, are timed once each."""
import os
import sys

from documents import least

FLWOR = 'for $b at $i in //book[@year = 2001], $a in $b/author let $n := concat("a", $a/last) where count($b) > 1 order by $n descending return <r k="{$i}">{$n, 1 + 2 * 3}</r>'
SHAPES = [
    ("sum", "1", " + 1", ""),
    ("list", "1", ", 1", ""),
    ("path behind a call", "f()", "/a", ""),
    ("predicates", "a", "[1]", ""),
    ("arguments", "f(1", ", 1", ")"),
    ("clauses", "for $x in 1", " let $y := 2", " return 3"),
    ("attributes", "<e", ' k="v"', "/>"),
    ("elements beside each other", "<e>", "<a/>", "</e>"),
    ("characters in an element", "<e>", "text ", "</e>"),
    ("expressions in an element", "<e>", "{1}", "</e>"),
    ("one string", '"', "text ", '"'),
    ("one number", "1", "1", ""),
    ("comments beside each other", "1", "(: c :)", ""),
    ("198 parentheses each", "1", ", " + "(" * 198 + "1" + ")" * 198, ""),
    ("197 elements each", "1", ", " + "<a>" * 197 + "</a>" * 197, ""),
    ("198 predicates each", "1", ", " + "a[" * 198 + "1" + "]" * 198, ""),
    ("198 calls each", "1", ", " + "f(" * 198 + "1" + ")" * 198, ""),
    ("198 conditions each", "1", ", " + "if (1) then " * 198 + "1" + " else 1" * 198, ""),
    ("98 enclosed elements each", "1", ", " + "<a>{" * 98 + "1" + "}</a>" * 98, ""),
    ("FLWOR expressions", "1", ", " + FLWOR, ""),
]


def query(shape, size):
    """A query of about so many bytes."""
    _, begin, more, end = shape
    return begin + more * max(1, (size - len(begin) - len(end)) // len(more)) + end


def nested_comments(size):
    depth = size // 4
    return "(:" * depth + ":)" * depth + "1"


def timed(program, text, runs):
    script = ("XQUERY " + text + "\n") * runs
    return (least([program], script.encode(), ".") - least([program], b"EXIT\n", ".")) / runs


def main():
    program = os.path.abspath(sys.argv[1] if len(sys.argv) > 1 else "crates/xkern/out/xkern")
    if not os.path.exists(program):
        raise SystemExit(f"{program} isn't there: rt run in crates/xkern builds it")
    sizes = [1_000, 4_000, 16_000, 64_000, 256_000, 1_000_000]
    print(f"{'microseconds':30}" + "".join(f"{size:>10,}" for size in sizes))
    makers = [(shape[0], lambda size, shape=shape: query(shape, size)) for shape in SHAPES]
    makers.append(("nested comments", nested_comments))
    for name, made in makers:
        line = f"{name:30}"
        for size in sizes:
            text = made(size)
            line += f"{timed(program, text, max(1, 4_000_000 // len(text))) * 1e6:10.1f}"
        print(line, flush=True)
    longest = 2**24 - len("XQUERY ")
    for name, text in [
        ("digits", "1" * longest),
        ("opening parentheses", "(" * longest),
        ("commas", "," * longest),
        ("one string", '"' + "a" * (longest - 2) + '"'),
        ("a list of numbers", "1," * (longest // 2 - 1) + "1"),
        ("opening comments", "(:" * (longest // 2)),
    ]:
        print(f"2^24 bytes of {name:22} {timed(program, text, 1):8.2f} s", flush=True)


if __name__ == "__main__":
    main()
