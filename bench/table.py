#!/usr/bin/env python3
"""Times TABLE against `xmllint --noout` on the same bytes, and shows how TABLE grows with a document.

    python3 bench/table.py [PROGRAM]

PROGRAM is crates/xkern/out/xkern unless it is given. The documents are made anew at each run, in a folder of their own that
is removed; where xmllint isn't installed its column is left out. A time is the least of three runs of a whole process, so
it holds the start of the process, reading the script from a file, and writing the reply to /dev/null."""
import os
import shutil
import subprocess
import sys
import tempfile
import time

RUNS = 3


def least(command, source):
    """The least time of three runs, in seconds."""
    best = None
    for _ in range(RUNS):
        with open(source, "rb") as given:
            start = time.perf_counter()
            done = subprocess.run(command, stdin=given, stdout=subprocess.DEVNULL, stderr=subprocess.PIPE)
            took = time.perf_counter() - start
        if done.returncode not in (0, 1):
            raise SystemExit(f"{command[0]} ended with {done.returncode}")
        best = took if best is None else min(best, took)
    return best


def library(size):
    """Records of short texts, about `size` bytes."""
    record = "<book><title>The name of a book</title><author>An author</author><year>1965</year><empty/></book>"
    return "<library>" + record * (size // len(record)) + "</library>"


def texts(size):
    """Long texts, about `size` bytes."""
    record = "<p>" + "A sentence of some length stands here, and another one. " * 20 + "</p>"
    return "<doc>" + record * (size // len(record)) + "</doc>"


def siblings(count):
    return "<r>" + "<e/>" * count + "</r>"


def nested(count):
    return "<e>" * count + "</e>" * count


def opened(count):
    """Open tags alone: not well formed, and deep."""
    return "<e>" * count


def main():
    program = os.path.abspath(sys.argv[1] if len(sys.argv) > 1 else "crates/xkern/out/xkern")
    if not os.path.exists(program):
        raise SystemExit(f"{program} isn't there: rt run in crates/xkern builds it")
    xmllint = shutil.which("xmllint")
    if xmllint is None:
        print("xmllint isn't installed; its column is left out")
    cases = [
        ("records, 10 MB", library(10_000_000), True),
        ("long texts, 10 MB", texts(10_000_000), True),
        ("500,000 siblings", siblings(500_000), False),
        ("1,000,000 siblings", siblings(1_000_000), False),
        ("2,000,000 siblings", siblings(2_000_000), False),
        ("50,000 nested", nested(50_000), False),
        ("100,000 nested", nested(100_000), False),
        ("200,000 nested", nested(200_000), False),
        ("2,000,000 open tags", opened(2_000_000), False),
    ]
    print(f"{'document':22} {'bytes':>10} {'TABLE s':>9} {'MB/s':>7} {'xmllint s':>10}")
    with tempfile.TemporaryDirectory() as folder:
        for name, text, compared in cases:
            script, document = os.path.join(folder, "script"), os.path.join(folder, "document.xml")
            with open(script, "w") as out:
                out.write("TABLE " + text + "\n")
            with open(document, "w") as out:
                out.write(text)
            took = least([program], script)
            other = ""
            if compared and xmllint is not None:
                other = f"{least([xmllint, '--huge', '--noout', document], script):10.3f}"
            print(f"{name:22} {len(text):10} {took:9.3f} {len(text) / took / 1e6:7.0f} {other:>10}", flush=True)


if __name__ == "__main__":
    main()
