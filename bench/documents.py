#!/usr/bin/env python3
"""Times reading and printing of whole documents, and measures the memory that rows take.

    python3 bench/documents.py [PROGRAM]

PROGRAM is crates/xkern/out/xkern unless it is given. The documents are made anew at each run, in a folder of their own that
is removed. A time is the least of three runs of a whole process, and holds its start. Beside it stand the same work by
`xmllint` (libxml2: reading is `--noout`, printing what printing takes beyond it) and by BaseX (`basex`, in main memory and
without its indexes of values), each where it is installed.

Memory is what a process holds (VmRSS) once a database stands and the script waits for more: the difference between two
documents of empty elements, by the difference of their rows."""
import os
import shutil
import subprocess
import sys
import tempfile
import time

RUNS = 3


def least(command, script, folder):
    """The least time of three runs, in seconds."""
    best = None
    for _ in range(RUNS):
        start = time.perf_counter()
        done = subprocess.run(command, input=script, cwd=folder, stdout=subprocess.DEVNULL, stderr=subprocess.PIPE)
        took = time.perf_counter() - start
        if done.returncode not in (0, 1):
            raise SystemExit(f"{command[0]} ended with {done.returncode}: {done.stderr[:300]}")
        best = took if best is None else min(best, took)
    return best


def items(size):
    """Records with attributes, short texts and mixed content, about `size` bytes."""
    parts = ['<?xml version="1.0"?>\n<site>\n']
    length, number = 0, 0
    while length < size:
        part = (
            f'<item id="i{number}" cat="c{number % 50}"><name>Name {number}</name>'
            f'<price currency="EUR">{number % 999}.{number % 100:02}</price>'
            f"<desc>Some <b>bold</b> and <i>thin</i> words, {number % 17} of them &amp; more.</desc><empty/></item>\n"
        )
        parts.append(part)
        length += len(part)
        number += 1
    return "".join(parts) + "</site>\n"


def flat(count):
    return "<r>" + "<e/>" * count + "</r>"


def deep(count):
    return "<e>" * count + "</e>" * count


def attributes(count):
    return "<r " + " ".join(f'a{n}="{n}"' for n in range(count)) + "/>"


def names(count):
    return "<r>" + "".join(f"<n{n}/>" for n in range(count)) + "</r>"


def prefixes(count):
    """Elements in each other, each of which declares a prefix of its own and is named by it."""
    return "".join(f'<p{n}:e xmlns:p{n}="u{n}">' for n in range(count)) + "".join(f"</p{n}:e>" for n in reversed(range(count)))


def write(folder, name, text):
    with open(os.path.join(folder, name), "w") as out:
        out.write(text)


def held(program, folder, count):
    """The bytes that a process holds with a database of this many empty elements."""
    write(folder, "rows.xml", flat(count))
    with subprocess.Popen([program], cwd=folder, stdin=subprocess.PIPE, stdout=subprocess.PIPE) as process:
        process.stdin.write(b"CREATE DB d rows.xml\n")
        process.stdin.flush()
        process.stdout.readline()
        with open(f"/proc/{process.pid}/status") as status:
            for line in status:
                if line.startswith("VmRSS:"):
                    kept = int(line.split()[1]) * 1024
        process.stdin.close()
        process.stdout.read()
    return kept


def words_of(basex):
    """BaseX reading d.xml into a database in main memory, without value indexes."""
    words = [basex]
    for command in ["SET MAINMEM true", "SET TEXTINDEX false", "SET ATTRINDEX false", "CREATE DB d d.xml"]:
        words += ["-c", command]
    return words


def main():
    program = os.path.abspath(sys.argv[1] if len(sys.argv) > 1 else "crates/xkern/out/xkern")
    if not os.path.exists(program):
        raise SystemExit(f"{program} isn't there: rt run in crates/xkern builds it")
    xmllint, basex = shutil.which("xmllint"), shutil.which("basex")
    with tempfile.TemporaryDirectory() as folder:
        print(f"{'document':26} {'bytes':>10} {'read s':>7} {'print s':>8} {'xmllint read':>13} {'print':>6} {'basex read':>11}")
        for name, text, compared in [
            ("items, 1 MB", items(1_000_000), True),
            ("items, 10 MB", items(10_000_000), True),
            ("items, 40 MB", items(40_000_000), True),
            ("250,000 siblings", flat(250_000), False),
            ("1,000,000 siblings", flat(1_000_000), False),
            ("250,000 levels", deep(250_000), False),
            ("1,000,000 levels", deep(1_000_000), False),
            ("25,000 attributes", attributes(25_000), False),
            ("100,000 attributes", attributes(100_000), False),
            ("250,000 names", names(250_000), False),
            ("1,000,000 names", names(1_000_000), False),
            ("50,000 nested prefixes", prefixes(50_000), False),
            ("200,000 nested prefixes", prefixes(200_000), False),
        ]:
            write(folder, "d.xml", text)
            read = least([program], b"CREATE DB d d.xml\n", folder)
            both = least([program], b"CREATE DB d d.xml\nEXPORT d.xml out.xml\n", folder)
            line = f"{name:26} {len(text):10} {read:7.3f} {both - read:8.3f}"
            if compared and xmllint is not None:
                other = least([xmllint, "--huge", "--noout", "d.xml"], b"", folder)
                whole = least([xmllint, "--huge", "--output", "out.xml", "d.xml"], b"", folder)
                line += f" {other:13.3f} {whole - other:6.3f}"
            if compared and basex is not None:
                line += f" {least(words_of(basex), b'', folder):11.3f}"
            print(line, flush=True)
        few, many = held(program, folder, 500_000), held(program, folder, 1_500_000)
        print(f"held for a row: {(many - few) / 1_000_000:.1f} bytes")


if __name__ == "__main__":
    main()
