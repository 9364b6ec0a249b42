#!/usr/bin/env python3
"""Times paths over a document of 40 MB, and how the times grow.

    python3 bench/paths.py [PROGRAM]

PROGRAM is crates/xkern/out/xkern unless it is given. The documents are made anew at each run. A time is that of valuing a path
without printing: the path with a last step behind it that no node passes (`/self::none`), ten times in one session, less a
session that only reads the document; each session is run three times and the least time counts. Beside it stand BaseX, which
values the same path five times in one process (`prof:void(PATH)`, its own figure for evaluating, in main memory and without
its indexes of values), and `xmllint --xpath 'count(PATH)'` less the reading of the document, where they are installed."""
import os
import re
import shutil
import subprocess
import sys
import tempfile

from documents import deep, flat, items, least, write

PATHS = [
    "//item",
    "//item/@id",
    "/site/item/desc/b/text()",
    "//text()",
    "//b/ancestor::*",
    "//b/following-sibling::*",
]
TIMES = 10


def valued(program, folder, path):
    """The time of one valuation of a path, in milliseconds."""
    read = "CREATE DB d d.xml\n"
    base = least([program], read.encode(), folder)
    script = read + f"XQUERY {path}/self::none\n" * TIMES
    return (least([program], script.encode(), folder) - base) / TIMES * 1000


def basex_times(basex, folder):
    """BaseX's figures for evaluating each path, in milliseconds."""
    lines = ["SET MAINMEM true", "SET TEXTINDEX false", "SET ATTRINDEX false", "CREATE DB d d.xml"]
    lines += ["SET RUNS 5", "SET QUERYINFO true", "SET SERIALIZE false"]
    lines += [f"XQUERY prof:void({path})" for path in PATHS]
    write(folder, "paths.bxs", "\n".join(lines) + "\n")
    done = subprocess.run([basex, "-V", "paths.bxs"], cwd=folder, capture_output=True, text=True)
    return [float(found) for found in re.findall(r"Evaluating: ([0-9.]+) ms", done.stdout)]


def xmllint_time(xmllint, folder, path):
    """xmllint's time less that of reading, in milliseconds; None where it takes longer than 10 seconds."""
    command = [xmllint, "--huge", "--xpath", f"count({path})", "d.xml"]
    try:
        subprocess.run(command, cwd=folder, stdout=subprocess.DEVNULL, timeout=10, check=True)
    except subprocess.TimeoutExpired:
        return None
    base = least([xmllint, "--huge", "--noout", "d.xml"], b"", folder)
    return (least(command, b"", folder) - base) * 1000


def main():
    program = os.path.abspath(sys.argv[1] if len(sys.argv) > 1 else "crates/xkern/out/xkern")
    if not os.path.exists(program):
        raise SystemExit(f"{program} isn't there: rt run in crates/xkern builds it")
    basex, xmllint = shutil.which("basex"), shutil.which("xmllint")
    with tempfile.TemporaryDirectory() as folder:
        write(folder, "d.xml", items(40_000_000))
        others = basex_times(basex, folder) if basex else []
        print(f"{'path':28} {'ms':>8} {'BaseX ms':>9} {'xmllint ms':>11}")
        for number, path in enumerate(PATHS):
            line = f"{path:28} {valued(program, folder, path):8.1f}"
            line += f" {others[number]:9.1f}" if number < len(others) else " " * 10
            other = xmllint_time(xmllint, folder, path) if xmllint else None
            line += f" {other:11.1f}" if other is not None else ""
            print(line, flush=True)
        for name, text, path in [
            ("//item, 10 MB", items(10_000_000), "//item"),
            ("//item, 20 MB", items(20_000_000), "//item"),
            ("//item, 40 MB", items(40_000_000), "//item"),
            ("//e//e, 250,000 levels", deep(250_000), "//e//e"),
            ("//e//e, 1,000,000 levels", deep(1_000_000), "//e//e"),
            ("//e/ancestor::*, 1,000,000 levels", deep(1_000_000), "//e/ancestor::*"),
            ("//e/following-sibling::*, 250,000 siblings", flat(250_000), "//e/following-sibling::*"),
            ("//e/following-sibling::*, 1,000,000 siblings", flat(1_000_000), "//e/following-sibling::*"),
            ("//e/preceding::*, 1,000,000 siblings", flat(1_000_000), "//e/preceding::*"),
        ]:
            write(folder, "d.xml", text)
            print(f"{name:46} {valued(program, folder, path):8.1f}", flush=True)


if __name__ == "__main__":
    main()
