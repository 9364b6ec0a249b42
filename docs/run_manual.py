#!/usr/bin/env python3
"""Runs the manual's examples on a built program.

    python3 docs/run_manual.py [PROGRAM]

PROGRAM is crates/xkern/out/xkern unless it is given. Each block of MANUAL.md whose fence names no language is a run: a
command, then its reply, which is `err` and a code or `ok` and a length with a payload of so many bytes behind it, and so on.
Its commands are given to the program as one script, and what the program writes must be the block's replies. Blocks with a
language (`sh`, `text`, `xquery`) are no runs. A line `<!-- file NAME: TEXT -->` before a block gives the run a file, in whose
text `\\n` and `\\r` stand for line ends."""
import os
import re
import subprocess
import sys
import tempfile


def cut(block):
    """The commands of a block, and its replies."""
    commands, replies = [], b""
    rest = block
    while rest:
        line, _, rest = rest.partition(b"\n")
        commands.append(line)
        head, _, rest = rest.partition(b"\n")
        replies += head + b"\n"
        if head.startswith(b"ok "):
            length = int(head[3:])
            replies += rest[: length + 1]
            rest = rest[length + 1 :]
        elif not head.startswith(b"err "):
            raise SystemExit(f"behind {line.decode()} stands no reply: {head.decode()}")
    return commands, replies


def main():
    program = os.path.abspath(sys.argv[1] if len(sys.argv) > 1 else "crates/xkern/out/xkern")
    here = os.path.dirname(os.path.abspath(__file__))
    with open(os.path.join(here, "MANUAL.md"), "rb") as manual:
        text = manual.read()
    runs, wrong = 0, 0
    for found in re.finditer(rb"((?:^<!-- file [^\n]* -->\n)*)^```(\w*)\n(.*?)^```\n", text, re.M | re.S):
        if found.group(2):
            continue
        commands, replies = cut(found.group(3))
        with tempfile.TemporaryDirectory() as folder:
            for name, content in re.findall(rb"^<!-- file (\S+): (.*) -->$", found.group(1), re.M):
                path = os.path.join(folder, name.decode())
                os.makedirs(os.path.dirname(path), exist_ok=True)
                with open(path, "wb") as out:
                    out.write(content.replace(rb"\n", b"\n").replace(rb"\r", b"\r"))
            script = b"".join(command + b"\n" for command in commands)
            done = subprocess.run([program], input=script, cwd=folder, stdout=subprocess.PIPE, check=False)
        runs += 1
        if done.stdout != replies:
            wrong += 1
            print(f"not what the manual shows:\n{script.decode()}writes\n{done.stdout.decode()}", file=sys.stderr)
    print(f"manual: {runs} runs, {wrong} wrong")
    return 1 if wrong or not runs else 0


if __name__ == "__main__":
    sys.exit(main())
