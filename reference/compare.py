#!/usr/bin/env python3
"""compare.py PROGRAM SEED N [--quick] [--no-grammar] [--open-readings] [--show I] [--only I]

Makes N random scripts, runs PROGRAM on each (script on standard input, in a fresh folder with the
files) and compares standard output byte for byte, the files afterwards and the status with
reference.py. Prints at most 10 differences, each with a shortened script, and a count.
The script number I of SEED is always the same; --only I runs it alone, --show I prints it."""
import argparse
import os
import random
import subprocess
import sys
import tempfile
import time
import traceback
from collections import Counter
from concurrent.futures import ProcessPoolExecutor

HERE = os.path.dirname(os.path.abspath(__file__))
sys.path.insert(0, HERE)
import generate
from reference import Reference


def lay(folder, files):
    for name, data in files.items():
        path = os.path.join(folder.encode(), name.encode())
        os.makedirs(os.path.dirname(path), exist_ok=True)
        with open(path, "wb") as f:
            f.write(data)


def found(folder):
    out = {}
    top = folder.encode()
    for at, dirs, names in os.walk(top):
        for n in names:
            p = os.path.join(at, n)
            with open(p, "rb") as f:
                out[os.path.relpath(p, top).decode("utf-8", "surrogateescape")] = f.read()
    return out


def run_program(program, script, files):
    with tempfile.TemporaryDirectory(prefix="xkref") as d:
        lay(d, files)
        try:
            r = subprocess.run(program, input=script, cwd=d, capture_output=True, timeout=60)
            got = (r.stdout, r.returncode, r.stderr)
        except subprocess.TimeoutExpired:
            got = (b"(no end in 60 seconds)", None, b"")
        return got + (found(d),)


def replies(out):
    """The replies of an output; what isn't a whole reply is the last item."""
    got, p = [], 0
    while p < len(out):
        e = out.find(b"\n", p)
        q = len(out)
        if e >= 0:
            head = out[p:e]
            if head.startswith(b"ok ") and head[3:].isdigit():
                q = min(len(out), e + 1 + int(head[3:]) + 1)
            elif head.startswith(b"err "):
                q = e + 1
        got.append(out[p:q])
        p = q
    return got


def reference_run(script, files):
    ref = Reference(files)
    out, status = ref.run(script)
    return ref, out, status


def differs(program, script, files):
    """None, or (what, index of the reply or None, reference)"""
    return judge(reference_run(script, files), run_program(program, script, files))


def judge(right, given):
    ref, want, status = right
    out, code, err, after = given
    if out != want:
        a, b = replies(out), [r for _, r in ref.log]
        i = 0
        while i < len(a) and i < len(b) and a[i] == b[i]:
            i += 1
        line = ref.log[i][0] if i < len(ref.log) else b"(no line)"
        return ("reply %d to the line\n    %r\n  program   %r\n  reference %r" % (
            i + 1, line[:3000], a[i][:3000] if i < len(a) else b"(nothing)", b[i][:3000] if i < len(b) else b"(nothing)"), i, ref)
    if code != status:
        return "status %r, reference %r, standard error %r" % (code, status, err[:500]), None, ref
    if after != ref.files:
        names = sorted(n for n in set(after) | set(ref.files) if after.get(n) != ref.files.get(n))
        n = names[0]
        return "file %r\n  program   %r\n  reference %r" % (n, _cut(after.get(n)), _cut(ref.files.get(n))), None, ref
    if err:
        return "standard error %r" % err[:500], None, ref
    return None


def _cut(b):
    return b if b is None else b[:3000]


def shorten(program, script, files, until):
    """Leaves out lines and files while the program still differs."""
    lines = script.split(b"\n")
    tail = b""
    if lines[-1] == b"":
        lines.pop()
        tail = b"\n"
    first = differs(program, script, files)
    # what the difference is about: the two heads of the replies

    def same(text, fs):
        if time.time() > until:
            return False
        try:
            d = differs(program, text, fs)
        except Exception:
            return False
        return d is not None and (d[1] is None) == (first[1] is None)
    i = len(lines) - 1
    while i >= 0:
        less = lines[:i] + lines[i + 1:]
        if same(b"\n".join(less) + tail, files):
            lines = less
        i -= 1
    files = dict(files)
    for n in sorted(files):
        less = {k: v for k, v in files.items() if k != n}
        if same(b"\n".join(lines) + tail, less):
            files = less
    return b"\n".join(lines) + tail, files


def make(seed, i, args):
    fixed = {0: ["TABLE " + t for t in generate.PITS],
             1: ["CREATE DB d <a><b k='1'>x<?t v?></b><!--c--><text/></a>"] + ["XQUERY " + q for q in generate.FIXED],
             2: ["XQUERY " + q for q in generate.FIXED], 3: generate.OTHER}.get(i)
    if fixed is not None:
        # the first four scripts are all fixed texts, the same for every seed
        return b"".join(l.replace("\n", " ").encode() + b"\n" for l in fixed) + b"".join(r + b"\n" for r in generate.RAW), {}
    rng = random.Random("%s:%d" % (seed, i))
    return generate.script(rng, grammar=not args.no_grammar, open_readings=args.open_readings)


def one(work):
    """(number, lines, heads of the reference's replies, difference or None, fault of the reference)"""
    args, program, i = work
    try:
        script, files = make(args.seed, i, args)
        right = reference_run(script, files)
        diff = judge(right, run_program(program, script, files))
        heads = Counter()
        for _, r in right[0].log:
            head = r.split(b"\n", 1)[0].decode()
            heads[head if head.startswith("err") else "ok 0" if head == "ok 0" else "ok n"] += 1
        n = script.count(b"\n") + (0 if script.endswith(b"\n") else 1)
        return i, n, heads, diff[0] if diff else None, None
    except Exception:
        return i, 0, Counter(), None, traceback.format_exc()


def main():
    words = argparse.ArgumentParser()
    words.add_argument("program")
    words.add_argument("seed")
    words.add_argument("n", type=int)
    words.add_argument("--no-grammar", action="store_true")
    words.add_argument("--open-readings", action="store_true")
    words.add_argument("--only", type=int)
    words.add_argument("--show", type=int)
    words.add_argument("--quick", action="store_true", help="don't shorten scripts")
    words.add_argument("--jobs", type=int, default=3)
    args = words.parse_args()
    program = [os.path.abspath(args.program)]
    if args.show is not None:
        script, files = make(args.seed, args.show, args)
        for name in sorted(files):
            print("file %r: %r" % (name, files[name]))
        ref, out, status = reference_run(script, files)
        for line, reply in ref.log:
            print("%r\n    %r" % (line, reply))
        return 0
    todo = [args.only] if args.only is not None else list(range(args.n))
    shown = lines = answered = bad = broken = 0
    codes = Counter()
    step = 200
    with ProcessPoolExecutor(max_workers=args.jobs) as pool:
        for at in range(0, len(todo), step):
            for i, n, heads, diff, trace in pool.map(one, [(args, program, i) for i in todo[at:at + step]], chunksize=5):
                if trace:
                    broken += 1
                    if broken <= 3:
                        print("script %d: the reference broke\n%s" % (i, trace))
                    continue
                lines += n
                answered += sum(heads.values())
                codes.update(heads)
                if diff is None:
                    continue
                bad += 1
                script, files = make(args.seed, i, args)
                if shown < 10:
                    shown += 1
                    short, fs = shorten(program, script, files, time.time() + (0 if args.quick else 8))
                    d = differs(program, short, fs)
                    print("---- script %d of seed %s: %s" % (i, args.seed, d[0] if d else diff))
                    print("  shortened script, %d of %d lines:" % (short.count(b"\n"), script.count(b"\n")))
                    for l in short.split(b"\n"):
                        print("    %r" % (l if len(l) < 3000 else l[:3000] + b"..."))
                    for name in sorted(fs):
                        print("  file %r: %r" % (name, fs[name][:3000]))
                    sys.stdout.flush()
    print("replies of the reference: " + ", ".join("%s %d" % kv for kv in sorted(codes.items())))
    print("%d scripts, %d lines, %d replies compared, %d scripts differ%s"
          % (len(todo), lines, answered, bad, ", the reference broke in %d" % broken if broken else ""))
    return 1 if bad or broken else 0


if __name__ == "__main__":
    sys.exit(main())
