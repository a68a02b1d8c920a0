#!/usr/bin/env python3
"""Times the built program on inputs of one and of two sizes, and prints both times and their ratio. Where `valgrind` is
there, the ratio of the instructions is printed too, and a ratio above 2.5 of these is a failure; else one of the times is.

usage: bench/bench.py [PROGRAM]     (default: crates/pyflow/out/pyflow, which `rt run` in crates/pyflow builds)
"""
import json
import re
import shutil
import subprocess
import sys
import time
from pathlib import Path

import token_texts

TOP = Path(__file__).resolve().parent.parent
PROGRAM = sys.argv[1] if len(sys.argv) > 1 else str(TOP / "crates/pyflow/out/pyflow")
REPEATS = 9
# Texts that a tokenizer may be slow on; `pyflow` cuts each whole before it looks at the first line.
TEXTS = [
    "ordinary_code",
    "digits",
    "double_quotes",
    "open_brackets",
    "open_brackets_by_line",
    "backslashes",
    "f_braces",
    "f_fields",
]


def session(text):
    lines = [{"op": "open", "file": "a.py", "version": 1, "text": text}, {"op": "end"}]
    return "".join(json.dumps(line, separators=(",", ":")) + "\n" for line in lines).encode()


def seconds(data, piece=None):
    """The best time of a few runs; with a piece, the input comes in writes of that many bytes."""
    best = None
    for _ in range(REPEATS if piece is None else 1):
        start = time.perf_counter()
        process = subprocess.Popen([PROGRAM, "serve"], stdin=subprocess.PIPE, stdout=subprocess.DEVNULL)
        try:
            if piece is None:
                process.stdin.write(data)
            else:
                raw = process.stdin.raw if hasattr(process.stdin, "raw") else process.stdin
                for at in range(0, len(data), piece):
                    raw.write(data[at:at + piece])
            process.stdin.close()
        except BrokenPipeError:
            pass
        status = process.wait(timeout=120)
        took = time.perf_counter() - start
        if status != 0:
            sys.exit(f"status {status}")
        best = took if best is None else min(best, took)
    return best


def instructions(data):
    """How many instructions the program executes on this input."""
    command = ["valgrind", "--tool=callgrind", "--callgrind-out-file=/dev/null", PROGRAM, "serve"]
    done = subprocess.run(command, input=data, stdout=subprocess.DEVNULL, stderr=subprocess.PIPE, check=True)
    return int(re.search(rb"refs:\s*([0-9,]+)", done.stderr)[1].replace(b",", b""))


def pair(name, half, whole):
    """Prints the row of two inputs, and gives the ratio that counts."""
    first, second = seconds(half), seconds(whole)
    ratio = second / first
    row = f"{name:<44} {first * 1000:9.1f} ms {second * 1000:9.1f} ms   ratio {ratio:.2f}"
    if shutil.which("valgrind"):
        ratio = instructions(whole) / instructions(half)
        row += f"   of instructions {ratio:.2f}"
    print(row, flush=True)
    return ratio


def literals(count):
    return session("".join(f"v{i} = {i}\n" for i in range(count)))


def chain(count):
    lines = ["a0 = 1\n"] + [f"a{i} = a{i - 1}\n" for i in range(1, count)] + [f"reveal_type(a{count - 1})\n"]
    return session("".join(lines))


def refusals(count):
    return b'{"op":"rename"}\n' * count + b'{"op":"end"}\n'


def main():
    ratios = [
        pair("18,000 and 36,000 lines v{i} = {i}", literals(18000), literals(36000)),
        pair("10,000 and 20,000 lines a{i} = a{i-1}, reveal", chain(10000), chain(20000)),
        pair("2,000 and 4,000 session lines", refusals(2000), refusals(4000)),
        pair("one line, 1 and 2 MB of text", session("#" * 1000000), session("#" * 2000000)),
    ]
    for name in TEXTS:
        text = getattr(token_texts, name)
        shown = "256 and 512 KiB: " + name.replace("_", " ")
        ratios.append(pair(shown, session(text(262144)), session(text(524288))))
    data = refusals(2000)
    print(f"{'2,000 session lines in pieces of 1 byte':<44} {seconds(data, 1) * 1000:9.1f} ms")
    print(f"{'2,000 session lines in pieces of 4,096':<44} {seconds(data, 4096) * 1000:9.1f} ms")
    if max(ratios) > 2.5:
        sys.exit("a ratio is above 2.5")


main()
