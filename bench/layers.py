#!/usr/bin/env python3
"""Times the layers behind tokens, one by one: runs `layer_counts` on texts of one size and of twice that, up to a layer and up to the one
below it, and prints what the layer alone took, both times and their ratio. Where `valgrind` is there, the ratio of the instructions is
printed too, and a ratio above 2.5 of these is a failure; else one of the times is.

usage: bench/layers.py [PROGRAM]     (default: crates/layer_counts/out/layer_counts, which `rt run` in crates/layer_counts builds)
"""
import re
import shutil
import subprocess
import sys
import time
from pathlib import Path

import layer_texts

TOP = Path(__file__).resolve().parent.parent
PROGRAM = sys.argv[1] if len(sys.argv) > 1 else str(TOP / "crates/layer_counts/out/layer_counts")
REPEATS = 5
BELOW = {"expressions": "lines", "module": "lines", "scopes": "module", "flow": "scopes"}
# A layer, a text of bench/layer_texts.py, and half of its size.
ROWS = [
    ("expressions", "list_line", 100000),
    ("expressions", "entries_line", 100000),
    ("expressions", "sum_line", 100000),
    ("expressions", "comparison_line", 100000),
    ("expressions", "dict_line", 100000),
    ("expressions", "call_line", 100000),
    ("expressions", "field_line", 100000),
    ("expressions", "names_line", 60000),
    ("module", "ordinary_code", 262144),
    ("module", "one_block", 262144),
    ("module", "semicolons", 262144),
    ("module", "closed_blocks", 20000),
    ("module", "clauses", 20000),
    ("module", "cases", 10000),
    ("module", "one_long_chain", 15000),
    ("module", "one_long_try", 10000),
    ("module", "nonlocals", 4000),
    ("module", "faulty_lines", 30000),
    ("module", "faulty_headers", 9000),
    ("module", "faulty_lines_between_clauses", 10000),
    ("module", "tries_without_clauses", 20000),
    ("module", "faulty_columns", 18000),
    ("module", "faulty_lines_in_blocks", 6000),
    ("scopes", "ordinary_code", 262144),
    ("scopes", "names_in_one_scope", 40000),
    ("scopes", "sibling_scopes", 5000),
    ("scopes", "nested_scopes", 3500),
    ("scopes", "nonlocals", 4000),
    ("flow", "ordinary_code", 262144),
    ("flow", "statements", 10000),
    ("flow", "calls_under_handlers", 2000),
    ("flow", "ifs", 5000),
    ("flow", "comprehension", 60),
]


def seconds(words, text):
    """The best time of a few runs."""
    best = None
    for _ in range(REPEATS):
        start = time.perf_counter()
        subprocess.run([PROGRAM, *words], input=text, stdout=subprocess.DEVNULL, check=True)
        took = time.perf_counter() - start
        best = took if best is None else min(best, took)
    return best


def instructions(words, text):
    """How many instructions the program executes."""
    command = ["valgrind", "--tool=callgrind", "--callgrind-out-file=/dev/null", PROGRAM, *words]
    done = subprocess.run(command, input=text, stdout=subprocess.DEVNULL, stderr=subprocess.PIPE, check=True)
    return int(re.search(rb"refs:\s*([0-9,]+)", done.stderr)[1].replace(b",", b""))


def alone(measure, layer, text):
    """What a layer takes without those below it."""
    return measure([layer], text) - measure([BELOW[layer]], text)


def pair(name, measures, size=None):
    """Prints the row of two inputs, and gives the ratio that counts."""
    first, second = measures(seconds)
    ratio = second / first
    row = f"{name:<44} {first * 1000:9.1f} ms {second * 1000:9.1f} ms   ratio {ratio:.2f}"
    if size:
        row += f"   {size / second / 1e6:.1f} MB/s"
    if shutil.which("valgrind"):
        half, whole = measures(instructions)
        ratio = whole / half
        row += f"   {half / 1e6:.0f} and {whole / 1e6:.0f} million instructions, ratio {ratio:.2f}"
    print(row, flush=True)
    return ratio


def main():
    ratios = []
    for layer, name, half in ROWS:
        texts = [getattr(layer_texts, name)(size).encode() for size in (half, 2 * half)]
        if len(texts[1]) > 524288:
            sys.exit(f"{name}: {len(texts[1])} bytes are more than a text may have")
        shown = f"{layer}: {name.replace('_', ' ')}, {half} and {2 * half}"
        ratios.append(pair(shown, lambda measure: [alone(measure, layer, text) for text in texts], len(texts[1])))
    for word, half in (("nodes", 250000), ("names", 50000)):
        ratios.append(pair(f"{word}: {half} and {2 * half}", lambda measure: [measure([word, str(n)], b"") for n in (half, 2 * half)]))
    if max(ratios) > 2.5:
        sys.exit("a ratio is above 2.5")


main()
