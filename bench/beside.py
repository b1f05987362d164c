#!/usr/bin/env python3
"""Compares the ratio and the speed of `ccsds` with those of common compressors on a scene, on one thread each.

    bench/beside.py                                a seeded scene, made by the plain Rust program of bench/
    bench/beside.py OPTIONS RAW                    a scene of your own, with the options that `ccsds compress` takes for it

Prints a table in Markdown: the program, the raw bytes divided by the coded bytes, and the millions of raw bytes a second of
compressing and of expanding. Each speed is the best of three turns, or of TURNS in the environment, with files in a warm cache; no turn
begins after six seconds. Programs that aren't installed are left out. PLOT=FILE.svg draws ratio against speed. `make beside` builds
what is needed.
"""

import math
import os
import shutil
import subprocess
import sys
import tempfile
import time

TOP = os.path.dirname(os.path.dirname(os.path.abspath(__file__)))
PLAIN = os.path.join(TOP, "bench", "target", "release", "plain")
COMMAND = os.environ.get("PROGRAM", os.path.join(TOP, "crates", "ccsds", "out", "ccsds"))
TURNS = int(os.environ.get("TURNS", "3"))

# A scene of 14 bits in two bytes, interleaved by line, the low byte first, as a push-broom spectrometer delivers it.
SEED, COLUMNS, ROWS, BANDS, BITS = 1, 512, 512, 64, 14
OPTIONS = f"--columns {COLUMNS} --rows {ROWS} --bands {BANDS} --bits {BITS} --layout bil --little".split()


class Tool:
    """A program, and the words that compress and expand a file."""

    def __init__(self, name, there, back):
        self.name, self.there, self.back = name, there, back

    def is_installed(self):
        return shutil.which(self.there[0]) is not None


def tools(options):
    """Yields the programs to measure: ours with several options, and other compressors."""
    layout = layout_of(options)
    ways = [
        ("ccsds", []),
        ("ccsds, block-adaptive", ["--coder", "block", "--block", "16"]),
        ("ccsds, reduced, column sums", ["--reduced", "--column-sums"]),
        ("ccsds, no previous band", ["--previous", "0", "--reduced"]),
    ]
    for name, more in ways:
        yield Tool(name, [COMMAND, "compress", *options, *more, "RAW", "FILE"], [COMMAND, "expand", *layout, "FILE", "BACK"])
    bits = next(options[i + 1] for i, word in enumerate(options) if word == "--bits")
    aec = ["aec", "-n", bits, "-j", "16", "-r", "64", *([] if "--little" in options else ["-m"])]
    yield Tool("aec (121.0-B alone)", [*aec, "RAW", "FILE"], [*aec[:1], "-d", *aec[1:], "FILE", "BACK"])
    for level in ("-1", "-3", "-9", "-19"):
        yield Tool(f"zstd {level}", ["zstd", "-q", "-f", level, "RAW", "-o", "FILE"], ["zstd", "-q", "-f", "-d", "FILE", "-o", "BACK"])
    for level in ("-1", "-6"):
        yield Tool(f"xz {level}", ["xz", "-T1", "-k", "-c", level, "RAW"], ["xz", "-T1", "-d", "-k", "-c", "FILE"])


def layout_of(options):
    """Returns those of the options that `expand` takes, too."""
    words = ["--little"] if "--little" in options else []
    for i, word in enumerate(options):
        if word in ("--layout", "--bytes"):
            words += options[i : i + 2]
    return words


def seconds_of(words, paths, target):
    """Returns the seconds that a program takes. Where its words don't name the target, its standard output goes there."""
    words = [paths.get(word, word) for word in words]
    with open(os.devnull if paths[target] in words else paths[target], "wb") as out:
        start = time.monotonic()
        subprocess.run(words, check=True, stdout=out)
        return time.monotonic() - start


def best_of(words, paths, target):
    """Returns the least time of a few turns; a slow program has fewer."""
    turns = [seconds_of(words, paths, target)]
    while len(turns) < TURNS and sum(turns) < 6:
        turns.append(seconds_of(words, paths, target))
    return min(turns)


def measure(tool, paths):
    """Returns the ratio of sizes, and the megabytes a second of compressing and of expanding."""
    there = best_of(tool.there, paths, "FILE")
    back = best_of(tool.back, paths, "BACK")
    with open(paths["RAW"], "rb") as raw, open(paths["BACK"], "rb") as again:
        if raw.read() != again.read():
            sys.exit(f"{tool.name}: the scene did not come back")
    size = os.path.getsize(paths["RAW"])
    return size / os.path.getsize(paths["FILE"]), size / 1e6 / there, size / 1e6 / back


def plot(rows):
    """Returns a picture of ratio against compression speed, with a logarithmic scale for the speed."""
    width, height, left, low = 640, 400, 60, 350
    most = max(ratio for _, ratio, _, _ in rows) * 1.1
    along = lambda speed: left + (width - left - 150) * math.log10(max(speed, 1)) / 3
    up = lambda ratio: low - (low - 30) * (ratio - 1) / (most - 1)
    lines = [f'<svg xmlns="http://www.w3.org/2000/svg" viewBox="0 0 {width} {height}" font-family="sans-serif" font-size="12">']
    lines += [f'<rect width="{width}" height="{height}" fill="white"/>']
    for power in range(4):
        x = along(10**power)
        lines += [f'<path d="M{x:.0f} 30V{low}" stroke="#ddd"/>', f'<text x="{x:.0f}" y="{low + 18}" text-anchor="middle">{10**power}</text>']
    for tenth in range(10, int(10 * most) + 1, 2):
        y = up(tenth / 10)
        lines += [f'<path d="M{left} {y:.0f}H{width - 150}" stroke="#ddd"/>', f'<text x="{left - 8}" y="{y + 4:.0f}" text-anchor="end">{tenth / 10:.1f}</text>']
    lines += [f'<text x="{(left + width - 150) // 2}" y="{low + 38}" text-anchor="middle">millions of raw bytes a second, compressing</text>']
    lines += [f'<text x="{left - 44}" y="20">raw bytes by coded bytes</text>']
    labels = []
    for name, ratio, speed, _ in sorted(rows, key=lambda row: -row[1]):
        color = "#c0392b" if name.startswith("ccsds") else "#2c3e50"
        x, y = along(speed) + 8, up(ratio) + 4
        # A label that would cover another goes below it.
        while any(abs(y - other) < 13 and x < end and from_x < x + 7 * len(name) for from_x, end, other in labels):
            y += 2
        labels.append((x, x + 7 * len(name), y))
        lines += [f'<circle cx="{along(speed):.0f}" cy="{up(ratio):.0f}" r="4" fill="{color}"/>']
        lines += [f'<text x="{x:.0f}" y="{y:.0f}" fill="{color}">{name}</text>']
    return "\n".join([*lines, "</svg>", ""])


def main():
    words = sys.argv[1:]
    with tempfile.TemporaryDirectory() as room:
        paths = {name: os.path.join(room, name) for name in ("RAW", "FILE", "BACK")}
        options = words[:-1] if words else OPTIONS
        if words:
            paths["RAW"] = os.path.abspath(words[-1])
        else:
            with open(paths["RAW"], "wb") as raw:
                subprocess.run([PLAIN, "scene", *map(str, (SEED, COLUMNS, ROWS, BANDS, BITS))], check=True, stdout=raw)
        rows = []
        print("| program | ratio | compress, MB/s | expand, MB/s |\n|---|---|---|---|")
        for tool in tools(options):
            if tool.is_installed():
                rows.append((tool.name, *measure(tool, paths)))
                print("| {} | {:.2f} | {:.3g} | {:.3g} |".format(*rows[-1]), flush=True)
    if os.environ.get("PLOT"):
        with open(os.environ["PLOT"], "w", encoding="utf-8") as picture:
            picture.write(plot(rows))


main()
