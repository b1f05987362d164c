#!/usr/bin/env python3
"""Measures the benchmark program and its counterpart in plain Rust in turn, and prints the best of each.

Both programs have to be built first; `make bench` builds and measures them. A line consists of NAME, the millions of
samples a second of our program and of plain Rust, and their ratio. For whole files it also gives our millions of raw
bytes a second, and a last line gives the most memory of each program divided by the size of the raw bytes. Different
checksums are an error.

    compare [SUBJECT..]     cube, predictor, sample_coder, block_coder, files, lanes; all of them where none is named
    compare pipeline        encoding by predictors in threads, compared with one thread of the same program
    compare command         `ccsds compress` of a raw file, compared with the encoding alone, in seconds

TURNS in the environment is the number of times that both are measured. PEER names the program of another coder, to
compare whole files and pipelines with: `PEER bench OPTIONS RAW` prints its millions of samples a second.
"""

import os
import re
import subprocess
import sys
import tempfile
import time

TOP = os.path.dirname(os.path.dirname(os.path.abspath(__file__)))
OURS = os.path.join(TOP, "crates", "speed", "out", "speed")
PLAIN = os.path.join(TOP, "bench", "target", "release", "plain")
COMMAND = os.path.join(TOP, "crates", "ccsds", "out", "ccsds")
SUBJECTS = ["cube", "predictor", "sample_coder", "block_coder", "files", "lanes"]
TURNS = int(os.environ.get("TURNS", "5"))
PEER = os.environ.get("PEER")
PEER_ENGINES = ["plain", "kernel", "wide"]
PREDICTORS, SLOTS = [1, 2, 3], [1024, 65536]

# The sizes of the benchmark's synthetic cube, and the options that its files are coded with.
COLUMNS, ROWS, BANDS, BITS, BYTES = 512, 512, 24, 12, 2
ORDERS = {"bsq": ["bsq"], "bil": ["bi", "--depth", "1"], "bip": ["bi", "--depth", str(BANDS)]}
CODERS = {"sample": ["sample"], "block": ["block", "--block", "16", "--reference", "64"]}


class Best:
    """The best rate and the checksum of each loop of a program, and the most memory that it held."""

    def __init__(self, program):
        self.program = program
        self.loops = {}
        self.memory = 0

    def run(self, subject):
        """Runs the program, and returns the rates of this run alone."""
        with subprocess.Popen([self.program, subject], stdout=subprocess.PIPE, text=True) as run:
            lines = run.stdout.read().splitlines()
            _, status, usage = os.wait4(run.pid, 0)
            run.returncode = os.waitstatus_to_exitcode(status)
        if run.returncode != 0:
            sys.exit(f"{self.program} {subject}: status {run.returncode}")
        self.memory = max(self.memory, 1024 * usage.ru_maxrss)
        rates = {}
        for name, samples, nanos, checksum in map(str.split, lines):
            rates[name] = 1000 * int(samples) / int(nanos)
            self.take(name, rates[name], checksum)
        return rates

    def take(self, name, rate, checksum):
        most, known = self.loops.get(name, (0.0, checksum))
        if known != checksum:
            sys.exit(f"{name}: checksums {known} and {checksum}")
        self.loops[name] = (max(most, rate), checksum)


def compare(subject):
    ours, plain, peer = Best(OURS), Best(PLAIN), {}
    for _ in range(TURNS):
        ours.run(subject)
        plain.run(subject)
        if subject == "files" and PEER:
            peer_rates(peer)
    if list(ours.loops) != list(plain.loops):
        sys.exit(f"{subject}: the programs measure different loops")
    for name, (rate, checksum) in ours.loops.items():
        other, known = plain.loops[name]
        if known != checksum:
            sys.exit(f"{name}: checksum {checksum} of ours, {known} of plain Rust")
        megabytes = f"{BYTES * rate:10.1f} MB/s" if subject == "files" else ""
        print(f"{name:28} {rate:10.1f} {other:10.1f} {rate / other:8.2f}{megabytes}", flush=True)
    if subject == "files":
        raw = COLUMNS * ROWS * BANDS * BYTES
        print(f"{'most memory by raw bytes':28} {ours.memory / raw:10.2f} {plain.memory / raw:10.2f}")
    for (name, engine), rate in peer.items():
        mine = ours.loops[name][0]
        print(f"{name + ' ' + engine:28} {mine:10.1f} {rate:10.1f} {mine / rate:8.2f}", flush=True)


def compare_pipeline():
    """Compares each number of predictors with one thread in the same turns, and both with the other coder."""
    ours, peer = Best(OURS), {}
    for _ in range(TURNS):
        ours.run("pipeline")
        if PEER:
            peer_pipelines(peer)
    for order in ORDERS:
        names = [f"pipeline_{order}_{predictors}_by_{slots}" for predictors in PREDICTORS for slots in SLOTS]
        alone, known = ours.loops[f"pipeline_{order}_one_thread"]
        for name in names:
            rate, checksum = ours.loops[name]
            if checksum != known:
                sys.exit(f"{name}: checksum {checksum}, {known} of one thread")
            print(f"{name:28} {rate:10.1f} {alone:10.1f} {rate / alone:8.2f}", flush=True)
    for name, rate in peer.items():
        mine = ours.loops[name][0]
        print(f"{name + ' peer':28} {mine:10.1f} {rate:10.1f} {mine / rate:8.2f}", flush=True)


def peer_pipelines(best):
    """Updates the best rates of the other coder, on one thread and with pipelines."""
    with tempfile.NamedTemporaryFile() as raw:
        write_raw(raw.name)
        for order in ORDERS:
            words = [PEER, "bench"] + words_of(order, "sample") + ["--runs", "3", "--engine", "kernel"]
            take_peer(best, f"pipeline_{order}_one_thread", words + [raw.name])
            for predictors in PREDICTORS:
                for slots in SLOTS:
                    threads = ["--predictors", str(predictors), "--slots", str(slots), "--deal", "mod"]
                    take_peer(best, f"pipeline_{order}_{predictors}_by_{slots}", words + threads + [raw.name])


def take_peer(best, name, words):
    """Updates the best rate of a loop with the one at which the other coder encodes."""
    line = subprocess.run(words, check=True, stdout=subprocess.PIPE, text=True).stdout
    for rate in re.findall(r"encode [^;]*\(best ([0-9.]+)\)", line):
        best[name] = max(best.get(name, 0.0), float(rate))


def compare_command():
    """Compares the time of `ccsds compress`, files in a warm cache, with that of its encoding alone.

    Prints the turn with the median ratio, since the machine's own speed varies from turn to turn."""
    ours, turns = Best(OURS), []
    with tempfile.TemporaryDirectory() as room:
        raw, file = os.path.join(room, "raw"), os.path.join(room, "file")
        write_raw(raw)
        words = [COMMAND, "compress"] + words_of("bsq", "sample") + [raw, file]
        for _ in range(TURNS):
            # An unmeasured run, so that the files are in the cache again.
            seconds_of(words)
            whole = seconds_of(words)
            # The first loop of `files`, so it is measured right after the command.
            alone = COLUMNS * ROWS * BANDS / (1e6 * ours.run("files")["encode_sample_bsq"])
            turns.append((whole / alone, whole, alone))
    ratio, whole, alone = sorted(turns)[len(turns) // 2]
    print(f"{'compress':28} {whole:10.3f} {alone:10.3f} {ratio:8.2f}")


def seconds_of(words):
    """Returns the seconds that a command takes."""
    start = time.monotonic()
    subprocess.run(words, check=True)
    return time.monotonic() - start


def write_raw(path):
    """Writes the raw bytes of the synthetic cube."""
    with open(path, "wb") as raw:
        subprocess.run([PLAIN, "raw"], check=True, stdout=raw)


def words_of(order, coder):
    """Returns the options that the synthetic cube is compressed with."""
    words = ["--columns", str(COLUMNS), "--rows", str(ROWS), "--bands", str(BANDS), "--bits", str(BITS)]
    return words + ["--register", "32", "--order"] + ORDERS[order] + ["--coder"] + CODERS[coder]


def peer_rates(best):
    """Updates the best rates of the other coder's engines."""
    with tempfile.NamedTemporaryFile() as raw:
        write_raw(raw.name)
        for order in ORDERS:
            for coder in CODERS:
                for engine in PEER_ENGINES:
                    words = [PEER, "bench"] + words_of(order, coder) + ["--runs", "3", "--engine", engine, raw.name]
                    line = subprocess.run(words, check=True, stdout=subprocess.PIPE, text=True).stdout
                    for way, rate in re.findall(r"(encode|decode) [^;]*\(best ([0-9.]+)\)", line):
                        key = (f"{way}_{coder}_{order}", engine)
                        best[key] = max(best.get(key, 0.0), float(rate))


print(f"{'NAME':28} {'ours':>10} {'plain':>10} {'ratio':>8}")
for subject in sys.argv[1:] or SUBJECTS:
    if subject == "command":
        compare_command()
    elif subject == "pipeline":
        compare_pipeline()
    else:
        compare(subject)
