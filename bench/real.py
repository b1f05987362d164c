#!/usr/bin/env python3
"""Compares the size of our file with those of common compressors on a real scene: Landsat 7, 349 columns, 352 rows, 6 bands of 8 bits.

    bench/real.py [PROGRAM]

The scene is `tif/L7_ETMs.tif` of the Debian package r-cran-stars, which this downloads by `apt-get download` where STARS_TIF doesn't name the
file; nothing of it is kept. GDAL turns it into an ENVI pair, whose raw samples every program gets. Prints a table in Markdown: the program, the bytes of its
file, and the raw bytes divided by them. Our file is expanded again and compared. Needs GDAL, libaec's program, xz and zstd (Debian: gdal-bin,
libaec-tools, xz-utils, zstd); without one of them it ends with status 3.
"""

import os
import re
import shutil
import subprocess
import sys
import tempfile

TOP = os.path.dirname(os.path.dirname(os.path.abspath(__file__)))
NEEDED = {"gdal_translate": "gdal-bin", "aec": "libaec-tools", "xz": "xz-utils", "zstd": "zstd", "dpkg-deb": "dpkg"}
JPEG_2000 = ["-of", "JP2OpenJPEG", "-co", "QUALITY=100", "-co", "REVERSIBLE=YES"]
DEFLATE = ["-of", "GTiff", "-co", "COMPRESS=DEFLATE", "-co", "PREDICTOR=2", "-co", "ZLEVEL=9"]
OURS = [
    ("ccsds", []),
    ("ccsds, 5 previous bands", ["--previous", "5"]),
    ("ccsds, block-adaptive", ["--coder", "block", "--block", "16"]),
]


def run(*words, **how):
    ran = subprocess.run(words, stdout=subprocess.PIPE, stderr=subprocess.STDOUT, text=True, check=False, **how)
    if ran.returncode != 0:
        sys.exit(f"real: {' '.join(words)}: {ran.stdout.strip()}")
    return ran.stdout


def scene(folder):
    """Returns the path of the scene, from the package where the environment doesn't name it."""
    if "STARS_TIF" in os.environ:
        return os.environ["STARS_TIF"]
    run("apt-get", "download", "r-cran-stars", cwd=folder)
    package = next(name for name in os.listdir(folder) if name.endswith(".deb"))
    run("dpkg-deb", "-x", package, "package", cwd=folder)
    found = [os.path.join(at, name) for at, _, names in os.walk(os.path.join(folder, "package")) for name in names if name == "L7_ETMs.tif"]
    return found[0]


def options_of(path):
    """Returns the options of `compress` that an ENVI header stands for."""
    with open(path, encoding="utf-8") as file:
        fields = dict(re.findall(r"^(\w[\w ]*?) *= *(\w+)$", file.read(), re.M))
    if fields["data type"] != "1" or fields["interleave"] != "bsq":
        sys.exit(f"real: {path}: not a scene of bytes, band after band")
    return ["--columns", fields["samples"], "--rows", fields["lines"], "--bands", fields["bands"], "--bits", "8", "--bytes", "1"]


def sizes(program, tif, folder):
    """Yields the name of each program and the size of its file, the raw samples first."""
    raw, out, back = (os.path.join(folder, name) for name in ("scene.img", "out", "back"))
    run("gdal_translate", "-q", "-of", "ENVI", "-co", "INTERLEAVE=BSQ", tif, raw)
    yield "raw samples", os.path.getsize(raw)
    for name, more in OURS:
        run(program, "compress", *options_of(os.path.join(folder, "scene.hdr")), *more, raw, out)
        yield name, os.path.getsize(out)
        run(program, "expand", "--bytes", "1", out, back)
        run("cmp", raw, back)
    for name, words in (("JPEG 2000, reversible (GDAL, OpenJPEG)", JPEG_2000), ("GTiff, DEFLATE and predictor (GDAL)", DEFLATE)):
        run("gdal_translate", "-q", *words, tif, f"{out}.gdal")
        yield name, os.path.getsize(f"{out}.gdal")
    run("aec", "-n", "8", "-j", "16", "-r", "64", raw, out)
    yield "aec (121.0-B alone)", os.path.getsize(out)
    run("sh", "-c", 'xz -6 -c "$1" > "$2"', "sh", raw, out)
    yield "xz -6", os.path.getsize(out)
    run("zstd", "-q", "-f", "-19", raw, "-o", out)
    yield "zstd -19", os.path.getsize(out)


def main():
    program = os.path.realpath(sys.argv[1] if len(sys.argv) > 1 else os.path.join(TOP, "crates", "ccsds", "out", "ccsds"))
    for command, package in NEEDED.items():
        if not shutil.which(command):
            print(f"real: {command} isn't in the PATH (Debian: {package})", file=sys.stderr)
            return 3
    with tempfile.TemporaryDirectory() as folder:
        found = list(sizes(program, scene(folder), folder))
    whole = found[0][1]
    print("| program | bytes | ratio |\n|---|---|---|")
    for name, size in found:
        print(f"| {name} | {size:,} | {whole / size:.2f} |")
    return 0


if __name__ == "__main__":
    sys.exit(main())
