"""What the library for C answers to wrong input: each fault by its number, names and values, and nothing written."""

import os
import re
from ctypes import byref, c_uint8, c_uint64, create_string_buffer

from clibrary import HEADER, Fault, Layout, bytes_of
from harness import TOP, header

BIG = Layout(0, 2, 0)
SMALL = {"columns": 4, "rows": 3, "bands": 2, "bits": 12}
RAW = bytes(i if i % 2 else i // 4 for i in range(48))
"""Samples of 12 bits, the high byte first."""
TABLES = {"weight_table": 1, "weight_bits": 16, "accumulator_table": 1}
WEIGHTS = [7, -3, 100, 5, 6, -7, 8]

# Members that differ from those of SMALL, and the fault of the parameters.
WRONG = [
    ({"size": 0}, (22, 0, 116, 0), "22 StructSize 116 0"),
    ({"size": 117}, (22, 0, 116, 117), "22 StructSize 116 117"),
    ({"order": 2}, (23, 1, 2, 0), "23 Choice Order 2"),
    ({"coder": 0xFFFFFFFF}, (23, 2, 0xFFFFFFFF, 0), "23 Choice Coder 4294967295"),
    ({"columns": 0}, (3, 1, 0, 0), "3 FieldRange Columns 0"),
    ({"rows": 65537}, (3, 2, 65537, 0), "3 FieldRange Rows 65537"),
    ({"bands": 0xFFFFFFFF}, (3, 3, 0xFFFFFFFF, 0), "3 FieldRange Bands 4294967295"),
    ({"bits": 1}, (3, 4, 1, 0), "3 FieldRange DynamicRange 1"),
    ({"bits": 17}, (3, 4, 17, 0), "3 FieldRange DynamicRange 17"),
    ({"user": 256}, (3, 5, 256, 0), "3 FieldRange User 256"),
    ({"order": 1, "depth": 0}, (3, 6, 0, 0), "3 FieldRange Depth 0"),
    ({"word": 9}, (3, 7, 9, 0), "3 FieldRange WordSize 9"),
    ({"previous": 16}, (3, 8, 16, 0), "3 FieldRange Previous 16"),
    ({"register_bits": 31}, (3, 9, 31, 0), "3 FieldRange Register 31"),
    ({"omega": 20}, (3, 10, 20, 0), "3 FieldRange Omega 20"),
    ({"interval_log": 3}, (3, 11, 3, 0), "3 FieldRange Interval 3"),
    ({"vmin": -7}, (3, 12, -7, 0), "3 FieldRange VMin -7"),
    ({"vmax": 10}, (3, 13, 10, 0), "3 FieldRange VMax 10"),
    ({"umax": 33}, (3, 17, 33, 0), "3 FieldRange Umax 33"),
    ({"gamma_star": 10}, (3, 18, 10, 0), "3 FieldRange GammaStar 10"),
    ({"gamma_zero": 9}, (3, 19, 9, 0), "3 FieldRange GammaZero 9"),
    ({"coder": 1, "block": 9}, (3, 21, 9, 0), "3 FieldRange BlockSize 9"),
    ({"coder": 1, "reference": 4097}, (3, 23, 4097, 0), "3 FieldRange Reference 4097"),
    ({"order": 1, "depth": 3}, (4, 1, 0, 0), "4 Disagree DepthOverBands"),
    ({"columns": 1}, (4, 2, 0, 0), "4 Disagree FullOneColumn"),
    ({"columns": 1, "reduced": 1}, (4, 3, 0, 0), "4 Disagree NeighbourOneColumn"),
    ({"register_bits": 32, "omega": 19}, (4, 4, 0, 0), "4 Disagree RegisterTooSmall"),
    ({"vmin": 4}, (4, 5, 0, 0), "4 Disagree ExponentOrder"),
    ({"gamma_zero": 6}, (4, 10, 0, 0), "4 Disagree CounterOrder"),
    ({"k": 11}, (4, 11, 0, 0), "4 Disagree StartConstant"),
    ({"coder": 1, "restricted": 1}, (4, 15, 0, 0), "4 Disagree RestrictedOverFour"),
]

# Members, weights and accumulators, and the fault of the tables.
WRONG_TABLES = [
    ({}, [1], b"", (4, 6, 0, 0)),
    ({}, [], b"\1", (4, 13, 0, 0)),
    ({"coder": 1, "accumulator_table": 1}, [], b"\1\1", (4, 13, 0, 0)),
    ({"weight_table": 1, "weight_bits": 2}, WEIGHTS, b"", (3, 15, 2, 0)),
    ({"weight_table": 1, "weight_bits": 17}, WEIGHTS, b"", (4, 8, 0, 0)),
    ({"weight_table": 1, "weight_bits": 16}, [], b"", (4, 9, 0, 0)),
    ({"weight_table": 1, "weight_bits": 16}, WEIGHTS[1:], b"", (4, 9, 0, 0)),
    ({"weight_table": 1, "weight_bits": 16}, WEIGHTS + [0], b"", (4, 9, 0, 0)),
    ({"weight_table": 1, "weight_bits": 16}, [*WEIGHTS[:6], 1 << 15], b"", (3, 16, 1 << 15, 0)),
    ({"accumulator_table": 1}, [], b"", (4, 13, 0, 0)),
    ({"accumulator_table": 1}, [], b"\1\1\1", (4, 13, 0, 0)),
    ({"accumulator_table": 1}, [], b"\1\13", (4, 14, 0, 0)),
]


def check_parameters(room, library):
    """Checks the faults of parameters, and that encoding and the calls that need fewer of them are refused for the same."""
    for members, fault, text in WRONG:
        params = library.usual(**(SMALL | members))
        room.expect(f"{members}: checked", library.check(params), fault)
        room.expect(f"{members}: text", library.text(fault), (text, len(text)))
        room.expect(f"{members}: encoded", library.encode(params, BIG, RAW, room=1000), (fault, b""))
        found, stored = library.bound(params)
        early = fault[0] in (22, 23) or fault[:2] in ((3, 1), (3, 2), (3, 3), (3, 4))
        room.expect(f"{members}: bound", (found, stored > 0), (fault, False) if early else (None, True))
    for members, weights, accumulators, fault in WRONG_TABLES:
        params = library.usual(**(SMALL | members))
        room.expect(f"{members}, {len(weights)} weights: checked", library.check(params, weights, accumulators), fault)
        room.expect(f"{members}, {len(weights)} weights: encoded", library.encode(params, BIG, RAW, weights, accumulators), (fault, b""))
    room.expect("lawful: checked", library.check(library.usual(**SMALL)), None)


def check_layouts(room, library):
    params = library.usual(**SMALL)
    file = library.encode(params, BIG, RAW)[1]
    for layout, fault in (((3, 2, 0), (23, 3, 3, 0)), ((0, 0, 0), (23, 4, 0, 0)), ((2, 3, 1), (23, 4, 3, 0))):
        room.expect(f"layout {layout}: raw length", library.raw_length(params, Layout(*layout)), (fault, 0))
        room.expect(f"layout {layout}: encoded", library.encode(params, Layout(*layout), RAW), (fault, b""))
        room.expect(f"layout {layout}: decoded", library.decode(file, Layout(*layout), 48), (fault, b""))


def check_rooms(room, library):
    """Checks rooms of each size up to the one that is wanted, which comes back, and that nothing is written to those that are too small."""
    params = library.usual(**SMALL)
    file = library.encode(params, BIG, RAW)[1]
    for had in (0, 1, len(file) - 1):
        space, length, fault = (c_uint8 * 100)(*[0xEE] * 100), c_uint64(9), Fault()
        given = byref(params), None, 0, None, 0, byref(BIG), bytes_of(RAW), len(RAW)
        library.calls.ccsds123_encode(*given, space, had, byref(length), byref(fault))
        room.expect(f"room of {had} for a file", (fault.told(), length.value), ((21, 1, len(file), had), 0))
        room.expect(f"room of {had} for a file: unwritten", bytes(space), bytes([0xEE] * 100))
    for had in (0, 1, 47):
        space, length, fault = (c_uint8 * 100)(*[0xEE] * 100), c_uint64(9), Fault()
        library.calls.ccsds123_decode(bytes_of(file), len(file), byref(BIG), space, had, byref(length), byref(fault))
        room.expect(f"room of {had} for raw bytes", (fault.told(), length.value), ((21, 2, 48, had), 0))
        room.expect(f"room of {had} for raw bytes: unwritten", bytes(space), bytes([0xEE] * 100))
    room.expect("a larger room", library.decode(file, BIG, 100), (None, RAW))
    tabled = library.encode(library.usual(**(SMALL | TABLES)), BIG, RAW, WEIGHTS, b"\1\2")[1]
    for weights, accumulators, fault in ((6, 2, (21, 3, 7, 6)), (0, 0, (21, 3, 7, 0)), (7, 1, (21, 4, 2, 1)), (9, 0, (21, 4, 2, 0))):
        found, record, *rest = library.header(tabled, weight_room=weights, accumulator_room=accumulators)
        room.expect(f"rooms of {weights} and {accumulators}", (found, record.columns, rest), (fault, 0, [[], b"", 0]))
    room.expect("rooms that just fit", library.header(tabled, weight_room=7, accumulator_room=2)[2:4], (WEIGHTS, b"\1\2"))
    room.expect("no rooms where no table is", library.header(file, weight_room=0, accumulator_room=0)[0], None)


def check_raw(room, library):
    """Checks raw bytes that are too few, too many or out of range, and samples that don't fit in a byte."""
    params = library.usual(**SMALL)
    for had in (0, 47, 49):
        room.expect(f"{had} raw bytes", library.encode(params, BIG, bytes(had)), ((14, 0, 48, had), b""))
    high = bytes(46) + b"\x10\0"
    room.expect("a sample of 13 bits", library.encode(params, BIG, high), ((13, 0, 23, 0), b""))
    wide = library.encode(params, BIG, bytes(24) + b"\1\0" * 12)[1]
    # The room is also too small: what doesn't fit in its byte comes first.
    for had in (24, 23, 0):
        space, length, fault = (c_uint8 * 24)(*[0xEE] * 24), c_uint64(9), Fault()
        library.calls.ccsds123_decode(bytes_of(wide), len(wide), byref(Layout(0, 1, 0)), space, had, byref(length), byref(fault))
        room.expect(f"a sample of 9 bits in a byte, room of {had}", (fault.told(), length.value), ((13, 0, 12, 0), 0))
        room.expect(f"a sample of 9 bits in a byte, room of {had}: unwritten", bytes(space), bytes([0xEE] * 24))
    narrow = library.encode(params, BIG, bytes(24) + b"\0\xff" * 12)[1]
    room.expect("samples that fit in a byte, though not all of their kind do", library.decode(narrow, Layout(0, 1, 0), 24), (None, bytes(12) + b"\xff" * 12))


def check_files(room, library):
    """Checks headers cut anywhere, and a file for each fault of its own."""
    tabled = library.encode(library.usual(**(SMALL | TABLES)), BIG, RAW, WEIGHTS, b"\1\2")[1]
    size = library.header(tabled)[4]
    for end in range(size):
        room.expect(f"header cut at {end}", library.header(tabled[:end])[0], (1, 0, 0, 0))
        room.expect(f"file cut at {end}", library.decode(tabled[:end], BIG, 48), ((1, 0, 0, 0), b""))
    for end in range(size, len(tabled)):
        room.expect(f"file cut at {end}", library.decode(tabled[:end], BIG, 48), ((6, 0, 8 * end, 0), b""))
    room.expect("an unknown struct", library.header(tabled, size=115)[0], (22, 0, 116, 115))
    faults = [(header((7, 0x28)), (2, 0, 58, 0)), (header((16, 0x40)), (5, 0, 0, 0)), (header((16, 0x20)), (4, 6, 0, 0))]
    for file, fault in faults:
        room.expect(f"file of fault {fault}", library.header(file)[0], fault)
    fault, written = library.decode(tabled + b"\0", BIG, 48)
    room.expect("a word too many", (fault[0], 8 <= fault[2] < 16, written), (11, True, b""))


def enumerators(page, kind):
    """Returns the names and values of an enum of ccsds123.h: in lower case, without what all of them begin with."""
    body = re.search(rf"enum ccsds123_{kind} \{{(.*?)\}};", page, re.S)[1]
    lead = "CCSDS123_" if kind == "fault_number" else f"CCSDS123_{kind.upper()}_"
    return [(name.lower(), int(value)) for name, value in re.findall(rf"{lead}(\w+) = (\d+)", body)]


def check_text(room, library):
    """Checks the texts of all numbers, the names of ccsds123.h against them, and rooms of each size."""
    with open(HEADER, encoding="utf-8") as file:
        page = file.read()
    for kind, number in (("field", 3), ("rule", 4), ("room", 21), ("member", 23)):
        for name, value in enumerators(page, kind):
            words = library.text((number, value, 5, 6))[0].split()
            room.expect(f"{kind} {name}", words[2].lower(), name.replace("_", ""))
    for name, value in enumerators(page, "fault_number"):
        words = library.text((value, 1, 5, 6))[0].split()
        room.expect(f"fault {name}", (words[0], words[1].lower()), (str(value), name.replace("_", "")))
    for number in (0, 24, 0xFFFFFFFF):
        room.expect(f"number {number}", library.text((number, 0, 0, 0))[0], str(number))
    room.expect("a name that is none", library.text((3, 26, 0, 0))[0], "3")
    whole = "14 RawLength 6 0"
    for had in range(20):
        space = create_string_buffer(b"\xff" * 30, 31)
        length = library.calls.ccsds123_fault_text(byref(Fault(14, 0, 6, 0)), space, had)
        wanted = (whole[: had - 1].encode() + b"\0" if had else b"").ljust(30, b"\xff")
        wanted = wanted if had <= len(whole) + 1 else (whole.encode() + b"\0").ljust(30, b"\xff")
        room.expect(f"text in a room of {had}", (length, space.raw[:30]), (len(whole), wanted))
    longest = max(len(library.text((21, name, 2**63 - 1, 2**63 - 1))[0]) for name in (1, 2, 3, 4))
    room.expect("the longest text fits", longest < 96, True)


def check_version(room, library):
    """Checks that header, library and VERSION tell one version, and that the usual parameters are those of `compress`."""
    with open(os.path.join(TOP, "VERSION"), encoding="utf-8") as file:
        version = file.read().strip()
    with open(HEADER, encoding="utf-8") as file:
        page = file.read()
    major, minor, patch = map(int, version.split("."))
    room.expect("version of the library", library.calls.ccsds123_version(), 10000 * major + 100 * minor + patch)
    room.expect("version of the header", re.search(r'VERSION "(.*)"', page)[1], version)
    numbers = [int(re.search(rf"VERSION_{part} (\d+)", page)[1]) for part in ("MAJOR", "MINOR", "PATCH")]
    room.expect("numbers of the header", numbers, [major, minor, patch])
    room.write("raw", RAW)
    words = ["compress", "--columns", 4, "--rows", 3, "--bands", 2, "--bits", 12, "raw", "file"]
    room.expect("usual parameters: compressed", room.run(*words), (0, b"", ""))
    room.expect("usual parameters", library.encode(library.usual(**SMALL), BIG, RAW), (None, room.read("file")))


def check_refusals(room, library):
    check_version(room, library)
    check_parameters(room, library)
    check_layouts(room, library)
    check_rooms(room, library)
    check_raw(room, library)
    check_files(room, library)
    check_text(room, library)
