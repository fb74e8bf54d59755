#!/usr/bin/env python3
"""example.py LIBRARY FEEDER [BUFFER_LENGTH]: c/example.c in Python, over the shared library LIBRARY (c/run.sh has the command that makes it).

It writes what c/example.c writes, and ends as it does, but for standard output that cannot be written, which is left to Python. What the study
answers is compared with the report: its length, and the sweeps that its table of totals tells."""
import ctypes
import sys

MOST_BYTES = 65536
BUFFER_SHORT = 40


def load(path):
    library = ctypes.CDLL(path)
    # uint8_t pointers; c_char_p lends Python's own bytes, which the calls only read
    library.flarecomb_study.argtypes = [ctypes.c_char_p, ctypes.c_size_t, ctypes.c_void_p, ctypes.c_size_t]
    library.flarecomb_study.restype = ctypes.c_uint64
    library.flarecomb_check.argtypes = [ctypes.c_char_p, ctypes.c_size_t, ctypes.c_char_p, ctypes.c_size_t]
    library.flarecomb_check.restype = ctypes.c_uint64
    return library


def parts(answer):
    """Number, value and sweeps: bits 32 to 47, 0 to 31 and 48 to 63."""
    return answer >> 32 & 0xFFFF, answer & 0xFFFFFFFF, answer >> 48


def study(library, feeder, length=MOST_BYTES):
    """Number, value, sweeps, and the report, which is empty after a refusal."""
    # one byte at least, so that the pointer is to something
    out = ctypes.create_string_buffer(max(length, 1))
    number, value, sweeps = parts(library.flarecomb_study(feeder, len(feeder), out, length))
    return number, value, sweeps, out.raw[:value] if number == 0 else b""


def check(library, feeder, report):
    """Number and value: 0 and 0 for a pass."""
    number, value, sweeps = parts(library.flarecomb_check(feeder, len(feeder), report, len(report)))
    assert sweeps == 0
    return number, value


def refused(number, value):
    print(f"refused {number} {value}")
    if number == BUFFER_SHORT:
        print(f"the report has {value} bytes", file=sys.stderr)
    return 1


def main(arguments):
    if len(arguments) not in (2, 3):
        print("usage: example.py LIBRARY FEEDER [BUFFER_LENGTH]", file=sys.stderr)
        return 2
    try:
        library = load(arguments[0])
        # one byte more than a feeder may have: of a longer file this much is read, and the study refuses it by its length
        with open(arguments[1], "rb") as file:
            feeder = file.read(MOST_BYTES + 1)
        length = int(arguments[2]) if len(arguments) == 3 else MOST_BYTES
    except (OSError, ValueError) as error:
        print(error, file=sys.stderr)
        return 2
    if not 0 <= length <= MOST_BYTES:
        print(f"{length}: not a length from 0 to {MOST_BYTES}", file=sys.stderr)
        return 2

    number, value, sweeps, report = study(library, feeder, length)
    if number != 0:
        assert sweeps == 0
        return refused(number, value)
    # the totals are the third table: the empty lines part the tables, and the first line of each has its names
    totals = report.decode("ascii").split("\n\n")[2].splitlines()[1]
    assert len(report) == value and report.endswith(b"\n") and int(totals.split(",")[0]) == sweeps
    print(f"{report.decode('ascii')}sweeps {sweeps}")

    number, value = check(library, feeder, report)
    if number != 0:
        return refused(number, value)
    print("pass")
    return 0


sys.exit(main(sys.argv[1:]))
