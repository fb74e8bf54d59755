"""What the tests share."""
import os
import pathlib
import unittest

REPOSITORY = pathlib.Path(__file__).resolve().parents[2]
MISTAKES_FOLDER = pathlib.Path(__file__).resolve().parent / "mistakes"
EXAMPLES = REPOSITORY / "examples"
PROGRAMS = pathlib.Path(os.environ.get("FLARECOMB_PROGRAMS") or REPOSITORY / "target" / "bin")

needs_programs = unittest.skipUnless(
    (PROGRAMS / "study").is_file() and (PROGRAMS / "archive_check").is_file(),
    f"the proved programs are not in {PROGRAMS}: 'bash tools/build.sh study archive_check' builds them",
)


def feeder_bytes(name):
    return (MISTAKES_FOLDER / f"{name}.feeder").read_bytes()


def report_bytes(name):
    return (MISTAKES_FOLDER / f"{name}.report").read_bytes()
