"""Runs the proved programs on files, and hands on what they wrote."""
import collections
import contextlib
import os
import pathlib
import re
import subprocess
import sys
import tempfile
import threading
import time

from .format import NODES, header

ANSWERED, REFUSED, NOT_RUN = 0, 1, 2

# No file with more bytes than this is read to its end: it is far over the 65,536 bytes that a file may have.
MOST_BYTES_READ = 1000000

REFUSAL = re.compile(rb"refused (0|[1-9][0-9]{0,8}) (0|[1-9][0-9]{0,8})\n")

# What a program answered: status is one of the three above; number and value are those of a refusal, else None.
Answer = collections.namedtuple("Answer", "status output number value", defaults=(None, None))


class CouldNotRun(Exception):
    """A file or a program could not be used; the text says which and why."""


def add_programs_option(parser):
    parser.add_argument(
        "--programs",
        metavar="FOLDER",
        help="the folder of the proved programs (else the environment variable FLARECOMB_PROGRAMS, else target/bin of the repository)",
    )


def program_path(arguments, name):
    """Where the proved program stands; CouldNotRun where it does not."""
    folder = arguments.programs or os.environ.get("FLARECOMB_PROGRAMS")
    path = (pathlib.Path(folder) if folder else pathlib.Path(__file__).resolve().parents[2] / "target" / "bin") / name
    if not path.is_file():
        raise CouldNotRun(f"the program {path} is missing; 'bash tools/build.sh study archive_check' builds it, and --programs names its folder")
    return path


def read_file(path):
    """The bytes of a file; CouldNotRun where it cannot be read."""
    try:
        with open(path, "rb") as file:
            return file.read(MOST_BYTES_READ)
    except (OSError, ValueError) as fault:
        raise CouldNotRun(f"{path} cannot be read: {getattr(fault, 'strerror', None) or fault}") from None


def _run(program, words, given, is_answer):
    try:
        ran = subprocess.run([str(program), *words], input=given, stdout=subprocess.PIPE, stderr=subprocess.PIPE, check=False)
    except OSError as fault:
        raise CouldNotRun(f"{program} cannot be run: {fault.strerror or fault}") from None
    if ran.stderr or ran.returncode != 0:
        said = ran.stderr.decode("utf-8", "backslashreplace").strip() or f"it ended with status {ran.returncode}"
        write_error(f"{program} failed: {said}")
        return Answer(NOT_RUN, ran.stdout)
    refusal = REFUSAL.fullmatch(ran.stdout)
    if refusal:
        return Answer(REFUSED, ran.stdout, int(refusal[1]), int(refusal[2]))
    if is_answer(ran.stdout):
        return Answer(ANSWERED, ran.stdout)
    write_error(f"{program} wrote neither an answer nor a refusal")
    return Answer(NOT_RUN, ran.stdout)


def run_study(program, feeder):
    """The study's answer to the bytes of a feeder."""
    return _run(program, [], feeder, lambda output: output.startswith(header(NODES).encode() + b"\n"))


def run_check(program, feeder, report):
    """The check's answer to the bytes of a feeder and of a report.

    It is run on copies, so that the answer and its explanation speak of the same bytes also where a file is a pipe or is just changed.
    """
    try:
        with tempfile.TemporaryDirectory(prefix="flarecomb-") as folder:
            copies = [pathlib.Path(folder) / name for name in ("feeder", "report")]
            for copy, content in zip(copies, (feeder, report)):
                copy.write_bytes(content)
            return _run(program, [str(copy) for copy in copies], b"", lambda output: output == b"pass\n")
    except OSError as fault:
        raise CouldNotRun(f"the files cannot be copied for the check: {fault.strerror or fault}") from None


def write_output(content):
    """Bytes to standard output as they are."""
    try:
        sys.stdout.buffer.write(content)
        sys.stdout.buffer.flush()
    except OSError as fault:
        # Python would try to write the rest again at its end, and complain a second time.
        os.dup2(os.open(os.devnull, os.O_WRONLY), sys.stdout.fileno())
        raise CouldNotRun(f"standard output cannot be written: {fault.strerror or fault}") from None


def write_file(path, content):
    """Bytes to a file, whole or not at all: a new file beside it takes its place once it is written."""
    path = os.path.realpath(path)
    if os.path.exists(path) and not os.path.isfile(path):
        raise CouldNotRun(f"{path} is no plain file, so no report can take its place")
    beside = f"{path}.{os.getpid()}.new"
    try:
        with open(beside, "xb") as file:
            file.write(content)
            file.flush()
            os.fsync(file.fileno())
        os.replace(beside, path)
    except OSError as fault:
        with contextlib.suppress(OSError):
            os.unlink(beside)
        raise CouldNotRun(f"{path} cannot be written: {fault.strerror or fault}") from None


def write_error(text):
    print(text, file=sys.stderr)


@contextlib.contextmanager
def progress(text):
    """A line on a terminal's standard error while the work takes over a second; it is removed at the end."""
    if not sys.stderr.isatty():
        yield
        return
    ended = threading.Event()
    started = time.monotonic()

    def tell():
        while not ended.wait(1):
            sys.stderr.write(f"\r{text}, {int(time.monotonic() - started)} s")
            sys.stderr.flush()

    teller = threading.Thread(target=tell, daemon=True)
    teller.start()
    try:
        yield
    finally:
        ended.set()
        teller.join()
        if time.monotonic() - started >= 1:
            sys.stderr.write("\r" + " " * (len(text) + 12) + "\r")
            sys.stderr.flush()
