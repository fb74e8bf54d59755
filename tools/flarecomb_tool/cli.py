"""The command line: each command is a module of this package with add_parser(subparsers) and run(arguments) -> exit status."""
import argparse

from . import check, convert, programs, show, study, view

COMMANDS = {"study": study, "check": check, "show": show, "view": view, "convert": convert}

DESCRIPTION = "Studies a feeder and checks a report with the proved programs."
EXIT_STATUS = "Exit status: 0 report or pass, 1 refused, 2 could not run."


def build_parser():
    parser = argparse.ArgumentParser(prog="flarecomb", description=DESCRIPTION, epilog=EXIT_STATUS)
    subparsers = parser.add_subparsers(dest="command", metavar="COMMAND", required=True)
    for module in COMMANDS.values():
        module.add_parser(subparsers)
    return parser


def main(words=None):
    arguments = build_parser().parse_args(words)
    try:
        return COMMANDS[arguments.command].run(arguments)
    except programs.CouldNotRun as fault:
        programs.write_error(f"flarecomb: {fault}")
    except KeyboardInterrupt:
        programs.write_error("flarecomb: stopped")
    return programs.NOT_RUN
