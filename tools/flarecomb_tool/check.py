"""flarecomb check FEEDER REPORT"""
from . import explain, programs


def add_parser(subparsers):
    parser = subparsers.add_parser(
        "check",
        help="check a report against its feeder",
        description="Checks a report with the proved program. Standard output is the program's: 'pass', or 'refused NUMBER VALUE'. "
        "A refusal is explained on standard error.",
        epilog="Exit status: 0 pass, 1 refused, 2 could not run.",
    )
    parser.add_argument("feeder", metavar="FEEDER", help="the feeder file")
    parser.add_argument("report", metavar="REPORT", help="the report")
    programs.add_programs_option(parser)


def run(arguments):
    program = programs.program_path(arguments, "archive_check")
    feeder = programs.read_file(arguments.feeder)
    report = programs.read_file(arguments.report)
    explanation = ""
    with programs.progress("checking"):
        answer = programs.run_check(program, feeder, report)
        if answer.status == programs.REFUSED:
            explanation = explain.check_refusal(feeder, report, answer.number, answer.value, arguments.feeder, arguments.report)
    programs.write_output(answer.output)
    if explanation:
        programs.write_error(explanation)
    return answer.status
