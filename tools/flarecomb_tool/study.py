"""flarecomb study FEEDER [-o REPORT]"""
import os

from . import explain, notes, programs


def add_parser(subparsers):
    parser = subparsers.add_parser(
        "study",
        help="study a feeder and write its report",
        description="Studies a feeder with the proved program. Standard output is the program's: the report, or 'refused NUMBER VALUE'. "
        "A refusal is explained on standard error; beside a report stands there what deserves a look, such as a vn far from its node's voltage.",
        epilog="Exit status: 0 report, 1 refused, 2 could not run.",
    )
    parser.add_argument("feeder", metavar="FEEDER", help="the feeder file")
    parser.add_argument("-o", "--output", metavar="REPORT", help="write the report to this file; a refusal leaves the file as it is")
    programs.add_programs_option(parser)


def run(arguments):
    program = programs.program_path(arguments, "study")
    feeder = programs.read_file(arguments.feeder)
    if arguments.output and os.path.exists(arguments.output) and os.path.samefile(arguments.feeder, arguments.output):
        raise programs.CouldNotRun(f"{arguments.output} is the feeder: the report would take its place")
    explanation = ""
    with programs.progress("studying"):
        answer = programs.run_study(program, feeder)
        if answer.status == programs.REFUSED:
            explanation = explain.study_refusal(feeder, answer.number, answer.value, arguments.feeder)
        elif answer.status == programs.ANSWERED:
            explanation = notes.beside_report(feeder, answer.output)
    if answer.status == programs.ANSWERED and arguments.output:
        programs.write_file(arguments.output, answer.output)
    elif answer.status == programs.REFUSED or not arguments.output:
        programs.write_output(answer.output)
    if explanation:
        programs.write_error(explanation)
    return answer.status
