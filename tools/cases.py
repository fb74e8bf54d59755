"""Reads files of test cases, for archive.py and trials.py, and answers those from before S-5 anew."""
import json, os

# The requests whose cases are answered as of a version whose reports had three tables. No feeder of these that has a report has a level, and no study of
# these names its buffer's length, so that nothing changes in them but the reports that the study writes. The check's reports without the last table are
# read as before. (The base's cases are answered as of S-5 in a file of their own, and S-2's are roots.)
THREE_TABLES = ('S-1', 'S-3', 'S-4')


def rows(table):
    """The rows of a feeder's or a report's table, each as its fields."""
    return [row.split(b',') for row in table.split(b'\n')[1:] if row]


def last_table(feeder):
    """The last table of a report of S-5, with an empty line before it, where no regulator has a level: their taps are p1 to p3."""
    regulators = [row for row in rows(feeder.split(b'\n\n')[1]) if row[3] == b'R']
    assert all(row[7] == b'0' for row in regulators)
    return b'\nto,tap_a,tap_b,tap_c\n' + b''.join(b','.join((row[1], *row[4:7])) + b'\n' for row in regulators)


def cases(path, calls=('study', 'check')):
    """The cases of a file with one of these calls, each with the bytes of its feeder, of its report and of the report that the study is to write."""
    folder = os.path.dirname(path)

    def read(name):
        near = os.path.join(folder, name)
        return open(near if os.path.exists(near) else os.path.join(folder, '..', name), 'rb').read()

    for case in map(json.loads, open(path)):
        if case['call'] not in calls:
            continue
        case['feeder'], case['report'] = read(case['feeder']), read(case['report']) if case.get('report') else b''
        case['written'] = read(case['expected']['file']) if case['expected']['answer'] == 'report' else b''
        if case.get('request') in THREE_TABLES:
            assert case.get('buffer') is None, case['name']
            if case['written']:
                case['written'] += last_table(case['feeder'])
        yield case


def root_cases(paths):
    """The cases of whole roots of files."""
    return [case for path in paths for case in map(json.loads, open(path)) if case['call'] == 'root']
