#!/usr/bin/env python3
"""Writes the trials that are made from test vectors, as theorems proved by computing, into crates/trials/specs:

  Opened          the names of the definitions behind the answers on one line, read from the crates' specs (no vectors); due again when a
                  definition is added
  Refusals        for each refusal of each call the smallest case of the first file that has one; 9 stands in TooLong, which is not written here
  StudyReports, StudyLayout, StudyRefusals, CheckPasses, CheckRefusals
                  of each file of cases but S-5's every fifteenth case whose files are under 3,000 bytes together, spread over the kinds of answer
  SeveralRows     of S-4's cases some in which several rows have the fault, at least one for each number that comes with a line but 10
  TapStudies, TapChecks
                  of S-5's cases some for each clause of its words
  Accounts        the power account's numbers for every fifteenth passing case of each file, of S-5's every thirtieth, worked out here a second time from
                  documents 01 and 02; where the file has the account's numbers, they must be the same for every case
  Roots           every case of the whole root and its binary digits, in one table

Run it in the repository's root: python3 tools/trials.py CASES..., then rt fmt and rt check in crates/trials. Each of CASES, the base's first and
then each request's in turn, is a file as archive.py has them, answered as it says there.
"""
import math, re, sys
from cases import cases, root_cases

SPECS = 'crates/trials/specs/'
DEFINITIONS = {'integers': 'Rounding Root Pairs Lists', 'text': 'Text Lines', 'feeder': 'Layout Feeder', 'equations': 'Equations Taps',
               'report': 'Report', 'iteration': 'Ladder', 'rounds': 'Rounds', 'ladder': 'Study', 'compare': 'Differences', 'verdicts': 'Check',
               'account': 'Account', 'answer_text': 'AnswerText', 'study_answer': 'StudyAnswer', 'check_answer': 'CheckAnswer'}
REFUSALS = {10: 'Layout', 11: 'OutOfLimit', 20: 'UnknownFrom', 21: 'SecondTo', 22: 'NotReached', 23: 'PhaseAbsent', 24: 'NotZero',
            30: 'ZeroVoltage', 31: 'LoadBeyond', 32: 'CurrentBeyond', 33: 'VoltageBeyond', 34: 'NotSettled', 35: 'TapsMoving', 40: 'BufferShort',
            50: 'ReportLayout', 51: 'NameDiffers', 52: 'SourceDiffers', 53: 'CurrentDiffers', 54: 'VoltageOff', 55: 'TotalDiffers', 56: 'TapDiffers'}
CALLS = {'study': [n for n in REFUSALS if n <= 40], 'check': [n for n in REFUSALS if n <= 32 or n >= 50]}
NO_VALUE = (50, 55)
LARGE = 1000000
STEP = 15
# S-4's cases in which several rows have the fault. Of 11 these are the source row and a branch, and a branch and two loads; of 22 a row that is fed from a
# circle, and behind it the circle; of 23 a branch and a load; of 51 a row of each table. Of 54 there are two, and before them a row that is off and does
# not count: it is fed by one of the two, or by a node within tol that one of the two feeds.
SEVERAL_ROWS = ('00013-11-source-row', '00015-11-branch-before-load', '00003-20-13', '00004-21-13', '00018-22-tail-first', '00017-23-branch-before-load',
                '00002-24-13', '00029-51-0-13-10', '00030-52-0', '00032-53-0', '00052-54-1-N1N3N4', '00055-54-1-N7N0N1')

# S-5's cases. Studies with fixed taps, with a level and with both; at the edges of the band, where equal is no wish, and a unit to either side of them; a
# bracket below 0 and of 0; no voltage; a tap at 16 and at -16 that wants further; 31 moves; compensators; halves in the relay voltage; refusals in a later
# round, whose sweep is that round's; 35 also where the buffer is short; 40; limits of p4 to p9, and p5 to p12 where the level is 0.
TAP_STUDIES = ('00487-table-none', '00494-table-fixed', '00501-table-level', '00507-table-mixed', '00149-edge-12001-2', '00153-edge-12001-3',
               '00156-edge-11999-2', '00163-edge-12100-200', '00172-edge-11900-199', '00175-bracket-negative', '00184-bracket-minus-1', '00178-bracket-zero',
               '00190-zero-voltage-level1', '00230-up-from-16', '00197-down-from--16', '00246-rounds-from-16-to-15', '00253-rounds-down-to--16',
               '00663-comp-1000000-0-1', '00681-comp-0-1000000-1', '00717-relay-tie-V', '00720-relay-tie-V-neg', '00537-later-32-J', '00546-later-34-5',
               '00543-later-34-down-4', '00256-35-before-40', '00034-k004s5-buf763', '00035-k004s5-buf764', '00038-limit-p4--1', '00046-limit-p4-20001',
               '00055-limit-p6-0', '00078-limit-p8-100000001', '00146-absent-tap-17-level0', '00039-limit-p4-0', '00088-limit-p10-1', '00106-level0-p5-20001',
               '00147-absent-tap-level12000', '00144-level0-24-after-23')
# Reports without the table, with no level and with one; taps that are at rest though the study ends at others, or that want and cannot move; rows that are
# swapped, missing, too many or misnamed; a tap beyond 16 and one on an absent phase; other taps, for which I or V do not follow; 56: a tap that could move up,
# one that could move down, a fixed one that is not the feeder's, and the first of several rows; the relay voltage by the reported V, at rest and not.
TAP_CHECKS = ('00490-without-none', '00497-without-fixed', '00499-without-fixed-LF', '00500-without-fixed-edit', '00504-without-level', '00510-without-mixed',
              '00521-fixed-taps-other-without', '00346-settled-at-other-01+1', '00485-wants-down-at--16', '00272-rows-swapped', '00273-row-missing',
              '00274-row-extra', '00279-tail', '00280-name', '00282-tap-01-17', '00290-tap-02--17', '00313-tap-12-1', '00304-tap-11-16', '00284-tap-01-16',
              '00374-three-1-edit2', '00481-wants-up-at-15', '00484-wants-down-at--15', '00483-wants-down-at-16', '00520-fixed-taps-other',
              '00522-56-first-[(6, 0, 0), (0, 6, 0), (0, 0, 7)]', '00523-56-first-[(5, 0, 0), (0, 6, 0), (0, 0, 0)]', '00470-settled-at-other-20+1',
              '00620-relay-reported-11992-719500', '00617-relay-reported-11992-719000')


# ---- the cases
def small_cases(path):
    """The cases of a file whose files are under 3,000 bytes together, but those of 9."""
    for case in cases(path, ('study', 'check', 'account')):
        case['size'] = len(case['feeder']) + len(case['report'])
        case['kind'] = (case['call'], case['expected']['answer'], case['expected'].get('number', 0))
        if case['size'] < 3000 and case['kind'][2] != 9:
            yield case


def tables(data):
    return [[row.split(',') for row in table.split('\n')[1:] if row] for table in data.decode().split('\n\n')]


# ---- a case as a theorem
def text(data):
    plain = {10: '\\n', 13: '\\r', 34: '\\"', 92: '\\\\'}
    return '(bytes "' + ''.join(plain.get(b, chr(b) if 32 <= b < 127 else '\\u{%x}' % b) for b in data) + '")'


def theorem(name, case):
    call, answer, number = case['kind']
    length = LARGE if case.get('buffer') is None else case['buffer']
    if answer == 'report':
        report = case['written']
        sweeps = tables(report)[2][0][0]
        said = f"fitted {text(case['feeder'])} {length} ≡ Ok (record {{ text = {text(report)[1:-1]}; sweeps = {sweeps} }})"
    elif answer == 'pass':
        said = f"checked {text(case['feeder'])} {text(case['report'])} ≡ Ok done"
    else:
        value, = case['expected']['values']
        refusal = REFUSALS[number] if number in NO_VALUE else f'({REFUSALS[number]} {value})'
        said = (f"study_of {text(case['feeder'])} {length} ≡ Err {refusal}" if call == 'study' else
                f"checked {text(case['feeder'])} {text(case['report'])} ≡ Err {refusal}")
    return proved(name, case, said)


def proved(name, case, said):
    about = f"{case['request']}, {case['name']}" if 'request' in case else case['name']
    return f"\n-- {about}\n{name} : {said}\nunfolding opened\n{name} = refl\n"


USES = [('Rattle.std.specs.Prelude', '◌≡◌ refl pos negsuc Ok Err'), ('Rattle.answers.specs.Answers', 'done'),
        ('Rattle.answers.specs.declared.Refusal.TheVariants', ' '.join(REFUSALS.values())), ('Rattle.text.specs.Text', 'bytes'),
        ('Rattle.ladder.specs.Study', 'fitted study_of'),
        ('Rattle.verdicts.specs.Check', 'checked'),
        ('Rattle.trials.specs.Opened', 'opened account_of')]


def module(name, about, theorems):
    theorems = list(theorems)
    body = ''.join(theorems)
    words = set(re.findall(r'[^\s(){};,"]+', body)) | {'◌≡◌'}
    used = [(m, [n for n in names.split() if n in words]) for m, names in USES]
    head = ''.join(f"use {m}.{{{', '.join(names)}}}\n" for m, names in used if names)
    open(SPECS + name + '.antt', 'w').write(f'-- {about} Assumes nothing.\n{head}{body}')
    print(f'{name}: {len(theorems)}')


def opened():
    uses, names = '', []
    for crate, modules in DEFINITIONS.items():
        for m in modules.split():
            found = re.findall(r'^unfoldable pub (\S+) :', open(f'crates/{crate}/specs/{m}.antt').read(), re.M)
            uses += f"use Rattle.{crate}.specs.{m}.{{{', '.join(found)}}}\n"
            names += found
    open(SPECS + 'Opened.antt', 'w').write(f'''-- Every definition behind the answers on one line: a trial computes them all by `unfolding opened`. Assumes nothing.
use Rattle.std.specs.Prelude.{{List, ℕ, Ok}}
use Rattle.answers.specs.Answers.{{Outcome, ◌>>=◌}}
use Rattle.integers.specs.declared.Pair.{{Pair}}
{uses}
-- says nothing by itself
unfoldable pub opened : Unit {{0}}
unfolding {' '.join(names)}
opened = tt

-- the power account's numbers for a feeder's and a report's text, with the taps that the report has
pub record Numbers : Type 0 where
  pub differs : Pair
  pub allowed : ℕ

abbrev pub account_of : List ℕ → List ℕ → Outcome Numbers
account_of s t = do
  f ← reading s
  r ← report_of f t
  Ok (record {{ differs = difference (with_reported f r) r; allowed = allowance (with_reported f r) r }})
''')


# ---- the power account in Python's whole numbers, a pair as (re, im)
def rnd(x, b):
    return tuple((2 * abs(n) + b) // (2 * b) * (1 if n >= 0 else -1) for n in x)


def times(x, y):
    return x[0] * y[0] - x[1] * y[1], x[0] * y[1] + x[1] * y[0]


def conj(x):
    return x[0], -x[1]


def size(x):
    return abs(x[0]) + abs(x[1])


def pairs(fields):
    n = [int(x) for x in fields]
    return list(zip(n[::2], n[1::2]))


# The signs that A, B and C have in a load's voltage, by the word of its phase.
SIGNS = {'A': (1, 0, 0), 'B': (0, 1, 0), 'C': (0, 0, 1), 'AB': (1, -1, 0), 'BC': (0, 1, -1), 'CA': (-1, 0, 1)}


def account(feeder, report):
    (source,), branches, loads = tables(feeder)
    # No term has the taps, so that they are not read here.
    nodes, flows, (totals,), *_ = tables(report)
    tol = int(source[7])
    voltage = {n[0]: pairs(n[1:]) for n in nodes}
    sums, allowed = [], 0
    for node, phase, kind, vn, p, q in loads:
        u = tuple(sum(sign * v[k] for sign, v in zip(SIGNS[phase], voltage[node])) for k in (0, 1))
        s, vn = (int(p) * 100000, int(q) * 100000), int(vn)
        square = u[0] ** 2 + u[1] ** 2
        # below 70 per cent of vn a P row has the current and the rating of a Z row
        if kind == 'P' and 100 * square < 49 * vn * vn:
            kind = 'Z'
        w = {'P': square, 'I': math.isqrt(square) * vn, 'Z': vn * vn}[kind]
        sums.append(s if kind == 'P' else rnd((s[0] * square, s[1] * square), w))
        allowed += 2 * len(phase) * tol * size(rnd(times(conj(s), u), w)) + size(u) + 1
    for b, flow in zip(branches, flows):
        phases, kind, current = ['ABC'.index(x) for x in b[2]], b[3], pairs(flow[2:8])
        v, i = (sum(size(x[k]) for k in phases) for x in (voltage[b[0]], current))
        tols = 2 * tol * len(phases)
        if kind == 'R':
            allowed += v + tols + i
            continue
        if kind == 'L':
            allowed += 1 + i
            aa, ab, ac, bb, bc, cc = pairs(b[4:16])
        else:
            allowed += 1 + v + tols + 2 * i
            aa, bb, cc = pairs(b[6:12])
            ab = ac = bc = (0, 0)
        z = [[aa, ab, ac], [ab, bb, bc], [ac, bc, cc]]
        terms = [times(times(conj(current[j]), z[j][k]), current[k]) for j in range(3) for k in range(3)]
        sums.append(rnd([sum(part) for part in zip(*terms)], 10000000))
    differs = [int(totals[1 + k]) - sum(x[k] for x in sums) for k in (0, 1)]
    assert all(2 * abs(d) <= allowed for d in differs)
    return differs, allowed


def account_theorem(name, case):
    differs, allowed = account(case['feeder'], case['report'])
    real, reactive = (f'pos {n}' if n >= 0 else f'negsuc {-n - 1}' for n in differs)
    numbers = f'record {{ differs = record {{ re = {real}; im = {reactive} }}; allowed = {allowed} }}'
    return proved(name, case, f"account_of {text(case['feeder'])} {text(case['report'])} ≡ Ok ({numbers})")


# ---- the whole root
def roots(paths):
    found = root_cases(paths)
    rows = '\n    ∷ '.join(f"({case['n']}, {case['expected']['root']}, {case['expected']['steps']})" for case in found)
    open(SPECS + 'Roots.antt', 'w').write(f'''-- Vectors: whole roots, and the number of their binary digits. Assumes nothing.
use Rattle.std.specs.Prelude.{{true, ◌&&◌, List, [], ◌∷◌, ◌≡◌, refl, ℕ, eqb}}
use Rattle.integers.specs.Lists.{{all}}
use Rattle.integers.specs.Root.{{root, binary_digits}}
use Rattle.trials.specs.Opened.{{opened}}

-- each with its root and that root's number of binary digits
abbrev table : List (ℕ × ℕ × ℕ)
table =
    {rows}
    ∷ []

pub all_right : all (λ row. eqb (root row.0) row.1 && eqb (binary_digits (root row.0)) row.2) table ≡ true
unfolding opened
all_right = refl
''')
    print(f'Roots: {len(found)}')


# ---- the modules
# Of each refusal the smallest case of the first file that has one. Where the check has none, a feeder that is refused before any report is read, with an empty
# report.
def one_of_each(files):
    smallest = {}
    for ordered in files:
        for case in sorted(ordered, key=lambda c: c['size']):
            if case['kind'][1] == 'refuse' and len(case['feeder']) >= 150:
                smallest.setdefault(case['kind'], case)
    refused = {(call, number) for call, _, number in smallest}
    assert {(call, n) for call, numbers in CALLS.items() for n in numbers if n > 24} <= refused, refused
    for (call, answer, number), case in list(smallest.items()):
        if number <= 24:
            kind = ('check', answer, number)
            smallest.setdefault(kind, dict(case, kind=kind, report=b'', name=case['name'] + ', with an empty report'))
    return [theorem(f'{kind[0]}-{kind[2]}', smallest[kind]) for kind in sorted(smallest)]


def main():
    opened()
    files = [sorted(small_cases(path), key=lambda c: c['kind']) for path in sys.argv[1:]]
    answered = [[c for c in ordered if c['call'] != 'account'] for ordered in files]
    module('Refusals', 'One trial for each refusal of each call, the smallest case of the first file that has it; 9 is in TooLong.', one_of_each(answered))

    def named(letter, number, case):
        return letter + (f'{number}-' if number else '') + case['name'][:5]

    def listed(request, names):
        found = {c['name']: (number, c) for number, ordered in enumerate(answered) for c in ordered if c.get('request') == request}
        return [found[name] for name in names]

    def theorems(some):
        return [theorem(named('v', number, c), c) for number, c in some]
    chosen = [(number, c) for number, ordered in enumerate(answered) for c in [c for c in ordered if c.get('request') != 'S-5'][STEP // 2::STEP]]

    def vectors(name, about, wanted):
        module(name, f'Vectors: {about}.', theorems((number, c) for number, c in chosen if wanted(*c['kind'])))
    vectors('StudyReports', 'feeders that the study reports on', lambda call, answer, n: answer == 'report')
    vectors('StudyLayout', 'feeders whose layout the study refuses', lambda call, answer, n: call == 'study' and n == 10)
    vectors('StudyRefusals', "the study's other refusals", lambda call, answer, n: call == 'study' and n > 10)
    vectors('CheckPasses', 'reports that the check passes', lambda call, answer, n: answer == 'pass')
    vectors('CheckRefusals', 'feeders and reports that the check refuses', lambda call, answer, n: call == 'check' and answer == 'refuse')
    module('SeveralRows', 'Vectors: several rows have the fault, and the line is that of the first.', theorems(listed('S-4', SEVERAL_ROWS)))
    module('TapStudies', 'Vectors: studies of regulators that set their taps, and of those with fixed taps.', theorems(listed('S-5', TAP_STUDIES)))
    module('TapChecks', 'Vectors: checks of reports with taps, and of reports without their table.', theorems(listed('S-5', TAP_CHECKS)))

    known = [c for ordered in files for c in ordered if c['call'] == 'account']
    for case in known:
        expected, (differs, allowed) = case['expected'], account(case['feeder'], case['report'])
        assert [abs(n) for n in differs] + [allowed] == [expected[k] for k in ('p', 'q', 'allowance')], case['name']
    print(f'{len(known)} accounts as the files have them')
    accounts = []
    for number, ordered in enumerate(files):
        passing = [c for c in ordered if c['kind'][1] == 'pass']
        step = 2 * STEP if passing and passing[0].get('request') == 'S-5' else STEP
        accounts += [account_theorem(named('a', number, c), c) for c in passing[::step]]
    module('Accounts', 'Power accounts of reports that pass: the difference, real and reactive, and the allowance.', accounts)
    roots(sys.argv[1:])


if len(sys.argv) < 2:
    sys.exit(__doc__)
main()
