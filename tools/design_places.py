#!/usr/bin/env python3
"""Counts, in crates/*/src, the places that docs/DESIGN-PASS.md speaks of, point by point. With --list it names each of them."""
import collections
import pathlib
import re
import sys

# Enums whose cases are things of the subject, each with a meaning of its own.
SUBJECT = {'Refusal', 'Phase', 'Terminals', 'Connection', 'Device', 'LoadKind', 'Kind', 'Quantity'}
KEYWORDS = {'let', 'mut', 'if', 'else', 'while', 'for', 'in', 'return', 'match', 'as', 'true', 'false', 'fn', 'loop', 'break'}


def sources(root):
    for path in sorted(root.glob('crates/*/src/**/*.rt')):
        yield str(path.relative_to(root / 'crates')), path.read_text()


def functions(text):
    """The name, the parameters and the body of each function."""
    for m in re.finditer(r'(?m)^( *)(?:pub )?(?:extern "C" )?fn (\w+)(?:<[^>]*>)?\(', text):
        end = m.end()
        depth = 1
        while depth:
            depth += (text[end] == '(') - (text[end] == ')')
            end += 1
        close = text.find('\n' + m.group(1) + '}', end)
        whole = text[end:close]
        body = whole.find('\n' + m.group(1) + '{\n')
        if body < 0:
            body = whole.find('{\n')
        parameters = re.findall(r'(\w+)\s*:(?!:)', text[m.end():end - 1])
        yield m.group(2), parameters, whole[body:]


def shape(body):
    """The body with its names numbered in their order, and no numbers or words."""
    body = re.sub(r'//.*', '', body)
    body = re.sub(r'b?"(?:[^"\\]|\\.)*"', '_', body)
    names = {}
    out = []
    for token in re.findall(r'[A-Za-z_]\w*|\d[\d_.]*|[^\s\w]', body):
        if token in KEYWORDS or not re.match(r'\w', token):
            out.append(token)
        elif re.match(r'\d', token):
            out.append('N')
        else:
            out.append('v%d' % names.setdefault(token, len(names)))
    return ' '.join(out)


def places(root):
    found = collections.defaultdict(list)
    shapes = collections.defaultdict(list)
    clauses = collections.defaultdict(list)
    own = set()
    for name, text in sources(root):
        own |= {m.group(1) for m in re.finditer(r'(?m)^(?:pub )?enum (\w+)', text)} - SUBJECT
    for name, text in sources(root):
        for m in re.finditer(r'(?m)^(?:pub )?enum (\w+)', text):
            if m.group(1) not in SUBJECT:
                found['1 enums'].append(f'{name} {m.group(1)}')
        for m in re.finditer(r'(?m)^    (?:pub )?(\w+): (\w+),$', text):
            if m.group(2) in own:
                found['1 fields of such an enum'].append(f'{name} {m.group(1)}: {m.group(2)}')
            if m.group(2) == 'bool' and m.group(1) in ('ok', 'full', 'failed', 'found', 'settled'):
                found['1 flags with values beside them'].append(f'{name} {m.group(1)}')
        for m in re.finditer(r'fn (\w+)\((?:z: i64|kind: \w*Kind|phase: Terminals|b: bool|word: u64|x: Refusal)\)', text):
            if re.search(r'_of$|_number$|is_on|one_if', m.group(1)):
                found['1 functions from and to number codes'].append(f'{name} {m.group(1)}')
        for m in re.finditer(r'(?m)^pub struct (\w+) \{\n    pub a: (\w+),\n    pub b: \2,\n    pub c: \2,\n\}', text):
            found['2 types of three parts'].append(f'{name} {m.group(1)} of {m.group(2)}')
        for m in re.finditer(r'(?m)^ *(while|loop)\b', text):
            found['3 loops that are no for'].append(f'{name}:{text.count(chr(10), 0, m.start()) + 1}')
        for m in re.finditer(r'fn (same_\w+)\(', text):
            found['4 equality by hand'].append(f'{name} {m.group(1)}')
        for m in re.finditer(r'fn ((?:put|print)_?\w*)[(<]', text):
            found['4 writing and printing by hand'].append(f'{name} {m.group(1)}')
        for m in re.finditer(r'(?m)^\s+requires ?\w* \{ (.*) \}$', text):
            clauses[m.group(1)].append(name)
        for m in re.finditer(r'(?m)^pub type (\w+) = \[', text):
            found['6 arrays of numbers'].append(f'{name} {m.group(1)}')
        for function, parameters, body in functions(text):
            if len(parameters) >= 6:
                found['5 functions of six parameters or more'].append(f'{name} {function}: {len(parameters)}')
            if any(p == 'at' and parameters[i - 1] in ('out', 's', 'text', 'part') for i, p in enumerate(parameters)):
                found['6 buffers or texts with a place beside them'].append(f'{name} {function}')
            if re.search(r'match kind \{|if branch \{', body):
                found['7 switches on a kind or a flag'].append(f'{name} {function}')
            key = shape(body)
            if len(key) > 60:
                shapes[key].append(f'{name} {function}')
    for group in shapes.values():
        if len(group) > 1:
            found['2 functions alike but for names and numbers'].append(', '.join(group))
    for clause, where in clauses.items():
        if len(where) >= 3:
            found['5 requires in three contracts or more'].append(f'{len(where)}: {clause}')
    return found


def main():
    root = pathlib.Path(__file__).resolve().parent.parent
    found = places(root)
    for key in sorted(found):
        print(f'{len(found[key]):4} {key}')
        if '--list' in sys.argv:
            for place in found[key]:
                print('       ' + place)


if __name__ == '__main__':
    main()
