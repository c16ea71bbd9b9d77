#!/usr/bin/env python3
"""Lists the places in src/ (and, for the last kind, proofs/) that may be written in an older form than they need be.
Run it at the top; `--list` prints each place, and a number of a kind limits it to that kind. A place found is one to
read: whether it stays, and why, is said in docs/DESIGN-PASS.md."""
import re
import sys
from collections import defaultdict
from pathlib import Path

KINDS = {
    1: 'own enums, flags beside values, answers that are a bool for a refusal, numbers for kinds',
    2: 'twins: functions and structs of one shape',
    3: 'loops over an index or with a count kept by hand',
    4: 'equality, order, conversion, copying and printing by hand',
    5: 'facts in three contracts of a file or more, parameters that travel together',
    6: 'arrays with a count beside them, parallel arrays',
    7: 'switches on which test or step to run',
    8: 'answers and own lemmas in proofs/',
}


def sources():
    return sorted(Path('crates').glob('*/src/**/*.rt'))


def code(path):
    """The lines of a file without comments and ghost imports, with their numbers."""
    for number, line in enumerate(path.read_text().split('\n'), 1):
        if re.match(r'\s*//', line) or line.startswith('ghost use') or line.startswith('use '):
            continue
        yield number, line


def by_line(*patterns):
    found = []
    for path in sources():
        for number, line in code(path):
            if any(re.search(p, line) for p in patterns):
                found.append((f'{path}:{number}', line.strip()))
    return found


def items(path, word):
    """The functions or structs of a file: (line, head, clauses, body)."""
    text = '\n'.join(line for _, line in code_all(path))
    for m in re.finditer(r'^( *)(?:pub(?:\([a-z]+\))? )?' + word + r' (\w+)', text, re.M):
        indent = m.group(1)
        end = re.search(r'\n' + indent + r'\}|;\n|\{\}\n', text[m.start():] + '\n')
        whole = text[m.start():m.start() + end.end()] if end else text[m.start():]
        opening = re.search(r'\n' + indent + r'\{', whole)
        head, body = (whole[:opening.start()], whole[opening.start():]) if opening else (whole, '')
        if word == 'struct':
            head, body = whole.split('{', 1) if '{' in whole else (whole, '')
        yield text.count('\n', 0, m.start()) + 1, m.group(2), head, body


def code_all(path):
    for number, line in enumerate(path.read_text().split('\n'), 1):
        yield number, '' if re.match(r'\s*//', line) else line


def shape(text):
    """The tokens of a text, with each name replaced by the order in which it first comes."""
    names = {}
    out = []
    for token in re.findall(r'[A-Za-z_]\w*|\d\w*|\S', text):
        if re.match(r'[A-Za-z_]', token) and token not in WORDS:
            out.append('n%d' % names.setdefault(token, len(names)))
        elif token[0].isdigit():
            out.append('#')
        else:
            out.append(token)
    return tuple(out)


WORDS = set('fn if else match for in while let mut return self Self Some None Ok Err true false as usize impl pub ref'.split())


def enums_and_flags():
    found = by_line(r'^\s*(pub(\(\w+\))? )?enum \w+', r'^\s+(pub(\(\w+\))? )?\w+: bool,', r'fn (number|kind_of)\b')
    for path in sources():
        for line, name, head, body in items(path, 'fn'):
            if '&mut self' in head and re.search(r'-> bool\b', head):
                found.append((f'{path}:{line}', f'fn {name} .. -> bool of a &mut self'))
    return found


def twins():
    groups = defaultdict(list)
    for path in sources():
        for line, name, head, body in items(path, 'fn'):
            tokens = shape(body)
            if len(tokens) >= 14:
                groups[('fn', tokens)].append((f'{path}:{line}', name))
        for line, name, head, body in items(path, 'struct'):
            fields = tuple(re.findall(r'(\w+): ', re.sub(r'ghost [^\n]*', '', body)))
            if len(fields) >= 2:
                groups[('struct', fields)].append((f'{path}:{line}', name))
    found = []
    for (word, _), members in sorted(groups.items(), key=lambda g: g[1][0][0]):
        if len(members) > 1:
            for place, name in members:
                found.append((place, f'{word} {name}, one of {len(members)}'))
    return found


def loops():
    return by_line(r'\bfor \w+ in [^{]*\.\.', r'\bwhile\b(?! let)', r'\+= 1\b', r'\.enumerate\(\)')


def by_hand():
    return by_line(
        r'Err\(\w+\) => Err\(', r'Ok\(\(\)\) => Ok\(\(\)\)', r'Some\(\w+\) => Some\(', r'None => None\b',
        r'^\s+\w+: self\.\w+,', r'fn (of|from_\w+|to_\w+)\(', r'\w+ == \w+ && ', r'< \w+ \|\| ',
        r'println!\(rt; "[^"]*\{', r'println!\(rt;$')


def facts():
    found = []
    for path in sources():
        clauses = defaultdict(list)
        pairs = defaultdict(set)
        for line, name, head, body in items(path, 'fn'):
            for clause in re.findall(r'(?:requires|ensures)[^{\n]*\{ (.*) \}', head):
                for part in re.findall(r'\([^()]*(?:\([^()]*\)[^()]*)*\)', clause) + [clause]:
                    if len(part) > 18:
                        clauses[part].append(name)
            inside = re.search(r'\(([^)]*)\)', head.split('->')[0], re.S)
            names = re.findall(r'(\w+): ([^,]+)', inside.group(1)) if inside else []
            for i, a in enumerate(names):
                for b in names[i + 1:]:
                    pairs[(a[0], b[0])].add(name)
        for part, users in clauses.items():
            if len(set(users)) >= 3:
                found.append((f'{path}', f'{part} in {len(set(users))} contracts'))
        for pair, users in pairs.items():
            if len(users) >= 3:
                found.append((f'{path}', f'{pair[0]}, {pair[1]} in {len(users)} functions'))
    return found


def arrays():
    found = []
    for path in sources():
        for line, name, head, body in items(path, 'struct'):
            rows = re.findall(r'(\w+): \[', body)
            counts = re.findall(r'(\w+): (?:u8|u16|u32|usize),', body)
            if rows and counts:
                found.append((f'{path}:{line}', f'struct {name}: {", ".join(rows)} beside {", ".join(counts)}'))
            elif len(rows) > 1:
                found.append((f'{path}:{line}', f'struct {name}: {", ".join(rows)} in parallel'))
        for line, name, head, body in items(path, 'fn'):
            if re.search(r'&mut \[[^\]]*; ', head) and '-> usize' in head:
                found.append((f'{path}:{line}', f'fn {name} fills an array and answers how much'))
    return found


def switches():
    found = by_line(r'\bdyn ', r': fn\(', r'Box<')
    for path in sources():
        text = path.read_text()
        for m in re.finditer(r'fn is\(self, \w+: \w+\) -> bool', text):
            found.append((f'{path}:{text.count(chr(10), 0, m.start()) + 1}', m.group(0)))
    return found


def answers():
    found = []
    for path in sorted(Path('crates').glob('*/proofs/**/*.antt')):
        for number, line in enumerate(path.read_text().split('\n'), 1):
            m = re.match(r'(?:(?:abbrev|unfoldable|pub|opaque) )*([\w«»\'-]+)(?: .*)? :(?: |$)', line)
            if m and not line.startswith((' ', '--', 'use')):
                found.append((f'{path}:{number}', m.group(1)))
    return found


FIND = {1: enums_and_flags, 2: twins, 3: loops, 4: by_hand, 5: facts, 6: arrays, 7: switches, 8: answers}


def main():
    wanted = [int(a) for a in sys.argv[1:] if a.isdigit()] or sorted(KINDS)
    for kind in wanted:
        found = FIND[kind]()
        tests = [f for f in found if re.match(r'crates/(worked|round)_days', f[0])]
        print(f'{kind}. {KINDS[kind]}: {len(found) - len(tests)}, in tests {len(tests)}')
        if '--list' in sys.argv:
            for place, what in found:
                print(f'   {place}  {what}')


main()
