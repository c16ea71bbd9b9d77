#!/usr/bin/env python3
"""Respells this repository's own definitions and lemmas: words in snake case, as `first_lane` for `firstLane` and
`one_place` for `one-place`. It goes over specs/, proofs/, src/ and must-fail/ of each crate. Names that Rattle makes,
as the goals of a function, stay. Run it at the top; with --list it prints the names and writes nothing."""
import re
import sys
from pathlib import Path

TOP = Path('crates')
WORD = r"[A-Za-z_«][\w'»]*(?:-[A-Za-z0-9_][\w']*)*"
HEAD = re.compile(r"^(\s*)((?:(?:abbrev|unfoldable|opaque|pub|private|irrelevant|instance)\s+)*)([a-z][\w']*(?:-[A-Za-z0-9_][\w']*)*)\s*(?::\s|\(|\{)")
FIELD = re.compile(r"^\s+(?:pub\s+)?([a-z][\w']*(?:-[A-Za-z0-9_][\w']*)*)\s:\s")

# where two names would fall together, or a word that Rattle or the library has would be hidden
OTHER = {
    'lane-at': 'lane_at_place',
    'lane-of': 'lane_of_known',
    'last-shed': 'last_shed_is',
    'last-terms': 'last_terms_is',
    'next-slip': 'next_slip_is',
    'on-card': 'stands_on_card',
    'row-most': 'row_most_is',
    'rowBelow': 'is_row_below',
    'rule-of': 'rule_of_is',
    'tried-places': 'tried_places_is',
    'oneMore': 'one_more_at',
    'few-lanes': 'lanes_are_few',
    'few-sheds': 'sheds_are_few',
    'capacity-small': 'capacity_is_small',
}
# names that the kit's port.py had respelled already, where one of the above would fall together with them
MOVED = {'crates/books/proofs/Laid.antt': {'first_lane': 'first_lane_counts'}}


def snake(name):
    name = re.sub(r'([a-z0-9])([A-Z])', r'\1_\2', name)
    return name.replace('-', '_').lower()


def is_old(name):
    return '-' in name or re.search(r'[A-Z]', name) is not None


def own_names():
    names, fields = {}, {}
    for path in sorted(TOP.glob('*/specs/**/*.antt')) + sorted(TOP.glob('*/proofs/**/*.antt')):
        answers = path.name in ('Answers.antt', 'Invariants.antt', 'Proof.antt')
        in_record, margin = False, 0
        for line in path.read_text().split('\n'):
            indent = len(line) - len(line.lstrip())
            if re.match(r'^\s*(?:abbrev |pub )*record ', line):
                in_record, margin = True, indent
            elif line and indent <= margin:
                in_record = False
            head = HEAD.match(line)
            if not head:
                continue
            name = head.group(3)
            if name in ('use', 'elim', 'record', 'module', 'let', 'in', 'where', 'unfolding', 'data'):
                continue
            if answers and (' goal.' in line or 'goal.' in line or 'given.' in line):
                continue
            if ' : ' not in line:
                continue
            if not is_old(name):
                continue
            if in_record and FIELD.match(line):
                fields.setdefault(name, set()).add(str(path))
            names.setdefault(name, set()).add(str(path))
    return names, fields


def goal_names():
    goals = set()
    for path in TOP.glob('*/proofs/**/*.antt'):
        for line in path.read_text().split('\n'):
            m = re.match(r"^(?:abbrev )?(?:pub )?(\S+) : (?:goal|given)\.", line)
            if m:
                goals.add(m.group(1))
    return goals


def main():
    names, fields = own_names()
    goals = goal_names()
    new = {n: OTHER.get(n, snake(n)) for n in names if n not in goals}
    files = [p for g in ('*/specs/**/*.antt', '*/proofs/**/*.antt', '*/src/**/*.rt', '*/must-fail/*.edit') for p in TOP.glob(g)]
    token = re.compile(r"(\.?)(?<![\w'-])(" + WORD + r")(?![\w'])")
    if '--list' in sys.argv:
        used = {}
        for p in files:
            for m in re.finditer(WORD, p.read_text()):
                used.setdefault(m.group(0), set()).add(str(p))
        targets = {}
        for n, t in sorted(new.items()):
            targets.setdefault(t, []).append(n)
        for n, t in sorted(new.items()):
            clash = []
            if len(targets[t]) > 1:
                clash.append('with ' + ', '.join(x for x in targets[t] if x != n))
            if t in used:
                clash.append('used in ' + ' '.join(sorted(used[t])[:4]))
            print(n, '->', t, '' if not clash else 'CLASH ' + '; '.join(clash), '[field]' if n in fields else '')
        return
    for p in files:
        text = p.read_text()
        for old, moved in MOVED.get(str(p), {}).items():
            text = re.sub(r"(?<![\w'.-])" + old + r"(?![\w'-])", moved, text)

        def turn(m):
            dot, word = m.group(1), m.group(2)
            if word not in new:
                return m.group(0)
            if dot and word not in fields:
                before = text[:m.start()]
                module = re.search(r"([\w']+)$", before)
                if not (module and (module.group(1)[0].isupper() or ' as ' + module.group(1) + '\n' in text)):
                    return m.group(0)
            return dot + new[word]

        done = token.sub(turn, text)
        if done != p.read_text():
            p.write_text(done)


main()
