#!/usr/bin/env python3
"""Counts the places of the design pass in crates/*/src, test modules left out.

    python3 tools/design_counts.py [FOLDER]          the counts of a checkout, the current one if none is named
    python3 tools/design_counts.py --list [FOLDER]   with each place

It goes by the text of the sources, so it finds what has a form that text shows; docs/DESIGN-PASS.md says what was found by reading.
"""
import glob
import os
import re
import sys
from collections import defaultdict


def sources(top):
    for path in sorted(glob.glob(os.path.join(top, 'crates', '*', 'src', '**', '*.rt'), recursive=True)):
        if os.path.basename(path) in ('tests.rt', 'station_tests.rt'):
            continue
        text = open(path, encoding='utf-8').read().split('#[cfg(test)]\nmod')[0]
        yield os.path.relpath(path, os.path.join(top, 'crates')), re.sub(r'^\s*//.*$', '', text, flags=re.M)


def functions(text):
    """The functions of a file: name, its parameters one by one, its result, its clauses, its body."""
    for m in re.finditer(r'\bfn (\w+)', text):
        at = text.index('(', m.end())
        depth, i = 0, at
        while True:
            depth += {'(': 1, ')': -1}.get(text[i], 0)
            i += 1
            if depth == 0:
                break
        params = [p.strip() for p in re.split(r',(?![^<(\[]*[>)\]])', text[at + 1:i - 1]) if p.strip()]
        end = re.compile(r'\n\s*\{\s*\n|\{\n|;\n|\{\}').search(text, i)
        head = text[i:end.start()] if end else text[i:]
        result = re.match(r'\s*->\s*([^\n{]*)', head)
        clauses = re.findall(r'\b(requires|ensures)\b(?: \w+)? \{ (.*?) \}\n', head + '\n')
        close = re.compile(r'\n(?=\s{0,4}\}\n)').search(text, end.end()) if end else None
        body = text[end.end():close.end() + 6] if close else ''
        yield m[1], params, (result[1].strip() if result else ''), clauses, body


def find(top):
    found = defaultdict(list)
    clauses_seen = defaultdict(set)
    for path, text in sources(top):
        for m in re.finditer(r'^(?:pub(?:\(crate\))? )?const \w+: u8 = \d+;', text, re.M):
            found['1b a number as a constant for a kind of thing'].append(f'{path}: {m[0]}')
        for m in re.finditer(r'\benum (\w+)[^{]*\{(.*?)\n\}', text, re.S):
            cases = [c for c in m[2].split(',') if re.search(r'\b[A-Z]\w*', c)]
            if len(cases) == 2:
                found['1c an enum of two cases, the shape of Option or Result'].append(f'{path}: {m[1]}')
        for m in re.finditer(r'\bwhile\b.*', text):
            found['3a a while loop'].append(f'{path}: {m[0]}')
        for m in re.finditer(r'\bfor \w+ in [^{\n]*\.\.[^{\n]*', text):
            found['3b a loop over numbers'].append(f'{path}: {m[0]}')
        for m in re.finditer(r'^\s+\w+ [+-]= (?:1|width|size|frames)\b.*', text, re.M):
            found['3c a counter or place moved by hand'].append(f'{path}: {m[0].strip()}')
        for m in re.finditer(r'\b(?:self\.)?(\w+)\[[^\]]*\.\.[^\]]*\]|\[(?:0x[0-9a-f]+|\w+(?:u8|u16)?); (?:MOST\w*|256)\]|= \[[^\]]*; MOST\w*\]', text):
            if 'MOST' in m[0] and '..' not in m[0]:
                found['6a an array of the largest size, filled in part'].append(f'{path}: {m[0]}')
        for m in re.finditer(r'\bstruct (\w+)[^{;]*\{(.*?)\n\}', text, re.S):
            arrays = re.findall(r'(\w+): \[[^\]]*; \w+\]', m[2])
            sizes = re.findall(r'(count|tracks|heads|len|capacity|next): usize', m[2])
            if arrays and sizes:
                found['6b a buffer with its length beside it'].append(f'{path}: {m[1]}')
        for m in re.finditer(r'\bimpl (?:<.*?> )?fmt::Display|\bimpl.* TryFrom<|\bimpl.* From<', text):
            found['- Display, From and TryFrom that stand already'].append(f'{path}: {m[0]}')
        for name, params, result, clauses, body in functions(text):
            where = f'{path}: {name}'
            if result.startswith('bool') and any('&mut' in p for p in params):
                found['1a a flag that says whether something was written'].append(where)
            if re.match(r'(put|push|print|words?|name|number|numbers|raw|line)(_\w+)?$', name) or name.startswith('same_'):
                found['4 printing, conversion or equality as a function of its own'].append(where)
            if len(params) >= 6:
                found['5a six parameters or more'].append(f'{where}: {len(params)}')
            for kind, clause in clauses:
                if kind == 'requires':
                    clauses_seen[re.sub(r'\s+', ' ', clause)].add(where)
                    if ') × (' in clause:
                        found['5c several facts in one clause'].append(where)
            if re.search(r'\bmatch \*?(?:self|call|step|family|field)\b', body):
                found['7 a match that picks the step to run'].append(where)
    for clause, where in clauses_seen.items():
        if len(where) >= 3:
            found['5b a fact in the contracts of three or more'].append(f'{clause}: ' + ', '.join(sorted(where)))
    answers = lines = 0
    for path in glob.glob(os.path.join(top, 'crates', '*', 'proofs', '**', '*.antt'), recursive=True):
        text = open(path, encoding='utf-8').read()
        lines += text.count('\n')
        if os.path.basename(path) == 'Answers.antt':
            answers += len(re.findall(r'^pub \S+ : goal\.', text, re.M))
    return found, answers, lines


def main():
    args = [a for a in sys.argv[1:] if a != '--list']
    found, answers, lines = find(args[0] if args else '.')
    for kind in sorted(found):
        print(f'{len(found[kind]):4}  {kind}')
        if '--list' in sys.argv:
            for place in found[kind]:
                print(f'          {place}')
    print(f'{answers:4}  8 answers in proof files')
    print(f'{lines:4}  8 lines of proof files')


main()
