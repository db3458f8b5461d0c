#!/usr/bin/env python3
"""Lists the places in crates/*/src that an older form may stand in, by kind.

usage: python3 tools/design_places.py [KIND]     at the root; with no KIND, only the counts are printed

Each row is a place to look at, and not a verdict: docs/DESIGN-PASS.md says what became of each.
"""
import collections
import pathlib
import re
import sys

ROWS = {
    'enums': r'^\s*(pub )?enum ',
    'numbers': r'const [A-Z_]+: u8 = [0-9]+;|-> Option<u8>|number: [0-9]+|Some\([0-9]+\)|type \w+ = \(u8',
    'flags': r'^\s*(pub )?\w+: bool,',
    'matches': r'(None|Err\(\w+\)) => (return )?(Err\(|None|Ok\()|Some\(\w+\) => (Ok|Some)\(|Some\(_\) => (true|false)|None => \{\}|let None = ',
    'unreachable': r'unreachable\(\)',
    'index_loops': r'for \(?\w+(, \w+)?\)? in [^{]*\.\.|\.enumerate\(\)|^\s*while ',
    'searches': r'^\s*for \w+ in [^.]*\{$',
    'equality': r'number\(\) (==|!=) \w+(\[\w+\])?\.number\(\)|self\.\w+ == other\.\w+',
    'casts': r' as (usize|u8|u16|u32|u64|i32|i64)\b',
    'switches': r'^\s*\w+(::\w+)+(\(.*\))? => \{?(\w+\.)*(?!Ok|Err|Some|println|unreachable)\w+(::<.*>)?\(|\bfn\(|Box<dyn|&dyn',
    'buffers': r'^\s*(pub(\(crate\))? )?\w+: \[\w+(<[^>]*>)?; \w+\],|-> \(?\[\w+; \w+\]',
}


def sources():
    for path in sorted(pathlib.Path('crates').glob('*/src/**/*.rt')):
        yield path, path.read_text().split('\n')


def rows(pattern):
    for path, lines in sources():
        for number, line in enumerate(lines, 1):
            code = line.split('//')[0]
            if 'ensures' not in code and 'requires' not in code and re.search(pattern, code):
                yield f'{path}:{number}: {line.strip()}'


def functions():
    """Each function: where it stands, its parameters, and its clauses up to the body."""
    head = re.compile(r'^\s*(?:pub(?:\(crate\))? )?fn (\w+)')
    for path, lines in sources():
        at = 0
        while at < len(lines):
            found = head.match(lines[at])
            if not found:
                at += 1
                continue
            start = at
            text = lines[at]
            while at + 1 < len(lines) and not re.match(r'^\s*\{', lines[at + 1]) and not text.rstrip().endswith(('{', ';', '}')):
                at += 1
                text += '\n' + lines[at]
            yield f'{path}:{start + 1} {found.group(1)}', text
            at += 1


def parameters(text):
    inside = re.search(r'fn \w+(?:<[^(]*>)?\((.*?)\)(?: ->|\s*$|\s*\n|\s*\{)', text, re.S)
    if not inside:
        return []
    names = re.findall(r'(?:^|,)\s*(?:mut )?(\w+): ([^,]+)', inside.group(1).replace('\n', ' '))
    return [f'{n}: {t.strip()}' for n, t in names]


def facts():
    """Facts that stand in the `requires` or `ensures` of three functions or more."""
    seen = collections.defaultdict(set)
    for where, text in functions():
        for clause in re.findall(r'(?:requires|ensures)[^{]*\{(.*)\}', text):
            for fact in re.split(r' × ', clause):
                fact = re.sub(r'\.(old|now|entry\.now)\b', '', fact.replace('(', ' ').replace(')', ' '))
                fact = ' '.join(fact.split())
                if 'result' not in fact and '.new' not in fact and '.exit' not in fact and 8 < len(fact) < 60:
                    seen[fact].add(where)
    for fact, places in sorted(seen.items()):
        if len(places) >= 3:
            yield f'{len(places)} functions: {fact}  ({", ".join(sorted(places))})'


def travellers():
    """Two parameters that stand side by side in three functions or more of a crate, and seldom apart."""
    pairs = collections.defaultdict(set)
    single = collections.defaultdict(set)
    for where, text in functions():
        crate = where.split('/')[1]
        names = [p.split(':')[0] for p in parameters(text)]
        for name in names:
            single[crate, name].add(where)
        for i, a in enumerate(names):
            for b in names[i + 1:]:
                pairs[crate, a, b].add(where)
    for (crate, a, b), places in sorted(pairs.items()):
        apart = (single[crate, a] | single[crate, b]) - places
        if len(places) >= 3 and len(places) >= 2 * len(apart):
            yield f'{crate}: {a} and {b} in {len(places)} functions, apart in {len(apart)}'


KINDS = {**{k: (lambda p=p: rows(p)) for k, p in ROWS.items()}, 'facts': facts, 'travellers': travellers}

if __name__ == '__main__':
    if len(sys.argv) > 1:
        for row in KINDS[sys.argv[1]]():
            print(row)
    else:
        for kind, run in KINDS.items():
            print(f'{kind}: {sum(1 for _ in run())}')
