#!/usr/bin/env python3
"""Lists places in crates/*/src that older forms of the language left, to be read by hand.

python3 tools/places.py         the patterns of each point, with the number of lines that each finds
python3 tools/places.py other   another way: functions alike but for names and numbers, facts that stand in the contracts of
                                three functions or more, parameters that go together through three or more, index arithmetic
"""
import collections
import difflib
import glob
import itertools
import re
import sys

PATTERNS = {
    '1': [r'^\s*(pub(\(crate\))? )?enum ', r'=> -?[0-9]+,$', r'(0|-1): (none|accepted)', r'let (true|false) = ', r'-> u32\b',
          r'(None|Ok\(_\)) => (true|false|None)'],
    '3': [r'^\s*(for|while|loop)\b', r'\+= 1\b|saturating_add\(1\)|(place|middle|count|index) [-+] 1'],
    '4': [r'^impl\b.*\b(Display|Error|From<.*>|PartialEq|Eq|PartialOrd|Ord|Clone|Copy) for ', r'fn number\(self\)',
          r'Ok\((\w+)\) => (Ok\(|Ok\b)|Err\(_\) => Err|Err\((\w+)\) => Some', r'let (Some|Ok)\(.*\) = .* else \{$|let (Some|Ok)\(.*\) = .*\($'],
    '6': [r'\b(count|used|len): (usize|0)', r'\[[A-Z]\w*; [A-Z0-9_]+\]', r'while low < high'],
    '7': [r'\bdyn\b', r'impl Fn', r': Fn(Mut|Once)?\(', r'\bfn\('],
}


def sources():
    for path in sorted(glob.glob('crates/*/src/**/*.rt', recursive=True)):
        yield path, open(path).read()


def patterns():
    for point, several in PATTERNS.items():
        for pattern in several:
            found = [(p, n, l.strip()) for p, t in sources() for n, l in enumerate(t.split('\n'), 1) if re.search(pattern, l)]
            print(f'point {point}: {len(found)} lines of {pattern}')
            for place in found:
                print('    %s:%d: %s' % place)


def block(text, at):
    depth = 0
    for i in range(at, len(text)):
        depth += {'{': 1, '}': -1}.get(text[i], 0)
        if depth == 0:
            return i + 1
    return len(text)


def functions():
    """path, name, parameters, clauses, body"""
    for path, text in sources():
        for m in re.finditer(r'\bfn (\w+)(<[^(]*>)?\(', text):
            i, depth = m.end(), 1
            while depth:
                depth += {'(': 1, ')': -1}.get(text[i], 0)
                i += 1
            params = text[m.end():i - 1]
            start = i
            while i < len(text) and text[i] not in '{;':
                word = re.match(r'\s*(requires|ensures)\s*\w*\s*', text[i:])
                i = block(text, i + word.end()) if word else i + 1
            if i < len(text) and text[i] == '{':
                yield path, m.group(1), params, text[start:i], text[i:block(text, i)]


KEYWORDS = set('fn let if else match for in while return self Some None Ok Err true false as mut'.split())


def shape(body):
    words = re.findall(r'\w+|[^\s\w]', re.sub(r'//.*', '', body))
    return tuple(w if w in KEYWORDS or not re.match(r'\w', w) else '_' for w in words)


def twins():
    all_ = [(p, n, shape(b)) for p, n, _, _, b in functions()]
    for (p, n, a), (q, m, b) in itertools.combinations(all_, 2):
        if min(len(a), len(b)) >= 20 and difflib.SequenceMatcher(None, a, b, False).ratio() >= 0.92:
            print(f'alike: {p} {n} / {q} {m} ({len(a)} words)')


def facts():
    found = collections.defaultdict(set)
    for p, n, _, clauses, _ in functions():
        for kind, fact in re.findall(r'(requires)\s*\w*\s*\{(.*)\}', clauses):
            for part in fact.split('×'):
                found[re.sub(r'\b\w+\.(old|now|new)\b|\b[a-z]\w*\b(?=\.)', '_', part).strip(' ()')].add((p, n))
                found['word ' + re.sub(r'[ (].*', '', part.strip(' ('))].add((p, n))
        for premise in re.findall(r'\{ ([^{}→]*) →', clauses):
            found['premise ' + premise].add((p, n))
    for fact, where in sorted(found.items()):
        if len(where) >= 3:
            print(f'fact in {len(where)} contracts: {fact}: ' + ', '.join(sorted(n for _, n in where)))


def travelling():
    found = collections.defaultdict(set)
    for p, n, params, _, _ in functions():
        named = sorted(re.findall(r'(\w+): ', params))
        for pair in itertools.combinations(named, 2):
            found[pair].add((p, n))
    for pair, where in sorted(found.items()):
        if len(where) >= 3:
            print(f'{" and ".join(pair)} go together through {len(where)}: ' + ', '.join(sorted(n for _, n in where)))


def indexes():
    for p, t in sources():
        for n, l in enumerate(t.split('\n'), 1):
            if re.search(r'\[[a-z]\w*( [-+] \d+)?\]', l) and not re.search(r'#\[|&\[|: \[|\[in ', l):
                print(f'index: {p}:{n}: {l.strip()}')


if sys.argv[1:] == ['other']:
    twins()
    facts()
    travelling()
    indexes()
else:
    patterns()
