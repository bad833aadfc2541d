#!/usr/bin/env python3
"""Lists the places of docs/DESIGN-PASS.md in crates/*/src, of a commit (argument) or of the files here.

    python3 tools/places.py [-l] [COMMIT]      -l: each place, not only how many there are
"""
import re
import subprocess
import sys
from collections import defaultdict

CONSTANT = re.compile(r'^[A-Z][A-Z0-9_]*$')


def sources(commit):
    """Path and text of each source file."""
    if commit:
        names = subprocess.run(['git', 'ls-tree', '-r', '--name-only', commit, 'crates'],
                               capture_output=True, text=True, check=True).stdout.split()
    else:
        names = subprocess.run(['git', 'ls-files', '-co', '--exclude-standard', 'crates'],
                               capture_output=True, text=True, check=True).stdout.split()
    for name in sorted(names):
        if not re.match(r'crates/\w+/src/.*\.rt$', name):
            continue
        if commit:
            yield name, subprocess.run(['git', 'show', f'{commit}:{name}'], capture_output=True, text=True, check=True).stdout
        else:
            try:
                yield name, open(name, encoding='utf-8').read()
            except FileNotFoundError:
                pass


class Function:
    def __init__(self, path, line, name, head, clauses, body):
        self.path, self.line, self.name = path, line, name
        self.head, self.clauses, self.body = head, clauses, body

    def place(self):
        return f'{self.path}:{self.line} {self.name}'

    def answer(self):
        return self.head.rsplit('->', 1)[1].strip() if '->' in self.head.rsplit(')', 1)[-1] or re.search(r'\)\s*->', self.head) else ''

    def changes(self):
        return '&mut' in self.head.split('->')[0]


def functions(path, text):
    lines = text.split('\n')
    i = 0
    while i < len(lines):
        match = re.match(r'^(\s*)(pub(\(crate\))? )?fn (\w+)', lines[i])
        if not match:
            i += 1
            continue
        indent, start = match.group(1), i
        head, clauses = [], []
        while i < len(lines) and not re.match(rf'^{indent}\{{', lines[i]):
            line = lines[i].strip()
            if re.match(r'(ensures|requires)\b', line):
                clauses.append(line)
            elif not clauses and not line.startswith('//'):
                head.append(line)
            if line.endswith(('{', ';')) and not re.match(r'(ensures|requires)\b', line):
                break
            if line.endswith(';'):
                break
            i += 1
        body = []
        if i < len(lines) and not lines[i].strip().endswith(';'):
            if lines[i].strip().endswith('}') and lines[i].strip().startswith('{'):
                i += 1
            else:
                i += 1
                while i < len(lines) and not re.match(rf'^{indent}\}}', lines[i]):
                    body.append(lines[i].strip())
                    i += 1
        yield Function(path, start + 1, match.group(4), ' '.join(head).rstrip(' {'), clauses, body)
        i += 1


def enums(path, text):
    for match in re.finditer(r'enum (\w+)(<[^>]*>)? \{\n(.*?)\n\}', text, re.S):
        parts = [p.strip().rstrip(',') for p in match.group(3).split('\n')]
        parts = [p for p in parts if p and not p.startswith('//')]
        yield path, match.group(1), parts


def shape(function):
    """The body with each identifier by where it first stands, so that twins are alike."""
    seen = {}
    out = []
    for token in re.findall(r"b?'.'|b?\"[^\"]*\"|\w+|[^\s\w]", ' '.join(x for x in function.body if not x.startswith('//'))):
        if re.match(r'^(\d|b?[\'"])', token):
            out.append('0')
        elif re.match(r'^\w+$', token) and token not in {'let', 'mut', 'if', 'else', 'match', 'for', 'in', 'while', 'return', 'self', 'Some', 'None', 'Ok', 'Err', 'true', 'false'}:
            out.append(seen.setdefault(token, f'x{len(seen)}'))
        else:
            out.append(token)
    return tuple(out)


def main():
    listing = '-l' in sys.argv
    rest = [a for a in sys.argv[1:] if a != '-l']
    found = defaultdict(list)
    every, kinds, files = [], [], []
    for path, text in sources(rest[0] if rest else None):
        files.append((path, text))
        every += functions(path, text)
        kinds += enums(path, text)

    # 1. Own Option and Result, flags, numbers in place of kinds.
    for path, name, parts in kinds:
        bare = [p for p in parts if not re.search(r'[({]', p)]
        if len(parts) == 2 and len(bare) == 1:
            found['1 enum of one bare variant and one that holds something'].append(f'{path} {name}')
    for f in every:
        if f.answer() == 'bool' and f.changes():
            found['1 a call that changes something and answers bool'].append(f.place())
        if re.match(r'Option<(\w*Refusal|Stop|\w*Fault)>', f.answer()):
            found['1 an error in an Option'].append(f.place())
        body = ' '.join(f.body)
        if len(re.findall(r'=> \d+,', body)) >= 2 and f.answer() in ('u8', 'usize'):
            found['1 numbers by a table'].append(f.place())
        if re.search(r'(None|Ok\(\(\)\)) => \d+|unwrap_or\(\d+\)|Err\(_\) => \w+::', body):
            found['1 a value that stands for none'].append(f.place())
        if f.answer() == 'u8' and body == '0':
            found['1 a law that answers a number'].append(f.place())

    # 2. Twins.
    alike = defaultdict(list)
    for f in every:
        if len(shape(f)) >= 12:
            alike[shape(f)].append(f)
    for group in alike.values():
        for f in group[1:]:
            found['2 a function with the shape of an earlier one'].append(f'{f.place()} as {group[0].path}:{group[0].line} {group[0].name}')
    for f in every:
        tests = ' '.join(f.body)
        if re.match(r'^match [\w.()]+ \{ [\w:|() ]+ => true, _ => false, \}$', tests):
            found['2 a test for one variant by match'].append(f.place())

    # 3. Loops that count by hand.
    for path, text in files:
        for n, line in enumerate(text.split('\n'), 1):
            if re.match(r'\s*(\w+) \+= 1;', line) or re.match(r'\s*for \w+ in 0\.\.', line):
                found['3 a counter by hand, or a range of indices'].append(f'{path}:{n} {line.strip()}')

    # 4. By hand what is derived.
    for path, text in files:
        for n, line in enumerate(text.split('\n'), 1):
            if re.match(r'\s*impl(<.*>)? (PartialEq|Eq|Ord|PartialOrd|Clone|Copy|Debug|Display|From<.*>) for', line):
                found['4 an impl by hand of equality, order, copying or conversion'].append(f'{path}:{n} {line.strip()}')
            if re.match(r'\s*(pub )?fn same\b', line):
                found['4 equality under another name'].append(f'{path}:{n} {line.strip()}')
            if re.search(r"b'0' \+", line):
                found['4 digits by hand'].append(f'{path}:{n} {line.strip()}')
            if re.match(r'\s*Err\((\w+)\) => Err\(\1\),', line) or re.match(r'\s*return Err\(refusal\);', line):
                found['4 an error passed on by hand'].append(f'{path}:{n} {line.strip()}')
        for match in re.finditer(r'(#\[derive\(([^)]*)\)\]\n)(?:///.*\n)*pub (struct|enum) (\w+)', text):
            if 'Copy' in match.group(2) and 'Debug' not in match.group(2):
                found['4 a plain type without Debug and PartialEq'].append(f'{path} {match.group(4)}')

    # 5. Facts and parameters that are written again and again.
    clauses, pairs = defaultdict(set), defaultdict(set)
    for f in every:
        for clause in f.clauses:
            fact = re.sub(r'^(ensures|requires)( \w+)? ', '', clause)
            clauses[f.path.split('/')[1], fact].add(f.place())
        head = re.search(r'\((.*)\)', f.head.split('->')[0])
        names = re.findall(r'(\w+):', head.group(1)) if head else []
        for a, b in zip(names, names[1:]):
            pairs[f.path.split('/')[1], a, b].add(f.place())
    for (crate, fact), where in sorted(clauses.items()):
        if len(where) >= 3:
            found['5 a clause that three functions of a crate have'].append(f'{crate} ({len(where)}): {fact}')
    for (crate, a, b), where in sorted(pairs.items()):
        if len(where) >= 3:
            found['5 two parameters side by side in three functions of a crate'].append(f'{crate} ({len(where)}): {a}, {b}')

    # 6. Buffers with a length, parallel arrays, parts by place and length.
    for path, text in files:
        for match in re.finditer(r'struct (\w+)[^{;]*\{\n(.*?)\n\}', text, re.S):
            body = match.group(2)
            vectors = re.findall(r'(\w+): Vec<', body)
            if len(vectors) >= 2 and re.search(r'length \w+\.items ≡ length \w+\.items', body):
                found['6 parallel arrays'].append(f'{path} {match.group(1)}: {", ".join(vectors)}')
            elif len(vectors) >= 2:
                found['6 several arrays in one struct'].append(f'{path} {match.group(1)}: {", ".join(vectors)}')
            if re.search(r'\[\w+; \w+\]', body) and re.search(r'\blen: usize', body):
                found['6 a buffer with its length beside it'].append(f'{path} {match.group(1)}')
            if re.search(r'(_at|start): usize', body) and re.search(r'(_len|len): usize', body):
                found['6 a part by its place and its length'].append(f'{path} {match.group(1)}')
    for f in every:
        if re.search(r'page: &mut \[u8\]', f.head) and re.search(r'(at|fill): usize', f.head):
            found['6 a page with its fill beside it'].append(f.place())
        if re.search(r'&mut \[\w+; \d+\]', f.head):
            found['6 a buffer with its length beside it'].append(f.place())
        if re.search(r'while let Some\(\w+\) = at \{', ' '.join(f.body)):
            found['6 a chain walked by hand'].append(f.place())

    # 7. Switches.
    for f in every:
        if re.search(r'\w+: bool', f.head.split('->')[0]):
            found['7 a flag that chooses what a function does'].append(f.place())
        if re.search(r'(\w+): Expected', f.head):
            found['7 an enum that chooses a test'].append(f.place())

    for kind in sorted(found):
        print(f'{len(found[kind]):4} {kind}')
        if listing:
            for place in found[kind]:
                print(f'       {place}')
    print(f'{sum(len(v) for v in found.values()):4} in all; {len(every)} functions in {len(files)} files')


main()
