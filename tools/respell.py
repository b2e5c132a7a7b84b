#!/usr/bin/env python3
"""Brings the names of our own definitions and lemmas to snake case, where port.py left them: run once, right after it.

    tools/respell.py ROOT [--list]

A name is ours where a file of crates/*/specs or crates/*/proofs declares it: a signature, a field, a constructor or an `as`.
`aName` and `a-name` become `a_name`. What names a type keeps its capital, and what the kit declares (a name that a file imports from
elsewhere), functions of src/, the goals that the checker makes and text between quotes stay. It stops where two names would fall
together. With --list it only prints the pairs."""
import os
import re
import sys

TOKEN = re.compile(r"[^\W\d][\w'-]*")
SIGNATURE = re.compile(r"^\s*(?:(?:pub|abbrev|unfoldable|record|data|ruleset)\s+)*([^\W\d][\w'-]*)\s*(?:\{[^}]*\}\s*|\([^)]*\)\s*)*(?::|=)\s")
ALIAS = re.compile(r"\bas ([^\W\d][\w'-]*)")
IMPORT = re.compile(r"^\s*(?:ghost )?use ([^\s{;]+?)\.?(?:\{([^}]*)\})?(?: as \S+)?;?\s*$")

# lemmas named as a definition that they speak of
LEMMAS = {'at-byte': 'at_byte_lem', 'in-range': 'in_range_lem'}
LEMMAS_OF = {
    'crates/reader/proofs/Runs.antt': ['goes_on'],
    'crates/index/proofs/Extending.antt': ['goes_on'],
    'crates/messages/proofs/Split.antt': ['at_flag'],
    'crates/reader/proofs/WriteRead.antt': ['goes_on'],
    'crates/listener/proofs/HearListen.antt': ['goes_on'],
    'crates/messages/proofs/Cut.antt': ['goes_on'],
}


def snake(name):
    if not name[0].islower():
        return name
    name = re.sub(r'([a-z0-9])([A-Z])', lambda m: m.group(1) + '_' + m.group(2).lower(), name)
    return name.replace('-', '_')


def files(root):
    for folder, _, names in os.walk(os.path.join(root, 'crates')):
        for name in sorted(names):
            if name.endswith(('.antt', '.rt', '.edit')):
                yield os.path.join(folder, name)


def declared(path, lines):
    made = set()
    for line in lines:
        code = line.split('--')[0] if line.lstrip().startswith('--') else line
        for alias in ALIAS.findall(code):
            made.add(alias)
        if path.endswith('.antt'):
            m = SIGNATURE.match(code)
            if m and 'tie.Need-' not in line:
                made.add(m.group(1))
            made |= set(re.findall(r"(?<![\w'.-])[a-z]+[A-Z]\w*'?", code))
            if re.match(r'^\s*\|?\s*[^\W\d][\w-]* : ', code):
                made.add(code.split(':')[0].strip(' |'))
    return made


def main():
    root = sys.argv[1]
    texts = {path: open(path, encoding='utf8').read() for path in files(root)}
    ours, theirs = set(), set()
    crates = set(os.listdir(os.path.join(root, 'crates')))
    for path, text in texts.items():
        if path.endswith('.edit'):
            continue
        ours |= declared(path, text.split('\n'))
        for line in text.split('\n'):
            m = IMPORT.match(line)
            if not m:
                continue
            parts = m.group(1).split('.')
            own = parts[0] == 'Rattle' and len(parts) > 1 and parts[1] in crates
            if not own and m.group(2):
                theirs |= set(re.split(r'[,\s]+', m.group(2).strip()))
    pairs = {n: snake(n) for n in ours if snake(n) != n and n not in theirs}
    both = sorted(n for n in ours if snake(n) != n and n in theirs)
    rust = set()
    for path, text in texts.items():
        if path.endswith('.rt'):
            rust |= set(re.findall(r'\bfn (\w+)', text))
    # where a definition and a lemma would fall together in a file, the lemma gets `_lem`, as the kit's rule for names says
    words = {path: set(TOKEN.findall(text)) for path, text in texts.items() if not path.endswith('.edit')}
    clash = {}
    for camel in [n for n in pairs if '-' not in n]:
        new = pairs[camel]
        for lemma in [n for n in pairs if '-' in n and pairs[n] == new] + [new] * (new in ours and new not in rust):
            if any(camel in w and lemma in w for w in words.values()):
                clash[lemma] = new + '_lem'
    assert not set(clash.values()) & (ours | theirs), 'a name with _lem is taken'
    pairs.update(clash)
    pairs.update(LEMMAS)
    for name in ours:
        same = [o for o in ours if pairs.get(o, o) == pairs.get(name, name) and o != name]
        if same and any(name in w and o in w for o in same for w in words.values()):
            print('falls together:', name, same)
    if '--list' in sys.argv:
        for old in sorted(pairs):
            print(old, pairs[old], 'CLASH' if old in clash else '', 'RUST' if pairs[old] in rust else '')
        print('also declared by the kit:', both)
        return
    turned = 0
    for path, text in texts.items():
        here = pairs | {name: name + '_lem' for name in LEMMAS_OF.get(os.path.relpath(path, root), [])}
        out = []
        for line in text.split('\n'):
            pieces = re.split(r'("(?:[^"\\]|\\.)*")', line)
            for i in range(0, len(pieces), 2):
                pieces[i] = TOKEN.sub(lambda m: here.get(m.group(0), m.group(0)), pieces[i])
            out.append(''.join(pieces))
        new = '\n'.join(out)
        if new != text:
            turned += 1
            open(path, 'w', encoding='utf8').write(new)
    print(f'respell: {len(pairs)} names in {turned} files')


main()
