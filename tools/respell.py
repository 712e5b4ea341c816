#!/usr/bin/env python3
"""respell.py [--list]: spells the names that this repository declares in specs/ and proofs/ as today's Rattle spells names, after the
toolchain's own port.py has run. A definition in camel case gets snake case (`listWords`, `list_words`). In a lemma's name a dash stays
between two names of definitions and becomes `_` beside a plain word (`swaps-two`, `swaps_two`; `cells-append` stays). A name that would
fall together with another gets `_lem`. Run once, in a tree with everything committed; it rewrites files of crates/ in place.
With --list it prints old and new names and writes nothing.
"""
import re
import sys
from collections import defaultdict
from pathlib import Path

ROOT = Path(__file__).resolve().parent.parent
WORD = r'[^\s(){}.;,@"«»\[\]\\]+'
TOKEN = re.compile(r'«[^»]*»|' + WORD)
DECLARED = re.compile(r'^(\s*)((?:(?:abbrev|unfoldable|pub|mutual|infix[lr]?) )*)((?:' + WORD + r' +)+):(?=\s|$)', re.M)
USE = re.compile(r'^ *(?:pub )?(?:ghost )?use ([^\s{;]+?)\.?(?:\{([^}]*)\})? *;?$', re.M)
# Words of a proof and not of what is proved: a dash before them joins no two names.
PLAIN = {'refl', 'sym', 'ap', 'subst', 'absurd', 'same', 'of', 'at', 'in', 'by', 'go', 'one', 'two', 'left', 'right', 'first', 'last',
         'next', 'is', 'no', 'some', 'all', 'none', 'it', 'own', 'out', 'end', 'rest', 'more', 'less', 'true', 'false', 'to', 'from', 'with'}


def snake(name):
    return re.sub(r'(?<=[a-z0-9])([A-Z])', lambda m: '_' + m.group(1).lower(), name) if re.match('[a-z]', name) else name


class Names:
    def __init__(self):
        self.paths = sorted(p for p in (ROOT / 'crates').rglob('*') if p.suffix in ('.antt', '.rt') and 'out' not in p.parts)
        self.crates = {p.name for p in (ROOT / 'crates').iterdir()}
        self.definitions, self.declared, self.fields, self.library = set(), defaultdict(set), set(), set()
        self.used = set()
        for path in self.paths:
            self.read(path, path.read_text())

    def read(self, path, text):
        if path.suffix == '.antt':
            self.used |= set(re.findall(r'(?<![^\s(){},;@"\[\]\\])' + WORD, re.sub(r'--.*', '', text)))
        for m in USE.finditer(text):
            parts = m.group(1).split('.')
            if '::' in m.group(1):
                continue
            if m.group(2) and not (parts[0] == 'Rattle' and parts[1] in self.crates):
                self.library |= {n.strip().split(' as ')[0] for n in m.group(2).split(',')}
            for alias in re.findall(r' as ([^,}\s]+)', m.group(2) or ''):
                self.declared[alias].add(str(path))
                self.definitions.add(alias)
        if path.suffix != '.antt':
            return
        for m in DECLARED.finditer(text):
            for name in m.group(3).split():
                kind = re.match(r'.*', text[m.end():].lstrip()).group(0)
                if path.name == 'Proof.antt' and not name.endswith('-spec'):
                    continue
                self.declared[name].add(str(path))
                if 'specs' in path.parts or 'abbrev' in m.group(2) or 'unfoldable' in m.group(2):
                    self.definitions.add(name)
        for block in re.findall(r'^( *)(?:pub )?record [^\n]*where\n((?:\1  .*\n)+)', text, re.M):
            self.fields |= {n for m in DECLARED.finditer(block[1]) for n in m.group(3).split()}

    def lemma(self, name):
        parts, out = name.split('-'), []
        while parts:
            n = next((k for k in range(len(parts), 0, -1) if '_'.join(parts[:k]) in self.words or k == 1 and parts[0][:1].isupper()), 0)
            out.append(('_'.join(parts[:n or 1]), n > 0))
            parts = parts[n or 1:]
        text, before = out[0]
        for word, is_name in out[1:]:
            text += ('-' if before and is_name else '_') + word
            before = is_name
        return text

    def table(self):
        self.words = {snake(n) for n in self.definitions | {n for n in self.library if '-' not in n}} - PLAIN
        kept = {n for n in self.declared if n in self.library or n.startswith('#') or n.startswith('-')}
        turned = {}
        for name in sorted(self.declared):
            if name in kept or '◌' in name:
                continue
            if name.endswith('-spec'):
                turned[name] = name.replace('-', '_')
            else:
                turned[name] = snake(name) if '-' not in name else self.lemma('-'.join(snake(p) for p in name.split('-')))
        made = defaultdict(list)
        for name, new in turned.items():
            made[new].append(name)
        for new, names in made.items():
            names.sort(key=lambda n: (n not in self.definitions, '-' in n, n))
            for k, name in enumerate(names):
                turned[name] = new + '_lem' * (k + (new in self.library))
        return {name: new for name, new in turned.items() if name != new}


def respelled(text, turned, fields, walk, source):
    """Of a proof file of a function what stands behind a dot is a step of its code, and keeps its spelling unless it is a field. In
    source a name that is snake case already may be a function's, and stays."""
    def one(m):
        word = m.group(0)
        behind = m.start() > 0 and text[m.start() - 1] == '.' and m.string[m.start() - 2:m.start()] != ' .'
        if word in turned and not (walk and behind and word not in fields) and not (source and re.fullmatch('[a-z0-9_]+', word)):
            return turned[word]
        return word
    return TOKEN.sub(one, text)


def main():
    names = Names()
    turned = names.table()
    if '--list' in sys.argv:
        for name, new in turned.items():
            print(name, new, sorted(names.declared[name])[0][len(str(ROOT)) + 8:])
        return 0
    for path in names.paths:
        text = path.read_text()
        new = respelled(text, turned, names.fields, path.name == 'Proof.antt', path.suffix == '.rt')
        if new != text:
            path.write_text(new)
    print(f'{len(turned)} names')
    return 0


sys.exit(main())
