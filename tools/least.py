"""least.py [PASSED]: writes .ci/least anew, as the tree has it: the numbers that the gate's tools hold their own counts to, so that a
tool which looks at less than before is seen. PASSED is the number in the last line of .ci/run; without it the stored one stays. The
axioms stay too: the tree does not tell them, so they are changed by hand.
"""
import re
import subprocess
import sys
from collections import Counter
from pathlib import Path

ROOT = Path(__file__).resolve().parent.parent
HEAD = '''\
# What the gate has to find, at least: fewer is a failure. `python3 tools/least.py [PASSED]` writes this file anew.
#   passed N           in the last line of .ci/run
#   public CRATE N     public functions, which tools/promises looks at
#   edits CRATE N      wrong programs of edits/CRATE, each refused by a fact that fails (tools/try_edits)
#   must-fail CRATE N  those of crates/CRATE/must-fail, each refused (rt ci, and tools/try_edits as above)
#   same CRATE N       equivalents of both, each proved (tools/try_edits)
#   axioms CRATE N     exactly: C functions whose contracts the proofs of a program take for granted (tools/verdict)
'''


def stored(root):
    """The numbers of .ci/least, by kind and name; `passed` has no name."""
    numbers, path = {}, root / '.ci/least'
    if not path.is_file():
        sys.exit('.ci/least is missing: the gate has nothing to hold its counts to')
    for line in path.read_text().splitlines():
        found = re.fullmatch(r'([a-z-]+)(?: (\w+))? (\d+)', line)
        if found:
            numbers.setdefault(found.group(1), {})[found.group(2)] = int(found.group(3))
        elif not line.startswith('#'):
            sys.exit(f'.ci/least: this line has no number: {line}')
    return numbers


def fewer(root, kind, found, asked=lambda name: True):
    """A line for each stored number of this kind that was not reached, of the names that were asked for; also where none is stored, for
    then a tool is held to nothing. Where it is more, that is printed."""
    numbers = stored(root).get(kind, {})
    for name, number in sorted(found.items()):
        if number > numbers.get(name, 0):
            print(f'{kind} {name}: {number}, stored {numbers.get(name, 0)}: raise it (python3 tools/least.py)')
    if not numbers:
        return [f'{kind}: no number is stored (.ci/least)']
    return [f'{kind} {name}: only {found.get(name, 0)}, at least {number} (.ci/least)'
            for name, number in sorted(numbers.items()) if asked(name) and found.get(name, 0) < number]


def public(root):
    """What tools/promises counts."""
    said = subprocess.run([root / 'tools/promises', root], capture_output=True, text=True).stdout
    return {crate: int(number) for crate, number in re.findall(r'^public (\w+) (\d+)$', said, re.M)}


def counted(root, numbers):
    """The numbers as the tree has them."""
    edits, must_fail = sorted(root.glob('edits/*/*.edit')), sorted(root.glob('crates/*/must-fail/*.edit'))
    same = [path for path in edits + must_fail if re.search('^same: ', path.read_text(), re.M)]
    lists = {'edits': edits, 'must-fail': must_fail, 'same': same}
    counts = {kind: Counter(path.relative_to(root).parts[1] for path in paths) for kind, paths in lists.items()}
    return {'public': public(root), **counts, 'axioms': numbers.get('axioms', {})}


def main(words):
    numbers = stored(ROOT)
    passed = int(words[0]) if words else numbers['passed'][None]
    lines = [f'{kind} {name} {number}' for kind, found in counted(ROOT, numbers).items() for name, number in sorted(found.items())]
    (ROOT / '.ci/least').write_text(HEAD + '\n'.join([f'passed {passed}', *lines]) + '\n')


if __name__ == '__main__':
    main(sys.argv[1:])
