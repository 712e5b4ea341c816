"""checks: a crate is checked in a copy of the repository with some of its lines changed, and what the prover says is taken apart.

Goals and facts are named after the source: `if byte < 5` gives a goal `returns-then-byte-lt5` and a fact `if-byte-lt5`. So a changed
test changes names, and the answers that cite them fit no more, whatever the test says. Here they are given the new name, where one
exchange of words of the old line for words of the new one leads from each name that is missing to one that there is now.
"""
import re
import subprocess
from collections import namedtuple
from pathlib import Path

FUNCTION = re.compile(r'^( *)(?:pub(?:\(crate\))? )?(?:(?:const|unsafe|extern "C") )*fn (\w+)', re.M)
ATTRIBUTES = re.compile(r'(?:^ *#\[[^\]]*\]\n)*\Z', re.M)  # those right before a function
CYCLE = re.compile(r'#\[cycle\((\w+)\)\]\n')
IMPL = re.compile(r'^impl(?:<[^>]*>)? (?:[\w:]+ for )?(\w+)', re.M)

# What `rt check` says where a fact fails, of all edits: arithmetic that does not follow, two types or sides that are not the same, a
# comparison that does not hold, a search without a proof, equations that do not lead there, a rewritten goal whose ends differ.
# What it says otherwise, tried with a small crate, is no fact: "`eqq` is not in scope", "module `..` has no `swops` that can be named
# from here", "record `Array` has no field `role`", "`role` is not a field of record `Array`", "an operand is missing at the end", "the
# `(` opened at 21:11 is still open", "the numeral `3` is checked against `Bool`", "this is applied to an argument but has type ..",
# "`cells` has no clause for 1 case", "this call of `cells` inside its own definition is not a structural call". A wrong type in what
# was edited reads like a fact ("expected type `Bool`, but this has type .."). Its place tells it: an error in src/ or specs/ is one
# of the text, a fact fails in proofs/ or is a goal. Code that does not compile (`error[unknown-name]`) gets no verdict.
FACT = re.compile('|'.join((
    r'`omega`: the (?:goal|part `[^`]*` of the goal) does not follow from what it read',
    r'the two (?:types|sides) (?:first )?differ',
    r'computed as far as they go, the two types are `',
    r'computed as a goal is, one side reads `',
    r'expected type `',
    r'does not hold \(this comparison',
    r'`search`: no proof of',
    r'`search` (?:does not close|did not prove|gave up at one of its limits)',
    r'`cc`: the equations do not join',
    r'`cc` met a bound of its own before the equations had joined',
    r'what it leaves must be a path whose two ends are equal')))
TYPE = re.compile(r'`[^`]*`: expected type `[^` ]*`, but this has type `[^` ]*`$', re.M)  # of a variable, as ℕ and ℤ
FALSE = re.compile('allow values at which this goal is false')

ERROR = re.compile(r'^(?:\./)?((?:src|specs|proofs)/\S+?):(\d+):\d+: error: ((?:`([^`\n]*)`: )?.*(?:\n[ \t].*)*)', re.M)
OPEN = re.compile(r'^note: (?:\./)?(src/\S+?):(\d+):\d+: (it is not proved that .*\(`([^`\n]*)`\).*)', re.M)
FOLLOWS = re.compile(r'.*(?:depends? on .* (?:was|were) not checked|is not admitted: rejected)')
NO_GOAL = re.compile(r'module `[^`]*\.(?:Goals|Given)`\s+has no `([^`]*)` that can be named from here')
NO_FACT = re.compile(r'record `[^`]*`(?:\s+\(nearest: [^)]*\))?\s+has no field `([^`]*)`')

# A line of a file of a crate, or a part of one: `old` stands at the place `at`, and `count` times in all.
Change = namedtuple('Change', 'file old new at count')

# A function: its name, its text, its first and last line, and the folder of its proof, which those that call each other by turns share.
# One that calls itself has such a folder of its own.
Function = namedtuple('Function', 'name body first last folder cycle')

# What the prover refuses, or a goal that it leaves open: where, of which declaration or goal, and in what words.
Error = namedtuple('Error', 'file line words label is_goal')


def change_of(crate, file, old, new):
    """The change, with the place of `old` in this file of the crate's folder."""
    path = crate / file
    text = path.read_text() if path.is_file() else ''
    return Change(file, old, new, text.find(old), text.count(old))


def changed(text, change):
    return text[:change.at] + change.new + text[change.at + len(change.old):]


def line_at(text, at):
    return text[text.rfind('\n', 0, at) + 1:].split('\n', 1)[0]


def function_at(file, text, at):
    """The function that this place of a file of src/ is in, or None. What is said of it may stand at its first attribute."""
    own = [m for m in FUNCTION.finditer(text) if m.start() <= at][-1:]
    end = own and re.compile(rf'^{own[0].group(1)}\}}', re.M).search(text, own[0].end())
    if not end or end.end() < at:
        return None
    start, (indent, name) = own[0].start(), own[0].groups()
    attributes = ATTRIBUTES.search(text[:start])
    body, cycle = text[own[0].end():end.start()], CYCLE.search(attributes.group())
    owner = IMPL.findall(text[:start])[-1:] if indent else []
    modules = [part for part in file[len('src/'):-len('.rt')].split('/') if part not in ('lib', 'main')]
    calls_itself = re.search(rf'(?:(?<![\w.:])|\bself\.){name}\(', body[body.find('{'):])
    folder = '/'.join(['proofs', *modules, *owner, '+' + cycle.group(1) if cycle else '+' + name if calls_itself else name])
    lines = text.count('\n', 0, attributes.start()) + 1, text.count('\n', 0, end.start()) + 1
    return Function(name, body, *lines, folder, bool(cycle))


def is_proved(status, said):
    return status == 0 and 'logic=proved' in said


def errors_of(said):
    """Without those that only follow from another."""
    errors = [(m, False) for m in ERROR.finditer(said) if not FOLLOWS.match(m.group(3))]
    goals = [(m, True) for m in OPEN.finditer(said)]
    return [Error(m.group(1), int(m.group(2)), m.group(3), m.group(4) or '', is_goal) for m, is_goal in errors + goals]


def own_errors(function, file, errors):
    """Those of the function of this file: of its proof, or at its lines."""
    def is_own(error):
        if error.file == file:
            return function.first <= error.line <= function.last
        shared = function.cycle and not error.label.startswith(f'{function.name}-')
        return error.file.startswith(f'{function.folder}/') and not shared
    return [error for error in errors if is_own(error)]


def missing(error):
    """The name of a goal or of a fact that a proof cites and that is not there, or None."""
    found = NO_GOAL.search(error.words) or NO_FACT.search(error.words)
    return found and found.group(1)


def names_for(error, said):
    """The names that there are, among them the one that there is in place of the missing one, and whether those are all."""
    goal = NO_GOAL.search(error.words)
    if not goal:
        return re.findall(r'[`.]([\w-]+)', error.words), True
    helps = re.findall(rf'^help: `(?:Goals|Given)` has no .*`{re.escape(goal.group(1))}`.*', said, re.M)
    listed = ' '.join(line.split('; a `use` line')[0] for line in helps)
    return re.findall(r'`([\w-]+)`', listed), not re.search(r' and \d+ more', listed)


def fact_of(errors):
    """The first of these that says that a fact fails, or None. A goal that is left open is one, but where an answer only goes by another
    name; then one that is shown to be false still is."""
    fits = not any(map(missing, errors))
    for error in errors:
        if fits or FALSE.search(error.words) if error.is_goal else FACT.search(error.words) and not TYPE.match(error.words):
            return error
    return None


def in_short(error):
    fact = None if error.is_goal else FACT.search(error.words)
    return f'{error.file}:{error.line}: {" ".join(error.words[fact.start() if fact else 0:].split())[:200]}'


def words_of(line):
    """The names and numbers of a line, as they stand in the name of a goal."""
    found = set(re.findall(r'[A-Za-z_]\w*', line))
    return found | {str(int(n.replace('_', ''), 0)) for n in re.findall(r'(?<!\w)(?:0x[\da-fA-F_]+|\d[\d_]*)', line)}


def is_of(name, words):
    """Whether this part of a name says no more than the words: a number stands behind what it is compared by."""
    parts = [re.sub(r'^(?:eq|ne|lt|le|gt|ge)(?=\d|true$|false$)', '', part) for part in name.split('-')]
    return all(part in words or part in ('eq', 'ne', 'lt', 'le', 'gt', 'ge') for part in parts)


def exchange(gone, name):
    """What is exchanged in the one name, and for what, and where: behind the last `if`, `then`, `else` or `loop` that they share, or
    nowhere, for they are exchanged whole. The number of a name, and what is said of a loop, stays."""
    old, new = gone.split('-'), name.split('-')
    shared = next((k for k, (a, b) in enumerate(zip(old, new)) if a != b), min(len(old), len(new)))
    start = max([k + 1 for k in range(shared) if old[k] in ('if', 'then', 'else', 'loop')], default=0)
    if start == 0:
        return gone, name, None
    while old[-1] == new[-1] and (old[-1].isdigit() or old[start - 1] == 'loop') and min(len(old), len(new)) > start + 1:
        old, new = old[:-1], new[:-1]
    return '-'.join(old[start:]), '-'.join(new[start:]), 'loop' if old[start - 1] == 'loop' else 'if|then|else'


def is_explained(old, new, behind, old_words, new_words):
    """Whether the words that are exchanged are those of the old line and of the new one."""
    if behind is None:
        kind, old, kind_now, new = *old.partition('-')[::2], *new.partition('-')[::2]
        if kind != kind_now:
            return False
    return bool(old and new) and is_of(old, old_words) and is_of(new, new_words)


def renaming(errors, said, proof, old_line, new_line):
    """The one exchange that leads from each missing name to one that the proof does not have, or None."""
    common, words = None, (words_of(old_line), words_of(new_line))
    for error in filter(missing, errors):
        names, are_all = names_for(error, said)
        names = [name for name in names if not re.search(rf'(?<![\w-]){re.escape(name)}(?![\w-])', proof)]
        found = [x for x in (exchange(missing(error), name) for name in names) if is_explained(*x, *words)]
        if found or are_all:
            common = [x for x in found if common is None or x in common]
    return common[0] if common else None


def renamed(proof, old, new, behind):
    if behind is None:
        return re.sub(rf'(?<![\w-]){re.escape(old)}(?![\w-])', new, proof)
    return re.sub(rf'(?i)(?<!\w)({behind})-{re.escape(old)}(?!\w)', rf'\1-{new}', proof)


class Copy:
    """A crate in a copy of the repository. What is written into it is put back."""

    def __init__(self, repository, crate):
        self.folder, self.kept = Path(repository) / 'crates' / crate, {}

    def write(self, path, text):
        self.kept.setdefault(path, path.read_text())
        path.write_text(text)

    def put_back(self):
        for path, text in self.kept.items():
            path.write_text(text)
        self.kept = {}

    def check(self):
        """Status and words of a check over what earlier ones kept."""
        done = subprocess.run(['rt', 'check'], cwd=self.folder, capture_output=True, text=True)
        return done.returncode, done.stdout + done.stderr

    def rename(self, change, text, said):
        """Whether the proof of the function that is changed has been given the new names of its test; `text` is the file's own."""
        function = function_at(change.file, text, change.at) if change.file.startswith('src/') else None
        files = sorted((self.folder / function.folder).glob('*.antt')) if function else []
        lines = line_at(text, change.at), line_at(changed(text, change), change.at)
        errors = own_errors(function, change.file, errors_of(said)) if files else []
        proof = '\n'.join(path.read_text() for path in files)
        found = renaming(errors, said, proof, *lines)
        for path in files if found else []:
            self.write(path, renamed(path.read_text(), *found))
        return found is not None

    def tried(self, changes):
        """The prover's status and words with the changes written into the copy."""
        changes = sorted(changes, key=lambda change: change.at, reverse=True)
        own = {change.file: (self.folder / change.file).read_text() for change in changes}
        for change in changes:
            path = self.folder / change.file
            self.write(path, changed(path.read_text(), change))
        status, said = self.check()
        for _ in range(8):  # names come to light one after the other, those of a caller once what it calls is proved
            if status != 1 or not any([self.rename(change, own[change.file], said) for change in changes]):
                break
            status, said = self.check()
        self.put_back()
        return status, said
