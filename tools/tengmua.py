"""Prints the proved reply for two loop programs, or for many pairs, or a program without loops and guards; HELP says how it is
called. `tengmua` starts it.

A reply is written only where both programs were read whole and `pair` gave exactly one whole line, or `explain` or `masked` exactly
those of an explained reply; all of it is written at once. Of many pairs each line is written as `batch` gives it, and the last one,
with the totals, only where `batch` was handed all pairs and ended well, and the totals are those of the lines; of pairs in parts it
is the sum of the totals of all parts, each once. A program without loops and guards is written only where `straight` gave it and
said nothing else, and as a text only where that assembles to the same bytes and has the same names. Everything else is a line on
standard error and status 3. The programs are run from private copies whose names hold the digest of the sources that they were
proved from and the digest of their own bytes, so neither an old binary nor a damaged one answers.
"""
import codecs
import contextlib
import fcntl
import functools
import hashlib
import os
import re
import select
import selectors
import shutil
import signal
import stat
import struct
import subprocess
import sys
import time

HELP = """\
tengmua: do two loop programs leave the same values?

  tengmua [--mask BITS | --all | --compare NAMES] [--by-number] [--explain] [--places] [--bytes] [--unproved] [--] LEFT RIGHT
  tengmua [--mask BITS | --all] [--explain] [--places] [--unproved] -
                                a framed pair on standard input: the left's length in two bytes, the left, the right
  tengmua --batch [--by-number] [--bytes] [--unproved] [--jobs N | --part K/N --out DIR] [--] LEFT RIGHT [LEFT RIGHT ...]
  tengmua --batch [--by-number] [--bytes] [--unproved] [--jobs N | --part K/N --out DIR] [--] DIRECTORY
                                many pairs: a line for each, and a last line with totals
  tengmua --batch [--unproved] -
                                pairs on standard input, one after another: the lengths of the left and of the right, two bytes
                                each, the left, the right
  tengmua --totals [--unproved] [--] DIR
                                adds up the totals of all parts of a release, whose files stand in DIR
  tengmua --straight [--text] [--bytes] [--unproved] [--] FILE
                                writes the program of FILE without loops and guards: one statement for each update
  tengmua --question N          what question N (1 to 29, without 21) asks, and what to do about a refusal
  tengmua --help

LEFT and RIGHT are program files (docs/FORMAT.md) or texts in the notation of separate/README.md. A file is a program file if it
begins with ALP, or holds a byte that no text holds and not the word `array`; --bytes takes both as program files. A name that is
one of the options stands behind --. Options stand before the names, each once.

Arrays and operators of the two correspond by number, in the order of their declarations. Two texts that name a number differently,
but for local arrays, have no reply: --by-number compares them all the same.

One line goes to standard output:

  equal N         the same value in all N compared elements, for every starting content and every meaning      status 0
  equal 0         no element was compared, so nothing is said                                                  status 4
  differs A E     cell E of array A is the first that some content and meaning tell apart                      status 1
  refused S K P   question K has a "no" for side S (left, right, both or input) at place P                     status 2

Compared are the elements of the out arrays. An inout array may be scratch, so it is compared only where --mask, --all or --compare
says so. In and local arrays never are. With `equal`, standard error names the out and inout arrays that were not compared.

In and inout arrays start alike on both sides; each side has out contents of its own. So a compared out element that a side does not
write is a difference, also where neither side writes it.

Of an operator that is marked (`op NAME/2*` in a text) only meanings count that give the same result for both orders of its
arguments.

Status 3: no reply, nothing on standard output, and a line on standard error that says why. Standard error also explains a
reply: on `differs` the element with its subscripts, on `refused` the question and, for a text, the line and column, on `equal 0`
why no element was compared.

  --mask BITS     compare the out and inout arrays whose bit is set, and no other. BITS is 0x and 1 to 4 hex digits, with capital
                  or small letters. Arrays count from 0 as they are declared, and the lowest bit is array 0: 0x1 is array 0, 0x2
                  array 1, 0x5 arrays 0 and 2. Bits of in and local arrays, and above the last array, mean nothing
  --all           compare all out and inout arrays: the same as --mask 0xFFFF
  --compare NAMES compare the out and inout arrays that have these names in a text, and no other; NAMES are one or more, with a
                  comma and no blank between. LEFT or RIGHT, or each of them, is a text
  --by-number     compare two texts though they name arrays or operators differently
  --explain       on `differs`, a second line for the left program and a third for the right: the statement that wrote the
                  element last, or that none did

                    left: bytes 22 to before 32, i = 1: B[i] = A[i]
                    right: starting content

                  Bytes count from 0: the statement's first, and the first behind it. Then each index around it, outermost
                  first, with its value (none outside of loops). Then the statement: of a text its own, on one line; of a
                  program file that of the text that `separate dis` makes of it, with names for arrays (A, B), operators (f0,
                  f1) and indices (i, j). Standard error has the line and column in a text, and says which side does not write
                  an out element. Where `separate` can't be built a difference has no reply
  --places        on `refused`, the line for a program file too, in the text that `separate dis --places` makes of it
  --unproved      ask the separately written program, which is not proved but is built in seconds; each line on standard error
                  says so

With --batch each pair has its line, in order. All its out and inout arrays are compared, as with --all. The last line has the
totals; C adds up the compared elements of the equal pairs:

  pairs N equal E differs D refused R elements C

Status 0: all pairs are equal; 1: some differ and none is refused; 2: some are refused; 3: there is no last line, so not all was
compared, and standard error says why; 4: all pairs are equal, and the line of some is `equal 0`. Standard error also names each
pair that is not equal or has that line, and each whose sides are one file. A run takes at most 65,535 pairs. A program of more than
16,384 bytes is refused and ends it, so does a stream that is cut; standard error says what was not compared.

  DIRECTORY       each file below it, at any depth, is NAME.left or NAME.left.EXT, or NAME.right or NAME.right.EXT; EXT has no dot.
                  Each NAME has one of the left and one of the right in the same folder. Anything else there is a failure, before
                  anything is compared. The order is that of the folders' names and then of NAME, by their bytes
  --jobs N        N parts of the pairs at the same time, on the cores of this machine. N is 1 to 99; more than there are pairs is
                  one for each. The output is that of one run, but a refusal that ends a run ends its part alone
  --part K/N      the K-th of N parts of the pairs, which follow one another: the lines of all parts in order are those of one run,
                  unless a refusal ends it; then the parts behind it go on
  --out DIR       where the part is written, as part-K-of-N; the folder is made if it is not there. The file's first line is a
                  record: the part, the number of pairs, and digests of the whole release, of the checker and of this command.
                  Then come the lines and the totals, which standard output does not get. The file has another name until all is
                  compared: a part that fails leaves none. Files of pairs that are given one by one are regular files
  --totals DIR    prints the sum of the parts in DIR, with the status that it has. Each of the parts 1 to N stands there once, all
                  of one release and one checker, all proved (with --unproved: none), and nothing else; or there is no sum

With --straight the program of FILE goes to standard output with its loops unrolled and without guards, in the lowest version that
holds it. FILE is a program file or a text, told apart as above. Of a program file a program file is written, but never to a
terminal. Of a text a text is written, with FILE's names of operators and arrays and a line for each statement, so that lines can be
deleted and the rest compared with FILE; it assembles to exactly the bytes that the proved program gave. Status 0: all of it is
written. Status 2: it is refused, with 2 to 20, 28 or 29; then `refused left K P` and what explains it go to standard error, and
nothing to standard output. Status 3: as above.

  --text          write a text, of a program file too; its names are then those of `separate dis`

The first call proves and builds what is missing, which takes some minutes.

  $ ./tengmua examples/scratch.txt examples/scratch-tuned.txt
  equal 32
  $ ./tengmua --all examples/scratch.txt examples/scratch-tuned.txt
  differs 2 0
  $ ./tengmua --all examples/jacobi.txt examples/jacobi-tiled.txt
  equal 32
  $ ./tengmua --all examples/jacobi.alp examples/jacobi-wrong-skew.alp
  differs 0 2
  $ ./tengmua --all --explain examples/jacobi.alp examples/jacobi-wrong-skew.alp
  differs 0 2
  left: bytes 78 to before 90, i = 1, j = 2: A[j] = B[j]
  right: bytes 112 to before 124, i = 5, j = 1: A[i - 2*j - 1] = B[i - 2*j - 1]
  $ ./tengmua --batch examples/copy.txt examples/copy-reversed.alp examples/copy.txt examples/copy-short.txt
  equal 2
  differs 1 1
  pairs 2 equal 1 differs 1 refused 0 elements 2
  $ ./tengmua --straight examples/copy.txt
  array A in [2]
  array B out [2]
  B[0] = A[0]
  B[1] = A[1]
"""

ROOT = os.path.dirname(os.path.dirname(os.path.realpath(__file__)))
KEPT = os.path.join(ROOT, 'target', 'tengmua')
PROGRAM = 16384  # bytes of the longest program
FRAMED = 32771  # bytes of standard input that decide the reply
PAIRS = 65535  # the most pairs that `batch` takes
LINE = 160  # bytes that no line of `batch` exceeds
STATEMENT = 1  # the code byte of a statement
OUT = 1  # the byte of the role of arrays in which an element that a side does not write is a difference
INOUT = 2  # the byte of the role of arrays that are compared under a mask only
LOCAL = 3  # the byte of the role of arrays that the other side need not have
COMPARED = {OUT: 'out', INOUT: 'inout'}  # the roles of arrays that can be compared
ALL = 0xFFFF  # the mask of all arrays
MARKED = 0x82  # the byte of an operator of two arguments that may swap
TEXT = 1 << 20  # bytes of the longest text that is taken
NO_TEXT = re.compile(rb'[\x00-\x08\x0b\x0c\x0e-\x1f\x7f]')
# The encodings that a text may be in. Only the first is taken.
ENCODINGS = ('UTF-8', 'UTF-16-LE', 'UTF-16-BE', 'UTF-32-LE', 'UTF-32-BE')
MARK = b'ALP'  # what a program file begins with
NUMBER = rb'(0|[1-9][0-9]*)'
REPLY = re.compile(b'equal %s\n|differs %s %s\n|refused (left|right|both|input) %s %s\n' % ((NUMBER,) * 5))
PLACE = rb'(0|[1-9][0-9]{0,4})'
VALUES = rb'((?: (?:0|-?[1-9][0-9]{0,4})){0,8})'
# The line of `explain` and `masked` for a side: of the element that differs (groups 1 and 2), and of no other.
ORIGIN = rb'(?:starting \1 \2|written \1 \2 %s %s%s)\n' % (PLACE, PLACE, VALUES)
EXPLAINED = re.compile(rb'differs %s %s\n%s%s' % (NUMBER, NUMBER, ORIGIN, ORIGIN))
PLACED = re.compile(r'^ *(.*?) *# (?:end )?at ([0-9]+)$', re.MULTILINE)  # a line of `separate dis --places`
WIDE, LONG = 28, 29  # the questions about a list as a file: the place of the first is an update's number, the second has none
# The line of `straight` where it writes no program: 2 to 20 of the program, then 28 and 29 of its list.
UNWRITTEN = re.compile(rb'refused left (?:[2-9]|1[0-9]|20|28|29) %s\n' % PLACE)
SIDES = ('left', 'right')
KINDS = {'op': 'operator', 'array': 'array'}  # what a text declares, by the word that begins it
STATUS = {b'equal': 0, b'differs': 1, b'refused': 2}
EMPTY = b'equal 0'  # the reply where no element was compared
NOTHING = 4  # its status, and that of many pairs which are equal where this is the reply to one
# The replies behind which `batch` takes no further pair: the stream is cut, or a stated length is above its limit.
ENDING = re.compile(rb'refused (?:input 1|(?:left|right) 2) 0\n')
PART = re.compile('([0-9]{1,9})/([0-9]{1,9})')
JOBS = re.compile('[1-9][0-9]?')
COUNT, HEX = rb'([1-9][0-9]{0,8})', rb'([0-9a-f]{64})'
PART_FILE = re.compile(rb'part-%s-of-%s' % (COUNT, COUNT))
# The first line of a part's file: which part it is, how many pairs it and the release have, and of what and by what it was made.
RECORD = re.compile(rb'part %s of %s pairs %s of %s release %s checker %s command %s (proved|NOT PROVED)\n'
                    % (*(COUNT,) * 4, *(HEX,) * 3))
RELEASED = ('--by-number', '--bytes')  # options that change what is asked of a release: its digest holds them
BITS = re.compile('0x([0-9A-Fa-f]{1,4})')
CHOICES = ('--mask', '--all', '--compare')  # each says which arrays of one pair are compared
SIDED = re.compile(rb'(.+)\.(left|right)(?:\.[^.]+)?', re.DOTALL)  # the name of a file of a pair: NAME, side
TWICE_SIDED = re.compile(rb'.+\.(?:left|right)\.(?:left|right)', re.DOTALL)  # the last word may be the side or EXT
# Options that take the word behind them, and what it is.
VALUED = {'--question': 'N', '--mask': 'BITS', '--compare': 'NAMES', '--part': 'K/N', '--out': 'DIR', '--jobs': 'N'}
# The calls, by the option that makes one: the names that stand behind it, whether so many may, and the options that go with it.
CALLS = {
    '--help': ('', lambda count: count == 0, ()),
    '--question': ('', lambda count: count == 0, ()),
    '--totals': (' DIR', lambda count: count == 1, ('--unproved',)),
    '--straight': (' FILE', lambda count: count == 1, ('--text', '--bytes', '--unproved')),
    '--batch': (' DIRECTORY or LEFT RIGHT...', lambda count: count == 1 or count > 0 and count % 2 == 0,
                ('--by-number', '--bytes', '--unproved', '--part', '--out', '--jobs')),
    '': (' LEFT RIGHT', lambda count: count == 2,
         ('--mask', '--all', '--compare', '--by-number', '--explain', '--places', '--bytes', '--unproved')),
}
OPTIONS = {option for made, (_, _, others) in CALLS.items() for option in (made, *others)} - {''}
OF_FILES = ('--compare', '--by-number', '--bytes', '--part', '--out', '--jobs')  # these speak of files: they do not go with `-`
TOGETHER = {'--part': '--out', '--out': '--part'}  # each asks for the other
# What would have a say in which compiler `rt` takes, where scripts go, where cargo puts what it builds, and what that is. What Python
# goes by, in which `rt` is written, begins with PYTHON.
UNWANTED = ('RT_BACKEND', 'RT_ALLOW_C', 'CDPATH', 'CARGO_BUILD_TARGET', 'CARGO_BUILD_TARGET_DIR', 'CARGO_TARGET_DIR',
            'CARGO_BUILD_BUILD_DIR', 'CARGO_BUILD_RUSTFLAGS', 'CARGO_ENCODED_RUSTFLAGS', 'RUSTFLAGS')
SIGNALS = (signal.SIGINT, signal.SIGTERM, signal.SIGHUP)
TELL_EVERY = 20  # seconds between lines that say how far a build is
SHOW_EVERY = 0.1  # seconds between two states of the line that says how far a run is
GRACE = 3  # seconds that a build has to end before it is killed

mark = b''  # what each line on standard error begins with


class Failure(Exception):
    """There is no reply; the message says why."""


class Interrupted(BaseException):
    """A signal asked this process to end."""


class held:
    """Signals that come where they would leave something behind wait for it."""
    depth = 0
    came = None


@contextlib.contextmanager
def held_signals():
    held.depth += 1
    try:
        yield
    finally:
        held.depth -= 1
        if held.came is not None:
            interrupt(held.came)


@contextlib.contextmanager
def open_signals():
    """Where signals are held, lets them come for a while."""
    held.depth -= 1
    try:
        if held.came is not None:
            interrupt(held.came)
        yield
    finally:
        held.depth += 1


def interrupt(number):
    for each in SIGNALS:
        signal.signal(each, signal.SIG_IGN)
    raise Interrupted(number)


# ---- what is said


class progress:
    """The line on a terminal that says how far a run is: its width if it stands there, and when it was written."""
    width = 0
    at = 0.0


def show_progress(message):
    """Rewrites the line in place, where standard error is a terminal, and not too often."""
    now = time.monotonic()
    if now - progress.at >= SHOW_EVERY and os.isatty(2):
        wipe_progress()
        line = mark + b'tengmua: ' + message.encode()
        progress.width, progress.at = len(line), now
        with contextlib.suppress(OSError):
            os.write(2, line)


def wipe_progress():
    if progress.width:
        with contextlib.suppress(OSError):
            os.write(2, b'\r' + b' ' * progress.width + b'\r')
        progress.width = 0


def tell(line):
    wipe_progress()
    with contextlib.suppress(OSError):
        os.write(2, mark + line + b'\n')


def say(message):
    tell(b'tengmua: ' + message.encode('utf-8', 'backslashreplace'))


def shown(name):
    """A file's name on one line, in quotes where it is not plain."""
    data = os.fsencode(name)
    text = data.decode('utf-8', 'backslashreplace')
    plain = ''.join(c if c.isprintable() else c.encode('unicode_escape').decode() for c in text)
    return plain if plain and plain.strip().encode() == data else f"'{plain}'"


def plain(error, name=''):
    """What the system says, with the file that it is about, as far as one is known."""
    file = error.filename or name
    return f'{shown(file)}: {error.strerror}' if file else str(error.strerror)


@contextlib.contextmanager
def naming(name):
    """Makes a failure of what the system says of a file: writing and reading say no name themselves."""
    try:
        yield
    except OSError as error:
        raise Failure(plain(error, name)) from None


def write_out(data):
    if progress.width and os.isatty(1):
        wipe_progress()
    try:
        if os.write(1, data) == len(data):
            return
        why = 'not all of it was taken'
    except OSError as error:
        why = error.strerror
    raise Failure(f'standard output: {why}')


# ---- what is read


def read_most(fd, most):
    """All that is there, up to so many bytes."""
    parts = []
    while most > 0:
        part = os.read(fd, min(most, 65536))
        if not part:
            break
        parts.append(part)
        most -= len(part)
    return b''.join(parts)


def ask_for_pipes(names):
    """Fails where one pipe stands twice, before it is opened: who opens it again waits for ever."""
    seen = set()
    for name in names:
        with contextlib.suppress(OSError):  # which is said where the file is read
            state = os.stat(name)
            if stat.S_ISFIFO(state.st_mode) or stat.S_ISSOCK(state.st_mode):
                if (state.st_dev, state.st_ino) in seen:
                    raise Failure(f'{shown(name)}: the same pipe as a file before it, and it can be read only once')
                seen.add((state.st_dev, state.st_ino))


def tell_same_file(names, pair=''):
    """Says that both names are of one regular file, if they are. A reply stands without it."""
    with contextlib.suppress(OSError):
        left, right = map(os.stat, names)
        if os.path.samestat(left, right) and stat.S_ISREG(left.st_mode):
            say(f'{pair}both sides are the same file: {" and ".join(dict.fromkeys(map(shown, names)))}')


class File:
    """A program as it was given: its bytes, and its text if it had one."""

    def __init__(self, name, data, text=None):
        self.name = name
        self.bytes = data
        self.text = text

    def digest(self):
        """Of what was read."""
        return digest_of(self.bytes if self.text is None else self.text)


def read_file(name, as_bytes, pipes):
    """Reads a file once. `pipes` holds the identities of those that were read before and can't be read again."""
    try:
        fd = os.open(name, os.O_RDONLY | os.O_CLOEXEC | os.O_NOCTTY)
        try:
            state = os.fstat(fd)
            if stat.S_ISFIFO(state.st_mode) or stat.S_ISSOCK(state.st_mode) or os.isatty(fd):
                if (state.st_dev, state.st_ino) in pipes:
                    raise Failure(f'{shown(name)}: the same pipe as a file before it, and it can be read only once')
                pipes.add((state.st_dev, state.st_ino))
            data = read_most(fd, PROGRAM + 1)
            if not as_bytes and is_text(data):
                data += read_most(fd, TEXT + 1 - len(data))
        finally:
            os.close(fd)
    except OSError as error:
        raise Failure(f'{shown(name)}: {error.strerror}') from None
    if as_bytes or not is_text(data):
        return File(name, data[:PROGRAM + 1])
    if len(data) > TEXT:
        raise Failure(f'{shown(name)}: a text of more than {TEXT} bytes')
    return File(name, None, data)


def is_text(data):
    """Whether a file is in the text notation, by its first bytes: they have no mark of a program file and none that a text can't
    have, or else the word `array`, so that it is a text with a fault."""
    start = data[:PROGRAM + 1]
    if MARK.startswith(start[:3]):
        return False
    return is_plain(start) or encoding_of(start) is not None


def is_plain(data):
    """Whether the first bytes of a file are UTF-8, and no control characters of ASCII."""
    try:
        codecs.getincrementaldecoder('utf-8')().decode(data, len(data) <= PROGRAM)
    except UnicodeDecodeError:
        return False
    return not NO_TEXT.search(data)


def encoding_of(data):
    """The encoding in which bytes have the word `array`, which no text is without."""
    return next((name for name in ENCODINGS if 'array'.encode(name) in data), None)


# ---- what is built


def digest_of(data):
    return hashlib.sha256(data).hexdigest()


def digest_of_files(paths, more=b''):
    """Of names and contents."""
    whole = hashlib.sha256(more)
    for path in sorted(paths):
        with naming(path), open(os.path.join(ROOT, path), 'rb') as file:
            whole.update(f'\0{digest_of(os.fsencode(path))} {digest_of(file.read())}'.encode())
    return whole.hexdigest()


def files_below(folder):
    for at, _, names in os.walk(os.path.join(ROOT, folder), onerror=fail_with):
        for name in names:
            yield os.path.relpath(os.path.join(at, name), ROOT)


def fail_with(error):
    raise error


def crates_of(name):
    """The crate and all that it builds on, as crates.txt has them."""
    with open(os.path.join(ROOT, 'crates.txt'), encoding='utf-8', errors='replace') as file:
        rows = [line.split('#')[0].split(':') for line in file]
    # Behind a name may stand what kind of crate it is.
    needs = {row[0].split()[0]: row[1].split() for row in rows if len(row) == 2 and row[0].strip()}
    found, todo = set(), [name]
    while todo:
        crate = todo.pop()
        if crate in needs and crate not in found:
            found.add(crate)
            todo += needs[crate]
    return sorted(found)


def started(command, errors, **how):
    """Starts a tool at the root."""
    environment = {name: value for name, value in os.environ.items() if name not in UNWANTED and not name.startswith('PYTHON')}
    try:
        return subprocess.Popen(command, cwd=ROOT, env=environment, stdin=subprocess.DEVNULL, stdout=subprocess.PIPE,
                                stderr=errors, **how)
    except FileNotFoundError:
        raise Failure(f'{command[0]} is not installed, or not on PATH (README.md, "What must be installed")') from None


def version_of_rt():
    with started(['rt', 'version'], subprocess.DEVNULL) as child:
        version = child.communicate()[0]
    if child.returncode != 0:
        raise Failure(f'rt version failed with status {child.returncode}')
    return version


class Proved:
    """A proved program, by its name."""

    def __init__(self, name):
        self.name = name

    def sources(self):
        paths = ['crates.txt']
        for crate in crates_of(self.name):
            for part in ('src', 'specs', 'proofs'):
                if os.path.isdir(os.path.join(ROOT, 'crates', crate, part)):
                    paths += files_below(os.path.join('crates', crate, part))
        return digest_of_files(paths, version_of_rt())

    def build(self):
        crates = crates_of(self.name)
        say(f'proving and building {self.name} ({len(crates)} crates), which takes some minutes where nothing is proved yet;')
        say('tengmua --unproved answers sooner, without a proof. The lines of the prover follow.')
        built = os.path.join(ROOT, 'target', 'bin', self.name)
        # tools/build links the program anew, whatever stands there. Where that can't be written it is said before minutes of proving.
        with contextlib.suppress(FileNotFoundError):
            os.remove(built)
        run_build(['tools/build', self.name], re.compile(rb'logic=proved '), len(crates))
        return built


class Separate:
    """The separately written program: the assembler of texts, and the answer of --unproved."""
    name = 'separate'

    @staticmethod
    def sources():
        return digest_of_files(['separate/Cargo.toml', 'separate/Cargo.lock', *files_below('separate/src')])

    @staticmethod
    def build():
        say('building the separately written program (separate), which takes some seconds; the lines of cargo follow.')
        folder = os.path.join(KEPT, 'cargo')
        shutil.rmtree(folder, ignore_errors=True)
        run_build(['cargo', 'build', '--release', '--offline', '--manifest-path', 'separate/Cargo.toml', '--target-dir', folder])
        built = os.path.join(folder, 'release', 'separate')
        if not os.path.isfile(built):
            raise Failure(f'{shown(built)}: cargo build ended well and left no such file: a setting of cargo, as build.target in a '
                          '.cargo/config.toml, may have sent it elsewhere')
        return built


@functools.lru_cache(maxsize=None)
def program(kind):
    """The path of a binary that was made from the sources as they are; this is asked once."""
    sources = kind.sources()
    path = kept(kind, sources)
    if path is None:
        with locked():
            path = kept(kind, sources) or made(kind, sources)
    return path


def kept(kind, sources):
    """The private copy, if its bytes are those that were kept."""
    start = f'{kind.name}-{sources}-'
    names = os.listdir(KEPT) if os.path.isdir(KEPT) else []
    for name in names:
        if name.startswith(start):
            path = os.path.join(KEPT, name)
            with naming(path), open(path, 'rb') as file:
                if name == start + digest_of(file.read()):
                    return path
    return None


def made(kind, sources):
    os.makedirs(KEPT, exist_ok=True)
    if not os.access(KEPT, os.W_OK | os.X_OK):
        raise Failure(f'{shown(KEPT)}: what is built is kept there, and it can\'t be written')
    built = kind.build()
    if kind.sources() != sources:
        raise Failure('the sources changed while they were being built: call again')
    with open(built, 'rb') as file:
        data = file.read()
    for name in os.listdir(KEPT):
        if name.startswith((kind.name + '-', 'new-')):
            os.remove(os.path.join(KEPT, name))
    new = os.path.join(KEPT, f'new-{kind.name}')
    with naming(new), open(new, 'wb') as file:
        file.write(data)
        os.fchmod(file.fileno(), 0o755)
    path = os.path.join(KEPT, f'{kind.name}-{sources}-{digest_of(data)}')
    os.rename(new, path)
    shutil.rmtree(os.path.join(KEPT, 'cargo'), ignore_errors=True)
    return path


@contextlib.contextmanager
def locked():
    """One build at a time. The lock is on the repository's folder, so removing target/ does not free it."""
    fd = os.open(ROOT, os.O_RDONLY | os.O_CLOEXEC)
    try:
        try:
            fcntl.flock(fd, fcntl.LOCK_EX | fcntl.LOCK_NB)
        except BlockingIOError:
            say('another call is building; waiting for it')
            fcntl.flock(fd, fcntl.LOCK_EX)
        yield
    finally:
        os.close(fd)


def run_build(command, step=None, steps=0):
    """Runs a build in a process group of its own, of which nothing outlives this call."""
    with held_signals():
        child = started(command, subprocess.STDOUT, start_new_session=True)
        with guarded(child.pid):
            try:
                pass_on(child, step, steps)
            finally:
                end_group([child.pid])
                child.stdout.close()
                child.wait()
    if child.returncode != 0:
        raise Failure(f'{" ".join(command[:2])} failed with status {child.returncode}: what it said is above')


@contextlib.contextmanager
def guarded(group):
    """Has a process kill the group should this one be killed itself: then nobody holds the other end of its pipe."""
    reader, writer = os.pipe()
    guard = os.fork()
    if guard == 0:
        try:
            os.setsid()
            signal.pthread_sigmask(signal.SIG_BLOCK, SIGNALS)
            os.close(writer)
            os.read(reader, 1)
            os.killpg(group, signal.SIGKILL)
        finally:
            os._exit(0)
    os.close(reader)
    try:
        yield
    finally:
        os.kill(guard, signal.SIGKILL)
        os.waitpid(guard, 0)
        os.close(writer)


def ended(pid):
    """Whether a child has ended. It stays a zombie, so that its group's number is not given to others."""
    return os.waitid(os.P_PID, pid, os.WEXITED | os.WNOWAIT | os.WNOHANG) is not None


def end_group(pids):
    """Ends what is left of a group, first by asking its children of this process. The first of them gave it its number."""
    with contextlib.suppress(ProcessLookupError):
        if not all(map(ended, pids)):
            os.killpg(pids[0], signal.SIGTERM)
            until = time.monotonic() + GRACE
            while not all(map(ended, pids)) and time.monotonic() < until:
                time.sleep(0.02)
        os.killpg(pids[0], signal.SIGKILL)


def pass_on(child, step, steps):
    """Each line of a build to standard error as it comes, and now and then how far it is, until it ends."""
    began = told = time.monotonic()
    done, rest, is_open = 0, b'', True
    while is_open or not ended(child.pid):
        ready, _, _ = select.select([child.stdout] if is_open else [], [], [], 0.1)
        if held.came is not None:
            raise Interrupted(held.came)
        if ready:
            data = os.read(child.stdout.fileno(), 65536)
            is_open = data != b''
            *lines, rest = (rest + (data or b'\n')).split(b'\n')
            for line in filter(None, lines):
                tell(line)
                done += bool(step and step.match(line))
                told = time.monotonic()
        elif ended(child.pid):
            return  # though something else holds the pipe open
        elif time.monotonic() - told > TELL_EVERY:
            told = time.monotonic()
            say(f'{told - began:.0f} s' + (f', {done} of at most {steps} crates proved' if steps else ''))


# ---- what is asked


def ran(path, words, data):
    """Runs a binary of ours on some input; the environment has no say in it."""
    return subprocess.run([path, *words], input=data, capture_output=True, env={}, cwd='/', check=False)


def message_of(done):
    """The first line that a program wrote to standard error."""
    return done.stderr.split(b'\n')[0].decode('utf-8', 'replace') or f'status {done.returncode}'


def assemble(file):
    """Puts the bytes of a text in its place."""
    encoding = encoding_of(file.text)
    if encoding not in (None, 'UTF-8'):
        raise Failure(f'{shown(file.name)}: this is {encoding[:6]}, and a text is UTF-8 (--bytes takes any file as a program file)')
    done = ran(program(Separate), ['asm'], file.text)
    if done.returncode != 0:
        raise Failure(f'{shown(file.name)}: {message_of(done)}')
    file.bytes = done.stdout[:PROGRAM + 1]


def read_pair(names, options, pipes):
    """Both files of a pair, with the bytes of their programs. Two texts name each number alike, unless they go by number."""
    files = [read_file(name, '--bytes' in options, pipes) for name in names]
    for file in files:
        if file.text is not None:
            assemble(file)
    if '--by-number' not in options and all(file.text is not None for file in files):
        check_names(*files)
    return files


def rows_of(file, option):
    """What `separate asm` says of a text with an option, line by line."""
    done = ran(program(Separate), ['asm', option], file.text)
    if done.returncode != 0:
        raise Failure(f'{shown(file.name)}: {message_of(done)}')
    return [line.split('\t') for line in done.stdout.decode('utf-8', 'replace').splitlines()]


class Declared:
    """An operator or array of a text: name, arity or role, and where its name stands."""

    def __init__(self, name, kind, line, column):
        self.name, self.kind = name, kind
        self.where = f'line {line}, column {column}'


def declared_in(file):
    """The operators and the arrays of a text, each in a list by number."""
    rows = [row for row in rows_of(file, '--names') if len(row) == 6]
    found = {word: [Declared(*row[2:]) for row in rows if row[0] == word] for word in KINDS}
    behind = 6 + len(found['op'])
    if [len(found[word]) for word in KINDS] != [*file.bytes[5:6], *file.bytes[behind:behind + 1]]:
        raise Failure(f'{shown(file.name)}: separate asm --names does not say what the text declares')
    return found


def check_names(left, right):
    """Fails where two texts name a number differently: for what the programs compare, they are the same."""
    both = declared_in(left), declared_in(right)
    for word, what in KINDS.items():
        for number, (one, other) in enumerate(zip(both[0][word], both[1][word])):
            if one.name != other.name and 'local' not in (one.kind, other.kind):
                raise Failure(f'{what} {number} is {one.name} in {shown(left.name)} and {other.name} in {shown(right.name)}: '
                              'files correspond by number, and not by name; --by-number compares all the same')


def framed(left, right):
    # A left program beyond its limit gets its length or the largest one that two bytes can say: question 2 refuses either.
    return struct.pack('<H', min(len(left), 65535)) + left + right


class Origin:
    """The update that wrote an element last on one side: the bytes of its statement, and its index values, outermost first."""

    def __init__(self, start, end, values):
        self.start, self.end = int(start), int(end)
        self.values = [int(value) for value in values.split()]

    def fits(self, data):
        """Whether a program of these bytes can have such an update."""
        inside = self.start < self.end <= len(data) and data[self.start] == STATEMENT
        return inside and all(-32768 <= value <= 32767 for value in self.values)


def origins_of(output, files):
    """What is said of both sides of a difference: None of one that never wrote the element; no list where a part is wrong."""
    found = EXPLAINED.fullmatch(output)
    if found is None:
        return None
    origins = [None if part[0] is None else Origin(*part) for part in (found.group(3, 4, 5), found.group(6, 7, 8))]
    return origins if all(one is None or one.fits(file.bytes) for one, file in zip(origins, files)) else None


def ask(name, data, files, unproved):
    """What is printed, the reply's line first, and where another program than `pair` has a difference the origins; or a failure."""
    path, words = (program(Separate), [name]) if unproved else (program(Proved(name)), [])
    done = ran(path, words, data)
    if name != 'pair' and done.stdout.startswith(b'differs'):
        origins = origins_of(done.stdout, files)
    else:
        origins = [] if REPLY.fullmatch(done.stdout) else None
    if done.returncode != 0 or origins is None:
        why = message_of(done) if done.returncode or done.stderr else 'it printed something else'
        raise Failure(f'no reply from {os.path.basename(path).split("-")[0]}: {why}')
    return done.stdout, origins


# ---- what wrote the element


def statements_of(file):
    """Of each statement the places of its first byte and behind its last, the names of the indices around it, and its words: those
    of the text itself, or those that `separate dis --places` makes of a program file."""
    if file.text is not None:
        for row in rows_of(file, '--statements'):
            if len(row) == 4:
                yield row[0], row[1], row[2].split(), row[3]
        return
    done = ran(program(Separate), ['dis', '--places'], file.bytes)
    if done.returncode != 0:
        raise Failure(f'{shown(file.name)}: {message_of(done)}')
    rows = PLACED.findall(done.stdout.decode('utf-8', 'replace'))
    around = []
    for (text, place), (_, behind) in zip(rows, rows[1:]):
        if text.startswith(('for ', 'if ')):
            around.append(text.split()[:2])
        elif text == '}':
            around.pop()
        elif ' = ' in text:
            yield place, behind, [name for word, name in around if word == 'for'], text


def statement_of(origin, file):
    """An origin's statement and the names of the indices around it."""
    for start, end, names, text in statements_of(file):
        if (start, end) == (str(origin.start), str(origin.end)):
            return text, names
    raise Failure(f'{shown(file.name)}: separate has no statement from place {origin.start} to before {origin.end}')


def side_line(side, origin, file):
    """What wrote the element on one side."""
    if origin is None:
        return f'{side}: starting content\n'
    text, names = statement_of(origin, file)
    if len(names) != len(origin.values):
        raise Failure(f'{shown(file.name)}: {len(origin.values)} index values in {len(names)} loops')
    values = ''.join(f', {name} = {value}' for name, value in zip(names, origin.values))
    return f'{side}: bytes {origin.start} to before {origin.end}{values}: {text}\n'


def lines_of(output, origins, files):
    """The reply's line and one for each origin. Where these can't be made, the failure has what the program printed."""
    line, *said = output.decode().splitlines()
    try:
        lines = [side_line(*one) for one in zip(SIDES, origins, files)]
    except (Failure, OSError, LookupError, subprocess.SubprocessError) as error:
        raise Failure(f'no text for "{line}; left {said[0]}; right {said[1]}": {error}') from None
    return (line + '\n' + ''.join(lines)).encode()


# ---- what is explained


class Names:
    """What the arrays and operators of a program are called, and which line of its text a place is on."""

    def __init__(self, file):
        self.file = file

    @functools.cached_property
    def declarations(self):
        return declared_in(self.file)

    def at(self, place):
        """Where a place is: in a text, at the last field that begins there or before."""
        rows = [] if self.file.text is None else rows_of(self.file, '--places')
        found = [row for row in rows if int(row[0]) <= place]
        where = f'line {found[-1][1]}, column {found[-1][2]}' if found else f'place {place}'
        return f'{shown(self.file.name)}: {where}'

    def declared(self, word, number):
        """Name and place in the text of a declared array, no local, or operator; without a text the names of `separate dis`."""
        known, name = (arrays_of, chr(ord('A') + number)) if word == 'array' else (operators_of, f'f{number}')
        if number >= len(known(self.file.bytes)):
            return None, shown(self.file.name)
        if self.file.text is None:
            return name, shown(self.file.name)
        one = self.declarations[word][number]
        return one.name, f'{shown(self.file.name)}: {one.where}'


def arrays_of(data):
    """Role and extents of each array of a program that was read, without the locals, which come last."""
    at = 6 + data[5]
    arrays = []
    for _ in range(data[at]):
        role, dimensions = data[at + 1:at + 3]
        if role != LOCAL:
            arrays.append((role, struct.unpack_from(f'<{dimensions}H', data, at + 3)))
        at += 2 + 2 * dimensions
    return arrays


def operators_of(data):
    """What stands behind the name of each operator of a program that was read, in a text's declaration of it."""
    return ['/2*' if byte == MARKED else f'/{byte}' for byte in data[6:6 + data[5]]]


def element(name, extents, cell):
    subscripts = []
    for extent in reversed(extents):
        cell, last = divmod(cell, extent)
        subscripts.insert(0, str(last))
    return f'{name}[{", ".join(subscripts)}]'


def explain_differs(array, cell, files, origins):
    role, extents = arrays_of(files[0].bytes)[array]
    names = [Names(file).declared('array', array)[0] for file in files]
    both = [element(name, extents, cell) for name in names]
    say(f'the first difference is in {both[0]}' + ('' if names[0] == names[1] else f' (on the right {both[1]})'))
    for file, what, origin in zip(files, both, origins):
        if file.text is not None and origin is not None:
            say(f'{Names(file).at(origin.start)}: the statement that writes {what} last')
    if role == OUT:
        explain_unwritten(both, origins)


def explain_unwritten(both, origins):
    """Which sides do not write an out element, as each of them calls it: this alone makes it a difference."""
    sides = [(side, what) for side, what, origin in zip(SIDES, both, origins) if origin is None]
    if sides:
        side, what = sides[0]
        who = f'the {side} program does not write' if len(sides) == 1 else 'neither program writes'
        say(f'{who} {what}: an out element that a side does not write is a difference')


def refused_at(number, place, file):
    """Where the refusal of one file is: 28 names an update of its list, and 29 no place."""
    if number in (WIDE, LONG):
        return shown(file.name) + (f': update {place}' if number == WIDE else '')
    return Names(file).at(place)


def explain_refused(side, number, place, files, places):
    question = question_row(number)[1]
    if side in SIDES:
        file = files[side == 'right']
        say(f'{refused_at(number, place, file)}: question {number}: {question}')
        if places and file.text is None:
            explain_place(file, place)
        return
    if number in (22, 23):
        word = 'array' if number == 22 else 'op'
        for file in files:
            name, where = Names(file).declared(word, place)
            if name and number == 23:
                name += operators_of(file.bytes)[place]
            say(f'{where}: {KINDS[word]} {place}' + (f', {name}' if name else ' is not there'))
    say(f'question {number}: {question}')


def explain_place(file, place):
    """The line, of the text that `separate dis --places` makes of a program file, that holds a place."""
    done = ran(program(Separate), ['dis', '--places'], file.bytes)
    if done.returncode != 0:
        say(f'{shown(file.name)}: place {place}: the file has no text, since it is refused while it is read')
        return
    for number, line in enumerate(done.stdout.decode().splitlines(), 1):
        if line.endswith(f'# at {place}'):
            text = line[:line.rindex('#')].strip()
            say(f'{shown(file.name)}: place {place} is line {number} of its text (separate dis --places): {text}')


def explain_equal(count, file, mask):
    """Which out and inout arrays were not compared, and why where none was: each of them has elements."""
    arrays = [(number, role) for number, (role, _) in enumerate(arrays_of(file.bytes)) if role in COMPARED]
    others = [(number, role) for number, role in arrays if not (role == OUT if mask is None else mask >> number & 1)]
    if others:
        names = Names(file)
        say('not compared: ' + ', '.join(f'{names.declared("array", number)[0]} ({COMPARED[role]})' for number, role in others))
    if count == 0:
        explain_nothing({role for _, role in arrays}, mask)


def explain_nothing(roles, mask):
    """Why no element was compared, where there are arrays with these roles that could be."""
    if mask is None:
        why = 'no out array is declared' + ('; --all compares the inout arrays too' if roles else '')
    elif roles:
        why = f'no out or inout array has its bit set in the mask 0x{mask:04X}'
    else:
        why = 'no out or inout array is declared'
    say(f'no element was compared: {why}')


def explain(line, files, origins, call):
    """What a reply says of the files, on standard error. A reply stands without it."""
    words = line.decode().split()
    try:
        if words[0] == 'differs':
            explain_differs(int(words[1]), int(words[2]), files, origins)
        elif words[0] == 'refused':
            explain_refused(words[1], int(words[2]), int(words[3]), files, '--places' in call.options)
        else:
            explain_equal(int(words[1]), files[0], call.mask)
    except (Failure, OSError, LookupError, struct.error, subprocess.SubprocessError) as error:
        say(f'the reply can\'t be explained: {error}')


def question_row(number):
    """The cells of a question's row in docs/QUESTIONS.md, which has a line for a retired number."""
    with open(os.path.join(ROOT, 'docs', 'QUESTIONS.md'), encoding='utf-8') as file:
        for line in file:
            cells = [cell.strip() for cell in line.strip().strip('|').split('|')]
            if len(cells) == 5 and cells[0] == str(number):
                return cells
            if line.startswith(f'- {number}, "'):
                raise Failure(f'question {number} is retired: {line.strip().split(", ", 1)[1]}')
    raise Failure(f"'{number}' is no question: they have the numbers 1 to 29, without 21")


def tell_question(word):
    number, question, where, when, what = question_row(word)
    write_out(f'{number}. {question}\n\nSide and place: {where}\nAsked: {when}\nWhat to do: {what}\n'.encode())


# ---- a program without loops and guards


def straight(call):
    """Writes the program of a file without loops and guards, or says why it is refused; gives the status."""
    file = read_file(call.names[0], '--bytes' in call.options, set())
    as_text = file.text is not None or '--text' in call.options
    ask_for_output(file, as_text)
    if file.text is not None:
        assemble(file)
    data, refusal = straightened(file, '--unproved' in call.options)
    if refusal:
        tell(refusal)
        explain(refusal, [file], [], call)
        return STATUS[b'refused']
    if as_text:
        data = text_of(data, file)
    if mark:
        say('this program is of the separately written program')
    write_out(data)
    return 0


def ask_for_output(file, as_text):
    """Fails where standard output is a terminal, and no text is written, or is the file that was read."""
    if os.isatty(1) and not as_text:
        raise Failure('standard output is a terminal, and a program file is no text: write it to a file, by > FILE, or give --text')
    with contextlib.suppress(OSError):
        state = os.fstat(1)
        if stat.S_ISREG(state.st_mode) and os.path.samestat(state, os.stat(file.name)):
            raise Failure(f'{shown(file.name)}: standard output is this file too: write to another')


def straightened(file, unproved):
    """The bytes of the program without loops and guards, and nothing; or nothing, and the line of its refusal."""
    path, words = (program(Separate), ['straight']) if unproved else (program(Proved('straight')), [])
    done = ran(path, words, file.bytes)
    is_refused = not done.stdout and UNWRITTEN.fullmatch(done.stderr)
    if is_refused and done.returncode == (STATUS[b'refused'] if unproved else 0):  # a proved program has no other status
        return b'', done.stderr.strip()
    if done.returncode != 0 or done.stderr or not done.stdout.startswith(MARK) or len(done.stdout) > PROGRAM:
        why = message_of(done) if done.returncode or done.stderr else 'it printed something else'
        raise Failure(f'no program from {os.path.basename(path).split("-")[0]}: {why}')
    return done.stdout, b''


def text_of(data, file):
    """The text of a program that was made of a file, with the names of that where it is a text."""
    names = [] if file.text is None else names_in(file)
    done = ran(program(Separate), ['dis', *(['--named'] if names else []), *names], data)
    if done.returncode != 0 or done.stderr:
        raise Failure(f'{shown(file.name)}: no text of the program: {message_of(done)}')
    made = File(file.name, data, done.stdout)
    ask_for_text(made, names)
    return made.text


def names_in(file):
    """The names of the operators of a text, and then those of its arrays, by number."""
    return [one.name for rows in declared_in(file).values() for one in rows]


def ask_for_text(made, names):
    """Fails where a text that was made would be taken for something else than these bytes under these names."""
    who = f'{shown(made.name)}: the text of the program'
    if len(made.text) > TEXT:
        raise Failure(f'{who} has more than {TEXT} bytes, and no call takes it: choose shorter names')
    again = ran(program(Separate), ['asm'], made.text)
    if again.returncode != 0 or again.stdout != made.bytes:
        raise Failure(f'{who} does not assemble to the program')
    if names and names_in(made) != names:
        raise Failure(f'{who} has other names')


# ---- many pairs


class Tally:
    """The lines of a run of `batch`, counted as they come, up to the last one, which must say what was counted."""

    def __init__(self, who, above=0):
        self.who = who  # what a message begins with
        self.above = above  # so many lines stand before the first
        self.counts = dict.fromkeys(STATUS, 0)
        self.elements = 0
        self.empty = 0  # pairs of which no element was compared
        self.ending = None  # the reply that ended the run
        self.last = None
        self.rest = b''  # of a line that is not whole

    def pairs(self):
        return sum(self.counts.values())

    def totals(self):
        """The last line."""
        return b'pairs %d equal %d differs %d refused %d elements %d\n' % (self.pairs(), *self.counts.values(), self.elements)

    def status(self):
        return max(STATUS[kind] for kind, count in self.counts.items() if count) or (NOTHING if self.empty else 0)

    def add(self, other):
        for kind, count in other.counts.items():
            self.counts[kind] += count
        self.elements += other.elements
        self.empty += other.empty

    def take(self, data):
        """Gives the line of each reply that these bytes complete, once it is counted."""
        *lines, self.rest = (self.rest + data).split(b'\n')
        for line in lines:
            if self.is_reply(line + b'\n'):
                yield line + b'\n'
        if len(self.rest) > LINE:
            self.fail('is too long')

    def is_reply(self, line):
        """Counts a line that may stand here. One that is no reply is the last."""
        found = REPLY.fullmatch(line) if len(line) <= LINE else None
        if self.last is not None:
            self.fail('stands behind the last one')
        if found is None and line != self.totals():
            self.fail('is neither a reply nor the totals of the lines before it')
        if found is None:
            self.last = line
            return False
        if self.ending is not None or self.pairs() == PAIRS:
            self.fail('stands behind a reply that ends the run')
        self.counts[line.split()[0]] += 1
        self.elements += int(found.group(1) or 0)
        self.empty += line == EMPTY + b'\n'
        self.ending = line if ENDING.fullmatch(line) else None
        return True

    def fail(self, why):
        raise Failure(f'{self.who}: line {self.above + self.pairs() + (self.last is not None) + 1} {why}')

    def end(self):
        """Asks whether the last line is there, when nothing more comes."""
        if self.rest:
            self.fail('has no end')
        if self.last is None:
            raise Failure(f'{self.who}: it ends without totals, behind {self.pairs()} lines')

    def ask_for_pairs(self, count):
        """Fails where these are not the lines of so many pairs of files, or of fewer with a refusal that ends the run."""
        if self.pairs() > count or self.pairs() < count and self.ending is None or self.ending == b'refused input 1 0\n':
            raise Failure(f'{self.who}: {self.pairs()} replies, and no run of {count} pairs ends there')


def pairs_below(folder):
    """The names of both files of each pair in a release. Every file below the folder belongs to a pair, or there is a failure."""
    found, todo = {}, [os.fsencode(folder)]
    try:
        while todo:
            at = todo.pop()
            for entry in sorted(os.scandir(at), key=lambda entry: entry.name):
                if entry.is_dir(follow_symlinks=False):
                    todo.append(entry.path)
                else:
                    add_file(entry, at, found)
    except OSError as error:
        raise Failure(f'{shown(error.filename or at)}: {error.strerror}') from None
    if not found:
        raise Failure(f'{shown(folder)}: there is no pair in it')
    return [both_sides(found[key]) for key in sorted(found)]


def add_file(entry, folder, found):
    """Adds a file to those that were found, by folder and NAME and then by side."""
    if entry.is_dir():
        raise Failure(f'{shown(entry.path)}: a link to a directory')
    if not entry.is_file():
        raise Failure(f'{shown(entry.path)}: neither a file nor a directory')
    words = SIDED.fullmatch(entry.name)
    if words is None or TWICE_SIDED.fullmatch(entry.name):
        raise Failure(f'{shown(entry.path)}: its name is neither NAME.left nor NAME.right, with or without .EXT')
    name, side = words.groups()
    sides = found.setdefault((folder, name), {})
    if side in sides:
        raise Failure(f'{shown(entry.path)}: {shown(sides[side])} is the {side.decode()} of the same pair')
    sides[side] = entry.path


def both_sides(sides):
    """The names of the files of both sides."""
    for side, other in ((b'left', b'right'), (b'right', b'left')):
        if side not in sides:
            raise Failure(f'{shown(sides[other])}: the {side.decode()} of this pair is not there')
    return sides[b'left'], sides[b'right']


def pairs_of(names, twice=False):
    """The names of both files of each pair, of a folder or of files, each of which may have to be read twice."""
    if len(names) == 1:
        return pairs_below(names[0])
    for name in names:
        if os.path.isdir(name):
            raise Failure(f'{shown(name)}: a directory among files')
        if twice and os.path.exists(name) and not os.path.isfile(name):
            raise Failure(f'{shown(name)}: a pipe or a device, and a part reads each file of the release twice')
    ask_for_pipes(names)
    return list(zip(names[::2], names[1::2]))


def stretch(count, number, parts):
    """Which of so many pairs are a part: the first of them, and the first behind them, counted from 0."""
    return tuple(k * count // parts for k in (number - 1, number))


def part_of(pairs, number=1, parts=1):
    """The pairs of a part, and how many stand before them."""
    if parts > len(pairs):
        raise Failure(f'--part {number}/{parts}: there are {len(pairs)} pairs, and no part may be empty')
    first, behind = stretch(len(pairs), number, parts)
    if behind - first > PAIRS:
        fewest = -(-len(pairs) // PAIRS)
        raise Failure(f'{behind - first} pairs, and a run takes at most {PAIRS}: take them in parts, by --jobs {fewest} or more or '
                      f'--part 1/{fewest} to --part {fewest}/{fewest}')
    return pairs[first:behind], first


class Frames:
    """Pairs as `batch` reads them, each taken from its files when its turn comes. A program that is too long ends the run."""

    def __init__(self, pairs, before, options, part=None, digests=None):
        self.pairs, self.options = pairs, options
        self.before = before  # so many pairs stand before the first
        self.part, self.digests = part, digests  # the number of the part that these are, and the digests of both files of each pair
        self.pipes = set()
        self.count = 0  # pairs that were read
        self.ending = None  # the reply to the last of them, if it ends the run

    def next(self):
        """The bytes of the next pair; none when all are read."""
        if self.ending is not None or self.count == len(self.pairs):
            return b''
        files = read_pair(self.pairs[self.count], self.options, self.pipes)
        for file, digest in zip(files, self.digests[self.count] if self.digests else ()):
            if file.digest() != digest:
                raise Failure(f'{shown(file.name)}: it changed while the release was being read')
        programs = [file.bytes for file in files]
        self.count += 1
        for side, data in zip(SIDES, programs):
            if len(data) > PROGRAM and self.ending is None:
                self.ending = b'refused %s 2 0\n' % side.encode()
        return struct.pack('<HH', *map(len, programs)) + b''.join(programs)

    def may_have(self, count, ending):
        """Whether so many lines may have come, the last of them ending the run or not."""
        return count <= self.count and ending == (self.ending if count == self.count else None)


class Batch:
    """A run of `batch`. Each of its pipes is served when it is ready, so that neither end waits for the other for ever."""

    def __init__(self, child, frames, put):
        self.child = child
        self.frames = frames  # none where it reads standard input itself
        self.before = frames.before if frames else 0  # so many pairs stand before the first
        self.put = put  # takes each line
        self.tally = Tally('no last line from batch')
        self.unwritten = b''
        self.is_whole = frames is None  # whether all was handed over
        self.errors = b''
        self.ready = selectors.DefaultSelector()
        self.ready.register(child.stdout, selectors.EVENT_READ, self.read)
        self.ready.register(child.stderr, selectors.EVENT_READ, self.read_errors)
        if child.stdin is not None:
            os.set_blocking(child.stdin.fileno(), False)
            self.ready.register(child.stdin, selectors.EVENT_WRITE, self.write)

    def follow(self):
        """Hands over the pairs and passes on the lines, until all pipes are closed."""
        while self.ready.get_map():
            for key, _ in self.ready.select(SHOW_EVERY if os.isatty(2) else None):
                key.data(key.fileobj)
            of_all = '' if self.frames is None else f' of {len(self.frames.pairs)}'
            show_progress(f'{self.tally.pairs()}{of_all} pairs')

    def close(self, pipe):
        self.ready.unregister(pipe)
        pipe.close()

    def write(self, pipe):
        if not self.unwritten:
            self.unwritten = self.frames.next()
            self.is_whole = not self.unwritten
        try:
            self.unwritten = self.unwritten[os.write(pipe.fileno(), self.unwritten):]
        except BlockingIOError:
            return
        except BrokenPipeError:
            self.close(pipe)
            return
        if self.is_whole:
            self.close(pipe)

    def read(self, pipe):
        data = os.read(pipe.fileno(), 65536)
        if not data:
            self.close(pipe)
        for line in self.tally.take(data):
            if self.frames is not None and not self.frames.may_have(self.tally.pairs(), self.tally.ending):
                raise Failure(f'{self.tally.who}: line {self.tally.pairs()} is no reply to a pair that was handed over')
            self.put(line)
            if not line.startswith(b'equal ') or line == EMPTY + b'\n':
                self.name_pair(line)
            if self.frames is not None:
                tell_same_file(self.frames.pairs[self.tally.pairs() - 1], f'pair {self.before + self.tally.pairs()}: ')

    def read_errors(self, pipe):
        data = os.read(pipe.fileno(), 65536)
        if not data:
            self.close(pipe)
        self.errors = (self.errors + data)[:1024]

    def name_pair(self, line):
        """Says which pair is not equal, or that nothing of it was compared."""
        number = self.tally.pairs()
        names = '' if self.frames is None else ' '.join(map(shown, self.frames.pairs[number - 1])) + ': '
        why = ': no element was compared, since no out or inout array is declared' if line.startswith(EMPTY) else ''
        say(f'pair {self.before + number}: {names}{line.decode().strip()}{why}')

    def finish(self):
        """Writes the last line if all was compared, or the run was ended by a refusal; gives the status."""
        tally, frames = self.tally, self.frames
        self.child.wait()
        if self.child.returncode != 0 or self.errors:
            why = self.errors.split(b'\n')[0].decode('utf-8', 'replace') or f'status {self.child.returncode}'
            raise Failure(f'{tally.who}: {why}')
        tally.end()
        if frames is not None and (tally.pairs() < frames.count or not self.is_whole and frames.ending is None):
            raise Failure(f'{tally.who}: it ended behind {tally.pairs()} of {len(frames.pairs)} pairs')
        if tally.pairs() == 0:
            raise Failure('standard input: there is no pair in it')
        if frames is None and tally.pairs() == PAIRS and tally.ending is None:
            ask_for_more()
        if tally.ending is not None:
            self.tell_ending()
        self.put(tally.last)
        return tally.status()

    def tell_ending(self):
        """Says what was not compared, where a refusal ended the run."""
        tally, frames = self.tally, self.frames
        if frames is not None:
            tell_uncompared(tally.pairs(), len(frames.pairs), self.before, frames.part)
        else:
            why = 'the input is cut' if b'input' in tally.ending else f'a length above {PROGRAM} ended the run'
            say(f'not compared: what follows pair {tally.pairs()}, since {why} there')


def tell_uncompared(compared, count, before, part):
    """Says how many of the pairs of a run, or of a part, stand behind one that ended it."""
    if compared < count:
        of_part, ended_it = (f' of part {part}', 'it') if part else ('', 'the run')
        say(f'not compared: {count - compared} of {count} pairs{of_part}, since pair {before + compared} ended {ended_it} with a '
            f'program of more than {PROGRAM} bytes')


def ask_for_more():
    """Fails if standard input goes on behind the most pairs that are taken. `separate` reads ahead, so there nobody can tell."""
    if mark:
        raise Failure(f'standard input: {PAIRS} pairs, which is all that a run takes, and more may follow')
    with naming('standard input'):
        more = os.read(0, 1)
    if more:
        raise Failure(f'standard input: more than {PAIRS} pairs, and a run takes no more')


def checker_of(call):
    """The program that compares many pairs, and its words."""
    command = [program(Separate), 'batch'] if '--unproved' in call.options else [program(Proved('batch'))]
    if mark:
        say('these replies are of the separately written program')
    return command


def run_batch(command, frames, put):
    """Compares many pairs by one run of `batch`, which reads standard input itself where there are no frames; gives the status."""
    with held_signals():
        child = subprocess.Popen(command, bufsize=0, stdin=subprocess.PIPE if frames else None, stdout=subprocess.PIPE,
                                 stderr=subprocess.PIPE, env={}, cwd='/')
        try:
            with open_signals():
                batch = Batch(child, frames, put)
                batch.follow()
                return batch.finish()
        finally:
            # It is killed before its pipes are closed: it would take the end of its input for the end of the pairs.
            child.kill()
            child.wait()
            wipe_progress()


def reply_to_many(call):
    """Compares many pairs; gives the status."""
    if '--part' in call.options:
        return reply_to_part(call)
    if '--jobs' in call.options:
        return reply_by_jobs(call)
    frames = None if call.framed else Frames(*part_of(pairs_of(call.names)), call.options)
    return run_batch(checker_of(call), frames, write_out)


# ---- parts at the same time


class Job:
    """A part of the pairs that a process of its own compares. What it writes comes through two pipes, and waits for its turn."""

    def __init__(self, work, number, count, group):
        self.tally = Tally(f'no last line from part {number}')
        self.count = count  # of its pairs
        self.lines, self.said = [], b''  # what was not passed on
        self.is_done = False
        (self.out, out), (self.errors, errors) = os.pipe(), os.pipe()
        self.pipes = {self.out, self.errors}  # from which more may come
        self.pid = os.fork()
        if self.pid == 0:
            live(work, out, errors, group)
        os.setpgid(self.pid, group or self.pid)  # as it does itself: who comes first does not matter
        os.close(out)
        os.close(errors)

    def take(self, pipe):
        """Takes what one of its pipes has."""
        data = os.read(pipe, 65536)
        if pipe == self.out:
            self.lines += self.tally.take(data)
        else:
            self.said += data
        if not data:
            self.pipes.remove(pipe)

    def pass_on(self):
        """Writes what it wrote, since its turn has come. The last line that it said waits: it may be why it fails."""
        lines, self.lines = self.lines, []
        if lines:
            write_out(b''.join(lines))
        said, behind = self.said.split(b'\n'), -1 if self.is_done else -2
        for line in said[:behind]:
            tell(line[len(mark):])
        self.said = b'\n'.join(said[behind:])

    def finish(self):
        """Asks how it ended, when both pipes are closed. If it failed, the last line that it said is why."""
        state = os.waitid(os.P_PID, self.pid, os.WEXITED | os.WNOWAIT)
        if state.si_code != os.CLD_EXITED:
            raise Failure(f'{self.tally.who}: its process was ended by signal {state.si_status}')
        if state.si_status == 3:
            *said, last = [line[len(mark):] for line in self.said.rstrip(b'\n').split(b'\n')]
            for line in said:
                tell(line)
            raise Failure(last[len(b'tengmua: '):].decode('utf-8', 'replace') or f'{self.tally.who}: its process failed')
        self.tally.end()
        self.tally.ask_for_pairs(self.count)
        self.is_done = True


def live(work, out, errors, group):
    """What the process of a job does, and how it ends. The terminal is not its own, so that reading it fails."""
    try:
        held.depth, held.came = 0, None
        os.setpgid(0, group)
        signal.signal(signal.SIGTTIN, signal.SIG_IGN)
        os.dup2(out, 1)
        os.dup2(errors, 2)
        os._exit(status_of(work))
    finally:
        os._exit(3)


def reply_by_jobs(call):
    """Compares parts of the pairs at the same time and writes what one run would; gives the status."""
    if not JOBS.fullmatch(call.options['--jobs']):
        raise Failure(f'--jobs {shown(call.options["--jobs"])}: a number from 1 to 99 is asked for')
    pairs = pairs_of(call.names)
    count = min(int(call.options['--jobs']), len(pairs))
    parts = [part_of(pairs, number, count) for number in range(1, count + 1)]
    command = checker_of(call)
    jobs = []
    with held_signals():
        try:
            for number, (mine, before) in enumerate(parts, 1):
                work = functools.partial(run_batch, command, Frames(mine, before, call.options, number), write_out)
                jobs.append(Job(work, number, len(mine), jobs[0].pid if jobs else 0))
            with guarded(jobs[0].pid), open_signals():  # a job that began later would hold the guard's pipe open
                total = follow_jobs(jobs, len(pairs))
        finally:
            if jobs:
                end_group([job.pid for job in jobs])
            wipe_progress()
    write_out(total.totals())
    return total.status()


def follow_jobs(jobs, count):
    """Passes on what jobs write, each behind the one before it, until all have ended well; gives the sum of their totals."""
    total, waiting, ready = Tally('the sum'), list(jobs), selectors.DefaultSelector()
    for job in jobs:
        for pipe in job.pipes:
            ready.register(pipe, selectors.EVENT_READ, job)
    while waiting:
        for key, _ in ready.select(SHOW_EVERY if os.isatty(2) else None):
            job = key.data
            job.take(key.fd)
            if key.fd not in job.pipes:
                ready.unregister(key.fd)
            if not job.pipes:
                job.finish()
        while waiting:
            waiting[0].pass_on()
            if not waiting[0].is_done:
                break
            total.add(waiting.pop(0).tally)
        show_progress(f'{sum(job.tally.pairs() for job in jobs)} of {count} pairs')
    return total


# ---- parts of a release, and their sum


class PartFile:
    """The file of a part. Until all of it is written it has another name, so that a part that fails leaves none."""

    def __init__(self, folder, name):
        self.path = os.path.join(folder, name)
        self.new = os.path.join(folder, f'unfinished-{name}-{os.urandom(4).hex()}')
        with naming(self.path):
            with contextlib.suppress(FileExistsError):
                os.mkdir(folder)
            with contextlib.suppress(FileNotFoundError):
                os.remove(self.path)  # of an earlier run: this one may fail
            self.file = open(self.new, 'xb')  # pylint: disable=consider-using-with

    def write(self, line):
        with naming(self.new):
            self.file.write(line)

    def finish(self):
        with naming(self.new):
            self.file.flush()
            os.fsync(self.file.fileno())
            os.rename(self.new, self.path)

    def close(self):
        """Leaves nothing of a file that was not finished."""
        for end in (lambda: os.remove(self.new), self.file.close):
            with contextlib.suppress(OSError):
                end()


def reply_to_part(call):
    """Compares a part of a release; its file has the lines. Gives the status."""
    found = PART.fullmatch(call.options['--part'])
    number, parts = map(int, found.groups()) if found else (0, 0)
    if not 1 <= number <= parts:
        raise Failure(f'--part {shown(call.options["--part"])}: K/N is asked for, with K from 1 to N')
    with held_signals():
        file = PartFile(call.options['--out'], f'part-{number}-of-{parts}')
        try:
            with open_signals():
                status = run_part(call, number, parts, file.write)
            file.finish()
            return status
        finally:
            file.close()


def run_part(call, number, parts, put):
    """The record of a part, and the lines of its run; gives the status."""
    pairs = pairs_of(call.names, twice=True)
    mine, first = part_of(pairs, number, parts)
    command = checker_of(call)
    release, digests = digests_of(call, pairs, range(first, first + len(mine)))
    checker = os.path.basename(command[0]).split('-')[1]  # the digest of its sources
    reader = digest_of_files(['tools/tengmua.py'], Separate.sources().encode())
    put(f'part {number} of {parts} pairs {len(mine)} of {len(pairs)} release {release} checker {checker} command {reader} '
        f'{"NOT PROVED" if mark else "proved"}\n'.encode())
    return run_batch(command, Frames(mine, first, call.options, number, digests), put)


def digests_of(call, pairs, kept_of):
    """The digest of a release, over names and contents of all its files in order, and those of both files of some of its pairs."""
    folder = os.path.join(os.fsencode(call.names[0]), b'') if len(call.names) == 1 else b''
    whole = hashlib.sha256(' '.join(option for option in RELEASED if option in call.options).encode())
    digests = []
    for place, pair in enumerate(pairs):
        both = [read_file(name, '--bytes' in call.options, set()).digest() for name in pair]
        for name, digest in zip(pair, both):
            whole.update(f'\0{digest_of(os.fsencode(name)[len(folder):])} {digest}'.encode())
        if place in kept_of:
            digests.append(both)
        show_progress(f'{place + 1} of {len(pairs)} pairs read')
    return whole.hexdigest(), digests


class Part:
    """What the file of a part says: its record, and the lines of its pairs, counted."""

    def __init__(self, path):
        self.path = path
        self.tally = Tally(shown(path), 1)
        with naming(path), open(path, 'rb') as file:
            found = RECORD.fullmatch(file.readline(1024))
            if found is None or int(found.group(1)) > int(found.group(2)):
                raise Failure(f'{shown(path)}: line 1 is no record of a part')
            for data in iter(lambda: file.read(65536), b''):
                for _ in self.tally.take(data):
                    pass
        self.tally.end()
        self.number, self.parts, self.count, pairs = map(int, found.group(1, 2, 3, 4))
        self.shared = dict(zip(('number of parts', 'number of pairs', 'release', 'checker', 'command'), found.group(2, 4, 5, 6, 7)))
        self.word = found.group(8).decode()
        self.first, behind = stretch(pairs, self.number, self.parts)
        if self.count != behind - self.first:
            raise Failure(f'{shown(path)}: its record says {self.count} pairs, and part {self.number} of {self.parts} of {pairs} '
                          f'pairs has {behind - self.first}')
        self.tally.ask_for_pairs(self.count)


def parts_in(folder, word):
    """The parts whose files stand in a folder, with this word in each record: 1 to N, once each, of one release and one checker."""
    with naming(folder):
        entries = sorted(os.scandir(os.fsencode(folder)), key=lambda entry: entry.name)
    parts = {}
    for entry in entries:
        found = PART_FILE.fullmatch(entry.name)
        if found is None or not entry.is_file(follow_symlinks=False):
            why = 'a part that was not finished' if entry.name.startswith(b'unfinished-') else 'no file of a part'
            raise Failure(f'{shown(entry.path)}: {why}, and nothing but parts may stand there')
        part = Part(entry.path)
        if (part.number, part.parts) != tuple(map(int, found.groups())):
            raise Failure(f'{shown(entry.path)}: its record is that of part {part.number} of {part.parts}')
        if part.word != word:
            what = 'such parts' if word == 'proved' else 'parts that are not'
            raise Failure(f'{shown(entry.path)}: it is {part.word}, and --unproved adds up {what}')
        first = next(iter(parts.values()), part)
        for what, value in part.shared.items():
            if value != first.shared[what]:
                raise Failure(f'{shown(entry.path)}: another {what} than in {shown(first.path)}')
        parts[part.number] = part
    if not parts:
        raise Failure(f'{shown(folder)}: there is no part in it')
    for number in range(1, part.parts + 1):
        if number not in parts:
            raise Failure(f'{shown(folder)}: part-{number}-of-{part.parts} is not there')
    return [parts[number] for number in sorted(parts)]


def add_totals(folder):
    """Writes the sum of the last lines of all parts of a release; gives its status."""
    total = Tally('the sum')
    parts = parts_in(folder, 'NOT PROVED' if mark else 'proved')
    if mark:
        say('these replies are of the separately written program')
    for part in parts:
        tell_uncompared(part.tally.pairs(), part.count, part.first, part.number)
        total.add(part.tally)
    write_out(total.totals())
    return total.status()


# ---- the call


class Call:
    """The words of the command line."""

    def __init__(self, words):
        self.options = {}  # each with the word behind it
        while words and words[0] in OPTIONS:
            option = words.pop(0)
            if option in self.options:
                raise Failure(f'{option} stands twice')
            if option in VALUED and (not words or words[0] in OPTIONS):
                raise Failure(f'{option}: {VALUED[option]} is asked for behind it')
            self.options[option] = words.pop(0) if option in VALUED else None
        self.framed = words == ['-']
        if words and words[0] == '--':
            words.pop(0)
        else:
            ask_for_names(words)
        self.names = [] if self.framed else words
        self.ask_for_call(len(words))
        self.mask = mask_of(self.options)

    def ask_for_call(self, count):
        """Fails where these options do not go together, or with so many names."""
        made = next(option for option in CALLS if option in self.options or not option)
        names, may_be, others = CALLS[made]
        for option in self.options:
            if option not in (made, *others):
                why = 'many pairs are always compared in all out and inout arrays: ' if option in CHOICES and made == '--batch' else ''
                raise Failure(f'{why}{option} does not go with {made}' if made else f'{option} goes with {call_with(option)} alone')
            if self.framed and option in OF_FILES:
                raise Failure(f'{option} does not go with -')
            if option in TOGETHER and '--jobs' in self.options:
                raise Failure(f'{option} does not go with --jobs')
            if TOGETHER.get(option, option) not in self.options:
                raise Failure(f'{option} asks for {TOGETHER[option]} {VALUED[TOGETHER[option]]} too')
        if self.framed and made not in ('--batch', ''):
            raise Failure(f'- does not go with {made}')
        if not self.framed and not may_be(count):
            words = ''.join(f' {option} {VALUED[option]}' if option in VALUED else f' {option}' for option in self.options)
            found = {0: 'no name stands', 1: 'one name stands'}.get(count, f'{count} names stand')
            raise Failure(f'usage: tengmua{words}{names}, and {found} there; tengmua --help says more')


def call_with(option):
    """The call that an option goes with."""
    return next(made for made, (_, _, others) in CALLS.items() if option in others)


def ask_for_names(words):
    """Fails where a word that no -- stands before is an option, or looks like one and is no file."""
    for word in words:
        if word == '--' or word in OPTIONS:
            raise Failure(f'{word} stands behind a name: options stand before all names, and a file of this name behind --')
        if word.startswith('--') and not os.path.lexists(word):
            raise Failure(f'{shown(word)} is no option, and no file has this name; tengmua --help has the options')


def mask_of(options):
    """The mask that says which out and inout arrays are compared; None where the out arrays are, or names will say it."""
    given = [option for option in CHOICES if option in options]
    if len(given) > 1:
        raise Failure(f'{" and ".join(given)}: only one of them may stand')
    if given != ['--mask']:
        return ALL if given == ['--all'] else None
    found = BITS.fullmatch(options['--mask'])
    if found is None:
        raise Failure(f'--mask {shown(options["--mask"])}: BITS is asked for, 0x and 1 to 4 hex digits, as 0x5 for arrays 0 and 2; '
                      '--compare takes names of arrays')
    return int(found.group(1), 16)


def mask_of_names(names, files):
    """The mask of the arrays that have these names in the texts."""
    texts = [file for file in files if file.text is not None]
    if not texts:
        raise Failure('--compare takes names of arrays in a text, and both files are program files: --mask takes bits')
    rows = [(one, number, file) for file in texts for number, one in enumerate(declared_in(file)['array'])]
    mask = 0
    for place, name in enumerate(names):
        if name in names[:place]:
            raise Failure(f'--compare {shown(name)}: this name stands twice')
        mask |= 1 << compared_number(name, rows)
    return mask & ALL  # a program with an array beyond these is refused


def compared_number(name, rows):
    """The number of the out or inout array with this name; `rows` has each array of the texts with its number and its file."""
    found = [row for row in rows if row[0].name == name]
    if not found:
        known = ', '.join(dict.fromkeys(one.name for one, _, _ in rows if one.kind in COMPARED.values()))
        there = f'the out and inout arrays are {known} (a comma stands between two)' if known else 'there is no out or inout array'
        raise Failure(f'--compare {shown(name)}: no array has this name; {there}')
    (_, number, first), (_, other, last) = found[0], found[-1]
    if number != other:
        raise Failure(f'--compare {name}: this is array {number} in {shown(first.name)} and array {other} in {shown(last.name)}')
    for one, _, file in found:
        if one.kind not in COMPARED.values():
            raise Failure(f'--compare {name}: {one.kind} is its role in {shown(file.name)}; in and local arrays are never compared')
    return number


def asked(call):
    """The program for one pair, and what stands before the framed pair in its input."""
    if call.mask is not None:
        return 'masked', struct.pack('<H', call.mask)
    return 'explain' if '--explain' in call.options else 'pair', b''


def framed_files(data):
    """The two programs of a framed pair, as far as they are there."""
    length = struct.unpack('<H', data[:2].ljust(2, b'\0'))[0]
    left, right = data[2:2 + length], data[2 + length:]
    return [File('standard input, left program', left), File('standard input, right program', right)]


def reply(call):
    """Reads, asks, writes the line and explains it; gives the status."""
    if call.framed:
        with naming('standard input'):
            data = read_most(0, FRAMED)
        files = framed_files(data)
    else:
        ask_for_pipes(call.names)
        files = read_pair(call.names, call.options, set())
        data = framed(files[0].bytes, files[1].bytes)
        if '--compare' in call.options:
            call.mask = mask_of_names(call.options['--compare'].split(','), files)
    name, before = asked(call)
    output, origins = ask(name, before + data, files, '--unproved' in call.options)
    if '--explain' not in call.options:
        origins = []
    lines = lines_of(output, origins, files)
    if mark:
        say('this reply is of the separately written program')
    write_out(lines)
    if not call.framed:
        tell_same_file(call.names)
    line = output.split(b'\n')[0]
    explain(line, files, origins, call)
    return NOTHING if line == EMPTY else STATUS[line.split()[0]]


def run():
    global mark
    open_standard()
    call = Call(sys.argv[1:])
    if '--help' in call.options:
        write_out(HELP.encode())
        return 0
    if '--question' in call.options:
        tell_question(call.options['--question'])
        return 0
    if '--unproved' in call.options:
        mark = b'NOT PROVED: '
    if '--totals' in call.options:
        return add_totals(call.names[0])
    if '--straight' in call.options:
        return straight(call)
    return reply_to_many(call) if '--batch' in call.options else reply(call)


def open_standard():
    """A closed standard input or error becomes an empty one, so that no file that is opened takes its number."""
    try:
        os.fstat(1)
    except OSError:
        raise Failure('standard output is closed') from None
    for fd in (0, 2):
        try:
            os.fstat(fd)
        except OSError:
            other = os.open(os.devnull, os.O_RDWR)
            if other != fd:
                os.dup2(other, fd)
            os.set_inheritable(fd, True)  # as standard input of `batch`


def on_signal(number, _):
    if held.depth:
        held.came = number
    else:
        interrupt(number)


def status_of(work):
    """Does the work of a process. Its status is 0 to 2, or 4, only where that gives it: what Python gives for an error of its own is 1."""
    status = 3
    try:
        try:
            signal.pthread_sigmask(signal.SIG_UNBLOCK, SIGNALS)
            status = work()
        finally:
            signal.pthread_sigmask(signal.SIG_BLOCK, SIGNALS)
    except Interrupted as interrupted:
        say('interrupted')
        signal.signal(interrupted.args[0], signal.SIG_DFL)
        signal.pthread_sigmask(signal.SIG_UNBLOCK, SIGNALS)
        os.kill(os.getpid(), interrupted.args[0])
    except Failure as failure:
        say(str(failure))
    except OSError as error:
        say(plain(error))
    except BaseException as error:  # pylint: disable=broad-except
        say(f'this is a fault of tengmua itself: {type(error).__name__}: {error}'.replace('\n', ' '))
    return status


def main():
    for number in SIGNALS:
        if signal.getsignal(number) != signal.SIG_IGN:
            signal.signal(number, on_signal)
    os._exit(status_of(run))


if __name__ == '__main__':
    main()
