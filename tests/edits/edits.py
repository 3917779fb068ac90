"""Tries wrong bodies: the prover must refuse each edit of tests/edits.

It is run at the top of the repository. An edit is a file tests/edits/CRATE/MISTAKE.edit, or tests/edits/CRATE/known/MISTAKE.edit if the
gate is to try it each time. It has the form of `rt ci`: a line `file: src/a.rt`, and then pairs of lines `old: TEXT` and `new: TEXT`, of
which each old text stands exactly once in that file.

Edits of different functions of a crate are tried in one round: one check of a copy of the crate, of exactly the edited functions (`rattle
check --only`) and of what they call. What a round doesn't refuse is tried again alone, as a function may only wait there for another one
that was edited. An edit that isn't within the body of one function (of a constant, a type, a trait, the head of an impl), or is of a
`const fn`, of a function in a cycle of calls or of a trait's own method, has a round of its own.

An edit is refused where its function isn't proved, and a goal at its own lines, or an error in its own proof files, says so. It isn't
enough that it calls what isn't proved, that a proof file names what the edit took away, that the edit doesn't compile or can't be read, or
that the prover can't tell. In each round one function that isn't edited, and calls no edited one, has to be proved.

The libraries below are brought up to date first, by `rattle build` into out/rlib. As with make, one is out of date where it is older than a
source of its crate or than a library below it. With --built they are taken as they are: the gate has just built them. RT_JOBS in the
environment is how many rounds run at a time, 1 by default. The status is 0 where each edit is refused, and 1 otherwise. A run that finds
no edit fails."""
import argparse
import collections
import concurrent.futures
import functools
import os
import re
import shutil
import signal
import subprocess
import sys
import tempfile

PARTS = ('src', 'specs', 'proofs')
# What may stand above a body, as `rt fmt` lays it out: a head, clauses, and the brace that opens the body at its own line or at the head's end.
HEAD = re.compile(r'^([ \t]*)(?:pub(?:\([a-z ]+\))?\s+)?(?:(?:unsafe|const|extern "C")\s+)*fn\s+(\w+)', re.M)
# A `const fn` and a function in a cycle of calls, by their heads and what stands right above them: another proof may rest on their bodies.
SEEN = re.compile(r'\bconst\b|^[ \t]*#\[cycle\(', re.M)
BLOCK = re.compile(r'^(?:pub(?:\([a-z ]+\))?\s+)?(?:unsafe\s+)?(impl|trait)\b([^{;]*)\{', re.M)
# A name, and what stands before it: nothing, the dot of a method, or the type or module that it is in.
CALL = re.compile(r'(\.\s*|\b\w+(?:::<[^<>]*>)?::)?\b([a-z_]\w*)')
UNSEEN = re.compile(r"""//[^\n]*|\bb?r(#*)"[\s\S]*?"\1|b?"(?:\\[\s\S]|[^"\\])*"|b?'(?:\\.[^']*|[^'\\])'""")
STATE = re.compile(r'^(?:fn|impl|struct|enum|trait|const|static) (\S+): (.*)')
OPEN = re.compile(r'`\w+` (?:did not prove|leaves) ((?:`[^`]+`(?:, )?)+)')
NOTE = re.compile(r'^note: (?:\./)?(src/\S+?):(\d+):\d+: it is not proved that .*?\(`([^`\s]+)`\)(?:;|$)')
ERROR = re.compile(r'^(?:\./)?(\S+?\.(?:antt|rt)):(\d+):\d+: error(?:\[[\w-]+\])?: (?:(`[^`]+`): )?(.*)')
NAMES = re.compile(r'has no field|is not in scope|has no `|was not admitted')
UNREAD = re.compile(r'is not in scope|has no field|is no name|operand is missing|expected the end|cannot continue')
STALE = re.compile(r'Run the lower steps again')
UNPROVED = ('not proved', 'no proof')
WAITS = re.compile(r'which (?:is|are) not proved')

Edit = collections.namedtuple('Edit', 'name pairs fault')
Function = collections.namedtuple('Function', 'name short impl begin body end lines is_unseen is_alone calls')
Planted = collections.namedtuple('Planted', 'texts functions function')
Ran = collections.namedtuple('Ran', 'status lines')


class Stop(Exception):
    """Why nothing can be said of any edit."""


def read(path):
    """The pairs of an edit, and why it can't be tried, if it can't."""
    file, old, pairs = '', '', []
    with open(path, encoding='utf-8', errors='replace') as it:
        for line in it.read().split('\n'):
            if line.startswith('file: '):
                file = line[6:].strip()
                if os.path.normpath(file) != file or not file.startswith('src/'):
                    return pairs, f'{file} is no file below src/'
            elif line.startswith('old: '):
                old = line[5:]
            elif line.startswith('new:'):
                if not file or not old:
                    return pairs, 'a new: line stands before any file: or old: line'
                pairs.append((file, old, line[4:].removeprefix(' ')))
                old = ''
    return pairs, '' if pairs else 'it has no pair of old: and new:'


def edits_in(folder):
    names = sorted(os.listdir(folder)) if os.path.isdir(folder) else []
    found = [(name[:-5], read(f'{folder}/{name}')) for name in names if name.endswith('.edit')]
    return [Edit(name, tuple(pairs), fault) for name, (pairs, fault) in found]


def blanked(text):
    """The text with spaces for its comments and for what stands in quotes."""
    return UNSEEN.sub(lambda it: re.sub(r'[^\n]', ' ', it[0]), text)


def owner(blocks, at):
    """How rattle names the impl or trait that this place is in, whether its functions are methods of a trait, and whether it is the trait."""
    for begin, end, kind, head in blocks:
        if begin <= at < end:
            for _ in range(4):
                head = re.sub(r'<[^<>]*>', '', head)
            parts = [re.sub(r'\W.*', '', it.strip(' &\n').split('::')[-1]) for it in head.partition(' where ')[0].split(' for ')]
            return ''.join(reversed(parts)), kind == 'trait' or len(parts) > 1, kind == 'trait'
    return '', False, False


@functools.lru_cache(maxsize=None)
def functions(file, text):
    """The functions of a file that have a body, with their names as rattle prints them, but for the crate's and, of a method, its module's."""
    seen = blanked(text)
    blocks = [(it.start(), seen.find('\n}', it.end()) % (len(seen) + 1), it[1], it[2]) for it in BLOCK.finditer(seen)]
    module = re.sub(r'^src/|(/mod)?\.rt$', '', file).replace('/', '::')
    module = [] if module in ('lib', 'main') else [module]
    found = []
    for head in HEAD.finditer(seen):
        begins = re.compile(rf'^{head[1]}\{{|\{{[ \t]*$|;[ \t]*$', re.M)
        own = re.compile(rf'^{head[1]}\{{', re.M)
        closes = re.compile(rf'^{head[1]}(?:\{{[ \t]*)?\}}', re.M).search(seen, head.end())
        if not closes or not begins.search(seen, head.end(), closes.end()):
            continue
        opens = own.search(seen, head.end(), closes.end()) or begins.search(seen, head.end(), closes.end())
        if seen[opens.end() - 1:opens.end()] == ';' or ';' in opens[0]:
            continue
        impl, is_unseen, is_of_trait = owner(blocks, head.start()) if head[1] else ('', False, False)
        name = '::'.join([impl, head[2]] if impl else [*module, head[2]])
        lines = file, seen.count('\n', 0, head.start()) + 1, seen.count('\n', 0, closes.end()) + 1
        is_alone = is_of_trait or bool(SEEN.search(seen, seen.rfind('\n\n', 0, head.start()) + 1, head.end()))
        calls = frozenset(CALL.findall(seen, opens.start(), closes.end()))
        found.append(Function(name, head[2], impl, head.start(), opens.end(), closes.end(), lines, is_unseen, is_alone, calls))
    return found


class Tree:
    """The crates of the repository, and the toolchain that checks them."""

    def __init__(self):
        self.uses, self.running, self.is_over = {}, set(), False
        if not os.path.isfile('crates.txt'):
            raise Stop('crates.txt isn\'t here: go to the top of the repository')
        with open('crates.txt', encoding='utf-8') as it:
            for line in it:
                head, _, uses = line.partition('#')[0].partition(':')
                if head.strip():
                    self.uses[head.split()[0]] = uses.split()

    @functools.cached_property
    def kit(self):
        try:
            said = subprocess.run(['rt', 'doc'], stdout=subprocess.PIPE, text=True, check=True).stdout
        except (OSError, subprocess.CalledProcessError) as error:
            raise Stop(f'rt doc, which names the toolchain\'s folder, failed: {error}') from None
        return os.path.dirname(said.strip())

    def own(self, crate):
        return [it for it in self.uses[crate] if it in self.uses]

    def below(self, crate):
        """All libraries of the repository below the crate, each after those that it uses."""
        found = []
        for use in self.own(crate):
            found += [it for it in [*self.below(use), use] if it not in found]
        return found

    def files(self, crate):
        """All sources of a crate, and their folders."""
        for part in PARTS:
            for folder, _, names in os.walk(f'crates/{crate}/{part}'):
                yield folder
                yield from (f'{folder}/{name}' for name in names)

    def library(self, crate):
        return os.path.abspath(f'crates/{crate}/out/rlib/{crate}.rlib')

    def made(self, crate):
        """When the library was built, or 0."""
        try:
            return os.path.getmtime(f'{self.library(crate)}/toolchain/checked.a')
        except OSError:
            return 0

    def is_current(self, crate):
        made = self.made(crate)
        older = [self.made(it) for it in self.own(crate)] + [os.path.getmtime(it) for it in self.files(crate)]
        return made > 0 and max(older) <= made

    def words(self, crate):
        """What follows `rattle check` or `rattle build`."""
        root = 'src/lib.rt' if os.path.exists(f'crates/{crate}/src/lib.rt') else 'src/main.rt'
        below = self.below(crate)
        words = ['--crate-name', crate, root, '-L', f'dependency={self.kit}/rlibs']
        for name in ['std', *[it for it in self.uses[crate] if it not in below]]:
            words += ['--extern', f'{name}={self.kit}/rlibs/{name}.rlib']
        for name in self.own(crate):
            words += ['--extern', f'{name}={self.library(name)}']
        for name in below:
            words += ['-L', f'dependency={os.path.dirname(self.library(name))}']
        words += ['--antt-project', f'{self.kit}/rattle/logic/antt-project.json', '--logic-built', f'{self.kit}/logic_built']
        return [*words, '--jobs', '1', '--links', f'{crate}=']

    def call(self, verb, folder, words):
        """Runs rattle, and returns its status and what it printed."""
        how = {'stdin': subprocess.DEVNULL, 'stdout': subprocess.PIPE, 'stderr': subprocess.STDOUT, 'errors': 'replace'}
        if self.is_over:
            raise Stop('interrupted')
        with subprocess.Popen([f'{self.kit}/bin/rattle', verb, *words], cwd=folder, **how) as ran:
            self.running.add(ran)
            try:
                if self.is_over:
                    ran.kill()
                said, _ = ran.communicate()
            finally:
                # (an interrupt of the main thread comes here)
                ran.kill()
                self.running.discard(ran)
        return Ran(ran.returncode, said.rstrip('\n').split('\n'))

    def bring_up_to_date(self, crate):
        """Builds the libraries below the crate that are out of date."""
        for name in self.below(crate):
            if self.is_current(name):
                continue
            print(f'edits: building the library {name}', flush=True)
            out = f'crates/{name}/out'
            os.makedirs(out, exist_ok=True)
            with tempfile.TemporaryDirectory(dir=out, prefix='rlib-') as room:
                words = [*self.words(name), '--statements', '-o', f'{os.path.abspath(room)}/{name}.rlib']
                ran = self.call('build', f'crates/{name}', words)
                if ran.status:
                    raise Stop(f'the library {name} isn\'t proved, so nothing above it was tried: {ran.lines[-1]}')
                # (without the stamp that stood there `rt` builds its own when it needs one)
                shutil.rmtree(f'{out}/rlib', ignore_errors=True)
                os.mkdir(f'{out}/rlib')
                os.rename(f'{room}/{name}.rlib', f'{out}/rlib/{name}.rlib')
            if not self.is_current(name):
                raise Stop(f'the library {name} is out of date: a source was changed while it was built')

    def end(self):
        """Ends what runs in other threads, and lets nothing more begin."""
        self.is_over = True
        for ran in list(self.running):
            ran.kill()


class Crate:
    """A crate whose edits are tried."""

    def __init__(self, tree, name):
        self.tree, self.name = tree, name
        self.texts = {}
        for path in tree.files(name):
            if path.endswith('.rt') and f'/{name}/src/' in path:
                with open(path, encoding='utf-8') as it:
                    self.texts[os.path.relpath(path, f'crates/{name}')] = it.read()
        self.functions = [it for file, text in self.texts.items() for it in functions(file, text)]

    @functools.lru_cache(maxsize=None)
    def planted(self, *edits):
        """The texts that these edits change, the functions whose bodies they change, and the one in which all changes lie, where there is one.
        A ValueError says why they don't apply."""
        texts, found = {}, []
        for file, old, new in (pair for edit in edits for pair in edit.pairs):
            text = texts.get(file, self.texts.get(file))
            if text is None:
                raise ValueError(f'there is no {file}')
            count = text.count(old)
            if count != 1:
                raise ValueError(f'its old text stands in {file} {count} times')
            at = text.index(old)
            same = len(os.path.commonprefix([old, new]))
            tail = len(os.path.commonprefix([old[same:][::-1], new[same:][::-1]]))
            first, last = at + same, at + max(same, len(old) - tail)
            around = [it for it in functions(file, text) if it.body <= first and last < it.end]
            found.append(around[-1].name if around else None)
            texts[file] = text.replace(old, new)
        plain = lambda text: ' '.join(blanked(text).split()) + ''.join(it[0] for it in UNSEEN.finditer(text) if not it[0].startswith('//'))
        if all(plain(text) == plain(self.texts[file]) for file, text in texts.items()):
            raise ValueError('it changes nothing')
        own = [it for it in self.functions if it.name in found]
        return Planted(texts, own, own[0] if len({*found}) == len(own) == 1 else None)

    def why_not(self, edit):
        """Why the edit can't be tried, if it can't."""
        try:
            return edit.fault or (self.planted(edit) and '')
        except ValueError as why:
            return str(why)

    def may_call(self, function, other):
        """Whether the one may call the other: it names it. A method is known by its type, or where it stands behind a dot by its name alone."""
        for before, name in function.calls:
            if name == other.short:
                kind = before.strip().partition('::')[0]
                if kind in ('Self', other.impl) or (kind == '.' or re.fullmatch('[A-Z]', kind)) and other.impl:
                    return True
                if not other.impl and kind != '.' and not re.match('[A-Z]', kind):
                    return True
        return False

    @functools.lru_cache(maxsize=None)
    def callees(self, function):
        return [it for it in self.functions if self.may_call(function, it)]

    def reached(self, functions):
        """What these functions call, directly or over others, and perhaps more."""
        found, left = set(), list(functions)
        while left:
            more = {it for function in left for it in self.callees(function)} - found
            found, left = found | more, more
        return found

    def fits(self, edit, group):
        """Whether the edit can be tried in one round with these."""
        functions = [self.planted(it).function for it in [*group, edit]]
        if any(it is None or it.is_alone for it in functions) or len({*functions}) < len(functions):
            return False
        try:
            return bool(self.planted(*group, edit))
        except ValueError:
            return False

    def rounds(self, edits, is_alone):
        """The edits in groups of which each is tried by one check."""
        found = []
        for edit in edits:
            group = next((it for it in found if not is_alone and self.fits(edit, it)), None)
            if group:
                group.append(edit)
            else:
                found.append([edit])
        return found

    def untouched(self, group):
        """A function that isn't edited and calls none that is: of those that are easily named, the one with the shortest body."""
        edited, names = {it for edit in group for it in self.planted(edit).functions}, [it.name for it in self.functions]
        for it in sorted(self.functions, key=lambda it: (it.end - it.body, it.name)):
            # (a law has no body, and may take long)
            is_plain = not it.is_unseen and it.end - it.body > 2 and 'test' not in it.lines[0] and names.count(it.name) == 1
            if is_plain and not edited & {it, *self.reached([it])}:
                return it
        return None

    def check(self, group, other):
        """Checks a copy of the crate with these edits: exactly the edited functions and the other one, or all where an edit isn't of one function."""
        edited = [self.planted(it).function for it in group]
        flags = [] if None in edited else [word for it in [*edited, other] for word in ('--only', it.name)]
        with tempfile.TemporaryDirectory(prefix='edits-') as room:
            for part in PARTS:
                if os.path.isdir(f'crates/{self.name}/{part}'):
                    shutil.copytree(f'crates/{self.name}/{part}', f'{room}/{part}')
            for file, text in self.planted(*group).texts.items():
                with open(f'{room}/{file}', 'w', encoding='utf-8') as it:
                    it.write(text)
            return Said(self.name, self.tree.call('check', room, [*self.tree.words(self.name), *flags]))

    def tried(self, group):
        """What came of each edit of a round, in words that begin with `refused` where it was."""
        words = self.tried_at_once(group)
        left = [it for it in group if not words[it].startswith('refused')]
        if len(group) > 1:
            # (where one edit spoils the check for all, as one that doesn't compile, it is in one half)
            half = len(group) // 2
            for part in [[it] for it in left] if len(left) < len(group) else (group[:half], group[half:]):
                words.update(self.tried(part))
        return words

    def tried_at_once(self, group):
        """What one check says of each edit of a round."""
        other = self.untouched(group)
        if other is None:
            return {it: 'no verdict: each function is edited or calls one that is, so none is left to be proved' for it in group}
        said = self.check(group, other)
        if said.is_stale:
            raise Stop(f'{self.name}: a library below is out of date: {said.is_stale}')
        if said.why:
            return {it: said.why for it in group}
        if not said.is_proved(other):
            return {it: f'no verdict: {other.name}, which isn\'t edited and calls nothing that is, isn\'t proved either' for it in group}
        return {it: said.of(self.planted(it).functions) for it in group}


def is_part(name, of):
    """Whether what rattle names so is this function, or a closure in it."""
    return f'::{of}::' in f'::{name}::'


class Said:
    """What rattle said of a crate."""

    def __init__(self, crate, ran):
        self.crate, self.states, self.places, self.why = crate, {}, [], ''
        self.is_stale = next((it for it in ran.lines if STALE.search(it)), '')
        errors = []
        for line in ran.lines:
            state, note, error = STATE.match(line), NOTE.match(line), ERROR.match(line)
            if state:
                self.states[state[1].replace('::fn::', '::')] = state[2]
            elif note:
                self.places.append((note[1], int(note[2]), note[3], False))
            elif error:
                errors.append(error.groups())
        last = ran.lines[-1]
        is_whole = ran.status in (0, 1) and re.match(r'only=\d|logic=', last)
        for file, line, goal, why in errors:
            plain = re.sub(r'`[^`]*`', '', why)
            if not file.startswith('proofs/') and (not is_whole or not goal or UNREAD.search(plain)):
                word = 'can\'t be read' if is_whole else 'does not compile'
                self.why = self.why or f'{word}: {file}:{line}: {why}'
            elif not re.match(r'\d+ declarations? that depend', why):
                self.places.append((file, int(line), (goal or f'line {line}').strip('`'), not goal or bool(NAMES.search(why))))
        if not is_whole and not self.why:
            self.why = f'no verdict: status {ran.status}: {last}'

    def is_proved(self, function):
        found = [it for name, it in self.states.items() if name.endswith(f'::{function.name}')]
        return bool(found) and all(it.startswith('proved') and not WAITS.search(it) for it in found)

    def goals(self, name, lines):
        """The goals of a function, which stands in these lines, that aren't proved, and those places in its proof files that only lack a name."""
        goals, lost = [], []
        for own, state in self.states.items():
            if is_part(own, name):
                goals += [it for part in OPEN.findall(state) for it in re.findall(r'`([^`]+)`', part)]
        for place, line, goal, is_name in self.places:
            parts = [it for it in os.path.dirname(place).split('/')[1:] if it != 'fn']
            if place.startswith('proofs/'):
                is_own = bool(parts) and is_part('::'.join([self.crate, *parts]), name)
            else:
                is_own = lines is not None and place == lines[0] and lines[1] <= line <= lines[2]
            if is_own:
                (lost if is_name else goals).append(goal)
        return sorted({*goals}), sorted({*lost})

    def of(self, functions):
        """What came of an edit of these functions. Each has to be refused; where it is of none, any."""
        if functions:
            words = [self.of_one(it) for it in functions]
            return next((it for it in words if not it.startswith('refused')), '; '.join(words))
        names = [name.partition('::')[2] for name, state in self.states.items() if state.startswith(UNPROVED)]
        found = [(it, self.goals(it, None)[0]) for it in names]
        told = [f'{name}: {", ".join(goals)}' for name, goals in found if goals]
        if told:
            return f'refused: {"; ".join(told)}'
        return 'no verdict: nothing says which goal isn\'t proved' if names else 'NOT REFUSED: all is still proved'

    def of_one(self, function):
        """What came of the edit of this function."""
        states = [state for name, state in self.states.items() if is_part(name, function.name)]
        waits = next((it for it in states if WAITS.search(it)), '')
        goals, lost = self.goals(function.name, function.lines)
        is_unproved = any(it.startswith(UNPROVED) for it in states)
        if is_unproved and goals:
            return f'refused: {function.name}: {", ".join(goals)}'
        if is_unproved and lost:
            return f'only names: the proof of {function.name} names what the edit took away: {", ".join(lost)}'
        if waits:
            return f'only a callee: {function.name}: {waits}'
        if is_unproved or not states:
            return f'no verdict: nothing says which goal of {function.name} isn\'t proved'
        return f'NOT REFUSED: {function.name} is still proved'


def homes(crate, given):
    """The folders of the edits of a crate that are to be tried."""
    all_of = [] if given.known else [f'tests/edits/{crate}']
    return [*all_of, f'tests/edits/{crate}/known', *([f'crates/{crate}/must-fail'] if given.must_fail else [])]


def look(tree):
    """Says which edits no longer apply. Returns how many do, and how many don't."""
    good = bad = 0
    folders = [(it, f'crates/{it}/must-fail') for it in sorted(os.listdir('crates'))]
    mine = [it for it in sorted(os.listdir('tests/edits')) if os.path.isdir(f'tests/edits/{it}')]
    folders += [(it, folder) for it in mine for folder in (f'tests/edits/{it}', f'tests/edits/{it}/known')]
    for crate, folder in folders:
        edits = edits_in(folder)
        found = Crate(tree, crate) if edits and crate in tree.uses else None
        for edit in edits:
            why = found.why_not(edit) if found else 'crates.txt has no such crate'
            good, bad = good + (not why), bad + bool(why)
            if why:
                print(f'{folder}/{edit.name}.edit: {why}')
    return good, bad


def try_all(tree, given):
    """Tries the edits. Returns how many were refused, and how many not."""
    for name in given.crates:
        if name not in tree.uses:
            raise Stop(f'crates.txt has no crate {name}')
    jobs, begun, good, bad = os.environ.get('RT_JOBS', ''), [], 0, 0
    with concurrent.futures.ThreadPoolExecutor(int(jobs) if jobs.isdigit() and jobs != '0' else 1) as pool:
        try:
            for name in [it for it in tree.uses if not given.crates or it in given.crates]:
                edits = [edit for folder in homes(name, given) for edit in edits_in(folder)]
                if edits:
                    crate = Crate(tree, name)
                    words = {it: why for it in edits for why in [crate.why_not(it)] if why}
                    rounds = crate.rounds([it for it in edits if it not in words], given.alone)
                    if not given.built:
                        tree.bring_up_to_date(name)
                    begun.append((name, edits, words, [pool.submit(crate.tried, it) for it in rounds]))
            for name, edits, words, rounds in begun:
                for found in rounds:
                    words.update(found.result())
                for edit in edits:
                    is_good = words[edit].startswith('refused')
                    good, bad = good + is_good, bad + (not is_good)
                    print(f'{name}/{edit.name}: {words[edit]}', flush=True)
        except BaseException:
            pool.shutdown(wait=False, cancel_futures=True)
            tree.end()
            raise
    for name in set(os.listdir('tests/edits')) - {*tree.uses}:
        if os.path.isdir(f'tests/edits/{name}'):
            print(f'tests/edits/{name}: crates.txt has no such crate')
            bad += 1
    if not good + bad:
        raise Stop('there is no edit to try')
    return good, bad


def main():
    about, _, more = __doc__.partition('\n\n')
    how = argparse.RawDescriptionHelpFormatter
    parser = argparse.ArgumentParser(prog='tests/edits/edits.py', description=about, epilog=more, formatter_class=how)
    parser.add_argument('crates', nargs='*', metavar='CRATE', help='tries the edits of these crates alone')
    for flag, what in (
        ('--known', 'tries those in tests/edits/CRATE/known alone, as the gate does'),
        ('--built', 'takes the libraries below as they are'),
        ('--alone', 'tries them one at a time; what it prints is the same'),
        ('--must-fail', 'tries those in crates/CRATE/must-fail too, which `rt ci` tries'),
        ('--look', 'tries none, and only says which no longer apply, those in must-fail among them'),
    ):
        parser.add_argument(flag, action='store_true', help=what)
    given = parser.parse_args()
    for it in (signal.SIGINT, signal.SIGTERM, signal.SIGHUP):
        signal.signal(it, lambda number, _: sys.exit(128 + number))
    try:
        tree = Tree()
        good, bad = look(tree) if given.look else try_all(tree, given)
    except Stop as why:
        print(f'edits: {why}')
        return 1
    print(f'edits: {good} {"apply" if given.look else "passed"}, {bad} {"do not" if given.look else "failed"}')
    return 1 if bad else 0


if __name__ == '__main__':
    sys.exit(main())
