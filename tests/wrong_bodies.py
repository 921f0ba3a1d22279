#!/usr/bin/env python3
"""Plants the wrong bodies of crates/*/wrong-bodies/, and holds that the prover refuses each by the clause that it names.

Usage: tests/wrong_bodies.py [CRATE ..], of all crates without a name; `rt ci` or `rt check` proved them before, since each is
checked over the crates below it as they were built last. RT_JOBS says how many checks run side by side.

A function is proved over what others promise, whatever their bodies are. So wrong bodies of different functions are planted in
one copy of the crate, in which the bodies of the others are left out, and one check of those functions tells of each. A second one of
a function waits for a further check; a change outside of functions, such as that of a constant, has one of its own. The copy is
the same for all checks of a crate, and the first one, the control, is of it as it stands, without a wrong body: each function that
one is planted in has to be proved there, so that what refuses it later is the wrong body, and not what was left out.

A case is a wrong body, which its own function has to be refused for, at the goal that is stated; a check, in which nothing else may
be refused; and a control. A crate below whose library is older than its sources, or was built over another one than lies there, is
a failure, and its crate isn't checked. The table has the processor seconds of a crate's checks. The last line is 'N passed, M
failed', and the status 1 where one failed. With --goals the goals that each wrong body leaves open are printed too.
"""
import os
import re
import shutil
import subprocess
import sys
import tempfile
from collections import defaultdict
from concurrent.futures import ThreadPoolExecutor
from dataclasses import dataclass
from functools import cache
from pathlib import Path

sys.path[1:1] = [f'{sys.path[0]}/{it}' for it in ('docs', 'wrong_bodies')]
from left_out import leave_out_bodies
from sources import ROOT, edit, planted

# How long a check may take: they take half a minute to six.
LONGEST = '40m'
# An answer to a goal, or a goal without one, of a function's proof; and a goal by its place in the source, above its function's line.
ANSWERED = re.compile(r'\./proofs/(\S+)/(?:Answers|Invariants|Proof)\.antt:\d+:\d+: error: `([^`]+)`: (.*)')
OPEN = re.compile(r'note: `([^`]+)` of proofs/(\S+)/(?:Answers|Proof)\.antt must prove')
PLACED = re.compile(r'note: src/\S+: it is not proved that .*?\(`([^`]+)`\)')
FUNCTION = re.compile(r'fn \w+::(\S+): (.*)')
# What a goal's name begins or ends with, which says no more than that the function is refused.
KINDS = ('returns', 'requires', 'loop')
# The kit's own words for a library that was built over another one than lies there.
STALE = re.compile(r'module .Rattle-(\w+)-.*Run the lower steps again')
# What is said of a function that is proved, or would be if bodies that are left out were.
WELL = re.compile(r'no holes|depends on a hole')
# A function that isn't proved since it calls one that isn't.
CALLS = re.compile(r'it calls .* (?:is|are) not proved')
# An answer to a goal that there no longer is says nothing of the body.
GONE = re.compile(r'module `[^`]+` has no `')


@dataclass
class WrongBody:
    """A file of wrong-bodies/: the function that is refused, the goal by its name, a front of it or its clause, and the changes."""
    path: Path
    function: str
    goal: str
    changes: list

    def is_alone(self, crate):
        """Whether it changes something else than the function that is refused."""
        return any(self.function.split('::')[-1] != function_at(crate, *change) for change in self.changes)


def read(path):
    """The wrong body of a file."""
    said, changes = edit(path)
    function, _, goal = said.get('refused', '').partition(' ')
    return WrongBody(path, function, goal, changes)


def function_at(crate, file, old, _):
    """The name of the function in which a line stands, if it stands in one."""
    text = (ROOT / 'crates' / crate / file).read_text(encoding='utf-8')
    front = text[:text.find(old)] + old
    names = re.findall(r'^ *(?:pub(?:\(\w+\))? )?(?:const |final |unsafe )?(?:extern "C" )?fn (\w+)', front, re.MULTILINE)
    return names[-1] if names else None


def batches(crate, bodies):
    """Wrong bodies that can be planted together: no two of one function, and what changes more than a function by itself."""
    found = []
    for body in bodies:
        fitting = [] if body.is_alone(crate) else [
            batch for batch in found if body.function not in {it.function for it in batch} and not batch[0].is_alone(crate)]
        if fitting:
            fitting[0].append(body)
        else:
            found.append([body])
    return found


def is_of(goal, stated):
    """Whether a goal is the one that is stated: by its name, by a front of it that ends at a hyphen, or by its clause."""
    return goal == stated or stated not in KINDS and (goal.startswith(f'{stated}-') or goal.rpartition('-clause-')[2] == stated)


def refused(output):
    """The goals that stay open of each function, by what the prover printed; none where it is refused without one."""
    found, placed = defaultdict(set), []
    for line in output.splitlines():
        if (met := ANSWERED.match(line)) and not GONE.search(met[3]):
            found[met[1].replace('/', '::')].add(met[2])
        elif met := OPEN.match(line):
            found[met[2].replace('/', '::')].add(met[1])
        elif met := PLACED.match(line):
            placed.append(met[1])
        elif met := FUNCTION.match(line):
            if not WELL.match(met[2]) and (placed or not CALLS.search(met[2])):
                found[met[1]].update(placed)
            placed = []
    return found


def well(output):
    """The functions that are proved, or would be if bodies that are left out were."""
    return {met[1] for met in map(FUNCTION.match, output.splitlines()) if met and WELL.match(met[2])}


@cache
def below(crate):
    """The crates of the repository that a crate stands on."""
    listed = dict(re.findall(r'^(\w+)[^:#\n]*:(.*)', (ROOT / 'crates.txt').read_text(encoding='utf-8'), re.MULTILINE))
    own = listed.keys() & listed[crate].split()
    return own.union(*map(below, own))


def stale(crate):
    """The crates below whose library isn't there, or is older than their sources."""
    for name in sorted(below(crate)):
        folder = ROOT / 'crates' / name
        built = folder / 'out' / 'rlib' / f'{name}.rlib' / 'format'
        files = [it for part in ('src', 'specs', 'proofs') for it in (folder / part).rglob('*') if it.is_file()]
        # Since when it lies there: what is copied keeps the time of its last change.
        if not built.exists() or built.stat().st_ctime < max(it.stat().st_mtime for it in files):
            yield name


@dataclass
class Check:
    """One check of a crate in which wrong bodies are planted, or none, for all of those that are planted in the others."""
    crate: str
    bodies: list
    every: list
    seconds: float = 0
    output: str = ''
    status: int = 0

    def only(self):
        """The functions that are checked."""
        return sorted({it.function for it in self.bodies or self.every})

    def plant(self, room):
        """Puts a copy of the crate into a folder, with the wrong bodies. Answers what went wrong."""
        for part in ('src', 'specs', 'proofs'):
            if (ROOT / 'crates' / self.crate / part).is_dir():
                shutil.copytree(ROOT / 'crates' / self.crate / part, f'{room}/{part}')
        lines = {old for body in self.every for _, old, _ in body.changes}
        leave_out_bodies(Path(room), self.crate, {body.function for body in self.every}, lines)
        for body in self.bodies:
            texts = planted(Path(room), body.changes)
            if texts is None:
                return f"{body.path.stem}: an old line doesn't stand there once"
            for path, text in texts.items():
                path.write_text(text, encoding='utf-8')
        return ''

    def run(self, kept):
        """Plants them, and checks their functions, over what the checks before have left where `kept` says."""
        with tempfile.TemporaryDirectory(prefix='wrong-bodies-') as room:
            self.output = self.plant(room)
            if self.output:
                return
            words = subprocess.run([ROOT / 'tests/wrong_bodies/crate_words', self.crate], stdout=subprocess.PIPE, text=True, check=True)
            only = [word for it in self.only() for word in ('--only', it)]
            root = next(it for it in ('src/main.rt', 'src/lib.rt') if Path(room, it).exists())
            command = ['timeout', LONGEST, 'rattle', 'check', *words.stdout.split(), *kept, *only, '--allow-holes', root]
            with open(f'{room}/said', 'w+', encoding='utf-8', errors='replace') as said:
                with subprocess.Popen(command, cwd=room, stdout=said, stderr=said) as ran:
                    _, status, used = os.wait4(ran.pid, 0)
                    ran.returncode = self.status = os.waitstatus_to_exitcode(status)
                said.seek(0)
                self.output = said.read()
            self.seconds = used.ru_utime + used.ru_stime

    def unchecked(self):
        """Why the check says nothing, if it does so."""
        last = self.output.rstrip().rpartition('\n')[2]
        if met := STALE.search(self.output):
            return f'the library of {met[1]} was built over another one than lies there: rt check in crates/{met[1]}, or rt ci'
        is_checked = self.status in (0, 1) and re.fullmatch(r'only=\d+ holes=\d+', last)
        return None if is_checked else f'not checked, status {self.status}: {last[:200]}'

    def failures(self):
        """What each case is of, with why it fails, or None: each wrong body, and then the check itself."""
        found, unchecked = refused(self.output), self.unchecked()
        for body in self.bodies:
            goals = found.get(body.function)
            why = 'it is not refused' if goals is None else f'refused at {sorted(goals)}, not at {body.goal}'
            yield f'/{body.path.stem}', unchecked or (None if any(is_of(it, body.goal) for it in goals or ()) else why)
        planted = {it.function for it in self.bodies}
        others = sorted(set(found) - planted | set(self.only()) - planted - well(self.output))
        is_fair = not others or self.bodies and self.bodies[0].is_alone(self.crate)
        name = f' beside {len(self.bodies)} wrong bodies' if self.bodies else ', the control'
        yield name, unchecked or (None if is_fair else f'not proved without a wrong body: {others}')


def checks(crate):
    """The checks of a crate, of which the control comes first."""
    bodies = [read(path) for path in sorted((ROOT / 'crates' / crate / 'wrong-bodies').glob('*.edit'))]
    return [Check(crate, batch, bodies) for batch in ([], *batches(crate, bodies))] if bodies else []


def run(own):
    """Runs the checks of a crate, one after the other, over what a check of the crate itself kept, where it did."""
    with tempfile.TemporaryDirectory(prefix='wrong-bodies-') as kept:
        before = ROOT / 'crates' / own[0].crate / 'out' / 'incremental'
        if before.is_dir():
            shutil.copytree(before, kept, dirs_exist_ok=True)
        for check in own:
            check.run(['--incremental', kept])


def table(done):
    """What the checks of each crate cost."""
    yield '| Crate | Wrong bodies | Checks | Processor seconds |'
    yield '|---|---|---|---|'
    for crate in sorted({it.crate for it in done}):
        own = [it for it in done if it.crate == crate]
        yield f'| {crate} | {sum(len(it.bodies) for it in own)} | {len(own)} | {sum(it.seconds for it in own):,.0f} |'
    yield f'| all | {sum(len(it.bodies) for it in done)} | {len(done)} | {sum(it.seconds for it in done):,.0f} |'


def main():
    """Runs all checks, counts the cases that are right, and answers the exit status."""
    words = [it for it in sys.argv[1:] if it != '--goals']
    crates = words or sorted(path.parent.name for path in (ROOT / 'crates').glob('*/wrong-bodies'))
    failures = [(crate, f': the library of {it} is not there, or older than its sources: remove crates/{it}/out/rlib, then rt check in crates/{crate}')
                for crate in crates for it in stale(crate)]
    by_crate = {crate: checks(crate) for crate in crates if crate not in dict(failures)}
    failures += [(crate, ': it has no wrong bodies') for crate, own in by_crate.items() if not own]
    with ThreadPoolExecutor(max(1, int(os.environ.get('RT_JOBS') or os.cpu_count()))) as pool:
        list(pool.map(run, sorted(by_crate.values(), key=len, reverse=True)))
    done = [check for own in by_crate.values() for check in own]
    cases = [(check.crate, name, why) for check in done for name, why in check.failures()]
    failures += [(crate, f'{name}: {why}') for crate, name, why in cases if why]
    for body, goals in ((body, refused(it.output)[body.function]) for it in done for body in it.bodies) if words != sys.argv[1:] else ():
        print(f'{body.path.parents[1].name}/{body.path.stem}: {body.goal} of {sorted(goals)}')
    for crate, case in failures:
        print(f'failed: {crate}{case}')
    print(*table(done), sep='\n')
    print(f'{sum(not why for _, _, why in cases)} passed, {len(failures)} failed')
    return 1 if failures else 0


if __name__ == '__main__':
    sys.exit(main())
