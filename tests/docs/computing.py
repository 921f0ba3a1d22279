"""The public calls that compute something, each of which has a wrong body; for tests/docs/pages.py.

A public call is one of a library with a row in docs/CALLS.md: what traits of std ask for, as the text of a fault, has none. It computes where
its body has a test, a loop, an operator, an index, a number, a text, or a statement beside `let` and the answer; any other hands on what it
names: parameters, fields, constants, and what it calls with these. It has a wrong body where a file of must-fail/ or wrong-bodies/
changes a line of it, or of a private function of its crate that it calls, or that such a one calls: then its computing stands
there. One that hands on has one where each function that it calls has one too, or hands on.

Types aren't known here: a method of another value than `self` may be that of any type, in the crate first, and one with a wrong body is enough.
"""
import collections
import functools
import re

from made_pages import calls, surface_of
from sources import CRATES, Source, edit, functions, law_files, sources

# The calls that compute and have none, each with the reason.
WITHOUT = {
    'write_answer': 'of nb_calls: none of its lines stands once in its file; `put` and `refuse`, one of which it calls, have theirs',
    'nbt_station_free': 'of nb_c: it answers nothing, and of what it frees no contract speaks',
}
# What isn't computing: what is thrown away, casts, closures that name what they take, references.
APART = re.compile(r'\blet _\w* = [^;]*;|\bas \w+|->|\|\w*\||\bunsafe\b|(?<![\w)\]] )(?<![\w)\]])[*&]+(?=[\w([])|&\'|\'\w+\b(?!\')')
COMPUTES = re.compile(r'''\b(?:if|match|while|for|loop|return)\b|[-+*/%^|"'!]|[=<>]=|&&| [<>&] |>>|<<|(?<![\w.])\d|\w\[|\b(?:true|false)\b''')
# A statement beside the answer, such as a call whose answer is thrown away.
STATEMENT = re.compile(r'(?:^|[;{}])\s*(?=\S)(?!let\b|=)[^;{}]+;')
CALL = re.compile(r'(?:\b(?P<type>\w+)(?:::<[^;(){}]*?>)?::|(?P<own>\bself)?\s*(?P<dot>\.)\s*)?\b(?P<name>[a-z_]\w*)(?:::<[^;(){}]*?>)?\s*\(')
source = functools.lru_cache(None)(Source)


def crate_of(function):
    """The crate of a function."""
    return function.path.relative_to(CRATES).parts[0]


class WrongBodies:
    """The functions of crates, and which of them have wrong bodies."""

    def __init__(self, crates):
        laws = {it.name for crate in crates for path in law_files(crate) for it in functions(path)}
        files = [path for crate in crates for path in sources(crate) if path not in law_files(crate)]
        every = [it for path in files for it in functions(path) if it.body]
        laws |= {it.name for it in every if not self.text(it)}
        self.law_calls = re.compile(rf'\b(?:\w+::)?(?:{"|".join(sorted(laws))})\([^;()]*\);')
        self.by_name, self.by_owner = collections.defaultdict(list), collections.defaultdict(list)
        for it in every:
            self.by_name[it.name].append(it)
            self.by_owner[it.owner, it.name].append(it)
        self.changed = {self.key(it) for crate in crates for folder in ('must-fail', 'wrong-bodies')
                        for path in (CRATES / crate / folder).glob('*.edit') for it in self.changed_by(crate, path)}
        self.handed_out = {self.key(it) for it in every if surface_of(crate_of(it)).hands_out(it)}
        self.calls = [it for crate in crates for it in calls(crate) if it.body]

    @staticmethod
    def key(function):
        """What a function is known by."""
        return function.path, function.start

    @staticmethod
    def text(function):
        """The body of a function, without comments."""
        return source(function.path).plain[slice(*function.body)].strip()

    @staticmethod
    def changed_by(crate, path):
        """The functions in which a wrong body changes a line."""
        for file, old, _ in edit(path)[1]:
            place = source(CRATES / crate / file).text.find(old)
            yield from (it for it in functions(CRATES / crate / file) if it.body and it.body[0] <= place < it.body[1])

    def computes(self, function):
        """Whether a function computes."""
        text = APART.sub(' ', self.law_calls.sub('', self.text(function)))
        return bool(COMPUTES.search(text) or STATEMENT.search(text))

    def called(self, function):
        """For each call in a function's body the functions that it may be of, if it is one of the crates."""
        for it in CALL.finditer(source(function.path).code, *function.body):
            if it['dot']:
                found = self.by_owner[function.owner, it['name']] if it['own'] else [each for each in self.by_name[it['name']] if each.owner]
            elif it['type'] and it['type'][0].isupper():
                found = self.by_owner[function.owner if it['type'] == 'Self' else it['type'], it['name']]
            else:
                found = self.by_owner['', it['name']]
            for near in (lambda each: each.path == function.path, lambda each: crate_of(each) == crate_of(function)):
                found = [each for each in found if near(each)] or found
            if found:
                yield found

    def stands_in(self, function, seen=()):
        """Whether a wrong body changes it, or a private function of its crate that it calls, or that such a one calls."""
        key = self.key(function)
        return key in self.changed or function.name in WITHOUT or key not in seen and any(
            crate_of(it) == crate_of(function) and self.key(it) not in self.handed_out and self.stands_in(it, (*seen, key))
            for found in self.called(function) for it in found)

    def has_one(self, function, seen=()):
        """Whether a function has a wrong body, or hands on to such as have one or hand on."""
        key = self.key(function)
        return key in seen or self.stands_in(function) or not self.computes(function) and all(
            any(self.has_one(it, (*seen, key)) for it in found) for found in self.called(function))


def wrong_body_of_each(crates):
    """Whether each public call that computes has a wrong body, and each exception is a call that has none."""
    bodies = WrongBodies(crates)
    for it in bodies.calls:
        yield bodies.has_one(it), f'{crate_of(it)}: {it.owner} {it.name} has a wrong body (tests/docs/computing.py)'
    for name in WITHOUT:
        is_one = [it for it in bodies.calls if it.name == name and bodies.computes(it) and bodies.key(it) not in bodies.changed]
        yield bool(is_one), f'{name}, an exception of tests/docs/computing.py, is a call that computes and has no wrong body'
