"""The pages that are made of the sources: docs/LAWS.md, docs/CALLS.md and docs/DEFINITIONS.md; for tests/docs/pages.py."""
import collections
import functools
import re

from sources import CRATES, ROOT, functions, heading, law_files, sources
from surface import Crate, one_line

DOCS = ROOT / 'docs'
LAWS_HEAD = '''# Laws of the definitions

Each is the contract of a function that does nothing, and is proved. They say that the definitions mean what they are called;
docs/DEFINITIONS.md has their words, and docs/REASSEMBLY.md says how those of the table hang together. tests/docs/pages.py makes this
page of the sources.
'''
CALLS_HEAD = '''# Calls

Each public call of the libraries, and each function of the command that has a contract or is public: its signature, the comment
that stands above it, its errors, and the labels of the clauses of its contract, which is proved. A clause without a label is `one`; what
`requires` says a caller owes. After those of a crate stands what else a caller can name of it, so that each change of what is public is
one of this page; laws are in docs/LAWS.md. docs/PROMISES.md says what these amount to. tests/docs/pages.py makes this page of the sources.
'''
DEFINITIONS_HEAD = '''# Definitions

What the words of the contracts mean: the lines that stand above each public definition of `specs/`, file by file, in the order in which a crate
lists them. A name that begins with a capital is a fact or a type, any other a value. What is proved of them stands in docs/LAWS.md.
tests/docs/pages.py makes this page of the sources.
'''
# Traits whose calls have no rows of their own: their laws, texts and conversions are ghost members.
PLAIN_TRAITS = ('From', 'fmt', 'Ord', 'PartialOrd', 'Eq', 'Flags', 'Facts', 'Iterator')
surface_of = functools.lru_cache(None)(Crate)
LINKED = re.compile(r'\[(`[^`]+`)\](?:\([^)]*\))?')
DEFINITION = re.compile(r'^(?:abbrev pub|pub (?:data|record|abbrev)|pub(?! mod| use)) +([^\s:({]+)')


def plain(text):
    """A comment in one line, without links, as a cell of a table has it."""
    return LINKED.sub(r'\1', text).replace('|', '\\|')


def law_of(function):
    """The line of a law."""
    return f'- `{function.name}`: ' + re.sub(r'\[(`[^`]+`)\]', r'\1', function.doc)


def laws(crates):
    """The page of the laws."""
    lines = [LAWS_HEAD]
    for crate in crates:
        found = {path: [law_of(it) for it in functions(path) if it.is_public] for path in law_files(crate)}
        lines += [f'## {crate}\n'] if any(found.values()) else []
        for path, of_file in found.items():
            lines += [heading(path), '', *of_file, ''] if of_file else []
    return '\n'.join(lines)


def calls(crate):
    """The calls of a crate that have a row: those that a caller can name, and of the command each function with a contract."""
    law, surface = law_files(crate), surface_of(crate)
    for it in (it for path in sources(crate) if path not in law for it in functions(path)):
        is_named = surface.hands_out(it) and (it.trait not in PLAIN_TRAITS or it.owner == it.trait)
        if it.is_public and not it.trait and (is_named or it.clauses) if crate == 'nbt' else is_named and (it.doc or it.clauses):
            yield it


def signature(function):
    """How a call is called. A block with bounds of its own is shown with them."""
    words = one_line(f'{function.block}: {function.head}' if function.owner and not function.trait else function.head)
    head = re.fullmatch(rf'(?:impl(?:<(?:const \w+: \w+|[^:>])*>)? ({function.owner}\b[^:]*): )?(?:pub )?fn ({function.name}\b.*)', words)
    return words if not head else f'{head[1] or function.owner}::{head[2]}' if function.owner else head[2]


def row(function):
    """The row of a call: its signature, its comment with the errors, and the labels of its clauses."""
    says = [function.doc or f'As `{function.trait}` has it.', *([f'Errors: {function.errors}'] if function.errors else [])]
    owed = [f'requires `{words}`' for kind, words in function.clauses if kind == 'requires']
    labels = [f'`{label}`' if label else 'one' for label, _ in function.clauses if label != 'requires']
    return f'| `{signature(function)}` | {plain(" ".join(says))} | {plain(", ".join(dict.fromkeys(owed + labels)))} |'


def others(crate):
    """What else is public, a line for each item: its own declaration, what is derived for it, and the traits that are implemented."""
    found = collections.defaultdict(list)
    for module, item, words in sorted(surface_of(crate).lines):
        found[module, item].append(words)
    for (module, item), words in found.items():
        first, *rest = sorted(words, key=lambda it: (not it.startswith('pub '), it))
        rest = [it.removeprefix('impl ').removesuffix(f' for {item}') for it in rest]
        yield ''.join(f'{it}::' for it in (*module, *item.split('::')[:-1])) + f'`{first}`' + (f': {"; ".join(f"`{it}`" for it in rest)}' if rest else '')


def calls_page(crates):
    """The page of the calls."""
    lines = [CALLS_HEAD]
    for crate in crates:
        lines += [f'## {crate}\n', '| Call | What it says | Clauses |', '|---|---|---|', *map(row, calls(crate)), '']
        lines += [*(f'- {it}' for it in others(crate)), '']
    return '\n'.join(lines)


def spec_files(crate):
    """The files of a crate's definitions, in the order in which it lists them, but for lemmas and the words of its own loops."""
    specs = CRATES / crate / 'specs'
    listed = re.findall(r'^pub mod (\w+)', (specs / 'Lib.antt').read_text(encoding='utf-8'), re.MULTILINE) if specs.is_dir() else ()
    return [specs / f'{it}.antt' for it in listed if it not in ('Code', 'Shared') and not it.endswith('Facts')]


def comment(lines):
    """The words of lines of comment; where its first paragraph is meant, up to an empty one."""
    return ' '.join(it.removeprefix('--').strip() for it in lines)


def definitions_of(text):
    """The name and the comment of each public definition of a file, which stand above its lemmas."""
    above = []
    for line in text.partition('\n-- ---- lemmas of ')[0].splitlines():
        if line.startswith('-- ----'):
            above = []
        elif line.startswith('--'):
            above.append(line)
        elif found := DEFINITION.match(line):
            yield found[1], comment(above)
            above = []
        elif not line.strip() or line.startswith(('use ', 'pub use ', 'pub mod ')):
            above = []


def definitions(crates):
    """The page of the definitions."""
    lines = [DEFINITIONS_HEAD]
    for crate in crates:
        lines.append(f'## {crate}\n')
        for path in spec_files(crate):
            text = path.read_text(encoding='utf-8')
            head = comment(re.match(r'(?:--[^\n]*\n)*', text)[0].replace('\n--\n', '\n\n').split('\n\n')[0].splitlines())
            found = [f'- `{name}`: {words}' for name, words in definitions_of(text) if words]
            lines += [f'### {path.stem}\n', head, '', *found, ''] if found else []
    return '\n'.join(lines)


def made(libraries):
    """Each page that is made, with what it has to be."""
    crates = (*libraries, 'nbt')
    return {DOCS / 'LAWS.md': laws(crates), DOCS / 'CALLS.md': calls_page(crates), DOCS / 'DEFINITIONS.md': definitions(crates)}
