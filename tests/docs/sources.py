"""What the sources of the crates say of their functions: owners, clauses, answers, first words of their docs, bodies; and edits of sources. For
tests/docs/pages.py and tests/wrong_bodies.py."""
import collections
import functools
import pathlib
import re

ROOT = pathlib.Path(__file__).resolve().parents[2]
CRATES = ROOT / 'crates'
LISTED = re.findall(r'^(\w+)\b[^:#\n]*:', (ROOT / 'crates.txt').read_text(encoding='utf-8'), re.MULTILINE)
# `block` is the head of the `impl` that it stands in, or of the trait; `start` its place, and `body` those of its braces.
Function = collections.namedtuple('Function', 'owner trait name is_public head clauses doc path errors block start body')

QUOTED = re.compile(r'"(?:\\.|[^"\\])*"|\'(?:\\.|[^\'\\])\'', re.DOTALL)
COMMENT = re.compile(r'//[^\n]*')
BLOCK = re.compile(r'\b(?:unsafe\s+)?impl\b|\b(?:pub(?:\(\w+\))?\s+)?trait\s+\w+')
FUNCTION = re.compile(r'\b(?:(pub(?:\(\w+\))?)\s+)?(?:unsafe\s+|extern\s+)*fn\s+(\w+)')
CLAUSE = re.compile(r'\s*(requires|ensures)\*?\s*([\w-]*)\s*(?=\{)')
DOC = re.compile(r'((?:^ *///[^\n]*\n)+)(?:^ *#\[[^\n]*\n)*^ *[^\n]*\Z', re.MULTILINE)


def blank(text, pattern):
    """The text with spaces in place of what matches, as long as it was."""
    return pattern.sub(lambda it: ' ' * len(it[0]), text)


class Source:
    """A source file: its text, and as long as that `plain`, without comments, and `code`, without texts either, for its braces."""

    def __init__(self, path):
        self.path, self.text = path, path.read_text(encoding='utf-8')
        self.plain = blank(self.text, COMMENT)
        self.code = blank(self.plain, QUOTED)


def closed(text, start, pair='{}'):
    """The place after the brace that closes the one at the start."""
    depth = 0
    for place in range(start, len(text)):
        depth += (text[place] == pair[0]) - (text[place] == pair[1])
        if depth == 0:
            return place + 1
    raise ValueError(f'no brace closes {text[start:start + 60]!r}')


def type_name(text):
    """The name of a type, without references and parameters."""
    found = re.search(r'[A-Za-z]\w*', re.sub(r"&|'\w+|\bmut\b", '', text))
    return found[0] if found else ''


def owner_of(head):
    """The type and the trait of an `impl`, or the trait alone."""
    if head.split()[-2:-1] == ['trait']:
        return head.split()[-1], head.split()[-1]
    rest = re.sub(r'^(unsafe\s+)?impl\s*', '', head)
    rest = rest[closed(rest, 0, '<>') if rest.startswith('<') else 0:]
    trait, is_of, of = re.split(r'\bwhere\b', rest)[0].partition(' for ')
    return (type_name(of), type_name(trait)) if is_of else (type_name(trait), '')


def blocks(code):
    """Where each `impl` and each trait begins and ends, with its head."""
    for found in BLOCK.finditer(code):
        brace = code.find('{', found.start())
        if brace < 0 or re.search(r';(?! \d)', code[found.start():brace]) or re.search(r'[(,:<]\s*(?:&\S*\s*)?$|->\s*$', code[:found.start()][-20:]):
            continue
        head = found[0] if 'trait' in found[0] else code[found.start():brace]
        yield brace, closed(code, brace), ' '.join(head.split())


def end_of_head(code, start):
    """Where the signature of a function ends: at its first clause, its body or its semicolon."""
    depth = 0
    for place in range(start, len(code)):
        each = code[place]
        depth += {'(': 1, '[': 1, ')': -1, ']': -1}.get(each, 0)
        if depth == 0 and (each in '{;' or re.match(r'\s(?:requires|ensures)\b', code[place:place + 10])):
            return place
    return len(code)


def clauses_at(code, text, place):
    """The names and the words of a function's clauses, and where they end; what it requires has no name."""
    found = []
    while clause := CLAUSE.match(code, place):
        place = closed(code, clause.end())
        found.append((clause[1] if clause[1] == 'requires' else clause[2], ' '.join(text[clause.end() + 1:place - 1].split())))
    return found, place


def doc_before(text, start):
    """The first paragraph of the doc that stands before a place, and that of its errors."""
    found = DOC.search(text[text.rfind('\n\n', 0, start) + 1:start])
    lines = [it.strip()[3:].strip() for it in found[1].splitlines()] if found else []
    errors = lines[lines.index('# Errors') + 1:] if '# Errors' in lines else []
    errors = errors[1:] if errors[:1] == [''] else errors
    return [' '.join(it[:it.index('')] if '' in it else it) for it in (lines, errors)]


@functools.lru_cache(None)
def functions(path):
    """The functions of a source file."""
    source = Source(path)
    text, plain, code = source.text, source.plain, source.code
    owners = list(blocks(code))
    found = []
    for it in FUNCTION.finditer(code):
        around = [head for begin, end, head in owners if begin < it.start() < end]
        owner, trait = owner_of(around[-1]) if around else ('', '')
        end = end_of_head(code, it.end())
        is_public = it[1] == 'pub' or trait != ''
        doc, errors = doc_before(text, it.start())
        clauses, place = clauses_at(code, text, end)
        brace = re.compile(r'\s*\{').match(code, place)
        found.append(Function(owner, trait, it[2], is_public, ' '.join(plain[it.start():end].split()), clauses, doc, path, errors,
                              around[-1] if around else '', it.start(), (brace.end(), closed(code, brace.end() - 1) - 1) if brace else None))
    return found


@functools.lru_cache(None)
def sources(crate):
    """The source files of a crate."""
    return sorted((CRATES / crate / 'src').rglob('*.rt'))


@functools.lru_cache(None)
def aliases(crate):
    """The types that names of types stand for, by these names."""
    text = '\n'.join(it.read_text(encoding='utf-8') for it in sources(crate))
    return dict(re.findall(r'^pub(?:\(\w+\))? type (\w+)[^=;]*= (\w+)', text, re.MULTILINE))


@functools.lru_cache(None)
def law_files(crate):
    """The files with a crate's laws, each of whose public functions does nothing."""
    src = CRATES / crate / 'src'
    return [it for it in sources(crate) if it.parent == src / 'laws' or it.parent == src and it.stem.endswith('laws')]


def heading(path):
    """The first paragraph of a file's own doc."""
    lines = [it[3:].strip() for it in path.read_text(encoding='utf-8').splitlines() if it.startswith('//!')]
    return ' '.join(lines[:lines.index('')] if '' in lines else lines)


def edit(path):
    """What a file of must-fail/ or wrong-bodies/ has behind each head, the last of each, and its changes: a file, an old line, and the new one."""
    heads, changes = {}, []
    for line in path.read_text(encoding='utf-8').splitlines():
        head, _, rest = line.removeprefix('# ').partition(':')
        heads[head] = rest.removeprefix(' ')
        if head == 'new':
            changes.append((heads['file'], heads['old'], heads['new']))
    return heads, changes


def text_of(path):
    """The text of a file that is there; nothing otherwise."""
    return path.read_text(encoding='utf-8') if path.is_file() else ''


def planted(folder, changes, text_of=text_of):
    """By its path each file of a crate as changes leave it, one after the other; None where an old line doesn't stand there once."""
    texts = {}
    for file, old, new in changes:
        path = folder / file
        text = texts.get(path, text_of(path))
        if text.count(old) != 1:
            return None
        texts[path] = text.replace(old, new)
    return texts
