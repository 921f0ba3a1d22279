"""The public surface of each crate, by its sources, for docs/CALLS.md, in which a change of it is seen.

A line is a module, an item, and its words: types with their public fields and variants, what is derived for them, constants and types of
theirs and of traits, and the traits that are implemented; what is handed on from a crate below. Functions have rows of their own there. Only
what a caller can name counts: of public modules, and what `pub use` hands out; of a program what its main.rt takes from its modules.
The examples' crates have no callers.
"""
import re

from sources import CRATES, Source, blocks, closed, end_of_head, owner_of

ITEM = re.compile(
    r'^pub (?:(?:const |unsafe |extern\s+)*fn|struct|enum|trait|type|const|static) (?P<name>\w+)', re.MULTILINE)
DERIVED = re.compile(r'#\[derive\(([^)]*)\)\]')
MEMBER = re.compile(r'^    (?:pub )?(?:const|type) (?!fn )(?P<name>\w+)', re.MULTILINE)
FLAGS = re.compile(r'^bitflag_items! \{\n    impl (\w+): (\w+) \{(.*?)\n    \}', re.MULTILINE | re.DOTALL)
USE = re.compile(r'^(pub )?use ([^;]+);', re.MULTILINE)


class Items(Source):
    """A source file of a crate, and where its public items begin."""

    def __init__(self, path):
        super().__init__(path)
        self.items = {it['name']: it.start() for it in ITEM.finditer(self.code)}

    def words(self, start, end):
        """A part of the file in one line, without attributes."""
        return one_line(re.sub(r'#\[[^\]]*\]', ' ', self.plain[start:end]))


def one_line(code):
    """A signature or a type in one line."""
    words = ' '.join(code.split())
    return re.sub(r',? ?([)\]>])', r'\1', re.sub(r'([(\[<]) ', r'\1', words)).replace(', }', ' }').removesuffix(',')


def parts(text):
    """What commas part at the top of a text."""
    depth, start = 0, 0
    for place, each in enumerate(text):
        depth += {'(': 1, '[': 1, '{': 1, '<': 1, ')': -1, ']': -1, '}': -1}.get(each, 0)
        depth -= each == '>' and text[place - 1] != '-'
        if each == ',' and depth == 0:
            yield text[start:place].strip()
            start = place + 1
    yield text[start:].strip()


def declared(source, start):
    """A struct with its public fields, an enum with its variants, or another item as it stands."""
    end = end_of_head(source.code, start)
    if source.code.startswith(('pub const', 'pub static'), start):
        end = source.code.index(';', end)
    head = source.words(start, end)
    if head.startswith(('pub struct', 'pub enum')) and source.code[end] == '{':
        inner = [it for it in parts(source.words(end + 1, closed(source.code, end) - 1)) if it]
        shown = inner if head.startswith('pub enum') else [it for it in inner if it.startswith('pub ')]
        return f'{head} {{ {", ".join(shown + [".."] * (len(shown) < len(inner)))} }}'
    if head.startswith('pub struct') and head.endswith(')'):
        name, _, inner = head[:-1].partition('(')
        return f'{name}({", ".join(it if it.startswith("pub ") else ".." for it in parts(inner))})'
    return head


def flattened(used):
    """The paths of a `use`: each with the name that it hands out."""
    before, brace, inner = used.partition('{')
    if not brace:
        path, _, name = ' '.join(used.split()).partition(' as ')
        yield path, name or path.split('::')[-1]
        return
    for it in parts(inner[:inner.rindex('}')]):
        if it:
            yield from flattened(before.strip() + it)


class Crate:
    """A crate, with what it hands out."""

    def __init__(self, name):
        self.name, self.src = name, CRATES / name / 'src'
        self.sources = {path.relative_to(self.src).with_suffix('').parts: Items(path) for path in sorted(self.src.rglob('*.rt'))}
        self.is_program = ('main',) in self.sources
        self.lines, self.types, self.traits, self.names = set(), {}, set(), set()
        text = '\n'.join(it.code for it in self.sources.values())
        self.own_types = set(re.findall(r'\b(?:struct|enum|type) (\w+)', text))
        self.own_traits = set(re.findall(r'^(?:pub(?:\(\w+\))? )?trait (\w+)', text, re.MULTILINE))
        self.walk((), 'main' if self.is_program else 'lib')
        for source in self.sources.values():
            self.blocks(source)

    def add(self, module, item, words):
        """A line of the surface."""
        self.lines.add((module, item, words))

    def walk(self, module, top=None):
        """What a public module hands out."""
        source = self.sources[(top,) if top else module]
        for name in source.items if not self.is_program else ():
            self.hand_out(module, source, name)
        for is_public, used in ((it[1], it[2]) for it in USE.finditer(source.code)):
            for path, name in flattened(used) if is_public or self.is_program else ():
                self.follow(module, module, path.split('::'), name)
        for inner in re.findall(r'^pub mod (\w+);', source.code, re.MULTILINE):
            self.walk((*module, inner))

    def follow(self, module, stands, path, name):
        """Hands out of a module what a `use` names, which stands in another one, or in the same."""
        front = () if path[0] == 'crate' else stands
        place = (*front, *path[path[0] in ('crate', 'self'):-1])
        source = self.sources.get(place)
        if not source and not self.is_program:
            self.add(module, name, f'pub use {"::".join(path)}')
        elif source and path[-1] in source.items:
            self.hand_out(module, source, path[-1])
        elif source:
            for used in USE.finditer(source.code):
                for further, inner in flattened(used[2]):
                    if inner == path[-1]:
                        self.follow(module, place, further.split('::'), name)

    def hand_out(self, module, source, name):
        """An item of a file, which stands in a public module."""
        start = source.items[name]
        self.names.add(name)
        words = declared(source, start)
        if not re.search(r'\bfn$', words.partition(f' {name}')[0]):
            self.add(module, name, words)
        if words.startswith(('pub struct', 'pub enum', 'pub type')):
            self.types[name] = module
            attributes = re.search(r'(?:^#\[.*\n)*\Z', source.code[:start], re.MULTILINE)[0]
            for derived in DERIVED.findall(attributes):
                self.add(module, name, f'derives {", ".join(sorted(it.strip() for it in derived.split(",")))}')
        elif words.startswith('pub trait'):
            self.traits.add(name)
            brace = source.code.index('{', start)
            self.members(module, name, source, brace, closed(source.code, brace), '')

    def members(self, module, name, source, start, end, head):
        """The constants and types that stand in a block: of a type those that are public."""
        for it in MEMBER.finditer(source.code, start, end):
            if it[0].startswith('    pub ') or not head:
                self.add(module, f'{name}::{it["name"]}', head + source.words(it.start() + 4, end_of_head(source.code, it.start() + 4)))

    def blocks(self, source):
        """What stands in blocks of types that are handed out, and the traits that are implemented for them."""
        for brace, end, head in blocks(source.code):
            owner, trait = owner_of(head)
            is_own = not owner or owner in self.own_types
            if head.split()[-2:-1] == ['trait'] or (owner not in self.types if is_own else trait not in self.traits):
                continue
            if not trait:
                self.members(self.types[owner], owner, source, brace, end, f'{one_line(head)}: ')
            elif trait in self.traits or not self.has_private(trait):
                self.add(self.types.get(owner, ()), owner if owner in self.types else trait, one_line(head))
        for name, bits, inner in FLAGS.findall(source.code):
            for flag, value in re.findall(r'\bconst (\w+) = (\w+);', inner) if name in self.types else ():
                self.add(self.types[name], f'{name}::{flag}', f'pub const {flag}: {bits} = {value}')

    def has_private(self, trait):
        """Whether a trait of this name stands in the crate."""
        return trait in self.own_traits

    def hands_out(self, function):
        """Whether a caller can name a public function: a free one, or one of a type or a trait that is handed out, but for private traits."""
        is_private = function.trait and function.trait not in self.traits and self.has_private(function.trait)
        return function.is_public and not is_private and (function.owner or function.name) in self.names
