#!/usr/bin/env python3
"""The pages beside the sources: what they name is there, and what they list is all.

Usage: tests/docs/pages.py, whose last line is 'N passed, M failed'; --write writes the pages that are made of the sources anew
(made_pages.py), --wrong-bodies prints what the files of must-fail/ and wrong-bodies/ say. A case is

- a file, a folder, or a name of the sources in backticks, on a page; a file of tools/ or tests/ that the Makefile runs;
- a call in a row of docs/PROMISES.md, which is there, and each clause of such a row, which is one of its calls';
- a public call, and a public definition, which has a comment; a line of docs/CALLS.md, DEFINITIONS.md and LAWS.md, which the sources say;
- a file of wrong-bodies/, which says what is wrong, why and where it is refused, and whose old lines stand once in the file that it changes;
  a file of must-fail/, which says what is wrong and why, and stands in the table of named wrong bodies in docs/PROOFS.md, and each that
  stands there;
- a public call that computes something, which has a wrong body (computing.py);
- the crates of the tables of costs in docs/PROOFS.md, and how many wrong bodies each has;
- a paragraph of a Rust sample of README.md or docs/CALLING.md, which is lines of one source, indented as they may be;
- how many words README.md has, and all pages that aren't made of the sources;
- the words that `nbt build` takes, of each packet in each place that lists them (build_words.py).
"""
import collections
import functools
import re
import subprocess
import sys

sys.path.insert(1, f'{sys.path[0]}/../lib')
from build_words import FORMS, compared
from computing import wrong_body_of_each
from made_pages import calls, definitions_of, made, spec_files
from parts import tally
from sources import CRATES, LISTED, ROOT, aliases, edit, functions, law_files, planted, sources, text_of

LIBRARIES = [it for it in LISTED if it != 'nbt' and not it.startswith('nb_examples')]
TICKED = re.compile(r'`([^`\n]+)`')
FILE = re.compile(r'(?<![\w./-])(?:[\w.-]+/)*[\w-]+\.(?:antt|rt|py|sh|md|mjs|mts|edit|pcap|toml|bash|zsh)\b')
FOLDER = re.compile(r'(?<![\w./*-])(?:crates|docs|tests|tools|bindings|examples|include|man|completions|nbt?_\w+|nbt)/[\w./-]*\w')
# What pages name without its being a file here: words for names, and what a command makes.
ELSEWHERE = {
    'CALL-what_the_wrong_body_does.edit', 'proofs/SUBJECTLemmas.antt', 'crates/first', 'out/nbt.mjs', 'nbt/header.py', 'header.mjs', 'big.pcap',
    'serde_json', 'checked_add',
}
WITH_NAMES = re.compile(r'\.(?:antt|rt|py|sh|c|h|rs|mjs|mts|txt|edit|1|ts|toml)$|/Makefile$|/tools/[\w-]+$|/archive$|/x86_64$')


text_once = functools.lru_cache(None)(text_of)


@functools.lru_cache(None)
def tracked():
    """The files and folders of the repository."""
    files = subprocess.run(['git', '-C', ROOT, 'ls-files', '-co', '--exclude-standard'], capture_output=True, text=True, check=True)
    return {'/' + '/'.join(it.split('/')[:depth]) for it in files.stdout.splitlines() for depth in range(1, it.count('/') + 2)}


@functools.lru_cache(None)
def endings():
    """Each path of the repository, and each ending of one at a slash."""
    return {it[place:] for it in tracked() for place in range(len(it)) if it[place] == '/'}


@functools.lru_cache(None)
def named():
    """Each name that stands in a source, a script or a header."""
    found = {it[1:] for it in endings() if '/' not in it[1:]}
    for path in (ROOT / it[1:] for it in tracked() if WITH_NAMES.search(it)):
        if path.is_file():
            found |= set(re.findall(r'\w+', path.read_text(encoding='utf-8', errors='replace')))
    return found


def pages():
    """The pages, without their samples."""
    others = [path for folder in ('docs/*.md', 'crates/*/README.md', 'bindings/*/README.md', 'page/README.md') for path in sorted(ROOT.glob(folder))]
    for path in (ROOT / 'README.md', ROOT / 'CONTRIBUTING.md', ROOT / 'CHANGELOG.md', *others):
        yield path, re.sub(r'^```.*?^```$', '', path.read_text(encoding='utf-8'), flags=re.MULTILINE | re.DOTALL)


def places():
    """Whether each file and each folder on a page is there."""
    for path, text in pages():
        for place in sorted(set(FILE.findall(text)) | set(FOLDER.findall(text))):
            ending = '/' + place.removeprefix('../')
            is_there = place in ELSEWHERE or not {ending, f'{ending}.antt'}.isdisjoint(endings())
            yield is_there, f'{path.relative_to(ROOT)} names {place}'


def names():
    """Whether each name of the sources in backticks, one with `_` or a capital inside, stands in one."""
    for path, text in pages():
        for ticked in sorted(set(TICKED.findall(text))):
            if re.fullmatch(r'(?:\w+/)?\w+-[a-z0-9]+(?:_[a-z0-9]+)+', ticked):
                name = ticked.split('/')[-1]
                is_there = not {f'/wrong-bodies/{name}.edit', f'/must-fail/{name}.edit'}.isdisjoint(endings())
                yield is_there, f'{path.relative_to(ROOT)} names the wrong body `{ticked}`'
            elif re.fullmatch(r'(?:\w+::)*(?:[A-Za-z]\w*_\w+|[A-Z][a-z]+[A-Z]\w*)|\w+(?:::\w+)+', ticked):
                yield ticked in ELSEWHERE or all(it in named() for it in ticked.split('::')), f'{path.relative_to(ROOT)} names `{ticked}`'


def rows(text):
    """The cells of the rows of tables, without the rows that head them."""
    for line in text.splitlines():
        if line.startswith('| ') and not re.match(r'\| (?:Call|Function|Word|What|Crate) ', line):
            yield [it.strip() for it in re.split(r'(?<!\\)\|', line)[1:-1]]


def calls_of(name):
    """The functions that a call of docs/PROMISES.md names, by its crate, its type, if it has one, and its own name."""
    crate, *path = name.split('::')
    owner, function = ('', *path)[-2:]
    types = {owner, aliases(crate).get(owner)}
    paths = [it for it in sources(crate) if it not in law_files(crate)]
    return [it for path in paths for it in functions(path) if it.name == function and (it.owner in types if owner[:1].isupper() else not it.owner)]


def promises():
    """Whether the calls of a group in docs/PROMISES.md are there, and each of its clauses is one of theirs."""
    text = (ROOT / 'docs' / 'PROMISES.md').read_text(encoding='utf-8').partition('\n## By group\n')[2].partition('\n## ')[0]
    for cells in rows(text):
        names = TICKED.findall(cells[0])
        for it in names:
            yield bool(calls_of(it)), f'PROMISES.md: {it} is a call'
        labels = {label for name in names for it in calls_of(name) for label, _ in it.clauses}
        for it in TICKED.findall(cells[2]):
            yield it in labels, f'PROMISES.md: {it} is a clause of {cells[0]}'


def commented():
    """Whether each public call, each law and each public definition has words of its own, of which docs/CALLS.md and its like are made."""
    for crate in (*LIBRARIES, 'nbt'):
        for it in calls(crate):
            yield bool(it.doc) or it.trait != '', f'{crate}: {it.owner} {it.name} has a comment'
        for path in spec_files(crate):
            for name, words in definitions_of(path.read_text(encoding='utf-8')):
                yield bool(words) or name.startswith(('key_cmp_', 'lines_held')), f'{crate}: {name} of {path.name} has a comment'


def edits():
    """Each file of must-fail/ and wrong-bodies/, by its path in crates/, with what it has behind its heads, and its changes."""
    for path in sorted(it for folder in ('must-fail', 'wrong-bodies') for it in CRATES.glob(f'*/{folder}/*.edit')):
        yield path.relative_to(CRATES), *edit(path)


def wrong_bodies():
    """Whether each such file says what is wrong and why, and its old lines stand once where it changes them."""
    for path, said, changes in edits():
        heads = {'what', 'why', 'file'} | ({'refused'} if 'wrong-bodies' in path.parts else set())
        is_right = heads <= said.keys() and planted(CRATES / path.parts[0], changes, text_once)
        yield is_right, f'{path}: {", ".join(sorted(heads))}, old lines'
        why = said.get('why', '')
        unknown = [it for it in re.findall(r'`(\w+(?:::\w+)*)`', why) if any(each not in named() for each in it.split('::'))]
        yield not unknown, f'{path} names {unknown}'


def named_bodies():
    """Whether the table of named wrong bodies in docs/PROOFS.md has each file of must-fail/, and no other."""
    stated = set(re.findall(r'`(nb\w*/must-fail/[\w-]+\.edit)`', (ROOT / 'docs' / 'PROOFS.md').read_text(encoding='utf-8')))
    there = {str(path) for path, *_ in edits() if path.parts[1] == 'must-fail'}
    for it in sorted(stated | there):
        yield it in stated & there, f'PROOFS.md has the named wrong body {it}' if it in there else f'{it}, a named wrong body, is there'


def commands():
    """Whether each file is there that the Makefile runs."""
    makefile = (ROOT / 'Makefile').read_text(encoding='utf-8')
    for it in sorted(set(re.findall(r'(?<![\w./-])(?:tools|tests)/[\w./-]*\w', makefile))):
        yield f'/{it}' in tracked(), f'the Makefile runs {it}'


def costs():
    """Whether the table of costs in docs/PROOFS.md has each crate, in order, and no other."""
    text = (ROOT / 'docs' / 'PROOFS.md').read_text(encoding='utf-8')
    found = [it[0] for it in rows(text) if len(it) == 3 and re.fullmatch(r'[0-9,]+', it[1])]
    yield found == [*LISTED, 'all'], f'PROOFS.md has what each crate costs, and all: {found}'
    stated = {it[0]: int(it[1]) for it in rows(text) if len(it) == 4 and it[1].isdigit()}
    there = collections.Counter(path.parts[0] for path, *_ in edits() if path.parts[1] == 'wrong-bodies')
    for crate, number in (there | {'all': there.total()}).items():
        yield stated.get(crate) == number, f'PROOFS.md has {stated.get(crate)} wrong bodies of {crate}: {number} are there'


def computing():
    """Whether each public call that computes something has a wrong body."""
    yield from wrong_body_of_each(LIBRARIES)


def sizes():
    """Whether README.md has at most 900 words, and all pages that are written by hand at most 45,000, with their samples."""
    by_hand = {ROOT / it[1:] for it in tracked() if it.endswith('.md')} - set(made(LIBRARIES))
    words = {it: len(it.read_text(encoding='utf-8').split()) for it in by_hand if it.is_file()}
    yield words[ROOT / 'README.md'] <= 900, f'README.md has {words[ROOT / "README.md"]} words, of 900 at most'
    yield sum(words.values()) <= 45_000, f'the pages by hand have {sum(words.values())} words, of 45,000 at most'


def made_lines():
    """Whether each line of a page that is made is what the sources say, and nothing is missing."""
    for path, text in made(LIBRARIES).items():
        wanted, there = text.splitlines(), path.read_text(encoding='utf-8').splitlines() if path.exists() else []
        both = set(wanted) & set(there)
        for line in dict.fromkeys(it for it in (*wanted, *there) if it):
            yield line in both, f'docs/{path.name}: {"no longer so" if line in there else "new (--write)"}: {line}'
        yield wanted == there, f'docs/{path.name} is what tests/docs/pages.py --write makes'


def flat(text):
    """A text whose lines have no indentation."""
    return '\n'.join(map(str.strip, text.splitlines()))


def rust_samples():
    """Whether each paragraph of the samples in Rattle of README.md and docs/CALLING.md is lines of one source, and there are some. The
    programs in Rust of docs/CALLING.md are compiled and run by tests/library.sh."""
    texts = [f'\n{flat(it.read_text(encoding="utf-8"))}\n' for it in ROOT.glob('crates/*/src/**/*.rt')]
    found = False
    for page in ('README.md', 'docs/CALLING.md'):
        text = re.sub(r'^## From Rust\n.*?(?=^## )', '', (ROOT / page).read_text(encoding='utf-8'), flags=re.MULTILINE | re.DOTALL)
        for sample in re.findall(r'^```rust\n(.*?)^```$', text, re.MULTILINE | re.DOTALL):
            for paragraph in flat(sample).strip('\n').split('\n\n'):
                found = True
                yield any(f'\n{paragraph}\n' in it for it in texts), f'{page} has Rust that is in no source: {paragraph}'
    yield found, 'the pages have Rust samples'


def build_words():
    """The words that `nbt build` takes, of each packet in each place."""
    for place, found, words in compared():
        yield found == words, f'{place}: {found}, and {FORMS} has {words}'


def main(word=''):
    """Counts the cases that are right."""
    if word == '--write':
        for path, text in made(LIBRARIES).items():
            path.write_text(text, encoding='utf-8')
        return
    if word == '--wrong-bodies':
        for path, said, _ in edits():
            print(f'{path.parts[0]}/{path.stem}: {said["what"]}\n    {said["why"]}')
        return
    checks = (places, commands, names, promises, commented, wrong_bodies, named_bodies, computing, costs, sizes, made_lines, rust_samples, build_words)
    tally((case, not is_right) for check in checks for is_right, case in check())


if __name__ == '__main__':
    main(*sys.argv[1:])
