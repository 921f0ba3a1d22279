"""What man/nbt.1 and docs/FORMATS.md list of refusals, of crates/nbt_usage/src/refusals.rt and of the advice in limits.rt beside it."""
import re
import textwrap

from .header import TOP

SOURCES = TOP / 'crates/nbt_usage/src'
TEXT = r'"((?:[^"\\]|\\.)*)"'
ADVICE = re.compile(rf'pub const (\w+): &str =\s*{TEXT};', re.DOTALL)
REFUSAL = re.compile(rf'words: {TEXT},\s*number: {TEXT},\s*by: &(?:EACH|\[(.*?)\]),\s*advice: (?:{TEXT}|(\w+)),', re.DOTALL)
# In the manual page, and in docs/FORMATS.md, what stands between.
LIST = re.compile(r'(?<=which a program printed it\.\n\.Bl -tag -width Ds\n).*?(?=\.El\n)', re.DOTALL)
OF_BUILD = re.compile(r'(?<=^`nbt build` may say )[^;]*(?=;)', re.MULTILINE)
WIDTH = 79


def said(literal):
    """The text of a literal, which may go on after a backslash in the next line."""
    return re.sub(r'\\(\n\s*|.)', lambda it: '' if it[1][0] == '\n' else it[1], literal)


def refusals():
    """Of each refusal the words, which commands may say it, and what to do then."""
    advice = dict(ADVICE.findall((SOURCES / 'limits.rt').read_text(encoding='utf-8')))
    text = (SOURCES / 'refusals.rt').read_text(encoding='utf-8')
    found = REFUSAL.findall(text)
    if f'[Refusal; {len(found)}]' not in text:
        raise SystemExit(f'tools/lists.py: {len(found)} refusals of crates/nbt_usage/src/refusals.rt are read, not all')
    for words, number, by, literal, constant in found:
        yield said(words + number), ', '.join(re.findall(r'\w+', by)) or 'any command', said(literal or advice[constant])


def item(words, by, advice):
    """An item of the list; no line of it begins as a macro does."""
    lines = textwrap.wrap(f'{advice}.', WIDTH, break_long_words=False, break_on_hyphens=False)
    shown = (re.sub(r"^([.'])", r'\\&\1', it.replace('\\', r'\e')) for it in lines)
    return '\n'.join([f'.It Li "{words}" Pq {by}', *shown]) + '\n'


def anew(pattern, made, text):
    """A page with its list anew."""
    text, count = pattern.subn(lambda _: made, text)
    if count != 1:
        raise SystemExit(f'tools/lists.py: a page has {count} lists of refusals, not one')
    return text


def of_all(text):
    """The manual page with all refusals, and what to do then."""
    return anew(LIST, ''.join(item(*each) for each in refusals()), text)


def of_build(text):
    """docs/FORMATS.md with the texts by which `nbt build` refuses."""
    *texts, last = (f'`{words}`' for words, by, _ in refusals() if by == 'any command' or 'build' in by.split(', '))
    return anew(OF_BUILD, f'{", ".join(texts)} or {last}', text)


MAKERS = {'man/nbt.1': of_all, 'docs/FORMATS.md': of_build}
