"""The words that `nbt build` takes: crates/nb_building/src/forms.rt has them, and each other place says the same. That it takes them is shown
by the model, which reads docs/FORMATS.md."""
import re

from sources import ROOT

FORMS = 'crates/nb_building/src/forms.rt'
NAME = re.compile(r'const (\w+): Field = Field\("([A-Z]+)",')
FORM = re.compile(r'(".+) => Some\(&\[([^\]]*)\]\)')
PACKET = re.compile(r'^    "(\w+)",$', re.MULTILINE)
# By file what precedes and follows its list, and an item of that: packets and the words of each, or that they are those of the item before.
PLACES = {
    'crates/nb_building/src/building.rt': ('/// | `what` | `words` |\n', '///\n', r'.+'),
    'docs/FORMATS.md': ('| WHAT | ARG.. |\n', '\n\n', r'.+'),
    'crates/nbt_usage/src/help.rt': ('const BUILD_HELP: &str =', '{n}{n}', r'[^,:]+'),
    'man/nbt.1': ('.Sh PACKETS\n', '\n.El\n', r'^\.It (?:Xo\n(?:\.[CA].*\n)+|.+)'),
}
# What an item has besides.
PROSE = re.compile(r'\band\b|the same|a packet with one answer')


def forms():
    """By the word of each packet the words after it, in order."""
    text = (ROOT / FORMS).read_text(encoding='utf-8')
    names = dict(NAME.findall(text))
    return {what: [names[each] for each in re.findall(r'\w+', fields)] for words, fields in FORM.findall(text) for what in re.findall(r'\w+', words)}


def listed(path, wanted):
    """The same by the list of a file."""
    before, after, item = PLACES[path]
    text = (ROOT / path).read_text(encoding='utf-8').partition(before)[2].partition(after)[0]
    found, words, known = {}, [], set(sum(wanted.values(), []))
    for each in re.findall(item, re.sub(r'\\\s+', '', text).replace('{n}', ' '), re.MULTILINE):
        words = words if 'the same' in each else [it for it in re.findall(r'[A-Z]+', each) if it in known]
        found.update(dict.fromkeys(re.findall(r'\b[a-z]+\b', PROSE.sub('', each)), words))
    return found


def compared():
    """A place, what it has, and what it should have."""
    wanted = forms()
    yield f'{FORMS}, PACKETS', sorted(PACKET.findall((ROOT / FORMS).read_text(encoding='utf-8'))), sorted(wanted)
    for path in PLACES:
        found = listed(path, wanted)
        yield from ((f'{path}, {what}', found.get(what), words) for what, words in wanted.items())
        yield f'{path}, packets', sorted(found), sorted(wanted)
