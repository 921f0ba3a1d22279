#!/usr/bin/env python3
"""What the bindings, the tools and the page list alike, made of one source each: of include/nbt.h its numbers, its limits and, for Rust and
Python, its structures and calls; of modules of the tools those of the page.

The refusals of man/nbt.1 and docs/FORMATS.md are made too, of crates/nbt_usage/src/refusals.rt.

Usage: tools/lists.py --made writes what isn't kept in the repository: what makes the library or the page begins with it. --write writes that, and
anew the file that is kept, and what stands within others, as the limits of docs/FORMATS.md. --check says which of the
latter differ from that, and which numbers of nbt.h aren't those of the crates' sources; its last line is 'N passed, M failed', a case for
each file, each number and each page.
"""
import re
import sys

sys.dont_write_bytecode = True
from making import crates, javascript, python, refusals, rust, scripts
from making.header import HEADER, TOP, Header
from making.within import DISTINCT, LISTED, PAGES, WITHIN, limits_listed, repeated

MADE = {'bindings/python/nbt/header.py': python.python_file, 'bindings/rust/src/header.rs': rust.rust_file,
        'bindings/javascript/header.mjs': javascript.module_file, 'bindings/javascript/header.d.mts': javascript.types_file}


def write_made(header):
    """Writes what isn't kept in the repository."""
    for name, text in (*((name, maker(header)) for name, maker in MADE.items()), *scripts.scripts(header)):
        path = TOP / name
        path.parent.mkdir(exist_ok=True)
        if not path.exists() or path.read_text(encoding='utf-8') != text:
            path.write_text(text, encoding='utf-8')


def with_limits(path, patterns, header):
    """A file with what stands of the header within it."""
    said = {'VERSION': header.version, **header.limits}
    text = path.read_text(encoding='utf-8')
    for pattern, *wanted in patterns:
        words = ''.join(f'\\g<{at}>{each}' for at, each in enumerate(wanted, 1)).format(**said)
        text, count = re.subn(pattern, words, text, flags=re.MULTILINE)
        if count == 0:
            raise SystemExit(f'tools/lists.py: {path.relative_to(TOP)} has no {pattern}')
    return text


def kept():
    """Each file that is kept, as it should be. What it lists of refusals is made of crates/nbt_usage/src/limits.rt too."""
    header = Header()
    yield TOP / 'tools/nbt_pcap/header.py', python.tools_file(header)
    for name, patterns in WITHIN.items():
        yield TOP / name, with_limits(TOP / name, patterns, header)
    for name, maker in refusals.MAKERS.items():
        text = maker((TOP / name).read_text(encoding='utf-8'))
        yield TOP / name, limits_listed(text, header.limits) if name == LISTED else text


def pages():
    """What is wrong with each page, if anything is: the limits are listed once, and no other page says them."""
    limits = Header().limits
    for path in sorted(each for pattern in PAGES for each in TOP.glob(pattern)):
        name = str(path.relative_to(TOP))
        found = repeated(path.read_text(encoding='utf-8'), limits)
        wanted = [f'{limits[each]:,}' for each in DISTINCT] if name == LISTED else []
        yield found != wanted and f'{name} says the limits {found}, not {wanted}: {LISTED} has them'


def check():
    """The faults, and how many cases there are."""
    faults, cases = [], 0
    for path, text in kept():
        cases += 1
        if not path.exists() or path.read_text(encoding='utf-8') != text:
            faults.append(f'{path.relative_to(TOP)} is not what tools/lists.py --write makes')
    for name, number, wanted in crates.numbers(Header()):
        cases += 1
        if number != wanted:
            faults.append(f'{name}: nbt.h has {number}, the crates have {wanted}')
    said = list(pages())
    return faults + [each for each in said if each], cases + len(said)


def main():
    if sys.argv[1:] == ['--made']:
        write_made(Header())
    elif sys.argv[1:] == ['--write']:
        for path, text in kept():
            path.write_text(text, encoding='utf-8')
        write_made(Header())
    elif sys.argv[1:] == ['--check']:
        faults, cases = check()
        print(*(f'failed: {each}' for each in faults), f'{cases - len(faults)} passed, {len(faults)} failed', sep='\n')
    else:
        raise SystemExit(__doc__)


main()
