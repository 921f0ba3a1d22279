"""What stands of nbt.h within other files: the limits, which docs/FORMATS.md lists and no other page says, and versions."""
import re

LISTED = 'docs/FORMATS.md'
# A row of the limits: its number, and its name in nbt.h.
ROW = re.compile(r'^(\| .* \| )[\d,]+( \| `NBT_(\w+)` \|)$', re.MULTILINE)
# Those whose numbers stand for nothing else.
DISTINCT = 'INPUT', 'MOST_LINE', 'LINE_ROOM'
PAGES = '*.md', 'docs/*.md', 'man/*.1'
OF_PACKAGE = r'((?:^version = |^  "version": )")[^"]+', '{VERSION}'
# Packages, programs and texts that take nothing of another file: in each what stands around a number.
WITHIN = {
    'tools/pkgconfig': ((r'(^Version: ).+', '{VERSION}'),),
    **dict.fromkeys(('bindings/python/pyproject.toml', 'bindings/rust/Cargo.toml', 'bindings/javascript/package.json'), (OF_PACKAGE,)),
    'crates/nbt_usage/src/limits.rt': ((r'(a station has at most )\d+', '{MOST_NAMES}'),),
    'tests/plain/capture.rs': ((r'(^const LONGEST_LINE: usize = )[\d_]+', '{MOST_LINE:_}'), (r'(^pub const MOST_INPUT: u64 = )[\d_]+', '{INPUT:_}')),
}


def limits_listed(text, limits):
    """The page of the limits with the numbers of nbt.h."""
    return ROW.sub(lambda row: f'{row[1]}{limits[row[3]]:,}{row[2]}', text)


def repeated(text, limits):
    """The limits that a page says, as often as it does."""
    said = {f'{limits[name]:{form}}' for name in DISTINCT for form in ('', ',')}
    return [each for each in re.findall(r'\d[\d,]*\d', text) if each in said]
