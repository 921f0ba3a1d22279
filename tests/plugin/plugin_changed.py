#!/usr/bin/env python3
"""Changed captures, and frames that are left out while a file is read, through tshark with the plugin.

Usage: tests/plugin/plugin_changed.py TSHARK FOLDER COUNT FILE..

The files one behind the other: as they are, in two interfaces, with snap lengths, and so many times changed by editcap. Each such capture
is read in two passes, with the trees of the plugin, phrases in the Info column, what is told to experts and the statistics; one in four
once more in one pass and in two for the fields. tshark may not crash nor name a fault of a dissector, no link leads to a frame that isn't there,
and what both passes say is the same. tshark -2 with a read filter leaves frames out and numbers the others anew: links then lead to
frames of the same key. A case is a capture, or a filter; the last line is 'N passed, M failed'.
"""
import concurrent.futures
import os
import re
import subprocess
import sys

sys.dont_write_bytecode = True
sys.path.insert(1, f'{sys.path[0]}/../lib')
from parts import tally
from plugin_pcap import fields_of

CHANCES = ('0.002', '0.01', '0.05')
SNAPS = (20, 43, 60, 90)
FILTERS = ('nbt.state != "kept"', 'nbt.state == "kept"', 'nbt.datagram', 'frame.number > 20')
SAME = ['nbt.says', 'nbt.refused', 'nbt.place', 'nbt.follow', 'nbt.key', 'nbt.state', 'nbt.datagram', 'nbt.fragment']
LINKS = re.compile(r'\[(?:Fragment|Whole in|Spoilt in): (\d+)\]')
BUG = re.compile(r'dissector bug|GLib\S*-(?:CRITICAL|WARNING)|Sanitizer', re.IGNORECASE)
# A line on a fault of one of Wireshark's own dissectors, as of SMB: those of the plugin's protocol, and those it calls at once, stay.
THEIRS = re.compile(r'^.*dissector bug, protocol (?!nbt\b|NBNS\b|NBDS\b|NBSS\b).*$', re.IGNORECASE | re.MULTILINE)
# tshark's status for a file that it can't read to its end.
UNREADABLE = 2


def fault_of(tshark, path, twice):
    """What is wrong with runs on this file, in words; '' where nothing is."""
    done = subprocess.run([tshark, '-n', '-2', '-r', path, '-O', 'nbt', '-o', 'nbt.info:TRUE', '-z', 'expert', '-z', 'nbt,tree'],
                          capture_output=True, text=True, errors='replace', timeout=300)
    if done.returncode not in (0, UNREADABLE):
        return f'status {done.returncode}: {done.stderr[-200:]}'
    bug = BUG.search(THEIRS.sub('', done.stdout)) or BUG.search(THEIRS.sub('', done.stderr))
    if bug:
        return f'{bug[0]}: {done.stderr[-200:]}'
    frames = done.stdout.count('\nFrame ') + done.stdout.startswith('Frame ')
    far = [each for each in map(int, LINKS.findall(done.stdout)) if not 1 <= each <= frames]
    return f'links to {far}, of {frames} frames' if far else difference(tshark, path) if twice and done.returncode == 0 else ''


def difference(tshark, path):
    """The first frame of which two passes say something else than one: one links no fragments of what stays incomplete."""
    one, two = fields_of(tshark, path, SAME), fields_of(tshark, path, SAME, '-2')
    for number, (first, second) in enumerate(zip(one, two, strict=True), 1):
        if first[:-1] != second[:-1] or (first[-1] and first[-1] != second[-1]):
            return f'frame {number}: {first}, and in two passes {second}'
    return ''


def astray(tshark, path, chosen):
    """The first frame whose links lead to frames of another key, where this filter leaves frames out."""
    rows = fields_of(tshark, path, ['frame.number', 'nbt.key', 'nbt.fragment', 'nbt.whole_in', 'nbt.spoilt_in'], '-2', '-R', chosen)
    keys = {int(row[0][0]): row[1] for row in rows}
    linked = ((row, int(link)) for row in rows for field in row[2:] for values in field for link in values.split(','))
    return next((row for row, link in linked if keys.get(link) != row[1]), '')


def changed(folder, name, files, *words):
    """A file of what editcap makes of each file, one behind the other."""
    path, parts = f'{folder}/changed-{name}', [f'{folder}/part-{name}-{number}' for number in range(len(files))]
    for source, part in zip(files, parts):
        subprocess.run(['editcap', *words, source, part], check=True, capture_output=True)
    subprocess.run(['mergecap', *(['-I', 'none'] if name == 'twice' else ['-a']), '-w', path, *parts], check=True, capture_output=True)
    os.chmod(path, 0o644)
    return path


def captures(folder, count, files):
    """A name and a file for each capture."""
    yield 'as they are', changed(folder, 'same', files)
    yield 'twice', changed(folder, 'twice', [*files, *files])
    for snap in SNAPS:
        yield f'{snap} bytes', changed(folder, snap, files, '-s', str(snap))
    for seed in range(1, count + 1):
        chance = CHANCES[seed % len(CHANCES)]
        yield f'editcap -E {chance} --seed {seed}', changed(folder, f'seed-{seed}', files, '-E', chance, '--seed', str(seed))


def main():
    tshark, folder, count = sys.argv[1], sys.argv[2], int(sys.argv[3])
    with concurrent.futures.ThreadPoolExecutor(os.cpu_count()) as pool:
        cases = [(name, pool.submit(fault_of, tshark, path, number % 4 == 0))
                 for number, (name, path) in enumerate(captures(folder, count, sys.argv[4:]))]
        cases += [(f'tshark -2 -R {each!r}', pool.submit(astray, tshark, f'{folder}/changed-same', each)) for each in FILTERS]
        return tally((name, case.result()) for name, case in cases)


if __name__ == '__main__':
    sys.exit(main())
