#!/usr/bin/python3
"""The page in a browser, opened from the disk: what it shows and gives out is what the program says; bad files; keys; names of controls.

Usage: tests/page.py [--pictures] [--part=NAME].. [FOLDER [PROGRAM]]; its last line is 'N passed, M failed, K skipped'. FOLDER has
nbt.wasm, of `make targets`; without it out is meant. --pictures writes the pictures of README.md too. --part runs this part alone, and
others so named. What can't run is a failure where CI is true.
"""
import glob
import importlib.util
import os
import re
import shutil
import subprocess
import sys
import tempfile
import time

sys.dont_write_bytecode = True
TESTS = os.path.dirname(os.path.abspath(__file__))
TOP = os.path.realpath(f'{TESTS}/..')
sys.path[1:1] = [f'{TESTS}/{it}' for it in ('captures', 'lib', 'look', 'page', '../tools')]
import look_captures
import page_files
from bundled import bundled
from page_looks import LookCases
from page_opening import OpeningCases
from page_packets import PacketCases
from page_placing import PlacingCases
from page_program import Program
from page_views import ViewCases
from parts import check, counts, finish, part, skip

WORDS = [each for each in sys.argv[1:] if not each.startswith('--')]
ONLY = [each.removeprefix('--part=') for each in sys.argv[1:] if each.startswith('--part=')]
FOLDER = os.path.realpath(WORDS[0]) if WORDS else f'{TOP}/out'
PROGRAM = os.path.realpath(WORDS[1]) if WORDS[1:] else f'{TOP}/crates/nbt/out/nbt'
LACKS = 'chromium, chromium-driver, python3-selenium, esbuild, nodejs, node-typescript and tshark'
NETWORKS = 34
EMPTY_CATCH = re.compile(r'catch\s*(?:\(\w*\))?\s*\{\s*\}|catch\(\(\w*\) => \{\s*\}\)')
PARTS = ('modules', 'rows', 'names', 'faults', 'filters', 'deliveries', 'taps', 'exports', 'bad', 'hostile', 'keys', 'given', 'placing', 'stop',
         'unread', 'changed', 'addressed', 'packed', 'singles', 'looks', 'quiet')


def modules():
    """The modules that read files, by node's own runner; their types; the cases of tests/summary/, and random
    networks beside nbt-look-tshark."""
    with tempfile.TemporaryDirectory() as folder:
        bundled(folder, *glob.glob('*.test.mjs', root_dir=f'{TOP}/page/tests'))
        said = subprocess.run(['node', '--test', '--test-reporter=tap', folder], capture_output=True, text=True).stdout
    for passed, name in re.findall(r'^(ok|not ok) \d+ - (.*)$', said, re.MULTILINE):
        check(passed == 'ok', f'page/tests: {name}')
    types = subprocess.run(['tsc', '--skipDefaultLibCheck', '-p', f'{TOP}/page'], capture_output=True, text=True)
    check(types.returncode == 0, f'tsc -p page: {types.stdout[:300]}')
    check(not (empty := empty_catches()), f'faults that nobody hears of: {empty}')
    counted([f'{TESTS}/look/summary.py', '--page', PROGRAM])
    counted([f'{TESTS}/look/random_networks.py', str(NETWORKS), '1', PROGRAM])


def empty_catches():
    """The modules that pass over a fault, whatever it is."""
    return [path for path in glob.glob(f'{TOP}/page/src/**/*.ts', recursive=True)
            if EMPTY_CATCH.search(re.sub(r'//.*', '', open(path, encoding='utf-8').read()))]


def counted(words):
    """The cases of a script whose last line has their counts."""
    said = subprocess.run(words, capture_output=True, text=True).stdout.splitlines()
    for line in said[:-1]:
        print(line, flush=True)
    passed, failed = re.fullmatch(r'(\d+) passed, (\d+) failed', said[-1]).groups()
    counts['passed'] += int(passed)
    counts['failed'] += int(failed)


class Cases(PacketCases, ViewCases, OpeningCases, PlacingCases, LookCases):
    """The parts, over one window, and the folder of their files."""

    def __init__(self, browser, folder):
        self.browser, self.folder = browser, folder
        self.page, self.program = f'{folder}/nbt.html', Program(PROGRAM, TOP, folder)
        with open(f'{TOP}/examples/office.pcap', 'rb') as file:
            self.path("it's $HOME.pcap", file.read())
        for name in ('office.pcap', 'samba.pcap', 'capture.txt'):
            shutil.copy(f'{TOP}/examples/{name}', folder)
        for name, data in zip(('left.txt', 'right.txt'), page_files.taps(self.program)):
            self.path(name, data)
        self.path('life.pcap', look_captures.life())
        self.path('odd.pcap', page_files.odd())

    def opened(self, *names, place=''):
        """Opens the page anew, and gives it files; without any its own sample."""
        self.browser.open(self.page, place)
        if names:
            self.browser.give(*names)
        else:
            self.browser.sample()

    def path(self, name, data=page_files.KEEP):
        """Writes a file, and answers its name."""
        with open(f'{self.folder}/{name}', 'wb') as file:
            file.write(data)
        return name

    def pictures(self):
        """The page with a capture in it, light and dark, for README.md."""
        for scheme in ('light', 'dark'):
            self.opened()
            self.browser.choose(5)
            self.browser.screen(prefers_color_scheme=scheme)
            time.sleep(0.3)
            self.browser.driver.save_screenshot(f'{TOP}/docs/page-{scheme}.png')


def main():
    tools = ('chromium', 'chromedriver', 'esbuild', 'node', 'tsc', 'tshark')
    if importlib.util.find_spec('selenium') and all(map(shutil.which, tools)):
        with tempfile.TemporaryDirectory() as folder:
            run(folder)
    else:
        for name in PARTS:
            skip(name, f'{LACKS} are wanted')
        if os.environ.get('CI') == 'true':
            check(False, f'CI has to install {LACKS}')
    return finish()


def run(folder):
    from browser import Browser
    made = subprocess.run([f'{TOP}/tools/page', f'{FOLDER}/nbt.wasm', PROGRAM, f'{folder}/nbt.html'], capture_output=True, text=True)
    check(made.returncode == 0, f'tools/page: {made.stderr.strip()}')
    browser = Browser(folder)
    cases = Cases(browser, folder)
    try:
        for name in ONLY or PARTS:
            part(name, lambda: tried(cases, name))
        if '--pictures' in sys.argv:
            cases.pictures()
    finally:
        browser.driver.quit()


def tried(cases, name):
    try:
        modules() if name == 'modules' else getattr(cases, name)()
    except Exception as error:  # What a browser throws is a failed case, and the others go on.
        check(False, f'{name}: {type(error).__name__}: {str(error).splitlines()[0] if str(error) else ""}')
    cases.browser.look()


sys.exit(main())
