#!/usr/bin/env python3
"""The library under libFuzzer, with coverage counters and AddressSanitizer in its own code.

Usage: tests/fuzz_coverage.py [--seconds N] [--module FILE] [--keep].  The module is what `make targets` or tools/module keeps, out/nbt.bc
without it. What has to hold stands in tests/library/harness.c; of what was found the calls have to answer what tests/model does, too. It
begins with the inputs of tests/library/corpus.txt, a word of digits each; with --keep those that are needed for what was reached are
written there, 2 MB at most. An input for which something doesn't hold is printed as lines of a capture, and its digits, and the status
is 1; 2 where a tool is missing. The last lines say what was reached.
"""
import argparse
import collections
import itertools
import os
import pathlib
import re
import shutil
import subprocess
import sys
import tempfile
import textwrap

TOP = pathlib.Path(__file__).resolve().parents[1]
CORPUS = TOP / 'tests/library/corpus.txt'
MOST_BYTES, LINE = 2_000_000, 8_000
CLANGS = [os.environ.get('FUZZ_CLANG'), 'clang-22', 'clang-19', 'clang-16', 'clang']
WRAPPED = '-Wl,--wrap=malloc,--wrap=realloc,--wrap=free'
PROGRAM = [f'{TOP}/tests/library/{name}.c' for name in ('calls', 'harness', 'cases', 'hostile', 'bounds', 'corpus', 'memory')]
LIMITS = ['-max_len=4000', '-timeout=20', '-rss_limit_mb=1500']
REACHED = re.compile(r'^(?:UN)?COVERED_FUNC: hits: \d+ edges: (\d+)/(\d+) (\S+)', re.M)


def fail(text):
    """Ends the program with one line."""
    print(f'tests/fuzz_coverage.py: {text}', file=sys.stderr)
    sys.exit(2)


def run(words, **how):
    """What a command prints, which has to go well."""
    done = ended(words, **how)
    if done.returncode:
        fail(f'{os.path.basename(words[0])}: {done.stdout.strip()[-300:]}')
    return done.stdout


def ended(words, **how):
    return subprocess.run(words, stdout=subprocess.PIPE, stderr=subprocess.STDOUT, text=True, errors='replace', **how)


def fuzzing_clang(room):
    """A clang that has libFuzzer and AddressSanitizer."""
    source = 'int LLVMFuzzerTestOneInput(const char *at, unsigned long size) { return !at && size; }\n'
    for clang in filter(None, CLANGS):
        words = [clang, '-fsanitize=address,fuzzer', '-o', room / 'none', '-x', 'c', '-']
        if shutil.which(clang) and ended(words, input=source).returncode == 0:
            return clang
    return fail('no clang has libFuzzer: install clang-22 and libclang-rt-22-dev, or clang and its libclang-rt')


def built(room, module):
    """The fuzzer, the program that prints inputs, and one whose functions have all their blocks, which says what was reached. The
    kit's clang has no runtimes, but compiles for those of another."""
    if not shutil.which('rt'):
        fail("rt, the command of the Rattle kit, isn't on PATH: install the kit first")
    kit = os.path.dirname(run(['rt', 'doc']).splitlines()[0])
    clang = fuzzing_clang(room)
    words = [f'{kit}/toolchain/bin/clang', '--target=x86_64-unknown-linux-gnu', '-Wno-override-module', '-c', '-x', 'ir', module]
    # The functions of the module don't ask for AddressSanitizer, so they are made to.
    run([*words, '-O2', '-fsanitize=address,fuzzer-no-link', '-mllvm', '-force-attribute=sanitize_address', '-o', room / 'library.o'])
    run([*words, '-O0', '-fsanitize=fuzzer-no-link', '-o', room / 'blocks.o'])
    words = [clang, '-std=c11', '-g', '-O1', '-fsanitize=address', f'-I{TOP}/include', *PROGRAM]
    heap = f'{TOP}/bindings/heaps/malloc.c'
    for library, program in (('library.o', 'fuzz'), ('blocks.o', 'blocks')):
        run([*words, '-DFUZZER', '-fsanitize=fuzzer', WRAPPED, heap, room / library, '-o', room / program])
    run([*words, WRAPPED, '-fsanitize=fuzzer-no-link', heap, room / 'library.o', '-o', room / 'alone'])
    return room / 'fuzz', room / 'alone', room / 'blocks'


def write_corpus(inputs):
    """Short inputs first, as many as the limit has room for."""
    short_first = sorted(filter(None, set(inputs)), key=lambda it: (len(it), it))
    sizes = itertools.accumulate(len(it) + 1 for it in short_first)
    kept = [digits for digits, size in zip(short_first, sizes) if size <= MOST_BYTES]
    CORPUS.write_text(textwrap.fill(' '.join(kept), LINE) + '\n', encoding='ascii')


def lines_of(inputs):
    """The payloads of some inputs, digits, as lines of a port and digits."""
    return run([sys.executable, f'{TOP}/tests/captures/payloads.py', 'inputs', '1000000000'], input='\n'.join(inputs))


def show_failures(room, said):
    """Prints each input for which something doesn't hold."""
    print(*dict.fromkeys(re.findall(r'.*not so: .*|SUMMARY: .*', said)), sep='\n')
    for path in sorted(room.iterdir()):
        if re.match('(crash|leak|timeout|oom)-', path.name):
            digits = path.read_bytes().hex()
            lines = lines_of([digits]).replace('table ', '# a saved table: ')
            print(re.sub(r'^(\d+) ', r'\1 0 ', lines, flags=re.M), f'input: {digits}', sep='')


def is_judged(inputs, alone):
    """Whether the calls answer of these inputs what tests/model does."""
    rows = run([f'{TOP}/tests/library/payload_rows.py'], input=lines_of(inputs))
    print('beside the model:', flush=True)
    return subprocess.run([alone, 'judged'], input=rows, text=True, stdout=subprocess.DEVNULL, check=False).returncode == 0


def show_reached(said):
    """Prints how many functions and edges were reached, and the functions of the project's crates that weren't."""
    edges = collections.defaultdict(lambda: [0, 0])
    for reached, of, name in REACHED.findall(said):
        name = re.sub('::<.*', '', name)
        edges[name] = [edges[name][0] + int(reached), edges[name][1] + int(of)]
    for title, part in (('all functions', edges), ('of the crates', {name: it for name, it in edges.items() if re.match('nb_|nbt_', name)})):
        print('reached, {}: {} of {} edges, {} of {} functions'.format(
            title, sum(it[0] for it in part.values()), sum(it[1] for it in part.values()), sum(it[0] > 0 for it in part.values()), len(part)))
    for name, (reached, of) in sorted(edges.items()):
        if name.startswith('nb') and of - reached >= (4 if reached else 0):
            print(f'reached, {name}: {reached} of {of} edges')


def main():
    parser = argparse.ArgumentParser()
    parser.add_argument('--seconds', type=int, default=60)
    parser.add_argument('--module', default=TOP / 'out/nbt.bc')
    parser.add_argument('--keep', action='store_true')
    words = parser.parse_args()
    if not os.path.exists(words.module):
        fail(f'{words.module} is missing: run make targets first')
    symbolizer = shutil.which('llvm-symbolizer-22') or shutil.which('llvm-symbolizer') or fail('llvm-symbolizer is missing: install llvm')
    os.environ.update(ASAN_SYMBOLIZER_PATH=symbolizer, ASAN_OPTIONS='quarantine_size_mb=8:malloc_context_size=2')
    with tempfile.TemporaryDirectory() as folder:
        room = pathlib.Path(folder)
        fuzz, alone, blocks = built(room, words.module)
        corpus, least = room / 'corpus', room / 'least'
        corpus.mkdir()
        least.mkdir()
        for number, digits in enumerate(CORPUS.read_text(encoding='ascii').split()):
            (corpus / f'{number:05}').write_bytes(bytes.fromhex(digits))
        limits = [*LIMITS, f'-artifact_prefix={room}/']
        done = ended([fuzz, *limits, f'-max_total_time={words.seconds}', corpus])
        print(*[line for line in done.stdout.splitlines() if re.search('INITED|DONE', line)], sep='\n')
        if done.returncode:
            show_failures(room, done.stdout)
            return 1
        run([fuzz, *limits, '-merge=1', least, corpus])
        show_reached(run([blocks, *limits, '-runs=0', '-print_coverage=1', least]))
        inputs = [it.read_bytes().hex() for it in least.iterdir()]
        if words.keep:
            write_corpus(inputs)
        return not is_judged(inputs, alone)


if __name__ == '__main__':
    sys.exit(main())
