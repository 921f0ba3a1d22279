#!/usr/bin/env python3
"""Joins crates/nb_examples/examples/*.txt into the program's standard input, crates/nb_examples/stdin, with all that is said
once there written out (tests/lib/example_lines.py) and each line once, and writes what it has to print, stdout: the number of
examples, none wrong. Usage: tests/join_examples.py [--check | SUBJECT]; with --check it writes nothing, and says whether both
are as the examples have them; with a subject, as `names`, it prints the lines of that file alone."""
import sys

sys.path.insert(1, f'{sys.path[0]}/lib')
from example_lines import FOLDER, all_lines, lines_of


def main():
    """Joins, checks or prints them."""
    if sys.argv[1:] not in ([], ['--check']):
        sys.stdout.writelines(f'{it}\n' for it in lines_of(sys.argv[1], {}))
        return
    lines = all_lines()
    wanted = {
        FOLDER.parent / 'stdin': ''.join(f'{it}\n' for it in lines),
        FOLDER.parent / 'stdout': f'{len(lines)} examples, 0 wrong\n',
    }
    if sys.argv[1:]:
        sys.exit(any(file.read_text() != text for file, text in wanted.items()))
    for file, text in wanted.items():
        file.write_text(text)


main()
