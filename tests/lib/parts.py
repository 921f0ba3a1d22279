"""Cases in parts, of which tests/counts.txt has the least numbers: for scripts in Python what counting.sh is for those of the shell."""
import os
import sys

counts = {'passed': 0, 'failed': 0, 'skipped': 0}


def check(passed, what):
    """Counts a case, and says which failed."""
    counts['passed' if passed else 'failed'] += 1
    if not passed:
        print(f'failed: {what}', flush=True)


def equal(given, wanted, what):
    check(given == wanted, f'{what}: {str(given)[:300]}, not {str(wanted)[:300]}')


def least():
    """How many cases each part of the script has at least."""
    with open(os.path.join(os.path.dirname(os.path.abspath(__file__)), '..', 'counts.txt'), encoding='utf-8') as lines:
        rows = [line.split() for line in lines if line.startswith(os.path.basename(sys.argv[0]) + ' ')]
    return {part: int(count) for _, part, count in rows}


def leave_out(count, what, why):
    """Counts cases that are left out, and says which."""
    counts['skipped'] += count
    print(f'skipped: {what} ({why})', flush=True)


def skip(part, why):
    """Leaves out the cases of a part."""
    leave_out(least()[part], f'{part}, {least()[part]} cases', why)


def enough(count, wanted, name):
    """Fails where there are fewer cases than stated, or nothing is stated."""
    if not 0 < wanted <= count:
        check(False, f'{name}: {count} cases, of {wanted} at least (tests/counts.txt)')


def part(name, run):
    """Runs the cases of a part, and says how many there are."""
    before = sum(counts.values())
    run()
    count = sum(counts.values()) - before
    print(f'{count} cases: {name}', flush=True)
    enough(count, least().get(name, 0), name)


def finish():
    """Prints the last line; whether any case failed."""
    print(', '.join(f'{count} {what}' for what, count in counts.items()))
    return counts['failed'] > 0


def tally(cases):
    """Counts cases, pairs of what each is and of what is wrong with it, if anything is; prints 'N passed, M failed', and answers whether any
    failed."""
    for what, wrong in cases:
        check(not wrong, what if wrong is True else f'{what}: {wrong}')
    print(f'{counts["passed"]} passed, {counts["failed"]} failed')
    return counts['failed'] > 0
