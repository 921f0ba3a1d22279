"""Captures made of seeds, of which each is a case, for the scripts COUNT [SEED] that compare readers of them."""
import os
import random
import sys
import tempfile

from parts import tally
from wire import written


def compared(name, made, first_difference):
    """Makes captures of so many seeds, and says what differs in each, if anything does; one that fails is kept, and named. Answers whether
    any failed."""
    count, first = int(sys.argv[1]), sys.argv[2] if len(sys.argv) > 2 else name

    def differences():
        for seed in (f'{first}-{number}' for number in range(count)):
            path = written(os.path.join(tempfile.gettempdir(), f'{name}-{os.getpid()}-{seed}.pcap'), made(random.Random(seed)))
            difference = first_difference(path)
            if not difference:
                os.remove(path)
            yield seed, difference and f'{difference} ({path})'

    return tally(differences())


def first_unlike(given, wanted):
    """The first of some lines that is another one in other lines; nothing where there is none."""
    for number in range(max(len(given), len(wanted))):
        one, other = given[number:number + 1], wanted[number:number + 1]
        if one != other:
            return f'line {number + 1}: {str(one)[:200]}, not {str(other)[:200]}'
    return ''
