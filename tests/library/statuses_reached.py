#!/usr/bin/env python3
"""Whether the calls of the library answered the statuses that include/nbt.h lists for each, and no other; and whether it lists each
status for some call.

Usage: statuses_reached.py HEADER <LINES, where a line is a call and a number that it answered. NBT_DONE needs no listing, nor does a
status have to be reached of which the header says that no call of this version answers it. Prints what differs; status 1 if
anything does.
"""
import re
import sys
from pathlib import Path

ENUM = re.compile(r'^    (NBT_[A-Z_0-9]+) = (\d+),?(.*)$', re.MULTILINE)
CALL = re.compile(r'/\*(?P<comment>(?:(?!\*/).)*)\*/\s*(?:uint32_t|void) (?P<name>nbt_[a-z_]+)\(', re.DOTALL)
RANGE = re.compile(r'\b([1-9]\d) to ([1-9]\d)\b')
LIST = re.compile(r'\b(?:[1-9]\d, )+[1-9]\d or [1-9]\d\b')
ALL_OF = re.compile(r'(?:Those|fault, as) of (nbt_[a-z_]+)')
NEVER = 'no call of this version answers it'


def listed(header):
    """The statuses that the header lists for each call, and all but those that no call answers."""
    found = ENUM.findall(header.partition('enum nbt_status {')[2].partition('\n};')[0])
    numbers, never = {name: int(number) for name, number, _ in found}, {int(number) for _, number, rest in found if NEVER in rest}
    calls = {}
    for match in CALL.finditer(header):
        comment = ' '.join(match['comment'].replace('\n *', ' ').split())
        found = {numbers[name] for name in re.findall(r'NBT_[A-Z_0-9]+', comment) if name in numbers}
        for low, high in RANGE.findall(comment):
            found |= set(range(int(low), int(high) + 1)) & set(numbers.values())
        for alike in LIST.findall(comment):
            found |= set(map(int, re.findall('[0-9]+', alike)))
        for other in ALL_OF.findall(comment):
            found |= calls[other]
        calls[match['name']] = found - never | {numbers['NBT_DONE']}
    del calls['nbt_station_free']
    return calls, set(numbers.values()) - never


def main():
    calls, numbers = listed(Path(sys.argv[1]).read_text('utf-8'))
    answered = {name: set() for name in calls}
    for line in sys.stdin:
        name, number = line.split()
        answered[name].add(int(number))
    odd = [(f'{name}: {what}', found) for name in calls for what, found in (
        ('answered and not listed', answered[name] - calls[name]), ('listed and not answered', calls[name] - answered[name]))]
    wrong = [f'{what}: {sorted(found)}' for what, found in odd if found]
    lost = numbers - set().union(*calls.values())
    wrong += [f'in no list: {sorted(lost)}'] * bool(lost)
    print(*wrong, f'{len(calls)} calls, {sum(map(len, answered.values()))} statuses', sep='\n')
    return bool(wrong)


if __name__ == '__main__':
    sys.exit(main())
