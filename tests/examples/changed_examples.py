#!/usr/bin/env python3
"""Prints changed examples, of which none holds: of each call of those that standard input has, the first example with another
answer, the same with a word more that is none, and the same with such a word in the place of its last one."""
import sys

seen = set()
for line in sys.stdin:
    question, _, answer = line.rstrip('\n').partition(' = ')
    call = question.partition(' ')[0]
    if call not in seen:
        seen.add(call)
        print(f'{question} = {answer}.')
        print(f'{question} zz = {answer}')
        print(f'{question.rpartition(" ")[0] or question} zz = {answer}')
