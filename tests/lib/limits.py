"""The limits of include/nbt.h (tests/model/limits.py) as commands and cases have them, and what else samples name."""
import os
import sys

sys.path.append(os.path.join(os.path.dirname(os.path.abspath(__file__)), '..'))
from model.limits import KEYS, MOST_KEYS, MOST_LINE, MOST_NAMES
from wire import FRED, JOE, datagram, first_level

# The words for as many keys as may be.
MANY = ['--keys', str(MOST_KEYS)]
# What stands in braces in samples: a limit, and one more; names in packets, and a datagram's packet without data.
NAMED = {'KEYS': KEYS, 'MOST_KEYS': MOST_KEYS, 'MOST_LINE': MOST_LINE, 'MOST_NAMES': MOST_NAMES}
NAMED |= {f'OVER_{name}': limit + 1 for name, limit in NAMED.items()}
NAMED |= {name: given.hex() for name, given in (
    ('FRED', FRED), ('JOE', JOE), ('SCOPED', FRED[:-1] + b'\7NETBIOS\3COM\0'), ('WILDCARD', first_level(b'*'.ljust(15, b'\0'), 0)),
    ('EMPTY', datagram(1, b'')))}
