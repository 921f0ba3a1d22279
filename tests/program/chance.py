"""Captures, saved tables, streams and command lines made by chance, each given to `check` of cases, for tests/program/beside_model.py and
tests/fuzz.py."""
from fuzz_inputs import capture_of
from fuzz_traffic import ServicePacket, session_packet
from printed import COMMANDS

TABLES, BUILT = 20, 20


def stream(rng):
    """Fronts of packets of port 139 in a row."""
    whole = b''.join(session_packet(rng) for _ in range(rng.choice((1, 2, 3, 5))))
    cuts = range(len(whole) + 1) if len(whole) < 400 else [*rng.sample(range(len(whole)), 4), 0, 1, 3, 4, 5, 72, len(whole)]
    return capture_of([(139, whole[:it]) for it in cuts])


def commands(rng, inputs):
    """The words of commands that read nothing: those of `build`, those of `name`, and any."""
    yield from (inputs.building() for _ in range(BUILT))
    yield ['name', '--', inputs.word('NAME').encode('utf-8', 'replace').decode()]
    yield ['name', '--bytes', '--', inputs.word('HEX')]
    yield [rng.choice((*COMMANDS, inputs.word())), *(inputs.word() for _ in range(rng.randrange(5)))]


def made_by_chance(cases, inputs):
    """Captures, saved tables, streams and command lines made by chance, and payloads of which each phrase is said."""
    rng, given = cases.rng, inputs.capture()
    for command in ('show', 'replay', 'save'):
        cases.check(inputs.words(command, given), given)
    for _ in range(TABLES):
        given = inputs.tables()
        cases.check(inputs.words(rng.choice(('list', 'merge', 'merge', 'agree')), given), given)
    cases.check(['show'], stream(rng))
    for words in commands(rng, inputs):
        cases.check(words, b'' if words[0] in ('build', 'name') else rng.choice((inputs.capture(), inputs.tables(), b'')))
    told = [(137, ServicePacket(rng).made()) for _ in range(50)] + [inputs.payload() for _ in range(50)]
    cases.check(['show', '--brief'], capture_of(told))
