"""Which packets are wanted: by name, host, port and kind; the words for kinds of packets: those of --kind, what each is, and which one is meant by
other words."""
from .items import LeftOut, Packet
from .kinds import kinds_of
from .vocabulary import KINDS, KINDS_OF


class Filter:
    """What the command line asks for; each of its options has to agree, and one of its values."""

    def __init__(self, options):
        self.names = {each.casefold() for each in options.names}
        self.hosts, self.ports, self.kinds = set(options.hosts), set(options.only_ports), set(options.kinds)
        self.is_all = not (self.names or self.hosts or self.ports or self.kinds)
        self.sessions = None
        if self.names:
            from .sessions import Sessions
            self.sessions = Sessions(options.session_ports, lambda address, name: None)

    def wants_segment(self, item):
        """Whether a segment of TCP is wanted, which has no name and no kind but that of its port."""
        if self.sessions:
            self.sessions.segment(item, False)
        return not self.names and (not self.kinds or 'session' in self.kinds) and self.is_between(item, 139)

    def wants(self, item, shown):
        """Whether an item is wanted, by the object of a packet; None stands for what is left out. Takes each item in turn."""
        called = self.sessions.called(item, shown) if self.sessions and isinstance(item, Packet) else ()
        service = getattr(item, 'service', None)
        if not self.is_between(item.frame if isinstance(item, LeftOut) else item, service):
            return False
        if self.kinds and self.kinds.isdisjoint(kinds_of(service, shown)):
            return False
        return not self.names or (shown is not None and any(self.is_named(each) for each in (*names_in(shown), *called)))

    def is_between(self, ends, service):
        """Whether these ends have a host and a port that are wanted."""
        is_of_host = not self.hosts or self.hosts & {ends.source, ends.target}
        return bool(is_of_host and (not self.ports or self.ports & {ends.source_port, ends.target_port, str(service or '')}))

    def is_named(self, text):
        text = text.casefold()
        return text in self.names or text.partition('<')[0] in self.names

    def notes(self):
        """What is said where nothing was found of some kinds."""
        return ['no packet of kind ' + about(each) for each in sorted(self.kinds)]


def names_in(shown):
    """The texts of all names in a packet."""
    for key in ('source', 'destination', 'called', 'calling'):
        if key in shown:
            yield shown[key]
    if 'about' in shown:
        yield shown['about']['name']
    for section in ('questions', 'answers', 'authorities', 'additional'):
        for each in shown.get(section, ()):
            yield each['name']
            for name in each.get('names', ()):
                yield name['name']


# Words that one would guess, by the kind that is meant.
GUESSES = {
    'query': 'lookup ask asks', 'status': 'nbstat node-status nodestatus', 'registration': 'claim overwrite multihomed register',
    'wack': 'wait', 'response': 'answer reply', 'conflict': 'demand duplicate contested', 'fragment': 'piece partial fragmented',
    'request': 'call', 'positive': 'accept accepted accepts granted', 'negative': 'denied rejected not-found notfound refuses refusal',
    'malformed': 'unreadable invalid bad faulty broken', 'left-out': 'cut skipped leftout left_out', 'message': 'data', 'keepalive': 'keep-alive'}
KIND_MEANT = {guess: kind for kind, guesses in GUESSES.items() for guess in guesses.split()}
# Those that mean what is known at the end alone, or two kinds.
ANSWERS = {
    'refused': 'malformed has what nbt refuses to read, negative the answers in which a station refuses',
    'incomplete': '--summary has the datagrams that are incomplete, fragment the pieces of all',
    'spoilt': '--summary has the datagrams that are spoilt, fragment the pieces of all',
    'whole': '--summary has how many datagrams are whole, datagram all of them and their pieces',
    'unanswered': '--summary has the queries that found nothing, query all of them'}
# Kinds by which something else may be meant.
SEE_ALSO = {'missing': 'fragment for pieces of datagrams, of which --summary has what is missing, negative for names that are not found'}


def advice(word):
    """What to say in the place of a word that is no kind."""
    singular = word[:-3] + 'y' if word.endswith('ies') else word.removesuffix('s')
    for each in (word, singular):
        if each in ANSWERS:
            return '%s is no kind: %s' % (word, ANSWERS[each])
        if each in KINDS or each in KIND_MEANT:
            return '%s is no kind: perhaps %s' % (word, KIND_MEANT.get(each, each))
    import difflib
    near = difflib.get_close_matches(word, KINDS, 1)
    return '%s is none of %s' % (word, ', '.join(KINDS)) if not near else '%s is no kind: perhaps %s' % (word, near[0])


def about(kind):
    """A kind, and the word on it."""
    word = next(kinds[kind] for kinds in KINDS_OF.values() if kind in kinds)
    also = '; see also %s' % SEE_ALSO[kind] if kind in SEE_ALSO else ''
    return '%s (%s%s)' % (kind, word, also)


def help_lines():
    """The kinds of each port, for --help."""
    for title, kinds in KINDS_OF.items():
        yield '  of %s' % title
        yield from ('    %-14s%s' % each for each in kinds.items())
