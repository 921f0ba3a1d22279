"""nbt as children: they are given payloads, and what they say of each comes back in the order of all."""
import collections
import os
import select
import subprocess
from json.decoder import JSONDecoder

from nbt_pcap.process import Stopped
from nbt_pcap.tshark import end_with_us

from .fronts import HEADER, as_question
from .items import Cut, Packet

# How many bytes wait for the children before no more packets are read.
MOST_WAITING = 1_048_576
# How many bytes nbt reads of one input at most.
NO_LIMIT = 18_446_744_073_709_551_615
PART = 262_144
# What the children are asked: of packets a phrase, of fronts what stands of them.
WHOLE, FRONT = '--brief', '--partial'
REFUSED = '"refused":'
# The object of JSON of a text, and where it ends.
READ = JSONDecoder().raw_decode


class Told:
    """An item, what is said of it, and of a front what stands of it: as it is, and as a question. `missing` counts the answers to come."""

    __slots__ = ('item', 'text', 'fronts', 'filled', 'missing')

    def __init__(self, item):
        self.item, self.text, self.fronts, self.filled, self.missing = item, None, [], False, 0


class Child:
    """A `nbt` that answers each line with a line."""

    def __init__(self, program, words):
        self.child = subprocess.Popen([program, words[0], '--input-limit', str(NO_LIMIT), *words[1:]], stdin=subprocess.PIPE, stdout=subprocess.PIPE,
                                      stderr=subprocess.PIPE, preexec_fn=end_with_us, start_new_session=True)
        self.to, self.back = self.child.stdin.fileno(), self.child.stdout.fileno()
        for each in (self.to, self.back):
            os.set_blocking(each, False)
        self.waiting = collections.deque()   # bytes for the child
        self.size = 0                        # how many
        self.rest = ''                       # the front of an answer
        self.answers = collections.deque()   # those that nobody has taken
        self.asked = collections.deque()     # of what the next answers are

    def give(self, text):
        self.waiting.append(memoryview(text.encode()))
        self.size += len(self.waiting[-1])

    def write(self):
        try:
            written = os.write(self.to, self.waiting[0])
        except BrokenPipeError:
            self.failed()
        self.size -= written
        self.waiting[0] = self.waiting[0][written:]
        if not self.waiting[0]:
            self.waiting.popleft()

    def read(self):
        data = os.read(self.back, PART)
        if not data:
            self.failed()
        *answers, self.rest = (self.rest + data.decode('ascii')).split('\n')
        self.answers.extend(answers)

    def told(self):
        """The answers since the last call, each with what it is of."""
        while self.answers:
            yield self.asked.popleft(), self.answers.popleft()

    def failed(self):
        self.child.stdin.close()
        words = self.child.stderr.read().decode(errors='replace').strip()
        raise Stopped(3, words or 'nbt ended with status %d' % self.child.wait())

    def finish(self):
        self.child.stdin.close()
        self.child.wait()

    def end(self):
        self.child.kill()
        self.child.wait()


def exchange(children, timeout):
    """Gives children what they take of what waits for them, and reads what they say."""
    ready, acts = select.poll(), {}
    for each in children:
        acts[each.back] = each.read
        ready.register(each.back, select.POLLIN)
        if each.waiting:
            acts[each.to] = each.write
            ready.register(each.to, select.POLLOUT)
    for number, _ in ready.poll(timeout):
        acts[number]()


class Telling:
    """Items on their way through the children. `take` is given them in order, with the text of JSON of each that has a payload, and of one that
    is cut or refused also the texts of what stands of it."""

    def __init__(self, program, take):
        self.whole, self.front = (Child(program, ('show', '--json', option)) for option in (WHOLE, FRONT))
        self.children = (self.whole, self.front)
        self.take = take
        self.items = collections.deque()     # what isn't handed on yet

    def put(self, items, at_once):
        """Takes items, and hands on those that are ready, or with `at_once` all of them."""
        lines = []
        for each in items:
            told = Told(each)
            self.items.append(told)
            if type(each) is Packet:
                told.missing = 1
                self.whole.asked.append(told)
                lines.append(line_of(each, each.digits))
            elif type(each) is Cut:
                self.ask_front(told)
        if lines:
            self.whole.give(''.join(lines))
        self.pass_on()
        self.exchange(0)
        while sum(each.size for each in self.children) > MOST_WAITING or (at_once and self.items):
            self.exchange(None)

    def ask_front(self, told):
        """Asks what stands of an item; of port 137 also of its front as a question."""
        item = told.item
        lines = [line_of(item, item.digits)]
        if item.service == 137 and len(item.digits) > 2 * HEADER:
            question, told.filled = as_question(bytes.fromhex(item.digits))
            lines.append(line_of(item, question.hex()))
        told.missing = len(lines)
        self.front.asked.extend([told] * len(lines))
        self.front.give(''.join(lines))

    def exchange(self, timeout):
        """Gives the children what they take, and hands on what they said."""
        exchange(self.children, timeout)
        self.sort_out()
        self.pass_on()

    def sort_out(self):
        """Puts answers to their items. A packet that is refused has a front."""
        for told, answer in self.whole.told():
            told.text, told.missing = answer, 0
            if REFUSED in answer:
                self.ask_front(told)
        for told, answer in self.front.told():
            told.fronts.append(answer)
            told.missing -= 1

    def pass_on(self):
        """Hands on what stands before the next item that has no answer yet."""
        while self.items and not self.items[0].missing:
            self.take(self.items.popleft())

    def finish(self):
        """Hands on the rest, and lets the children end."""
        self.put((), at_once=True)
        for each in self.children:
            each.finish()

    def end(self):
        """Ends the children where the work isn't done."""
        for each in self.children:
            each.end()


def line_of(item, digits):
    """The line of a capture."""
    return '%d %d %s\n' % (item.service, item.moment, digits or 'empty')
