"""The parts of tests/page.py on where files go that are opened while others are open, on closing them, and on stopping what is read."""
import re

from page_files import KEEP
from page_opening import PUT
from parts import check, equal

NAMES = ['As a second tap, beside one.txt', 'Instead of one.txt']
BOTH = ['Instead of tap 1, one.txt', 'Instead of tap 2, two.txt', 'Alone, instead of both']
# Packets of a file that takes a second or two to read, and those that have a row: not a SYN, nor a FIN.
LONG, ROWS = 20_000, '19,295 rows'
# How often these stand in one that is stopped or closed while it is read, and the bytes before them.
TIMES, HEAD = 10, 24


class PlacingCases:
    """A part of Cases."""

    def placing(self):
        """A file that is opened beside others: it is asked where it goes, and each answer does what it says."""
        for name in ('one.txt', 'two.txt', 'three.txt', 'four.txt'):
            self.path(name)
        self.opened('one.txt')
        self.asked('two.txt', NAMES)
        self.browser.key('3', 'ESCAPE')
        self.browser.wait(lambda: not self.browser.id('placing').is_displayed())
        equal(self.title(), 'one.txt', 'Escape opens nothing')
        check(self.browser.id('view-packets').is_displayed(), 'no key reaches the page meanwhile')
        self.asked('two.txt', NAMES)
        self.browser.key('ENTER')
        self.browser.wait(lambda: self.title() == 'one.txt and two.txt')
        self.third()
        self.closing()

    def asked(self, name, answers):
        """Gives a file, and waits for the question: its title, its answers, and that the keys are there."""
        self.browser.offer(name)
        self.browser.wait(lambda: self.browser.id('placing').is_displayed())
        equal(self.browser.texts('#placing-title'), [f'Open {name}'], 'the question')
        equal(self.browser.texts('#placing-answers button'), answers, f'the answers to {name}')
        equal(self.browser.driver.switch_to.active_element.text, answers[0], f'the focus at {name}')
        equal(self.browser.unnamed(), [], f'controls without a name, {name}')

    def title(self):
        return self.browser.text('title')

    def third(self):
        """A third file replaces nothing unasked."""
        self.asked('three.txt', BOTH)
        self.browser.id('placing-cancel').click()
        equal(self.title(), 'one.txt and two.txt', 'Cancel opens nothing')
        self.path('bad.png', b'\x89PNG')
        for name, answer, title in (('three.txt', BOTH[1], 'one.txt and three.txt'), ('four.txt', BOTH[0][:16], 'four.txt and three.txt'),
                                    ('bad.png', BOTH[2], 'four.txt and three.txt')):
            self.browser.give(name, answer=answer)
            equal(self.title(), title, f'{answer}: {name}')
        self.browser.run(PUT, 'drop', 'dataTransfer')
        self.browser.answer(BOTH[2])
        self.browser.wait(lambda: self.title() == 'put.txt')
        check(not self.browser.id('tap').is_displayed(), 'one tap is left')
        for names, answer in ((['one.txt'], 'Instead of put.txt'), (['two.txt', 'three.txt'], NAMES[1])):
            self.browser.give(*names, answer=answer)
            equal(self.title(), ' and '.join(names), f'{answer}: {names}')

    def closing(self):
        """A tap closes, and the other one is shown; after the last one the page is as at first."""
        seen = lambda: [self.title(), self.browser.text('shown')]
        self.opened('one.txt', self.path('two.txt', 2 * KEEP))
        equal(self.browser.text('shown'), '2 rows', 'the second tap is shown')
        self.close('two.txt')
        equal([*seen(), self.browser.focus()], ['one.txt', '1 row', 'grid'], 'the second tap is closed, and the focus after that')
        self.browser.give('two.txt', answer=NAMES[0])
        self.close('one.txt')
        equal(seen(), ['two.txt', '2 rows'], 'the first tap is closed')
        self.browser.choose(2)
        self.browser.view('taps')
        check('Open a second file' in self.browser.text('view-taps'), 'two taps without one of them')
        self.browser.give('one.txt', answer='As a second tap, beside two.txt')
        equal(self.title(), 'one.txt and two.txt', 'a tap in the place of the one that was closed')
        self.close('one.txt')
        self.close('two.txt')
        equal([self.title(), self.browser.id('start').is_displayed(), self.browser.focus(), self.browser.run('return location.hash')],
              ['nbt', True, 'choose', '#packets'], 'all are closed: the page is as at first, with its focus and its address')

    def close(self, name):
        self.browser.all(f'#title button[aria-label="Close {name}"]')[0].click()
        self.browser.wait(lambda: self.browser.text('live') == f'{name} is closed')

    def close_all(self):
        """Closes what is open, so that the page is as at first."""
        while buttons := self.browser.all('#title button'):
            self.close(buttons[0].get_attribute('aria-label').removeprefix('Close '))

    def stop(self):
        """A long file is stopped: what was read stays, and can be looked at."""
        self.program.bytes(f'{self.program.top}/tests/captures/big_pcap.py {LONG} long.pcap')
        data = self.program.bytes('cat long.pcap')
        self.path('longer.pcap', data[:HEAD] + TIMES * data[HEAD:])
        self.begin_longer()
        self.browser.choose(self.browser.rows()[3][0])
        self.browser.id('stop').click()
        self.browser.wait(self.browser.message)
        check(re.fullmatch('.*longer.pcap: stopped after frame [0-9]+', self.browser.message()), f'stopped: {self.browser.message()}')
        self.browser.choose(self.browser.rows()[5][0])
        self.close_while_reading()
        self.bad_while_reading()

    def begin_longer(self):
        self.browser.open(self.page)
        self.browser.offer('longer.pcap')
        self.browser.wait(lambda: not self.browser.is_read() and self.browser.rows())

    def close_while_reading(self):
        """A tap closes while it is read: no row of it comes after that, and another file is read."""
        self.begin_longer()
        self.close('longer.pcap')
        check(self.browser.is_read(), 'nothing is read any more')
        self.browser.give(self.path('keep.txt'))
        equal([self.title(), self.browser.text('shown'), self.browser.message()], ['keep.txt', '1 row', ''], 'another file after that')

    def bad_while_reading(self):
        """A bad file is opened while the second tap is read: that goes on."""
        self.opened('keep.txt')
        self.browser.offer('long.pcap')
        self.browser.answer('As a second tap')
        self.browser.wait(lambda: self.title() == 'keep.txt and long.pcap' and self.browser.rows())
        check(not self.browser.is_read(), 'it is being read')
        self.browser.offer(self.path('third.png', b'\x89PNG'))
        self.browser.answer('Instead of tap 2')
        self.browser.wait(self.browser.message)
        for when in ('meanwhile', 'at the end'):
            check('third.png: no pcap' in self.browser.message(), f'a bad file {when}: {self.browser.message()}')
            self.browser.wait(lambda: self.browser.is_read() and self.browser.text('live').startswith('long.pcap: '), 300)
        equal(self.browser.text('shown'), ROWS, 'all of it is read')
