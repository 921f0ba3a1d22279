"""The parts of tests/page.py on the other views: names, reassembly, two taps, what is exported, and the view that the address has."""
import page_files
from parts import check, equal

# What is known of a datagram whose first bytes came alone.
LESS = "{} bytes; missing what follows byte {}; its length isn't known"


class ViewCases:
    """A part of Cases."""

    def names(self):
        """The tables are those of nbt-look-tshark --summary, with its marks and notes."""
        self.path('backwards.pcap', page_files.backwards(self.program.bytes('cat office.pcap')))
        for name in ('office.pcap', 'life.pcap', 'backwards.pcap', 'samba.pcap'):
            self.opened(name)
            # Those of datagrams come later.
            self.browser.view('names', lambda: self.browser.tables() and self.browser.id('view-names').get_attribute('aria-busy') is None)
            shown, wanted = {title: [set(head), *rows] for title, (head, *rows) in self.browser.tables().items()}, self.program.summary(name)
            if notes := self.browser.texts('#view-names section ~ .quiet'):
                shown['note'] = [set(), *([each] for each in notes)]
            for title in shown | wanted:
                equal(shown.get(title), wanted.get(title), f'{name}, {title}')
        self.marks()

    def marks(self):
        """What stands before a row stands out, and says what it is for; frames lead to their packets; refusals are counted."""
        equal(self.browser.text('to-names'), 'Names 3', 'how many rows of refusals there are')
        equal(self.browser.texts('#view-names .lead'), ['There are refusals of 3 names.'], 'of how many names there are refusals')
        marks = self.browser.run('return Array.from(document.querySelectorAll("#view-names .mark"), (each) =>'
                                 '[each.parentNode.textContent, each.title, getComputedStyle(each).color !== getComputedStyle(document.body).color])')
        title = "The latest word isn't that the address has the name"
        equal(marks, [[f'! {name}', title, True] for name in ('FRED<00>', 'FRED<03>', 'FRED<20>')], 'the marks')
        equal(self.browser.texts('#view-names [data-column=answered] a'), ['frame 162'], 'the frame in what came of a query')
        self.browser.all('#view-names a[href$="frame=153"]')[0].click()
        self.browser.shows('Frame 153')

    def deliveries(self):
        """What a station is handed is what `nbt replay` delivers."""
        for name, station in (('office.pcap', 'FRED<20>'), ('capture.txt', 'FRED<20>')):
            self.opened(name)
            self.browser.view('reassembly', lambda: self.browser.texts('#handed p'))
            self.browser.run('document.getElementById("station").value = arguments[0];'
                             'document.getElementById("handed").textContent = ""', station)
            self.browser.all('#station-form button')[0].click()
            self.browser.wait(lambda: self.browser.texts('#handed p'))
            given = [[row[2], row[3], row[4]] for row in self.browser.tables().get('handed over', [[]])[1:]]
            equal(given, self.program.delivered(name, station), f'{name}, what {station} is handed')
            keys = self.program.keys(name)
            equal([row[:2] for row in self.browser.tables()['keys'][1:]], keys, f'{name}, the keys')
            count = sum(state == 'partial' for _, state in keys)
            equal(self.browser.text('to-reassembly'), f'Reassembly {count}' if count else 'Reassembly', f'{name}, how many keys are incomplete')
        self.first_frames()

    def first_frames(self):
        """A key leads to the first frame of its datagram."""
        self.opened('right.txt')
        self.browser.view('reassembly', lambda: self.browser.texts('#keys a'))
        hrefs = [each.get_attribute('href').split('#')[1] for each in self.browser.all('#keys a')]
        equal(hrefs, [f'packets?frame={each}' for each in (1, 3, 5, 6, 7)], 'the first frames')
        self.browser.wait(lambda: self.browser.text('to-reassembly') == 'Reassembly 1')
        self.browser.all('#keys a')[1].click()
        self.browser.shows('Line 3')
        check('10.0.0.6:138/0002' in self.browser.texts('#packet dd'), f"the packet of the key: {self.browser.texts('#packet dd')}")

    def taps(self):
        """Two taps: what comes of them, by side, what only the join makes whole, and where they differ."""
        self.opened('left.txt', 'right.txt')
        self.browser.wait(lambda: 'and' in self.browser.text('title') and self.browser.is_read())
        tables = self.browser.view('taps', lambda: 'tables' in self.browser.tables() and self.browser.tables())
        equal(self.browser.texts('#view-taps .lead'), ['Joined, 5 of 6 datagrams are whole, 1 of them at neither tap alone. '
              'Of 1 the fragments contradict each other. Of 5 the taps know different things.'], 'it begins with what comes of them')
        equal([row[1:] for row in tables['tables'][1:]], [['5', '3', '2', '0'], ['5', '4', '1', '0'], ['6', '5', '0', '1']],
              'how many keys, and how many are whole, partial and spoilt')
        check('1 key is the same at both taps.' in self.browser.texts('#view-taps .quiet'), 'the key that is the same')
        sides = {title: [row[:1] + row[3:6] for row in rows[1:]] for title, rows in tables.items() if title != 'tables'}
        whole, none = 'all of its 3 bytes', 'nothing of it'
        equal(sides, {'whole only when joined': [['10.0.0.5:138/0001', LESS.format(8, 7), '7 of 11 bytes; missing bytes 0 to 3', 'all of its 11 bytes']],
                      'only tap 1 has anything of it': [['10.0.0.7:138/0003', whole, none, whole]],
                      'only tap 2 has anything of it': [['10.0.0.7:138/0004', none, whole, whole]],
                      'both have it, and not the same': [
                          ['10.0.0.6:138/0002', LESS.format(3, 2), 'all of its 6 bytes', 'all of its 6 bytes'],
                          ['10.0.0.7:138/0005', whole, whole, 'its fragments contradict each other']]}, 'the sides')
        differing = self.program.lines('for each in left right; do nbt save <$each.txt; done | nbt agree --list')[1:]
        equal({row[0] for rows in sides.values() for row in rows}, {line.split()[1] for line in differing} - {'absent'}, 'all that differ')
        self.folded()
        self.browser.give(self.path('third.png', b'\x89PNG'), answer='Instead of tap 1')
        check('third.png: no pcap' in self.browser.message(), f'a bad third file: {self.browser.message()}')
        equal(self.browser.text('title'), 'left.txt and right.txt', 'both taps stay')
        equal(self.browser.wait(self.browser.tables), tables, 'what the taps have stays')
        check(self.browser.text('live').startswith('right.txt: 7 packets'), f"the footer: {self.browser.text('live')}")
        next(each for each in self.browser.all('#view-taps a') if each.text == '10.0.0.7:138/0004').click()
        self.browser.shows('Line 5')
        equal(self.browser.id('tap').get_attribute('value'), '1', 'the tap of a key')
        check('10.0.0.7:138/0004' in self.browser.texts('#packet dd'), f"the packet of the key: {self.browser.texts('#packet dd')}")

    def folded(self):
        """Each side has a bar, and data are text until their bytes are unfolded, by a key too."""
        equal([each.get_attribute('title') for each in self.browser.all('#view-taps .bar')][:2],
              [LESS.format(8, 7), '7 of 11 bytes; missing bytes 0 to 3'], 'the bars')
        equal(self.browser.texts('#view-taps summary')[0], 'hello, FRED', 'data as text')
        equal(set(self.browser.texts('#view-taps details code')), {''}, 'no bytes in hexadecimal')
        self.browser.key('ENTER', at='#view-taps summary')
        self.browser.wait(lambda: self.browser.texts('#view-taps details code')[0] == '68656c6c6f2c2046524544')
        self.browser.key('ENTER', at='#view-taps summary')
        self.browser.run('document.querySelector("#view-taps details code").textContent = ""')

    def exports(self):
        """What is given out is byte for byte what the program prints, by the command that is shown with it, whatever the file's name is."""
        for name in ('samba.pcap', 'capture.txt', "it's $HOME.pcap"):
            self.opened(name)
            self.exported(name, name)
        # What is left out has other comments there.
        self.opened('odd.pcap')
        self.exported('odd.pcap', 'odd.pcap', ('table',))

    def exported(self, name, plain, forms=('json', 'capture', 'table')):
        """Saves these forms of what is open.
        plain: the same file, as nothing packed it"""
        self.browser.view('export')
        commands = self.browser.texts('#view-export code')
        equal(len(commands), 3, f'{name}, the commands')
        for form, end, command in zip(('json', 'capture', 'table'), ('jsonl', 'capture.txt', 'table.txt'), commands):
            if form not in forms:
                continue
            given = self.browser.saved(f'save-{form}', f"{plain.rpartition('.')[0]}.{end}")
            wanted = self.program.bytes(command)
            check(given == wanted and given, f'{name}, {form}: {given[:150]}, not {wanted[:150]} of {command}')

    def addressed(self):
        """A view that the address has before a file is open is shown once one is, first or second, without a complaint."""
        for view, shown in (('names', '#view-names .lead'), ('reassembly', '#keys .lead'), ('export', '#view-export .lead'), ('taps', '#view-taps p')):
            self.opened('office.pcap', place=f'#{view}')
            self.browser.wait(lambda: self.browser.texts(shown))
            self.browser.wait(lambda: self.browser.text('live').startswith('office.pcap: 15 packets'))
            equal(self.browser.message(), '', f'a file at #{view}')
            self.browser.give('capture.txt', answer='As a second tap')
            self.browser.wait(lambda: self.browser.text('live').startswith('capture.txt: '))
            equal([self.browser.message(), self.browser.id(f'view-{view}').is_displayed()], ['', True], f'a second file at #{view}')
