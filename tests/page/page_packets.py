"""The parts of tests/page.py on packets: their rows, the one that is chosen, the filter, and the keys."""
import re

import page_files
from parts import check, equal


class PacketCases:
    """A part of Cases."""

    def rows(self):
        """The rows say what nbt-look-tshark does, in the same words."""
        for name in ('office.pcap', 'samba.pcap'):
            self.opened(name)
            wanted = self.program.listed(name)
            shown = [[*row[:4], row[5]] for row in self.browser.rows()]
            equal(shown, wanted[:len(shown)], f'{name}, the rows in sight')
            check(len(shown) > 10, f'{name} has rows: {len(shown)}')
            equal(self.browser.text('shown'), f'{len(wanted)} rows', f'{name}, how many rows')

    def faults(self):
        """Of a refused packet the byte is marked, and what `nbt help` says of it is shown."""
        lines = page_files.refused(self.program)
        self.opened(self.path('refused.txt', ''.join(lines).encode()))
        for number, line in enumerate(lines, 1):
            told = self.program.told(line)
            self.browser.choose(number)
            data = bytes.fromhex(line.split()[2].replace('empty', ''))
            at = told.get('at')
            if 'not netbios' in told['refused']:
                # The source's name of a datagram begins at byte 14.
                equal(self.browser.texts('#packet .fault p')[1:], [f'Byte {at} of the name is byte {14 + at} of the payload.'], 'the byte of the payload')
                at += 14
            wanted = [] if at is None else ['  '] if at >= len(data) else [f'{data[at]:02x}']
            equal(self.browser.texts('#packet mark')[:1], wanted, f"the mark of {told['refused']}")
            equal(self.browser.texts('#packet .fault b'), [told['brief'].removeprefix('refused: ')], 'the fault')
            help_ = ''.join(self.program.lines(f"nbt help '{told['refused']}'"))
            advice = re.sub(r'\bAT\b', told['refused'].rpartition(' ')[2], help_.split(': ', 1)[1])
            equal(self.browser.texts('#packet .fault p')[0], advice.replace('`', ''), f"the advice on {told['refused']}")
            equal(self.browser.texts('#packet .fault p code'), advice.split('`')[1::2], f"the code in the advice on {told['refused']}")
        equal(self.browser.texts('.row.malformed .says'), [self.program.told(line)['brief'] for line in lines], 'what the rows say')

    def filters(self):
        """The box, what is chosen of the counts, and how many rows are left."""
        self.opened('samba.pcap')
        for words, options in (('query', '--kind query'), ('138', '--port 138')):
            self.browser.filter(words)
            wanted = len(self.program.listed('samba.pcap', options))
            check(self.browser.text('shown').startswith(f'{wanted} of '), f"{words}: {self.browser.text('shown')}, not {wanted}")
        self.browser.filter('')
        kinds = self.program.kinds('samba.pcap')
        for option in self.browser.run('return Array.from(document.querySelectorAll("#kind option"), (each) => each.textContent).slice(1)'):
            kind, count = option.split(' ')
            equal(count, f'({kinds[kind]})', f'how many are {kind}')
        self.browser.choose(1)
        for words, wanted in (('nobody has this', ['The filter hides this packet.']), ('', [])):
            self.browser.filter(words)
            equal(self.browser.texts('#packet [role=status]'), wanted, f'the filter {words!r} with a packet selected')
        self.hints()

    def hints(self):
        """Where no row fits it is said what the box takes; a filter of Wireshark leads to words; conflicts are found by that word."""
        self.opened('life.pcap')
        frames = lambda: [row[0] for row in self.browser.rows()]
        for words in ('conflict', 'Conflicts'):
            self.browser.filter(words)
            self.browser.wait(lambda: len(frames()) == 2)
            equal(frames(), ['3', '22'], f'the packets of {words}')
            check(not self.browser.id('hint').is_displayed(), f'no hint at {words}')
        self.browser.filter('nobody has this')
        equal(self.browser.text('hint').split(' words', 1)[0], 'No row fits “nobody has this”. The box takes', 'no row fits')
        self.browser.filter('ip.addr==10.0.0.9')
        check('is a filter of Wireshark' in self.browser.text('hint'), f"a filter of Wireshark: {self.browser.text('hint')}")
        equal(self.browser.texts('#hint button'), ['Filter by 10.0.0.9'], 'words in place of a filter of Wireshark')
        self.browser.all('#hint button')[0].click()
        self.browser.wait(lambda: not self.browser.id('hint').is_displayed() and frames())
        equal(frames(), ['4', '5'], 'the packets of these words')
        equal([self.browser.focus(), self.browser.id('words').get_attribute('value')], ['words', '10.0.0.9'], 'the box, and the keys')

    def keys(self):
        """Keys, and the address."""
        self.opened()
        self.browser.key('ARROW_DOWN')
        self.browser.shows('Frame 1')
        self.browser.key('ARROW_DOWN', 'ARROW_DOWN', at='#grid')
        self.browser.shows('Frame 3')
        check(self.browser.driver.current_url.endswith('#packets?frame=3'), f'the address keeps the frame: {self.browser.driver.current_url}')
        selected = self.browser.all('[aria-selected=true]')[0].get_attribute('id')
        equal(self.browser.id('grid').get_attribute('aria-activedescendant'), selected, 'the selected row')
        self.browser.key('/')
        self.browser.wait(lambda: self.browser.focus() == 'words')
        self.browser.key('FRED<20> query')
        self.browser.wait(lambda: self.browser.text('shown') == '1 of 15 rows')
        self.browser.key('ESCAPE')
        self.browser.wait(lambda: self.browser.text('shown') == '15 rows')
        equal(self.browser.focus(), 'grid', 'Escape goes back')
        for key, is_open in (('?', True), ('ESCAPE', False)):
            self.browser.key(key)
            equal(self.browser.id('help').is_displayed(), is_open, f'the help after {key}')
        self.opened(place='#packets?frame=9')
        self.browser.shows('Frame 9')
        self.browser.key('3')
        self.browser.wait(lambda: self.browser.id('view-reassembly').is_displayed())
        check('#reassembly?frame=9' in self.browser.driver.current_url, 'the address keeps the view')
        self.browser.driver.back()
        self.browser.wait(lambda: self.browser.id('view-packets').is_displayed())
        self.list_keys()

    def list_keys(self):
        """The list has the keys after each way to it."""
        self.browser.view('names', self.browser.tables)
        self.browser.all('#view-names a[href*="frame="]')[0].click()
        self.browser.wait(lambda: self.browser.id('view-packets').is_displayed())
        equal(self.browser.focus(), 'grid', 'a link to a frame leads to the list')
        last = self.browser.rows()[-1][0]
        for before, key, frame in (('names', 'END', last), ('packets', 'HOME', '1')):
            self.browser.view(before)
            self.browser.view('packets')
            self.browser.key(key)
            self.browser.shows(f'Frame {frame}')
            equal(self.browser.focus(), 'grid', f'from {before} to the list')

    def singles(self):
        """Keys of one character are turned off in the help, for the next time too, and turned on again."""
        self.opened()
        self.turn(False)
        self.browser.key('3', '/', '?')
        equal([self.browser.id('view-packets').is_displayed(), self.browser.focus() == 'words', self.browser.id('help').is_displayed(),
               self.browser.texts('.keys')], [True, False, False, []], 'keys that are off')
        self.opened()
        self.browser.key('3')
        check(self.browser.id('view-packets').is_displayed(), 'keys that are off the next time')
        self.turn(True)
        self.browser.key('3')
        self.browser.wait(lambda: self.browser.id('view-reassembly').is_displayed())
        check(len(self.browser.texts('.keys')) == 1, 'keys that are on again')

    def turn(self, on):
        self.browser.id('to-help').click()
        equal(self.browser.id('single-keys').is_selected(), not on, 'the keys before')
        self.browser.id('single-keys').click()
        self.browser.id('close-help').click()
