"""The parts of tests/page.py on files that are opened: bad ones, hostile ones, those that are given or pasted, that gzip packed, that have
frames which the page doesn't read, and that change on disk after that."""
import gzip
import os
import re

import page_files
from parts import check, equal
from wire import QUERY, START, ethernet, interface, ip, section, sent, timed

PUT = '''
const files = new DataTransfer();
files.items.add(new File(["139 0 85000000\\n"], "put.txt"));
const event = new Event(arguments[0], { bubbles: true, cancelable: true });
event[arguments[1]] = files;
document.body.dispatchEvent(event)'''


class OpeningCases:
    """A part of Cases."""

    def bad(self):
        """Each bad file gets one line that says what and where, and the page goes on."""
        self.browser.open(self.page)
        for name, data, wanted in page_files.bad(self.program):
            self.browser.give(*(self.path(*each) for each in (data if isinstance(data, list) else [(name, data)])))
            message = self.browser.message()
            check(wanted in message and '\n' not in message, f'{name}: {message!r}, which lacks {wanted!r}')
            self.browser.id('dismiss').click()
            if self.browser.id('try').is_displayed():
                self.browser.sample()
            check(self.browser.rows() or self.browser.text('title') != 'nbt', f'{name}: the page goes on')
            self.close_all()
        self.without_memory64()

    def without_memory64(self):
        """A browser whose WebAssembly has no addresses of 64 bits."""
        with open(self.page, encoding='utf-8') as file:
            text = file.read()
        check(text.count('WebAssembly.validate(MEMORY64)') == 1, 'the page asks for memory64')
        old = self.path('old.html', text.replace('WebAssembly.validate(MEMORY64)', 'false').encode())
        self.browser.open(f'{self.folder}/{old}')
        self.browser.wait(self.browser.message)
        check('needs memory64: Chromium 133' in self.browser.message(), f'without memory64: {self.browser.message()}')

    def hostile(self):
        """What stands in a file is text, and never HTML."""
        self.opened(self.path('<img src=x onerror=alert(1)>.txt', page_files.markup(self.program)))
        self.browser.choose(1)
        check('3cimg' in ' '.join(self.browser.texts('#packet dd')), f"markup in a name: {self.browser.texts('#packet dd')}")
        for view in ('names', 'export', 'packets', 'reassembly'):
            self.browser.view(view)
            equal(self.browser.all('#views img, h1 img'), [], f'no element is made of a file, {view}')
        self.browser.wait(self.browser.tables)
        check('<img src=x>' in str(self.browser.tables().get('keys')), f'data is text: {self.browser.tables()}')

    def given(self):
        """A capture that is pasted or dropped, and one that is in the page from the start."""
        self.paste('139 0 85000000\n', self.browser.rows)
        equal(self.browser.rows()[0][5], 'keeps the session alive', 'pasted text')
        for event, transfer in (('drop', 'dataTransfer'), ('paste', 'clipboardData')):
            self.browser.open(self.page)
            self.browser.run(PUT, event, transfer)
            self.browser.wait(self.browser.rows)
            equal(self.browser.text('title'), 'put.txt', f'a file by {event}')
        self.pasted()
        self.browser.open(self.program.page(self.page, 'office.pcap'))
        self.browser.wait(self.browser.rows)
        equal([self.browser.text('title'), len(self.browser.rows())], ['office.pcap', 15], 'nbt-look-tshark --html')

    def paste(self, text, until):
        self.browser.open(self.page)
        self.browser.key(text, at='#pasted')
        self.browser.id('read').click()
        self.browser.wait(until)

    def pasted(self):
        """Of text that is no capture it is said what is wanted; a line without a frame has neither a date nor a filter of Wireshark."""
        form = '. A line has a port, a millisecond and bytes in hexadecimal, as 137 0 000301100001'
        for text, why in (('Dear all', 'pasted text: line 1 is none of a capture: it begins with “Dear”, and not with 137, 138, 139, tick or #'),
                          ('00 03 01 10', 'pasted text: line 1 is none of a capture: it has bytes alone, and a port and a millisecond are wanted before them'),
                          ('  ', 'There is no text to read')):
            self.paste(text, self.browser.message)
            equal(self.browser.message(), why + form, f'pasted {text}')
            equal([self.browser.id('pasted').get_attribute('value'), self.browser.id('start').is_displayed()], [text, True], f'what was pasted stays, {text}')
        self.paste('139 5 85000000\n# frame 7 2026-01-01T00:00:00.250000Z 10.0.0.5:1024 > 10.0.0.9:139\n139 250 85000000\n', self.browser.rows)
        equal(self.browser.texts('.head .frame'), ['line'], 'the column of lines')
        self.browser.choose(1)
        equal(self.browser.texts('#packet dt')[:2], ['moment', 'payload'], 'what is known of a line')
        equal(self.browser.texts('#packet dd')[0], '5 ms', 'the moment of a line')
        check(not re.search('1970|Wireshark|captured', self.browser.text('packet')), f"a line without a frame: {self.browser.text('packet')}")
        self.browser.choose(7)
        equal(self.browser.texts('#packet h2'), ['Frame 7'], 'a line with a frame')
        check(re.search('(?s)2026-01-01T00:00:00.250000Z.*frame.number == 7', self.browser.text('packet')), f"a line with a frame: {self.browser.text('packet')}")

    def unread(self):
        """Frames that the page doesn't read are counted by link type and reason, and it is said what reads them."""
        inner = sent(137, QUERY)
        radio = bytes([0, 0, 8, 0, 0, 0, 0, 0, 8]) + bytes(23) + bytes.fromhex('aaaa030000000800') + inner
        frames = [(0, ethernet(inner)), *2 * [(0, ethernet(ip(47, b'\0\0\x08\0' + inner)))], *6 * [(1, radio)]]
        data = section() + interface() + interface(127) + b''.join(timed(face, START, each, len(each)) for face, each in frames)
        self.opened(self.path('unread.pcapng', data))
        equal(self.browser.text('counts'), '1 packet · 1 name · 0 malformed · 0 left out · 8 not read here', 'the counts of such a capture')
        equal(self.browser.text('live'), 'unread.pcapng: 1 packet, 0 malformed, 0 left out, 8 not read here', 'the footer of it')
        line = "8 frames of what this page doesn't read: GRE, link type radiotap (127). nbt-look-tshark reads them."
        equal(self.browser.texts('#unread'), [line], 'the line above its rows')
        equal(len(self.browser.rows()), 1, 'what is read beside it')
        self.browser.view('names', self.browser.tables)
        equal(self.browser.tables()['not read here'], [['link type', 'why', 'frames', 'frame'], ['Ethernet (1)', 'GRE', '2', '2'],
                                                       ['radiotap (127)', 'link type', '6', '4']], 'the table of it')
        equal(len(self.program.listed('unread.pcapng')), 9, 'nbt-look-tshark reads them')
        self.browser.give('office.pcap', answer='Instead of')
        equal([self.browser.texts('#unread'), 'not read' in self.browser.text('counts')], [[], False], 'a capture without such frames')

    def changed(self):
        """A file that changed on disk after it was opened, or is gone: it is said, and nothing empty is given out."""
        text = self.program.bytes('cat capture.txt')
        for name, change in (('grown.txt', lambda: self.path('grown.txt', text + text)),
                             ('gone.txt', lambda: os.remove(f'{self.folder}/gone.txt'))):
            os.utime(f'{self.folder}/{self.path(name, text)}', (1, 1))
            self.opened(name)
            wanted = self.browser.view('reassembly', lambda: self.browser.texts('#handed p'))
            check('0 datagrams' not in wanted[0], f'{name}, before: {wanted}')
            counts = self.browser.text('counts')
            change()
            self.browser.all('#station-form button')[0].click()
            self.says_change(name, 'handed over')
            equal(self.browser.texts('#handed p'), [], f'{name}, what is handed over then')
            self.browser.view('export')
            for form in ('json', 'capture'):
                self.browser.id(f'save-{form}').click()
                self.says_change(name, form)
                equal(self.browser.texts('#view-export .card [role=status]'), ['', '', ''], f'{name}, what is saved as {form}')
            equal(self.browser.text('counts'), counts, f'{name}: what was read stays')
            self.browser.view('names')
            self.says_change(name, 'names')
            check('stations' in self.browser.wait(self.browser.tables), f'{name}: the other tables stay')

    def says_change(self, name, when):
        self.browser.wait(self.browser.message)
        equal(self.browser.message(), f'{name}: it changed on disk, or is gone, since it was opened: open it again', f'{name}, {when}')
        self.browser.id('dismiss').click()

    def packed(self):
        """Files that gzip packed: they are what they packed, by what is shown, given out and said of the same there."""
        seen = lambda: [self.browser.rows(), self.browser.text('counts'), self.browser.message()]
        for name in ('office.pcap', 'capture.txt'):
            self.opened(name)
            plain = seen()
            self.opened(self.path(f'{name}.gz', gzip.compress(self.program.bytes(f'cat {name}'))))
            equal(seen(), plain, f'{name}.gz, what is shown')
            self.exported(f'{name}.gz', name)
        self.damaged()

    def damaged(self):
        """What is cut, changed or no gzip at all after its first bytes: what stands before that is read, and it is said."""
        whole = gzip.compress(self.program.bytes('cat samba.pcap'))
        fault = 'what gzip packed is cut or damaged, or something follows it: what stands before that is read'
        for name, data, is_read in (('cut.gz', whole[:len(whole) // 2], True), ('longer.gz', whole + b'more', True), ('none.gz', b'\x1f\x8b' + bytes(40), False)):
            self.opened(self.path(name, data))
            equal(self.browser.message(), f'{name}: {fault}', name)
            check(bool(self.browser.rows()) == is_read, f'{name}, what stands before: {len(self.browser.rows())} rows')
        self.opened(self.path('table.gz', gzip.compress(self.program.table('office.pcap'))))
        equal([self.browser.message(), self.browser.text('live')], ['', 'table.gz is a saved table'], 'a saved table')
        self.opened(self.path('keep.txt'))
        self.browser.give('none.gz', answer='Instead of')
        equal([self.browser.message(), self.browser.text('title')], [f'none.gz: {fault}', 'keep.txt'], 'what was open stays')
