"""The parts of tests/page.py on how the page looks, by tests/page/looks.js: texts and fields on screens of all kinds and on paper, large
letters, forced colours, names of controls, and silence."""
import os

from parts import check, equal

with open(f'{os.path.dirname(os.path.abspath(__file__))}/looks.js', encoding='utf-8') as file:
    LOOKS = file.read() + 'return arguments[0].flatMap((name) => checks[name]().map((each) => `${name}: ${each}`));'

VIEWS = ('packets', 'names', 'reassembly', 'taps', 'export')
DARK = {'prefers_color_scheme': 'dark'}
# What isn't to be found on each screen, and on paper: also in a window of 360 pixels, and at twice the size by the letters and by the window.
SCREENS = (({}, 'broken faint pale'), (DARK, 'faint pale'), ({'wide': 600}, 'broken wide'), ({'wide': 360}, 'clipped covered wide'),
           ({'wide': 360, 'letters': 200}, 'clipped covered wide'), ({'wide': 180}, 'clipped covered wide'))
PAPERS = (({'media': 'print'}, 'faint clicked'), ({'media': 'print', **DARK}, 'faint clicked'))
SIZES = ('return [getComputedStyle(document.body).fontSize, getComputedStyle(document.querySelector(".says b")).fontSize,'
         'document.querySelector(".sight .row").offsetHeight]')
REACH = ('return document.querySelector(".row.selected").getBoundingClientRect().bottom'
         '- document.querySelector(".scroller").getBoundingClientRect().bottom')
BACKGROUNDS = 'return arguments[0].map((each) => getComputedStyle(document.querySelector(each)).backgroundColor)'


class LookCases:
    """A part of Cases."""

    def looks(self):
        """No word breaks, and all texts can be read; each field is in its window and can be seen; each control has a name."""
        self.browser.open(self.page)
        self.seen('at first')
        for names in (('life.pcap', 'right.txt'), ('samba.pcap', 'left.txt')):
            self.opened(*names)
            self.browser.run('location.hash = "#packets"')
            self.browser.wait(lambda: self.browser.id('tap').get_attribute('value') == '0')
            self.browser.choose(3)
            for view in VIEWS:
                self.browser.view(view)
                self.seen(f'{view} of {names[0]}', SCREENS + (PAPERS if view in ('names', 'reassembly', 'taps') else ()))
            self.browser.view('packets')
            self.browser.filter('ip.addr==10.0.0.77')
            self.browser.offer(names[1])
            self.browser.wait(lambda: self.browser.id('hint').is_displayed() and self.browser.id('placing').is_displayed())
            self.seen('a hint and a question')
            self.browser.id('placing-cancel').click()
        self.paper()
        self.letters()
        self.forced()

    def seen(self, where, screens=SCREENS):
        """Looks at what is shown on each of these screens."""
        equal(self.browser.unnamed(), [], f'controls without a name, {where}')
        for screen, checks in screens:
            self.browser.screen(**screen)
            equal(self.browser.run(LOOKS, checks.split()), [], f'{where}, {screen}')
        self.browser.screen()

    def paper(self):
        """On paper the colors of bars stay, and all else is light, in a dark window too."""
        self.browser.view('taps', lambda: self.browser.texts('#view-taps .lead'))
        self.browser.screen(media='print', **DARK)
        equal(self.browser.all('#view-taps .bar')[0].value_of_css_property('print-color-adjust'), 'exact', 'bars are printed')
        equal(self.browser.run(BACKGROUNDS, ['body']), ['rgb(255, 255, 255)'], 'the paper')
        self.browser.screen()

    def letters(self):
        """Letters of twice the size make all texts and rows twice as large, and the last row is still come to."""
        self.opened()
        self.browser.choose(5)
        for letters, sizes in ((100, ['14px', '12.5px', 24]), (200, ['28px', '25px', 48])):
            self.browser.screen(letters=letters)
            equal(self.browser.run(SIZES), sizes, f'the sizes with letters of {letters} %')
        self.browser.key('END', at='#grid')
        self.browser.shows('Frame 16')
        self.browser.wait(lambda: self.browser.all('.row.selected'))
        check(self.browser.run(REACH) <= 1, f'the last row is in sight: {self.browser.run(REACH)}')

    def forced(self):
        """In forced colours the selected row, and the view that is shown, can be told from others."""
        self.browser.screen(forced_colors='active')
        for one, other in (('.sight .row.selected', '.sight .row:not(.selected):not([hidden])'), ('#to-packets', '#to-names')):
            colors = self.browser.run(BACKGROUNDS, [one, other])
            check(colors[0] != colors[1], f'{one} in forced colours: {colors}')
        self.browser.screen()

    def quiet(self):
        """Nothing was said in the console in all of that, and no request went out."""
        self.browser.look()
        equal(self.browser.faults, [], 'the console')
        equal(self.browser.requests, [], 'requests')
