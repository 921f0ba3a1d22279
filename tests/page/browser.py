"""The page in a browser without a window: Debian's chromium, by Selenium."""
import json
import os
import time

from selenium import webdriver
from selenium.webdriver.chrome.options import Options
from selenium.webdriver.chrome.service import Service
from selenium.webdriver.common.keys import Keys

CHROMIUM, DRIVER = '/usr/bin/chromium', '/usr/bin/chromedriver'
WORDS = ('--headless=new', '--no-sandbox', '--disable-dev-shm-usage', '--disable-background-networking', '--disable-component-update',
         '--no-first-run', '--window-size=1400,800', '--disable-features=BackForwardCache,SpareRendererForSitePerProcess')
# How many seconds a file may take to be read, on a machine that is busy.
LONG = 300
# Whether files are read or refused.
IS_ANSWERED = ('const at = (name) => document.getElementById(name);'
               'return at("stop").disabled && (at("live").textContent !== "" || at("message").checkVisibility())')
# What may come after the page itself: what it makes of its own blocks.
OWN = ('blob:', 'data:', 'about:', 'chrome://', 'chrome-extension://', 'devtools://')
# What has to have a name, by its role in the accessibility tree.
NAMED = {'button', 'link', 'textbox', 'searchbox', 'combobox', 'grid', 'columnheader', 'dialog', 'progressbar', 'navigation', 'img', 'region',
         'table', 'main', 'complementary'}


class Browser:
    """One window, with the page in it, and the folder of the files that are given to it and saved by it."""

    def __init__(self, folder):
        self.folder = folder
        options = Options()
        options.binary_location = CHROMIUM
        for word in (*WORDS, f'--user-data-dir={folder}/profile'):
            options.add_argument(word)
        options.set_capability('goog:loggingPrefs', {'browser': 'ALL', 'performance': 'ALL'})
        options.add_experimental_option('prefs', {'download.default_directory': folder, 'download.prompt_for_download': False})
        self.driver = webdriver.Chrome(service=Service(DRIVER), options=options)
        self.driver.set_script_timeout(120)
        self.run = self.driver.execute_script
        self.faults, self.requests, self.pages = [], [], set()

    def open(self, page, place=''):
        """Opens the page anew."""
        self.driver.get('about:blank')
        self.pages.add(f'file://{page}')
        self.driver.get(f'file://{page}{place}')

    def id(self, name):
        return self.driver.find_element('id', name)

    def all(self, selector):
        return self.driver.find_elements('css selector', selector)

    def text(self, name):
        return self.run('return document.getElementById(arguments[0]).textContent', name)

    def texts(self, selector):
        """The texts of elements; of what is hidden none."""
        return self.run('return Array.from(document.querySelectorAll(arguments[0])).filter((each) => each.offsetParent !== null)'
                        '.map((each) => each.textContent)', selector)

    def focus(self):
        """The name of what has the keys."""
        return self.driver.switch_to.active_element.get_attribute('id')

    def wait(self, what, seconds=60):
        """Waits until a function has an answer that counts as true, and answers that."""
        end, pause = time.monotonic() + seconds, 0.01
        while not (found := what()):
            if time.monotonic() > end:
                raise TimeoutError(f'{what.__code__.co_names}: {self.text("words-of-message")} {self.text("live")}')
            time.sleep(pause)
            pause = min(1.5 * pause, 0.2)
        return found

    def give(self, *names, answer=''):
        """Chooses files, answers where they go if others are open, and waits until they are read or refused."""
        self.run('document.getElementById("live").textContent = ""; document.getElementById("dismiss").click()')
        self.offer(*names)
        if answer:
            self.answer(answer)
        self.wait(lambda: self.run(IS_ANSWERED), LONG)

    def offer(self, *names):
        """Chooses files."""
        self.id('file').send_keys('\n'.join(os.path.join(self.folder, each) for each in names))

    def answer(self, words):
        """Answers where a file goes, by the button that begins so."""
        self.wait(lambda: self.id('placing').is_displayed())
        next(each for each in self.all('#placing-answers button') if each.text.startswith(words)).click()

    def sample(self):
        self.run('document.getElementById("live").textContent = ""')
        self.id('try').click()
        self.wait(lambda: self.text('live'))

    def is_read(self):
        return not self.id('stop').is_enabled()

    def message(self):
        """The line of a fault, if one is shown."""
        return self.text('words-of-message') if self.id('message').is_displayed() else ''

    def drawn(self):
        """Waits for the second picture from now on: rows that have come, or for which there is another room, stand in the page by then."""
        self.driver.execute_async_script('requestAnimationFrame(() => requestAnimationFrame(arguments[0]))')

    def rows(self):
        """The cells of the rows that are in sight."""
        self.drawn()
        return self.run('return Array.from(document.querySelectorAll(".sight .row")).filter((row) => !row.hidden)'
                        '.map((row) => Array.from(row.children, (cell) => cell.textContent))')

    def tables(self):
        """The tables of the view that is shown: titles, and rows of cells, the head first."""
        return dict(self.run('return Array.from(document.querySelectorAll(".view:not([hidden]) table"), ({ caption, rows }) =>'
                             '[caption.textContent, Array.from(rows, ({ cells }) => Array.from(cells, (cell) => cell.textContent))])'))

    def view(self, name, until=None):
        """Shows a view, and waits until it has what is asked for."""
        self.id(f'to-{name}').click()
        self.wait(lambda: self.id(f'view-{name}').is_displayed())
        return until and self.wait(until)

    def choose(self, frame):
        """Chooses the row of a frame, or of a line, that is in sight, and waits for its packet."""
        self.drawn()
        next(each for each in self.all('.sight .row:not([hidden])') if each.text.split('\n')[0] == str(frame)).click()
        self.wait(lambda: self.texts('#packet h2') in ([f'Frame {frame}'], [f'Line {frame}']))

    def shows(self, packet):
        """Waits until all of this packet is shown."""
        self.wait(lambda: self.texts('#packet h2') == [packet])

    def filter(self, words):
        self.run('const box = document.getElementById("words"); box.value = arguments[0]; box.dispatchEvent(new Event("input"))', words)

    def key(self, *keys, at=''):
        """Presses keys, by their names, or types texts: where the keys are, or at the first element of a selector."""
        (self.all(at)[0] if at else self.driver.switch_to.active_element).send_keys(*(getattr(Keys, each, each) for each in keys))

    def saved(self, button, name):
        """What a button saves: the bytes of the file with this name."""
        path = os.path.join(self.folder, name)
        if os.path.exists(path):
            os.remove(path)
        self.id(button).click()
        self.wait(lambda: os.path.exists(path) and not os.path.exists(path + '.crdownload'))
        with open(path, 'rb') as file:
            return file.read()

    def unnamed(self):
        """The controls of what is shown that have no name."""
        nodes = self.driver.execute_cdp_cmd('Accessibility.getFullAXTree', {})['nodes']
        return [node['role']['value'] for node in nodes if not node.get('ignored') and node['role']['value'] in NAMED
                and not node.get('name', {}).get('value', '').strip()]

    def look(self):
        """Keeps what the browser noted: faults in the console, and requests that leave the page."""
        self.faults += [each['message'] for each in self.driver.get_log('browser') if each['level'] in ('SEVERE', 'WARNING')]
        for entry in self.driver.get_log('performance'):
            message = json.loads(entry['message'])['message']
            if message['method'] == 'Network.requestWillBeSent':
                url = message['params']['request']['url']
                if not url.startswith(OWN) and url.split('#')[0] not in self.pages:
                    self.requests.append(url)

    def screen(self, wide=0, letters=100, media='', **features):
        """In a window of so many pixels, with letters of so many hundredths of their size, on paper or as media features say."""
        named = [{'name': name.replace('_', '-'), 'value': value} for name, value in features.items()]
        self.driver.execute_cdp_cmd('Emulation.setEmulatedMedia', {'media': media, 'features': named})
        size = {'width': wide, 'height': 740, 'deviceScaleFactor': 1, 'mobile': False} if wide else {}
        self.driver.execute_cdp_cmd(f"Emulation.{'set' if wide else 'clear'}DeviceMetricsOverride", size)
        self.run('document.documentElement.style.fontSize = arguments[0]', f'{letters}%' if letters != 100 else '')
