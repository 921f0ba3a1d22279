#!/usr/bin/python3
"""What the page costs in Chromium: how long a capture of 100,000 packets takes, its first rows, a click meanwhile, scrolling, and memory.

Usage: tests/bench_page.py [PAGE]. PAGE is out/nbt.html without it. The capture is tests/captures/big_pcap.py's; `tshark -V` reads the same file in the
same run. Scrolling is through the rows of 200,000 packets. Status 1 where a bar is missed.
"""
import os
import subprocess
import sys
import tempfile
import time

sys.dont_write_bytecode = True
TESTS = os.path.dirname(os.path.abspath(__file__))
sys.path.insert(1, f'{TESTS}/page')
import psutil

from browser import Browser

PAGE = os.path.realpath(sys.argv[1] if sys.argv[1:] else f'{TESTS}/../out/nbt.html')
PACKETS = 100_000
# Of what is measured: its words, its unit, and how much it may be.
BARS = {'decoded': ('all rows', 's', 5), 'first': ('the first rows', 's', 0.5), 'click': ('the slowest click meanwhile', 'ms', 100),
        'script': ('the longest script in a frame of scrolling', 'ms', 50), 'memory': ('memory of the page', 'MB', 500)}
WATCH = '''
window.found = {};
document.getElementById('file').addEventListener('change', () => {
    const began = performance.now();
    const look = () => {
        const now = performance.now() - began;
        if (found.first === undefined && document.querySelector('.sight .row:not([hidden])')) found.first = now / 1000;
        if (!document.getElementById('stop').disabled) found.began = true;
        if (found.began && document.getElementById('stop').disabled) found.decoded = now / 1000;
        else requestAnimationFrame(look);
    };
    look();
});'''
CLICK = '''
const done = arguments[0];
const rows = Array.from(document.querySelectorAll('.sight .row:not([hidden])'));
if (!rows.length || found.decoded !== undefined) done(null);
else {
    const row = rows[Math.floor(Math.random() * (rows.length - 2))];
    const wanted = `Frame ${row.children[0].textContent}`;
    const began = performance.now();
    row.click();
    const look = () => (document.querySelector('#packet h2')?.textContent === wanted ? done(performance.now() - began) : setTimeout(look, 1));
    look();
}'''
SCROLL = '''
const done = arguments[0];
const scroller = document.querySelector('.scroller');
const tasks = [0];
new PerformanceObserver((list) => tasks.push(...list.getEntries().map((each) => each.duration))).observe({ type: 'longtask' });
let step = 0;
const scroll = () => {
    step += 1;
    scroller.scrollTop = (scroller.scrollHeight - scroller.clientHeight) * step / 400;
    if (step < 400) requestAnimationFrame(scroll);
    else setTimeout(() => done(Math.max(...tasks)), 200);
};
requestAnimationFrame(scroll);'''


def capture(folder, packets):
    path = f'{folder}/{packets}.pcap'
    subprocess.run([f'{TESTS}/captures/big_pcap.py', str(packets), path], check=True)
    return path


def memory(browser):
    """The memory of the largest process that draws a page, in MB: the page, its worker and the module are in it."""
    processes = psutil.Process(browser.driver.service.process.pid).children(recursive=True)
    return max(each.memory_info().rss for each in processes if '--type=renderer' in each.cmdline()) / 10**6


def decoding(browser, path):
    """Seconds until all rows and the first are there, and the milliseconds of the slowest click meanwhile."""
    browser.open(PAGE)
    browser.run(WATCH)
    browser.offer(path)
    clicks = []
    while browser.run('return found.decoded') is None:
        took = browser.driver.execute_async_script(CLICK)
        clicks += [took] if took is not None else []
        time.sleep(0.02)
    found = browser.run('return found')
    return {'decoded': found['decoded'], 'first': found['first'], 'click': max(clicks, default=0)}, len(clicks)


def main():
    with tempfile.TemporaryDirectory() as folder:
        path = capture(folder, PACKETS)
        began = time.monotonic()
        subprocess.run(['tshark', '-V', '-r', path], stdout=subprocess.DEVNULL, stderr=subprocess.DEVNULL, check=True)
        tshark = time.monotonic() - began
        browser = Browser(folder)
        try:
            found, clicks = decoding(browser, path)
            found['memory'] = memory(browser)
            browser.open(PAGE)
            browser.give(capture(folder, 2 * PACKETS))
            found['script'] = browser.driver.execute_async_script(SCROLL)
            rows = browser.text('shown')
        finally:
            browser.driver.quit()
    print(f'the page, a capture of {PACKETS} packets; {clicks} clicks; tshark -V takes {tshark:.1f} s; scrolling through {rows}')
    for name, (words, unit, most) in BARS.items():
        print(f'{words:45} {found[name]:8.2f} {unit}, of {most} at most{"" if found[name] <= most else ": MISSED"}')
    return any(found[name] > most for name, (_, _, most) in BARS.items())


sys.exit(main())
