#!/usr/bin/env python3
"""Measures pages in a headless browser: how long each act of a reader takes until it is painted.

    bench/browse.py PAGE..

Milliseconds, by the page's own clock: until the script begins, until the first picture and the table are drawn; then several
clicks on rows far apart, moves of the pointer, filters, sorts by each column, the file of findings, the whole day again.
"""
import json
import os
import sys

sys.path.insert(0, os.path.join(os.path.dirname(os.path.dirname(os.path.realpath(__file__))), "tests"))
from browser import Browser

ACTS = """(async () => {
  const $ = id => document.getElementById(id), rows = () => [...document.querySelectorAll('#scroll tbody tr[data-row]')];
  const painted = async act => {
    const from = performance.now();
    act();
    const done = performance.now();
    await new Promise(end => requestAnimationFrame(() => setTimeout(end)));
    return `${Math.round(done - from)}/${Math.round(performance.now() - from)}`;
  };
  const choose = (name, value) => painted(() => { $(name).value = value; $(name).dispatchEvent(new Event('change')); });
  const found = {}, box = $('scroll'), [entry] = performance.getEntriesByType('navigation');
  found['script begins, all drawn'] = [entry.domContentLoadedEventStart, entry.domContentLoadedEventEnd].map(Math.round);
  found.click = [];
  for (const part of [.05, .2, .35, .5, .65, .8, .95]) {
    box.scrollTop = box.scrollHeight * part;
    await new Promise(end => setTimeout(end, 100));
    found.click.push(await painted(() => rows()[12].click()));
  }
  found.pointer = [];
  for (const part of [.1, .3, .5, .7, .9]) {
    const { left, top, width } = $('picture').getBoundingClientRect(), at = { clientX: left + part * (width - 80), clientY: top + 50 };
    found.pointer.push(await painted(() => $('picture').dispatchEvent(new PointerEvent('pointermove', at))));
  }
  found.filter = [await choose('filter-kind', 'flagged'), await choose('filter-kind', '')];
  found.sort = [];
  for (const it of document.querySelectorAll('#scroll th button')) found.sort.push(await painted(() => it.click()));
  found['whole day'] = [];
  for (let i = 0; i < 3; i++) { $('in').click(); found['whole day'].push(await painted(() => $('all').click())); }
  found['by version, by time'] = [await painted(() => $('by-version').click()), await painted(() => $('by-time').click())];
  found['save CSV'] = [await painted(() => $('csv').click())];
  found.elements = document.querySelectorAll('#picture *').length;
  found['memory, MB'] = Math.round(performance.memory.usedJSHeapSize / 1e6);
  return JSON.stringify(found);
})()"""


def main(pages):
    for page in pages:
        with Browser() as browser:
            browser.size(1280, 1000)
            browser.open(f"file://{os.path.realpath(page)}")
            browser.settle(1000)
            found = json.loads(browser.js(ACTS))
            print(f"{page}: {os.path.getsize(page):,} bytes; script/until painted")
            for name, values in found.items():
                print(f"  {name}: {values if isinstance(values, int) else ', '.join(map(str, values))}")


if __name__ == "__main__":
    main(sys.argv[1:])
