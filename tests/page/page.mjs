// Uses the page in a headless Chromium: types, pastes, checks flags, searches, shows trees and back references, drops a
// file, opens links, reloads, and measures what a finger touches. Calls the ES module beside the page in another page.
//
//     node tests/page/page.mjs PAGE MAP WANTED [FOLDER]
//
// PAGE is the page's file. MAP is a large file to drop, WANTED what msvcfilt writes for it. Fails if the page makes a
// request. Ends with status 3 if all tests pass but a task of the page's thread takes more of the processor than
// LONGEST equal tasks of three million steps (default 56; the longest takes 16 to 35 if nothing runs beside), and as
// much more as these differ. Writes screenshots to FOLDER: light.png, dark.png, phone.png, phone_dark.png, and web.png
// for docs.
import assert from 'node:assert/strict';
import { mkdirSync, mkdtempSync, readFileSync, rmSync, writeFileSync } from 'node:fs';
import { tmpdir } from 'node:os';
import { basename, dirname, join, resolve } from 'node:path';
import { pathToFileURL } from 'node:url';
import { openPage } from './chromium.mjs';

const [file, map, wanted, folder] = process.argv.slice(2);
const longest = Number(process.env.LONGEST ?? 56);
const address = pathToFileURL(resolve(file)).href;
const downloads = mkdtempSync(join(tmpdir(), 'downloads-'));
const page = await openPage();
const requests = [];
const faults = [];
const events = [];
let seen = 0;

page.listen((method, params, session) => {
  if (method === 'Target.attachedToTarget') page.send('Network.enable', {}, params.sessionId);
  if (method === 'Network.requestWillBeSent') requests.push(params.request.url);
  if (method === 'Network.webSocketCreated') requests.push(params.url);
  if (method === 'Runtime.exceptionThrown') faults.push(params.exceptionDetails.exception?.description);
  if (method === 'Log.entryAdded' && params.entry.level === 'error') faults.push(params.entry.text);
  if (method === 'Tracing.dataCollected') {
    events.push(...params.value.filter(({ name }) => name === 'thread_name' || name.endsWith('RunTask')));
  }
  if (method === 'Page.javascriptDialogOpening') faults.push('a dialog of a script');
});
await page.send('Target.setAutoAttach', { autoAttach: true, waitForDebuggerOnStart: false, flatten: true });
await page.send('Browser.grantPermissions', { permissions: ['clipboardReadWrite', 'clipboardSanitizedWrite'] });
await page.send('Browser.setDownloadBehavior', { behavior: 'allow', downloadPath: downloads, eventsEnabled: true });
await page.send('Page.addScriptToEvaluateOnNewDocument', { source: `
  window.violations = [];
  addEventListener('securitypolicyviolation', (event) => violations.push(event.effectiveDirective));` });

const text = (id) => page.value(`document.getElementById('${id}').textContent`);
const all = (selector, property) => page.value(
  `[...document.querySelectorAll('${selector}')].map((element) => element.${property})`);
const resize = (width, height, scale) => page.send('Emulation.setDeviceMetricsOverride',
  { width, height, deviceScaleFactor: scale, mobile: width < 500 });
const output = "document.getElementById('output')";
const details = "document.getElementById('details-list')";
const input = "document.getElementById('input')";
const settled = () => page.until(`${output}?.ariaBusy === 'false'`);
const shows = async (what) => {
  await page.until(`${output}.ariaBusy === 'false' && ${output}.textContent === ${JSON.stringify(what)}`);
};
const press = async (key, code) => {
  for (const type of ['rawKeyDown', 'keyUp']) {
    await page.send('Input.dispatchKeyEvent', { type, key, windowsVirtualKeyCode: code });
  }
};

/** Returns the middle of an element, once it is visible. */
const middle = (selector) => page.value(`(async () => {
  const element = document.querySelector(${JSON.stringify(selector)});
  element.scrollIntoView({ block: 'center' });
  for (let frame = 0; frame < 2; frame++) await new Promise(requestAnimationFrame);
  const { x, y, width, height } = element.getClientRects()[0];
  return { x: x + width / 2, y: y + height / 2 };
})()`);

/** Moves the mouse over an element. */
const over = async (selector) => page.send('Input.dispatchMouseEvent',
  { type: 'mouseMoved', ...await middle(selector) });

/** Touches an element. */
async function tap(selector) {
  const place = await middle(selector);
  await page.send('Input.dispatchTouchEvent', { type: 'touchStart', touchPoints: [place] });
  await page.send('Input.dispatchTouchEvent', { type: 'touchEnd', touchPoints: [] });
}

/** Clicks on the middle of an element, once it is visible. */
async function click(selector) {
  const place = await middle(selector);
  for (const type of ['mousePressed', 'mouseReleased']) {
    await page.send('Input.dispatchMouseEvent', { type, ...place, button: 'left', clickCount: 1 });
  }
}

/** Replaces the text of the input, key by key. */
async function type(typed) {
  await click('#clear');
  for (const letter of typed) await page.send('Input.insertText', { text: letter });
}

/** Puts a text into a field at once. */
const put = (id, text) => page.value(`(() => {
  const field = document.getElementById('${id}');
  field.value = ${JSON.stringify(text)};
  field.dispatchEvent(new Event('input', { bubbles: true }));
})()`);

/** Pastes a text into the field that has the focus, as the keyboard does. */
async function paste(text) {
  await page.value(`navigator.clipboard.writeText(${JSON.stringify(text)})`);
  await page.send('Input.dispatchKeyEvent', { type: 'rawKeyDown', key: 'v', commands: ['paste'] });
}

/** Returns what a button copies. */
async function copied(selector) {
  await page.value("navigator.clipboard.writeText('')");
  await click(selector);
  await page.until("navigator.clipboard.readText().then((text) => text !== '')");
  return page.value('navigator.clipboard.readText()');
}

async function open(url) {
  await page.send('Page.navigate', { url: 'about:blank' });
  await page.send('Page.navigate', { url });
  await settled();
}

async function reload() {
  await page.value('reloaded = false');
  await page.send('Page.reload');
  await page.until("typeof reloaded === 'undefined'");
  await settled();
}

/** Runs a test, and counts it. */
async function see(what, look) {
  try {
    await look();
  } catch (error) {
    throw new Error(`${what}: ${error.message}`);
  }
  seen++;
}

/** Ends the trace, and returns the milliseconds that each task of the page's threads took of the processor. */
async function traced() {
  const complete = new Promise((resume) => {
    page.listen((method) => { if (method === 'Tracing.tracingComplete') resume(); });
  });
  await page.send('Tracing.end');
  await complete;
  const threads = events.filter(({ args }) => args.name === 'CrRendererMain').map(({ pid, tid }) => `${pid} ${tid}`);
  return events.filter(({ pid, tid, tdur }) => tdur !== undefined && threads.includes(`${pid} ${tid}`)).map(
    ({ tdur }) => tdur / 1000);
}

/**
 * Returns the times of equal tasks, in milliseconds, the shortest first. They tell how slow the machine is at times,
 * and how long it pauses. The first ones, before the code is compiled, are left out.
 */
const SPANS = `(async () => {
  const spans = [];
  while (spans.length < 220) {
    await new Promise((resume) => setTimeout(resume));
    const begin = performance.now();
    for (let step = 0, sum = 1; step < 3e6; step++) sum = Math.imul(sum, 48271) ^ step;
    spans.push(performance.now() - begin);
  }
  return spans.slice(20).sort((one, other) => one - other);
})()`;

const SYMBOL = '?f@A@@SAHXZ';
const DECLARATION = 'public: static int __cdecl A::f(void)';

async function run() {
  await resize(1280, 900, 1);
  await page.send('Tracing.start', { traceConfig: { includedCategories: ['toplevel'] } });
  await open(address);
  await see('the first view', async () => {
    assert.deepEqual([await page.value(`${input}.value`), await text('output'), await text('state')], ['', '', '']);
    assert.equal(await page.value('document.activeElement.id'), 'input');
  });

  await see('the first example', async () => {
    await click('#examples button');
    await page.until("document.querySelector('#output .symbol') !== null");
    await settled();
    assert.match(await text('output'), /^public: <auto> __cdecl ns::<lambda_0>::[^]*\nint ns::x\n[^]*\n\?x@@3L\n$/);
    assert.equal(await text('state'), '8 symbols · 1 rejected');
    assert.match(await text('time'), /^[0-9.]+ ms$/);
    assert.equal(await page.value("document.querySelectorAll('#output .symbol').length"), 8);
  });

  await see('a paste, which replaces an example and nothing else', async () => {
    await page.value(`${input}.focus()`);
    await paste(SYMBOL);
    await shows(DECLARATION);
    await paste(' and ?x@ns@@3HA');
    await shows(`${DECLARATION} and int ns::x`);
  });

  await see('typing', async () => {
    await type(`in foo!${SYMBOL}+0x12 [a.cpp]`);
    await shows(`in foo!${DECLARATION}+0x12 [a.cpp]`);
    assert.equal(await page.value("document.querySelector('#output .symbol').title"), SYMBOL);
  });

  await see('the live region', async () => {
    await page.value(`(() => {
      window.said = [];
      new MutationObserver(() => said.push(document.getElementById('state').textContent)).observe(
        document.getElementById('state'), { childList: true, characterData: true, subtree: true });
    })()`);
    await type(`${SYMBOL} and text`);
    await shows(`${DECLARATION} and text`);
    const said = await page.value('said');
    assert.equal(said.at(-1), '1 symbol');
    assert.ok(said.every((one, index) => one !== said[index - 1] && !one.includes('ms')), said.join(', '));
  });

  await see('a search', async () => {
    const lines = Array.from({ length: 500 }, (_, index) => `?x${index}@ns@@3HA ?äx@@3LZ\n`);
    await put('input', lines.join(''));
    await shows(lines.join('').replace(/\?x(\d+)@ns@@3HA/g, 'int ns::x$1'));
    assert.equal(await text('state'), '500 symbols · 500 rejected');
    await click('#search');
    for (const letter of 'NS::x33') await page.send('Input.insertText', { text: letter });
    const found = [33, ...Array.from({ length: 10 }, (_, index) => 330 + index)];
    await shows(found.map((index) => `int ns::x${index} ?äx@@3LZ\n`).join(''));
    assert.equal(await text('state'), '11 of 500 lines: 11 symbols · 11 rejected');
    assert.equal(await copied('#copy'), await text('output'));
    await click('#output .symbol');
    assert.ok((await text('details-list')).includes('?x33@ns@@3HA'));
    await click('#details-close');
    await put('search', 'nothing');
    await shows('');
    assert.equal(await text('state'), '0 of 500 lines: 0 symbols');
    await type(SYMBOL);
    await shows(DECLARATION);
    assert.equal(await page.value("document.getElementById('search').value"), '');
  });

  await see('flags', async () => {
    const boxes = await all('#flags input', 'title');
    const texts = { NAME_ONLY: 'A::f', NO_ACCESS_SPECIFIERS: 'static int __cdecl A::f(void)',
      NO_MEMBER_TYPE: 'public: int __cdecl A::f(void)', NO_MS_KEYWORDS: 'public: static int A::f(void)',
      NO_FUNCTION_RETURNS: 'A::f(void)' };
    await type(SYMBOL);
    for (const name of boxes) {
      await click(`#flags input[title=${name}]`);
      await shows(texts[name] ?? DECLARATION);
      assert.notEqual(await text('word'), '0xE00400');
      await click(`#flags input[title=${name}]`);
      await shows(DECLARATION);
    }
    await click('#flags input[title=NAME_ONLY]');
    await click('#reset');
    await shows(DECLARATION);
    assert.equal(await text('word'), '0xE00400');
  });

  await see('the grammars', async () => {
    const typed = '?f@@YA?A?<auto>@@H@Z .?AVA@@ x.?AVA@@ *.H';
    const full = "<auto> __cdecl f(int) class A `RTTI Type Descriptor Name' x.?AVA@@ *.H";
    await type(typed);
    await shows(full);
    assert.equal(await text('state'), '2 symbols');
    assert.deepEqual(await all('#output .symbol', 'title'), typed.split(' ', 2));
    await put('grammar', 'crate');
    await shows(typed);
    assert.equal(await text('state'), '0 symbols · 1 rejected');
    await type('?f@@9');
    await shows('f');
    await put('grammar', 'full');
    await shows('extern "C" f');
    await put('grammar', 'crate');
    await click('#reset');
    await shows('extern "C" f');
  });

  await see('an error', async () => {
    await type('at ?äx@@3LZ and ?y@@3HA0');
    await shows('at ?äx@@3LZ and ?y@@3HA0');
    assert.deepEqual(await all('#output mark', 'previousSibling.textContent'), ['?äx@@3L', '?y@@3HA']);
    assert.deepEqual(await all('#output mark', 'textContent'), ['Z', '0']);
    await click('#output .rejected');
    await page.until("document.getElementById('details').open");
    assert.match(await text('details-list'), /unknown primitive type \(offset: 8, /);
    await click('#details-close');
    await page.until("!document.getElementById('details').open");
  });

  await see('details of a symbol, by the keyboard', async () => {
    await type(`${SYMBOL} ?x@ns@@3HA`);
    await shows(`${DECLARATION} int ns::x`);
    await page.value("document.querySelector('#output [tabindex=\"0\"]').focus()");
    await press('ArrowRight', 39);
    await press('Enter', 13);
    await page.until("document.getElementById('details').open");
    await page.until(`${details}.childElementCount === 8`);
    const shown = await text('details-list');
    for (const part of ['?x@ns@@3HA', 'int ns::x', 'ns::x', 'ns::x: Var(Global Int)']) {
      assert.ok(shown.includes(part), shown);
    }
    assert.equal(await text('details-title'), 'Symbol of 10 characters');
    await press('Escape', 27);
    await page.until("!document.getElementById('details').open");
  });

  await see('a tree', async () => {
    await type('?f@A@@QBEHPBDV?$vector@HV?$allocator@H@std@@@std@@@Z');
    await settled();
    await click('#output .symbol');
    await page.until(`${details}.childElementCount === 8`);
    assert.equal(await page.value(`${details}.lastChild.textContent`), [
      'A::f: MemberFunction(', '  PUBLIC Thiscall CONST', '  [', '    Ptr(CONST Char),',
      '    Class(std::vector<Int, Class(std::allocator<Int>)>)', '  ]', '  Int', ')'].join('\n'));
    await press('Escape', 27);
    await page.until("!document.getElementById('details').open");
  });

  await see('back references', async () => {
    await type('?g@@YAXPAHPAVx1@@010@Z');
    await settled();
    await click('#output .symbol');
    await page.until(`${details}.querySelectorAll('.reference').length === 3`);
    assert.ok((await text('details-list')).startsWith('SymbolCopy?g@@YAXPAHPAVx1@@010@Z'));
    const tooltip = () => page.value(`(() => {
      const tip = document.getElementById('tip');
      const meant = [...document.querySelectorAll('.meant')].map((piece) => piece.textContent);
      return [tip.hidden ? '' : tip.textContent, meant.join('')];
    })()`);
    assert.deepEqual(await tooltip(), ['', '']);
    // By the mouse.
    await over('.reference');
    await page.until("!document.getElementById('tip').hidden");
    assert.deepEqual(await tooltip(), ['stands for PAH, int *', 'PAH']);
    await over('#details-title');
    await page.until("document.getElementById('tip').hidden");
    assert.deepEqual(await tooltip(), ['', '']);
    // By the keyboard: Escape closes the tooltip first, and then the panel.
    await page.value("document.querySelectorAll('.reference')[0].focus()");
    await press('Tab', 9);
    assert.deepEqual(await tooltip(), ['stands for PAVx1@@', 'PAVx1@@']);
    assert.equal(await page.value("document.activeElement.getAttribute('aria-describedby')"), 'tip');
    await press('Escape', 27);
    assert.deepEqual(await tooltip(), ['', '']);
    assert.equal(await page.value("document.getElementById('details').open"), true);
    // By a finger.
    await tap('.reference:last-of-type');
    assert.deepEqual(await tooltip(), ['stands for PAH, int *', 'PAH']);
    await press('Escape', 27);
    await press('Escape', 27);
    await page.until("!document.getElementById('details').open");
  });

  await see('thousands of back references', async () => {
    await put('input', `?f@@YAXPAH${'0'.repeat(4000)}@Z`);
    await settled();
    await page.value("document.querySelector('#output .symbol').focus()");
    await press('Enter', 13);
    await page.until(`${details}.querySelectorAll('.reference').length === 4000`);
    await page.value(`${details}.querySelectorAll('.reference')[3999].focus()`);
    assert.equal(await text('tip'), 'stands for PAH, int *');
    await press('Escape', 27);
    await press('Escape', 27);
    await page.until("!document.getElementById('details').open");
  });

  await see('details of a hostile symbol', async () => {
    await type('?f@@YAXPAV<img/src=x/onerror=hurt=1>@@0@Z');
    await settled();
    await click('#output .symbol');
    await page.until("document.querySelector('.reference') !== null");
    await over('.reference');
    await page.until("!document.getElementById('tip').hidden");
    assert.equal(await text('tip'), 'stands for PAV<img/src=x/onerror=hurt=1>@@');
    assert.ok((await text('details-list')).includes('Ptr(Class(<img/src=x/onerror=hurt=1>))'));
    assert.deepEqual((await all('#details-list *, #tip *', 'localName')).filter((name) =>
      !['dt', 'dd', 'div', 'code', 'span', 'button', 'small'].includes(name)), []);
    await click('#details-close');
    await page.until("!document.getElementById('details').open");
  });

  await see('hostile texts', async () => {
    const hostile = ['<img src=x onerror="hurt=1">', '<script>hurt=1</script>', '?<b>x</b>@<svg/onload=hurt=1>@@3HA',
      '?x@<img/src=x/onerror=hurt=1>@@3L', '?${hurt=1}@@3HA', '&lt;b&gt;', `?x@@3${'PEA'.repeat(3000)}HEA`,
      `?f@@YAX${'P6AX'.repeat(680)}H${'@Z'.repeat(681)}`,
      `?x@${'?1???0?$A@Va@'.repeat(20)}${'@@@QEAA@XZ'.repeat(20)}@3HA`, '\u202E?x@@3HA'];
    for (const one of hostile) {
      await put('input', one);
      await settled();
      assert.notEqual(await text('output'), '');
      assert.match(await text('state'), /symbol/);
    }
    await type('?<b>x</b>@<svg/onload=hurt=1>@@3HA');
    await shows('int <svg/onload=hurt=1>::<b>x</b>');
    assert.deepEqual(await all('#output *', 'localName'), ['div', 'span']);
    assert.equal(await page.value('typeof hurt'), 'undefined');
  });

  await see('hidden characters', async () => {
    const hidden = ['\u0001', '\x7F', '\x9F', '\u00AD', '\u061C', '\u200B', '\u200E', '\u200F', '\u2028', '\u202A',
      '\u202E', '\u2060', '\u2066', '\u2069', '\uFEFF', '\u{E0001}'];
    const escapes = ['\\u0001', '\\u007F', '\\u009F', '\\u00AD', '\\u061C', '\\u200B', '\\u200E', '\\u200F',
      '\\u2028', '\\u202A', '\\u202E', '\\u2060', '\\u2066', '\\u2069', '\\uFEFF', '\\u{E0001}'];
    await put('input', `${hidden.join('')}\t\n`);
    await shows(`${escapes.join('')}\t\n`);
    assert.equal(await copied('#copy'), `${hidden.join('')}\t\n`);
    await put('input', '?a\u202Eb@ns@@3HA ?x\u2067@@3L');
    await shows('int ns::a\\u202Eb ?x\\u2067@@3L');
    assert.deepEqual(await all('#output [title]', 'title'), ['?a\\u202Eb@ns@@3HA',
      'unknown primitive type (offset: 9, remaining: "")']);
    assert.deepEqual(await page.value(`[...document.querySelectorAll('#output [title]')].map((element) =>
      getComputedStyle(element).unicodeBidi)`), ['isolate', 'isolate']);
    await click('#output .symbol');
    await page.until(`${details}.childElementCount === 8`);
    assert.ok(!/\u202E/.test(await text('details-list')));
    assert.equal(await text('details-list').then((shown) => shown.split('\\u202E').length), 5);
    assert.equal(await copied('#details-list dt:nth-of-type(2) button'), 'int ns::a\u202Eb');
    await click('#details-close');
    await page.until("!document.getElementById('details').open");
  });

  await see('a link', async () => {
    await type(`${SYMBOL} ä&=#%+?`);
    await click('#flags input[title=NAME_ONLY]');
    await shows('A::f ä&=#%+?');
    await click('#link');
    const link = await page.value('location.href');
    assert.ok(link.startsWith(`${address}#`));
    await open(link);
    await shows('A::f ä&=#%+?');
    assert.equal(await page.value("document.getElementById('input').value"), `${SYMBOL} ä&=#%+?`);
    assert.equal(await text('word'), '0xE01400');
    await open(`${address}#text=${encodeURIComponent('?x@@3HA <b>')}&flags=nonsense&grammar=nonsense`);
    await shows('int x <b>');
    assert.equal(await page.value("document.getElementById('grammar').value"), 'full');
    await type('?f@@9');
    await put('grammar', 'crate');
    await shows('f');
    await click('#link');
    const older = await page.value('location.href');
    await reload();
    await shows('f');
    await open(older);
    await shows('f');
  });

  await see('edits of a link, and a reload', async () => {
    const link = `${address}#text=${encodeURIComponent('?x@@3HA')}&flags=0xE01400`;
    await open(link);
    await shows('x');
    await reload();
    await shows('x');
    assert.equal(await page.value('location.href'), link);
    await click('#input');
    await page.value(`${input}.setSelectionRange(7, 7)`);
    await page.send('Input.insertText', { text: ' edited' });
    await shows('x edited');
    assert.equal(await page.value('location.href'), address);
    await click('#reset');
    await shows('int x edited');
    await reload();
    await shows('int x edited');
    await open(link);
    await shows('x');
    await click('#flags input[title=NAME_ONLY]');
    await shows('int x');
    await reload();
    await shows('int x');
    await open(address);
    assert.equal(await page.value(`${input}.value`), '');
  });

  await see('a long text of a link, and a typed one', async () => {
    const long = '?x@ns@@3HA\n'.repeat(10_000);
    const isFile = async () => {
      await page.until("!document.getElementById('save').hidden");
      assert.match(await text('state'), /^The first lines: [0-9,]+ symbols$/);
      assert.equal(await page.value(`${input}.value`), '');
    };
    await open(`${address}#text=${encodeURIComponent(long)}`);
    await isFile();
    await click('#close');
    await shows('');
    await put('input', long);
    await isFile();
    await click('#close');
    await shows('');
  });

  await see('a dropped file', async () => {
    await open(address);
    const began = Date.now();
    for (const type of ['dragEnter', 'dragOver', 'drop']) {
      await page.send('Input.dispatchDragEvent', { type, x: 300, y: 300,
        data: { items: [], files: [resolve(map)], dragOperationsMask: 1 } });
    }
    await page.until("!document.getElementById('save').hidden", 60);
    console.log(`the dropped file: ${await text('file-state')}, ${Date.now() - began} ms until it can be saved`);
    assert.match(await text('state'), /^The first lines: \d+ symbols/);
    assert.match(await text('file-state'), /^[0-9.]+ MB filtered$/);
    const lines = readFileSync(wanted, 'utf8').split(/(?<=\n)/);
    for (const line of [lines[lines.length >> 1], lines.at(-2)]) {
      const [search] = line.match(/\S+/);
      await put('search', search);
      const found = lines.filter((line) => line.toLowerCase().includes(search.toLowerCase()));
      assert.ok(found.length < 10);
      await shows(found.join(''));
      assert.match(await text('state'), new RegExp(`^${found.length} lines? of the file: `));
    }
    await put('search', '0001:');
    await page.until("document.getElementById('state').textContent.startsWith('The first ')");
    await settled();
    const first = await text('output');
    assert.ok(first.length > 20_000 && lines.join('').startsWith(first));
    await put('search', '');
    await page.until("document.getElementById('state').textContent.startsWith('The first lines: ')");
    const name = await page.value("document.getElementById('save').download");
    await click('#save');
    const saved = await new Promise((resume) => {
      page.listen((method, params) => {
        if (method === 'Browser.downloadProgress' && params.state === 'completed') resume(join(downloads, name));
      });
    });
    assert.ok(readFileSync(saved).equals(readFileSync(wanted)), 'the saved file is not what msvcfilt writes');
    await click('#close');
    await page.until("!document.getElementById('input').hidden");
  });

  await see('what a finger touches', async () => {
    await resize(390, 844, 2);
    await open(`${address}#text=${encodeURIComponent('?g@@YAXPAHPAVx1@@010@Z')}`);
    const touched = (within) => page.value(`[...document.querySelectorAll(
      '${within} :is(button, .button, summary, label:has(input), input[type=search], select)')].map((element) => {
        const { width, height } = element.getBoundingClientRect();
        return [element.textContent || element.id, width, height];
      }).filter(([, width]) => width > 0)`);
    const small = (list) => list.filter(([, width, height]) => width < 44 || height < 44);
    const found = await touched('body');
    assert.ok(found.length > 20);
    assert.deepEqual(small(found), []);
    await click('#output .symbol');
    await page.until(`${details}.querySelectorAll('.reference').length === 3`);
    assert.deepEqual(small(await touched('#details')), []);
    assert.ok(await page.value('document.documentElement.scrollWidth <= innerWidth'));
    await press('Escape', 27);
    await resize(1280, 900, 1);
  });

  await see('no request', async () => {
    assert.deepEqual(requests.filter((url) => !url.startsWith('blob:') && !url.startsWith('data:') &&
      url.split('#')[0] !== address && url !== 'about:blank'), []);
    assert.deepEqual(await page.value('violations'), []);
    assert.deepEqual(faults, []);
  });

  await see('the policy', async () => {
    await page.value("fetch('http://127.0.0.1:9/').catch(() => {})");
    await page.value("document.body.append(Object.assign(new Image(), { src: 'http://127.0.0.1:9/' }))");
    await page.value("document.body.append(document.createElement('script'))");
    await page.value("document.body.lastChild.append('hurt = 1')");
    await page.until('violations.length >= 3');
    assert.deepEqual((await page.value('violations')).sort(), ['connect-src', 'img-src', 'script-src-elem']);
    assert.equal(await page.value('typeof hurt'), 'undefined');
  });

  await see('long tasks', async () => {
    const tasks = (await traced()).sort((one, other) => other - one);
    assert.ok(tasks.length > 100);
    const spans = await page.value(SPANS);
    const [quickest, usual, slowest] = [spans[0], spans[spans.length / 2], spans.at(-1)];
    const limit = longest * usual + slowest - quickest;
    const times = tasks.slice(0, 5).map((time) => time.toFixed(0)).join(', ');
    console.log(`${tasks.length} tasks of the page, the longest of ${times} ms, limit ${limit.toFixed(0)} ms`);
    if (tasks[0] > limit) process.exitCode = 3;
  });

  // Behind the end of the trace, since the module compiles the library in one task of this other page.
  await see('the ES module on the thread of a page', async () => {
    const module = readFileSync(join(dirname(resolve(file)), 'msvc-demangler/index.mjs'), 'base64');
    await page.send('Page.navigate', { url: 'about:blank' });
    assert.equal(await page.value(`import('data:text/javascript;base64,${module}').then(
      ({ demangle }) => demangle('?x@ns@@3HA'))`), 'int ns::x');
  });
}

/** Writes a screenshot of the page with its first example, in this size. */
async function shot(name, scheme, size, picture = {}) {
  await resize(...size);
  await page.send('Emulation.setScrollbarsHidden', { hidden: true });
  await page.send('Emulation.setEmulatedMedia', { features: [{ name: 'prefers-color-scheme', value: scheme }] });
  await open(address);
  await click('#examples button');
  await settled();
  await page.value('scrollTo(0, 0)');
  const { data } = await page.send('Page.captureScreenshot', picture);
  writeFileSync(join(folder, `${name}.png`), Buffer.from(data, 'base64'));
}

try {
  await run();
  if (folder) {
    mkdirSync(folder, { recursive: true });
    await shot('web', 'light', [1200, 640, 1], { clip: { x: 0, y: 0, width: 1200, height: 400, scale: 1 } });
    for (const scheme of ['light', 'dark']) {
      await shot(scheme, scheme, [1280, 900, 1]);
      await shot(scheme === 'light' ? 'phone' : 'phone_dark', scheme, [390, 844, 2], { captureBeyondViewport: true });
    }
  }
  console.log(`${seen} tests of the page pass`);
} catch (error) {
  console.log(`${basename(file)}: ${error.message.slice(0, 2000)}`);
  if (faults.length) console.log(faults.join('\n'));
  process.exitCode = 1;
} finally {
  await page.close();
  rmSync(downloads, { recursive: true, force: true });
}
