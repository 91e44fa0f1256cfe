// The page: what is typed, pasted or dropped goes to the worker, and what comes back is shown. No text becomes HTML.
const $ = (id) => document.getElementById(id);
const input = $('input');
const output = $('output');
const search = $('search');
const grammar = $('grammar');

// A longer text is treated as a file: filtered in slices, and shown by its beginning.
const LONGEST_TEXT = 100_000;
const LONGEST_LINK = 30_000;
// The page paints for so many milliseconds before it lets the browser work.
const PAINTING = 8;
const PARTS_OF_A_BLOCK = 20;
const PIECES_OF_A_BLOCK = 200;

const DEFAULT_GRAMMAR = 'full';
const DEFAULT_FLAGS = 0xE00400;
const FLAGS = {
  'Leave out': [
    [0x1000, 'NAME_ONLY', 'All around the name', 'ns::x, not int ns::x'],
    [0x4, 'NO_FUNCTION_RETURNS', 'All before the name', 'A::f(void), not public: static int __cdecl A::f(void)'],
    [0x80, 'NO_ACCESS_SPECIFIERS', 'Access', 'public:, protected: and private: of functions'],
    [0x200, 'NO_MEMBER_TYPE', 'Kind of member', 'static and virtual of functions'],
    [0x2, 'NO_MS_KEYWORDS', 'Convention', '__cdecl and the like'],
    [0x100000, 'NO_CLASS_TYPE', 'Kind of class', 'class, struct, union and enum'],
    [0x60, 'NO_THISTYPE', 'Qualifiers of this', 'const after the parameters of a member function'],
  ],
  'Write': [
    [0x400, 'MS_TYPENAMES', 'Microsoft’s types', '__int64, not int64_t'],
    [0x200000, 'SPACE_AFTER_COMMA', 'Space after a comma', '(int, int), not (int,int)'],
    [0x400000, 'HUG_TYPE', 'No space before * and &', 'int*x; with the next one int *x'],
    [0x800000, 'SPACE_BEFORE_POINTER', 'Space only after a word', 'int const *const x, not int const * const x'],
    [0x1000000, 'WITH_PTR64', 'Width of this', '__ptr64 after the parameters of a member function'],
  ],
};

const EXAMPLES = {
  Symbols: `??R<lambda_0>@ns@@QEBA?A?<auto>@@H@Z
?at_exit@ns@@YAXP6AXX_E@Z
??__Mversion@ns@@QEBA?AUstrong_ordering@std@@AEBV01@@Z
?x@ns@@3HA
?f@@YAXV?$A@PAHPAD@@PAD01@Z
?next@Reader@config@@QEBA_NAEAU?$basic_string@D@std@@@Z
??$find@H@config@@YAPEAHAEAU?$vector@HU?$allocator@H@std@@@std@@PEBD@Z
?x@?1??f@@YAXXZ@3V1@A
?x@@3L
`,
  'Linker error': `lld-link: error: undefined symbol: ?next@Reader@config@@QEBA_NAEAU?$basic_string@D@std@@@Z
>>> referenced by parse.cpp:10
>>>               parse.obj:(?run@@YAHAEAVReader@config@@@Z)
`,
  'Stack of calls': `01 0000009c\`b06ffb58 00007ff6\`0a1b1040 app!?next@Reader@config@@QEBA_NXZ+0x1f [reader.cpp @ 41]
02 0000009c\`b06ffc00 00000000\`00000000 KERNEL32!BaseThreadInitThunk+0x14
`,
  'Map file': ` Address         Publics by Value              Rva+Base               Lib:Object

 0001:00000000       ?digit@config@@YAHPEBD@Z   0000000140001000 f   parse.obj
 0001:00000040       ?next@Reader@config@@QEBA_NAEAU?$basic_string@D@std@@@Z 0000000140001040 f   reader.obj
 0003:00000010       ?counter@?1??f@@YAXP6AHH@ZAEAY02H@Z@4HA 0000000140006010     parse.obj
`,
};

const worker = new Worker(URL.createObjectURL(new Blob([$('worker').textContent], { type: 'text/javascript' })));

let file = null; // the file that replaces the text
let latest = 0; // the number of the last request
let shown = []; // the parts that are shown
let busy = false; // whether a text is being demangled
let waiting = false; // whether it has changed meanwhile
let saved = null; // the address of the filtered file
const partsShown = new WeakMap();

// Control characters, and those that show nothing or change the order of others; but not line ends and tabs.
const HIDDEN = /(?!\r?\n|\t)[\p{Cc}\p{Cf}\p{Zl}\p{Zp}\p{DI}]/gu;

const make = (tag, properties = {}, ...children) => {
  const element = Object.assign(document.createElement(tag), properties);
  element.append(...children);
  return element;
};
const nextFrame = () => new Promise((resume) => { requestAnimationFrame(() => resume()); });
const megabytes = (bytes) => `${(bytes / 1e6).toFixed(1)} MB`;
const milliseconds = (time) => (time < 10 ? `${time.toFixed(1)} ms` : `${Math.round(time).toLocaleString('en')} ms`);
const counted = (count, what) => `${count.toLocaleString('en')} ${what}${count === 1 ? '' : 's'}`;

/** Says something in a live region, which repeats all that is written into it. */
function say(id, text) {
  if ($(id).textContent !== text) $(id).textContent = text;
}

/** Returns the escape of a character. */
function escapeOf(character) {
  const code = character.codePointAt(0).toString(16).toUpperCase();
  return code.length > 4 ? `\\u{${code}}` : `\\u${code.padStart(4, '0')}`;
}

/** Returns a text as it is shown: with escapes in place of hidden characters. */
const visible = (text) => text.replace(HIDDEN, escapeOf);

// Flags and grammar

const boxes = [];

function makeFlags() {
  for (const [title, rows] of Object.entries(FLAGS)) {
    const labels = rows.map(([bits, name, label, effect]) => {
      const box = make('input', { type: 'checkbox', value: String(bits), title: name });
      boxes.push(box);
      return make('label', {}, box,
        make('span', {}, make('b', {}, label), make('code', {}, name), make('small', {}, effect)));
    });
    $('flags').append(make('fieldset', {}, make('legend', {}, title), ...labels));
  }
}

const flags = () => boxes.reduce((word, box) => (box.checked ? word | Number(box.value) : word), 0);
const hexadecimal = (word) => `0x${word.toString(16).toUpperCase()}`;
const settings = () => ({ flags: flags(), grammar: grammar.value });

/** Sets flags and the grammar, which is the default one unless the name is that of the other. */
function setSettings(word, name) {
  for (const box of boxes) box.checked = (word & Number(box.value)) === Number(box.value);
  $('word').textContent = hexadecimal(flags());
  grammar.value = name === 'crate' ? name : DEFAULT_GRAMMAR;
}

// What is shown

/** Returns a word that looks like a symbol and isn't one, with the place highlighted at which it is rejected. */
function markedAt(text, offset) {
  const [letter = ''] = text.slice(offset);
  const [before, after] = [text.slice(0, offset), text.slice(offset + letter.length)];
  return [visible(before), make('mark', {}, visible(letter)), visible(after)];
}

/** Returns what shows a part of the output. */
function shownPart(part) {
  let span;
  if (part.symbol !== undefined) {
    span = make('span', { className: 'symbol', textContent: visible(part.text), title: visible(part.symbol) });
  } else if (part.message !== undefined) {
    span = make('span', { className: 'rejected', title: visible(part.message) }, ...markedAt(part.text, part.offset));
  } else {
    return visible(part.text);
  }
  span.setAttribute('role', 'button');
  span.tabIndex = -1;
  partsShown.set(span, part);
  return span;
}

/** Returns parts in blocks of whole lines, so that the browser lays each out alone. */
function blocksOf(parts) {
  const blocks = [[]];
  for (const part of parts) {
    const last = blocks.at(-1);
    last.push(part);
    if (last.length >= PARTS_OF_A_BLOCK && part.text.endsWith('\n')) blocks.push([]);
  }
  return blocks;
}

/** Fills an element with what shows each item of some blocks, while they are wanted. Returns whether it has all. */
async function fill(element, blocks, show, areWanted) {
  let began = performance.now();
  element.replaceChildren();
  for (const block of blocks) {
    if (performance.now() - began > PAINTING) {
      await nextFrame();
      if (!areWanted()) return false;
      began = performance.now();
    }
    const filled = make('div', {}, ...block.map((one) => show(one)));
    element.append(filled);
    // Has the block laid out, so that this counts as painting too.
    void filled.offsetHeight;
  }
  return true;
}

/** Shows parts, as long as no others have come, in place of those that are there. */
async function paint(parts) {
  shown = parts;
  if (!await fill(output, blocksOf(parts), shownPart, () => shown === parts)) return;
  const first = output.querySelector('[role=button]');
  if (first) first.tabIndex = 0;
  output.setAttribute('aria-busy', String(busy));
}

/** Returns how many symbols are shown, and how many words that look like one. */
function summary(parts) {
  const symbols = parts.filter((part) => part.symbol !== undefined).length;
  const rejected = parts.filter((part) => part.message !== undefined).length;
  return counted(symbols, 'symbol') + (rejected ? ` · ${rejected.toLocaleString('en')} rejected` : '');
}

/** Asks the worker for something, with what is searched. */
function request(kind, content) {
  output.setAttribute('aria-busy', 'true');
  worker.postMessage({ kind, id: latest, settings: settings(), search: search.value, ...content });
}

/** Asks for what the text or the file is. While the worker is busy with a text, the last state alone is asked for. */
function ask() {
  $('word').textContent = hexadecimal(flags());
  if (busy && !file) {
    waiting = true;
    return;
  }
  forget();
  $('progress').value = 0;
  busy = !file;
  latest++;
  if (file) request('file', { file }); else request('text', { text: input.value });
}

/** Lets the next text be asked for, if it changed meanwhile. */
function free() {
  busy = false;
  if (waiting) {
    waiting = false;
    ask();
  }
}

const HANDLERS = {
  text({ parts, found, lines, time }) {
    free();
    paint(parts);
    const which = search.value ? `${found.toLocaleString('en')} of ${counted(lines, 'line')}: ` : '';
    say('state', lines ? which + summary(parts) : '');
    $('time').textContent = time && lines ? milliseconds(time) : '';
  },
  lines({ parts, found, whole }) {
    paint(parts);
    const first = search.value ? `The first ${counted(found, 'line')} found` : 'The first lines';
    const all = search.value ? `${counted(found, 'line')} of the file` : 'The whole file';
    say('state', `${whole ? all : first}: ${summary(parts)}`);
    $('time').textContent = '';
  },
  progress({ done, size }) {
    $('progress').value = done / size;
    $('file-time').textContent = `${megabytes(done)} of ${megabytes(size)}`;
  },
  file({ blob, time }) {
    const [, stem, ending] = /^(.*?)(\.[^.]*)?$/s.exec(file.name ?? 'text.txt');
    saved = URL.createObjectURL(blob);
    Object.assign($('save'), { href: saved, download: `${stem}.demangled${ending ?? ''}`, hidden: false });
    $('progress').value = 1;
    say('file-state', `${megabytes(file.size)} filtered`);
    $('file-time').textContent = `in ${milliseconds(time)}`;
  },
  failed({ message }) {
    say(file ? 'file-state' : 'state', `Failed: ${message}`);
    $('time').textContent = '';
    output.setAttribute('aria-busy', 'false');
    free();
  },
};

worker.onmessage = ({ data }) => {
  if (data.kind === 'symbol') {
    explained(data);
  } else if (data.id === latest) {
    HANDLERS[data.kind](data);
  }
};
worker.onerror = (event) => {
  say('state', `This browser can’t run the library: ${event.message ?? 'it starts no worker'}`);
};

// Files

/** Takes back the link to a filtered file. */
function forget() {
  if (saved) URL.revokeObjectURL(saved);
  saved = null;
  $('save').hidden = true;
}

/** Takes a file in place of the text, or the text if there is none. */
function choose(chosen) {
  file = chosen;
  busy = waiting = false;
  $('file').hidden = !file;
  input.hidden = Boolean(file);
  $('link').disabled = Boolean(file);
  search.value = '';
  if (file) {
    $('file-name').textContent = visible(file.name ?? 'Pasted text');
    say('file-state', '');
    $('file-time').textContent = '';
  }
  ask();
}

/** Takes a text in place of what was there, and a longer one as a file. */
function take(text) {
  const isLong = text.length > LONGEST_TEXT;
  input.value = isLong ? '' : text;
  choose(isLong ? new Blob([text]) : null);
}

// Details of one symbol

let explaining = ''; // the symbol of which more is asked for

function row(title, text, ...content) {
  const copy = make('button', { type: 'button', textContent: 'Copy', onclick: () => copied(text, copy) });
  const code = make('code', {}, ...(content.length ? content : [visible(text)]));
  return [make('dt', {}, title, copy), make('dd', {}, code)];
}

function open(part) {
  const list = $('details-list');
  explaining = part.symbol ?? '';
  if (part.message !== undefined) {
    $('details-title').textContent = 'Not demangled';
    list.replaceChildren(...row('Text', part.text, ...markedAt(part.text, part.offset)), ...row('Error', part.message));
  } else {
    $('details-title').textContent = 'Symbol';
    list.replaceChildren(...row('Symbol', part.symbol), ...row('Declaration', part.text));
    worker.postMessage({ kind: 'symbol', symbol: part.symbol, settings: settings() });
  }
  $('details').showModal();
}

function explained({ symbol, name, length, references, tree }) {
  if (symbol !== explaining) return;
  explaining = '';
  $('details-title').textContent = `Symbol of ${counted(length, 'character')}`;
  $('details-list').append(...row('Name', name));
  if (tree) $('details-list').append(...row('Tree', tree, visible(indented(tree))));
  if (references.length) {
    const [, place] = $('details-list').children;
    showPieces(place.firstChild, symbol, references);
    place.append(make('small', {}, 'A marked digit stands for a parameter before it.'));
  }
}

// Trees

const CLOSING = { '(': ')', '[': ']', '<': '>' };
const CLOSERS = new Set(Object.values(CLOSING));
// What is longer is shown on several lines.
const LINE_OF_A_TREE = 60;
const DEEPEST_INDENTATION = 20;

/** Returns where each bracket is closed, or undefined if some names have brackets of their own. */
function closings(tree) {
  const ends = new Map();
  const opened = [];
  for (let at = 0; at < tree.length; at++) {
    if (tree[at] in CLOSING) {
      opened.push(at);
    } else if (CLOSERS.has(tree[at])) {
      const start = opened.pop();
      if (CLOSING[tree[start]] !== tree[at]) return undefined;
      ends.set(start, at);
    }
  }
  return opened.length ? undefined : ends;
}

/** Returns a tree with a line for each part of what is too long for one. Nothing but white space is added. */
function indented(tree) {
  const ends = closings(tree);
  if (!ends) return tree;
  const broken = [];
  const line = () => `\n${'  '.repeat(Math.min(broken.length, DEEPEST_INDENTATION))}`;
  let text = '';
  for (let at = 0; at < tree.length; at++) {
    const end = ends.get(at);
    if (end !== undefined && end - at <= LINE_OF_A_TREE) {
      text += tree.slice(at, end + 1);
      at = end;
    } else if (end !== undefined) {
      broken.push(end);
      text += tree[at] + line();
    } else if (at === broken.at(-1)) {
      broken.pop();
      text += line() + tree[at];
    } else if (broken.length && tree[at] === ' ' && (/[,\])]/.test(tree[at - 1]) || tree[at + 1] === '[')) {
      text += line();
    } else {
      text += tree[at];
    }
  }
  return text;
}

// Back references

/** Returns a digit of a symbol, and has that shown which it stands for. */
function digitOf(text, show) {
  const digit = make('button', { type: 'button', className: 'reference', textContent: text });
  digit.setAttribute('aria-label', `${text}, a back reference`);
  for (const kind of ['pointerenter', 'focus', 'click']) digit.addEventListener(kind, () => show(digit));
  digit.addEventListener('pointerleave', () => { if (document.activeElement !== digit) hideReference(); });
  digit.addEventListener('blur', hideReference);
  return digit;
}

/** Shows a symbol in pieces: its marked digits, and what stands between their places and those they refer to. */
function showPieces(element, symbol, references) {
  const places = references.flatMap(({ at, start, end }) => [at, at + 1, start, end]);
  const cuts = [...new Set([0, ...places, symbol.length])].sort((one, other) => one - other);
  const indices = new Map(cuts.map((cut, index) => [cut, index]));
  const digits = new Map(references.map((reference) => [reference.at, reference]));
  const pieces = [];
  const pieceOf = (at) => {
    const text = symbol.slice(at, cuts[indices.get(at) + 1]);
    if (!digits.has(at)) return make('span', {}, visible(text));
    const { start, end, declaration } = digits.get(at);
    return digitOf(text, (digit) => {
      const meant = pieces.slice(indices.get(start), indices.get(end));
      showReference(digit, meant, symbol.slice(start, end), declaration);
    });
  };
  const blocks = [];
  for (let at = 0; at < cuts.length - 1; at += PIECES_OF_A_BLOCK) {
    blocks.push(cuts.slice(at, Math.min(at + PIECES_OF_A_BLOCK, cuts.length - 1)));
  }
  fill(element, blocks, (at) => {
    pieces.push(pieceOf(at));
    return pieces.at(-1);
  }, () => element.isConnected);
}

/** Marks what a digit stands for, and says it below the digit. */
function showReference(digit, meant, text, declaration) {
  hideReference();
  for (const piece of meant) piece.classList.add('meant');
  const tip = $('tip');
  tip.replaceChildren('stands for ', make('code', {}, visible(text)));
  if (declaration) tip.append(', ', make('code', {}, visible(declaration)));
  tip.hidden = false;
  digit.setAttribute('aria-describedby', 'tip');
  const around = $('details').getBoundingClientRect();
  const { left, bottom } = digit.getBoundingClientRect();
  const most = Math.max(0, around.width - tip.offsetWidth - 12);
  tip.style.left = `${Math.min(Math.max(0, left - around.left - 12), most)}px`;
  tip.style.top = `${bottom - around.top + $('details').scrollTop + 6}px`;
}

function hideReference() {
  for (const piece of document.querySelectorAll('.meant')) piece.classList.remove('meant');
  for (const digit of document.querySelectorAll('[aria-describedby=tip]')) digit.removeAttribute('aria-describedby');
  $('tip').hidden = true;
}

// Links: text, flags and grammar follow the #.

function fragment() {
  const words = new URLSearchParams({ text: input.value });
  if (flags() !== DEFAULT_FLAGS) words.set('flags', hexadecimal(flags()));
  if (grammar.value !== DEFAULT_GRAMMAR) words.set('grammar', grammar.value);
  return `#${words}`;
}

/** Takes text, flags and grammar from a fragment, if they are there. */
function takeFragment(from) {
  const words = new URLSearchParams(from.slice(1));
  if (!words.has('text')) return false;
  setSettings(Number(words.get('flags') ?? DEFAULT_FLAGS) >>> 0, words.get('grammar'));
  take(words.get('text'));
  return true;
}

/** Takes the link off the address after an edit, since it has another text or other settings then. */
function unlink() {
  if (location.hash) history.replaceState(null, '', location.pathname + location.search);
}

/** Keeps text, flags and grammar for a reload, in this tab alone, if the browser allows that. */
function keep() {
  try {
    sessionStorage.setItem('kept', fragment());
  } catch {
    // Then a reload begins without a text.
  }
}

/** Returns the fragment with what was there before a reload, or ''. */
function kept() {
  if (performance.getEntriesByType('navigation')[0]?.type === 'navigate') return '';
  try {
    return sessionStorage.getItem('kept') ?? '';
  } catch {
    return '';
  }
}

async function copied(text, button) {
  const before = button.textContent;
  try {
    await navigator.clipboard.writeText(text);
    button.textContent = 'Copied';
  } catch {
    button.textContent = 'Not allowed';
  }
  setTimeout(() => { button.textContent = before; }, 1200);
}

// Events

input.addEventListener('input', () => {
  unlink();
  if (input.value.length > LONGEST_TEXT) take(input.value); else ask();
});
input.addEventListener('paste', (event) => {
  // What is pasted replaces an example.
  if (Object.values(EXAMPLES).includes(input.value)) input.select();
  const text = event.clipboardData.getData('text/plain');
  const pasted = text ? undefined : event.clipboardData.files[0];
  if (pasted || text.length > LONGEST_TEXT) {
    event.preventDefault();
    choose(pasted ?? new Blob([text]));
  }
});
search.addEventListener('input', () => {
  if (file) $('time').textContent = 'searching…';
  request('search');
});
$('flags').addEventListener('input', () => {
  unlink();
  ask();
});
$('reset').addEventListener('click', () => {
  unlink();
  setSettings(DEFAULT_FLAGS, DEFAULT_GRAMMAR);
  ask();
});
$('clear').addEventListener('click', () => {
  unlink();
  take('');
  input.focus();
});
$('close').addEventListener('click', () => choose(null));
$('open').addEventListener('click', () => $('chooser').click());
$('chooser').addEventListener('change', (event) => {
  if (event.target.files[0]) choose(event.target.files[0]);
  event.target.value = '';
});
$('copy').addEventListener('click', (event) => copied(shown.map(({ text }) => text).join(''), event.target));
$('link').addEventListener('click', (event) => {
  const link = fragment();
  if (link.length > LONGEST_LINK) {
    say('state', 'The text is too long for a link');
    return;
  }
  history.replaceState(null, '', link);
  copied(location.href, event.target);
});
addEventListener('hashchange', () => takeFragment(location.hash));
document.addEventListener('visibilitychange', keep);

for (const kind of ['dragenter', 'dragover', 'drop', 'dragleave']) {
  addEventListener(kind, (event) => {
    const isFile = [...event.dataTransfer?.types ?? []].includes('Files');
    if (!isFile) return;
    event.preventDefault();
    $('drop').hidden = kind === 'drop' || (kind === 'dragleave' && event.relatedTarget === null);
    if (kind === 'drop' && event.dataTransfer.files[0]) choose(event.dataTransfer.files[0]);
  });
}

output.addEventListener('click', (event) => {
  const chosen = event.target.closest('[role=button]');
  if (chosen && getSelection().isCollapsed) open(partsShown.get(chosen));
});
output.addEventListener('keydown', (event) => {
  const all = [...output.querySelectorAll('[role=button]')];
  const at = all.indexOf(event.target);
  const step = { ArrowRight: 1, ArrowDown: 1, ArrowLeft: -1, ArrowUp: -1 }[event.key];
  if (at >= 0 && step && all[at + step]) {
    event.preventDefault();
    event.target.tabIndex = -1;
    all[at + step].tabIndex = 0;
    all[at + step].focus();
  } else if (at >= 0 && (event.key === 'Enter' || event.key === ' ')) {
    event.preventDefault();
    open(partsShown.get(event.target));
  }
});
$('version').addEventListener('click', () => {
  $('proved').open = true;
  $('proved').scrollIntoView({ behavior: 'smooth' });
});
$('details-close').addEventListener('click', () => $('details').close());
$('details').addEventListener('close', hideReference);
$('details').addEventListener('keydown', (event) => {
  if (event.key === 'Escape' && !$('tip').hidden) {
    event.preventDefault();
    hideReference();
  }
});
$('details').addEventListener('click', (event) => {
  if (event.target === $('details')) $('details').close();
  if (!event.target.closest('.reference')) hideReference();
});

makeFlags();
setSettings(DEFAULT_FLAGS, DEFAULT_GRAMMAR);
for (const [name, text] of Object.entries(EXAMPLES)) {
  $('examples').append(make('button', {
    type: 'button',
    textContent: name,
    onclick: () => {
      unlink();
      take(text);
    },
  }));
}
if (!takeFragment(location.hash) && !takeFragment(kept())) ask();
// On a phone the focus would open the keyboard.
if (!matchMedia('(pointer: coarse)').matches) input.focus();
