// The part of the page that calls the library, in a worker, so that the page itself never waits. web/assemble.py puts
// it behind the library, within one block. A request has a kind, an id, and settings: flags and a grammar. One for a
// text or a file is dropped once another has come, and so is a search, which has the id of the request whose result it
// searches.
Error.stackTraceLimit = 0;

// A file is read in slices of so many bytes, and so many characters of its lines are shown.
const SLICE = 1 << 20;
const SHOWN = 20_000;
// So many characters of a longer line are shown around what is searched.
const AROUND = 1_000;
// So much of a tree is shown.
const MOST_OF_A_TREE = 50_000;
const LINE_FEED = 10;

// What a name looks like, and after what no symbol starts: docs/msvcfilt.md. In Full the name of a type starts at a
// full stop that neither stands behind a word nor begins the ending of a file's name, and a funclet behind no word.
const WORD = /\.?\?[A-Za-z0-9_$@?\x80-\uFFFF]*|\./y;
const IN_NAME = /[A-Za-z0-9.]/;
const IN_WORD = /[A-Za-z0-9_$@?]/;
const ENDING = /\.[A-Za-z]*(?![A-Za-z0-9_$@?])/y;
const FUNCLET = /^\?(catch|dtor|filt|fin)\$/;
const CANDIDATE = /[^\0-\x20\x7F]{0,4096}/y;

let latest = {}; // the last request for a text or a file
let searching = {}; // the last that tells which of its lines are shown
let lines = []; // those of the text, in parts

const matched = (pattern, text, at) => {
  pattern.lastIndex = at;
  return pattern.exec(text)[0];
};

/** Returns the symbol that begins there: its length and declaration, or the error. */
function read(line, at, settings) {
  const candidate = matched(CANDIDATE, line, at);
  try {
    const declaration = demangle(candidate, settings.flags, settings);
    return { length: symbolLength(candidate, settings), declaration };
  } catch (error) {
    return { error };
  }
}

/** Returns a word that stays, with the reason if it looks like a symbol. */
function kept(text, { length, error }) {
  if (text.length < 4 || !text.includes('@')) return { text };
  if (!error) return { text, offset: length, message: `A symbol ends at offset ${length}, and more follows it.` };
  return { text, offset: Math.min(error.offset ?? 0, text.length), message: error.message };
}

/** Returns whether the name of a type may start at a full stop. */
function isTypeMark(line, at) {
  ENDING.lastIndex = at;
  return !IN_WORD.test(line[at - 1] ?? '') && !ENDING.test(line);
}

/** Returns where the next symbol may be, or the end of the line. */
function markFrom(line, at, grammar) {
  for (let mark = at; mark < line.length; mark++) {
    if (line[mark] === '?') return mark;
    if (line[mark] === '.' && grammar === 'full' && isTypeMark(line, mark)) return mark;
  }
  return line.length;
}

/** Returns whether no symbol starts at a word, because of the letter before it. */
function isBlocked(word, before, grammar) {
  if (word.startsWith('.')) return false;
  return IN_NAME.test(before) || (grammar === 'full' && IN_WORD.test(before) && FUNCLET.test(word));
}

/**
 * Returns the filtered line in parts: texts that stay, declarations with their symbols, and words that look like
 * symbols and stay, with the reason. The parts are aligned with what the filter returns for the line, word by word.
 * Their texts add up to that; where the alignment fails, there is one part.
 */
function parts(line, settings) {
  const { grammar } = settings;
  const shown = filter(line, settings.flags, settings);
  const list = [];
  let to = 0;
  const put = (part) => {
    list.push(part);
    to += part.text.length;
  };
  for (let at = 0; at < line.length;) {
    const start = markFrom(line, at, grammar);
    if (start !== at) {
      put({ text: line.slice(at, start) });
      at = start;
      continue;
    }
    const word = matched(WORD, line, at);
    if (isBlocked(word, line[at - 1] ?? '', grammar)) {
      put({ text: word });
      at += word.length;
      continue;
    }
    const found = read(line, at, settings);
    if (found.declaration !== undefined && shown.startsWith(found.declaration, to)) {
      // In the crate's grammar the filter takes one letter more after some symbols.
      const isLonger = grammar === 'crate' && /[@A-Z]/.test(line[at + found.length] ?? '');
      const length = found.length + (isLonger ? 1 : 0);
      put({ text: found.declaration, symbol: line.slice(at, at + length) });
      at += length;
    } else {
      put(kept(word, found));
      at += word.length;
    }
  }
  return list.map((part) => part.text).join('') === shown ? list : [{ text: shown }];
}

/** Returns the lines of a text, with their line feeds. */
const linesOf = (text) => text.match(/[^\n]*\n|[^\n]+/g) ?? [];

/** Returns the parts of a line. */
const partsOf = (line, settings) => (
  markFrom(line, 0, settings.grammar) < line.length ? parts(line, settings) : [{ text: line }]);

/** Returns where a text has another, in upper or lower case, or -1. */
const placeOf = (text, search) => text.toLowerCase().indexOf(search.toLowerCase());

/** Shows the lines of the text that have what is searched. */
function showLines({ id, search }, time) {
  const found = lines.filter((line) => placeOf(line.map(({ text }) => text).join(''), search) >= 0);
  postMessage({ kind: 'text', id, parts: found.flat(), found: found.length, lines: lines.length, time });
}

/** Returns what a call returns, or what stands for nothing if it throws. */
function attempt(make, nothing) {
  try {
    return make();
  } catch {
    return nothing;
  }
}

/** Returns as much of a tree as is shown. */
const beginning = (text) => (text.length > MOST_OF_A_TREE ? `${text.slice(0, MOST_OF_A_TREE)}…` : text);

/**
 * Returns the declaration of a parameter that stands in a symbol of a grammar, or '' if a digit in it may refer to
 * others.
 */
function parameter(text, { grammar }) {
  const [before, after] = ['void __cdecl f(', ')'];
  const whole = `?f@@YAX${text}@Z`;
  const { length, declaration = '' } = /[0-9]/.test(text) ? {} : read(whole, 0, { flags: Flags.LLVM, grammar });
  if (length !== whole.length || !declaration.startsWith(before)) return '';
  return declaration.slice(before.length, -after.length);
}

function explain({ id, symbol, settings }) {
  const found = read(symbol, 0, settings);
  const name = read(symbol, 0, { ...settings, flags: settings.flags | Flags.NAME_ONLY });
  const declarations = new Map();
  const list = attempt(() => references(symbol, settings), []).map((reference) => {
    const text = symbol.slice(reference.start, reference.end);
    if (!declarations.has(text)) declarations.set(text, parameter(text, settings));
    return { ...reference, declaration: declarations.get(text) };
  });
  postMessage({ kind: 'symbol', id, symbol, name: name.declaration ?? '', length: found.length ?? 0, references: list,
    tree: attempt(() => beginning(tree(symbol, settings)), '') });
}

/** Shows the first lines of the file. */
async function showBeginning(request) {
  const { id, file, settings } = latest;
  const text = decoder.decode(await file.slice(0, SHOWN).arrayBuffer());
  if (request !== searching) return;
  const whole = file.size <= SHOWN;
  const shown = linesOf(whole ? text : text.slice(0, text.lastIndexOf('\n') + 1));
  postMessage({ kind: 'lines', id, parts: shown.flatMap((line) => partsOf(line, settings)), found: shown.length,
    whole });
}

/** Yields a file in pieces, each with the place where it ends: whole lines, or a part of a line longer than a slice. */
async function* piecesOf(file) {
  let held = [];
  for (let begin = 0; begin < file.size; begin += SLICE) {
    const slice = new Uint8Array(await file.slice(begin, begin + SLICE).arrayBuffer());
    const last = slice.lastIndexOf(LINE_FEED) + 1 || slice.findLastIndex((byte) => byte <= SPACE) + 1;
    const end = begin + SLICE < file.size ? last : slice.length;
    held.push(slice.subarray(0, end));
    if (end > 0) {
      yield [joined(held), begin + end];
      held = [];
    }
    held.push(slice.subarray(end));
  }
}

/** Returns the parts of a line of a file, or as text what is around the search in a long one. */
function partsAround(line, filtered, settings, search) {
  if (filtered.length <= SHOWN) return partsOf(line, settings);
  const at = placeOf(filtered, search);
  return [{ text: `… ${filtered.slice(Math.max(0, at - AROUND), at + search.length + AROUND).trimEnd()} …\n` }];
}

/** Shows the first lines of the file that have what is searched. */
async function searchFile(request) {
  const { file, settings } = latest;
  const { id, search } = request;
  const shown = [];
  let length = 0;
  for await (const [piece] of piecesOf(file)) {
    if (request !== searching) return;
    const filtered = linesOf(decoder.decode(filter(piece, settings.flags, settings)));
    for (const [at, line] of linesOf(decoder.decode(piece)).entries()) {
      if (length > SHOWN) break;
      if (placeOf(filtered[at], search) < 0) continue;
      shown.push(partsAround(line, filtered[at], settings, search));
      length += shown.at(-1).reduce((sum, { text }) => sum + text.length, 0);
    }
    if (length > SHOWN) break;
  }
  postMessage({ kind: 'lines', id, parts: shown.flat(), found: shown.length, whole: length <= SHOWN });
}

/** Shows lines of the file. */
const showFile = (request) => (request.search ? searchFile : showBeginning)(request);

/** Filters the file in pieces, reports the progress, and sends a Blob. */
async function filterFile(request) {
  const { id, file, settings } = request;
  const began = performance.now();
  const filtered = [];
  for await (const [piece, done] of piecesOf(file)) {
    if (request !== latest) return;
    filtered.push(filter(piece, settings.flags, settings));
    postMessage({ kind: 'progress', id, done, size: file.size });
  }
  postMessage({ kind: 'file', id, blob: new Blob(filtered), time: performance.now() - began });
}

const REQUESTS = {
  symbol: explain,

  text(request) {
    const began = performance.now();
    latest = searching = request;
    lines = linesOf(request.text).map((line) => partsOf(line, request.settings));
    showLines(request, performance.now() - began);
  },

  async file(request) {
    latest = searching = request;
    await showFile(request);
    await filterFile(request);
  },

  async search(request) {
    if (request.id !== latest.id) return;
    searching = request;
    if (latest.file) await showFile(request); else showLines(request);
  },
};

onmessage = async ({ data }) => {
  try {
    await REQUESTS[data.kind](data);
  } catch (error) {
    postMessage({ kind: 'failed', id: data.id, message: String(error) });
  }
};
