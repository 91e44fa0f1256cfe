/**
 * Turns C++ symbols, as Microsoft's compiler mangles them, into declarations:
 *
 *     import { demangle } from 'msvc-demangler';
 *     demangle('?x@ns@@3HA');  // 'int ns::x'
 *
 * This file has the proved library inside, as a WebAssembly module, and asks for nothing else. A symbol or a text is a
 * string, or bytes in UTF-8: an ArrayBuffer or a view of one. Anything else is a TypeError. In a string a surrogate
 * without its other half counts as U+FFFD.
 */

/** The version of the library. */
export const version = '@VERSION@';

/** Chooses how a declaration is printed. Flags are combined with |. */
export const Flags = Object.freeze({
  NO_MS_KEYWORDS: 0x2,
  NO_FUNCTION_RETURNS: 0x4,
  NO_MS_THISTYPE: 0x20,
  NO_CV_THISTYPE: 0x40,
  NO_THISTYPE: 0x60,
  NO_ACCESS_SPECIFIERS: 0x80,
  NO_MEMBER_TYPE: 0x200,
  MS_TYPENAMES: 0x400,
  DECODE_32_BIT: 0x800,
  NAME_ONLY: 0x1000,
  NO_CLASS_TYPE: 0x100000,
  SPACE_AFTER_COMMA: 0x200000,
  HUG_TYPE: 0x400000,
  SPACE_BEFORE_POINTER: 0x800000,
  WITH_PTR64: 0x1000000,
  LLVM: 0xE00400,
});

/** An error of a call: its message, its kind `code`, and its place `offset`. */
export class DemangleError extends Error {
  name = 'DemangleError';

  constructor(message, code, offset) {
    super(message);
    this.code = code;
    this.offset = offset;
  }
}

/** A call has exhausted the stack. */
class OutOfStack extends RangeError {}

// What V8, SpiderMonkey and JavaScriptCore say where the engine's stack is full, and where that of the module is, which
// lies in its memory: each function tests at its beginning that it has space, and a proved call reaches no other
// instruction `unreachable`.
const FULL_STACK = ['Maximum call stack size exceeded', 'too much recursion', 'unreachable',
  'Unreachable code should not be executed'];

// What each grammar adds to the flags of the library.
const FULL = 0x80000000;
const GRAMMARS = new Map([['full', FULL], ['crate', 0]]);

const CODES = ['OK', 'INVALID', 'NOT_UTF8', 'OUT_OF_MEMORY', 'TOO_MANY_NODES', 'TOO_LONG'];
const DEFAULT_NODES = 10_000;
const DEFAULT_BYTES = 65_536;

const DEFAULT_WORKSPACE = 1_228_800;
const REFERENCE = 24;
const PAGE = 65_536;
const MOST_MEMORY = 2 ** 31;

// The most bytes of a piece in which a longer text is filtered, unless it has a longer word.
const PIECE = 65_536;
const SPACE = 32;

const encoder = new TextEncoder();
const decoder = new TextDecoder('utf-8', { ignoreBOM: true });
const compiled = new WebAssembly.Module(Uint8Array.from(atob('@MODULE@'), (letter) => letter.charCodeAt(0)));
let library = new WebAssembly.Instance(compiled).exports;
let memory = new Uint8Array(library.memory.buffer);
let view = new DataView(memory.buffer);

// Where in the memory a call finds what include/msvc_demangler_in.h describes: its result, and the two parts of the
// workspace, each with an address and a size. Behind these lie what the parts are of, the output and the input.
// Addresses and sizes have 64 bits.
const RESULT = Math.ceil(Number(library.__heap_base.value) / 16) * 16;
const ARENA = RESULT + 32;
const TEXT = ARENA + 16;
const FREE = TEXT + 16;

/** Returns the bytes of a text. */
function bytesOf(text) {
  if (typeof text === 'string') return encoder.encode(text);
  if (ArrayBuffer.isView(text)) return new Uint8Array(text.buffer, text.byteOffset, text.byteLength);
  const kind = Object.prototype.toString.call(text).slice(8, -1);
  if (kind === 'ArrayBuffer' || kind === 'SharedArrayBuffer') return new Uint8Array(text);
  throw new TypeError(`a text must be a string, an ArrayBuffer or a view of one, not ${kind}`);
}

/** Returns a limit as the library takes it. */
function limit(value) {
  if (!(value >= 0)) throw new RangeError(`a limit is at least 0, not ${value}`);
  return value <= Number.MAX_SAFE_INTEGER ? BigInt(Math.floor(value)) : 2n ** 64n - 1n;
}

/** Returns flags with the bit of a grammar, as the library takes them. */
function wordOf(flags, grammar) {
  if (!GRAMMARS.has(grammar)) throw new RangeError(`a grammar is 'full' or 'crate', not ${grammar}`);
  return (flags & ~FULL) | GRAMMARS.get(grammar);
}

/** Returns for each number of bytes how many code units of a string these first bytes of its UTF-8 encode. */
function unitsOf(bytes) {
  const units = new Uint32Array(bytes.length + 1);
  for (let at = 0; at < bytes.length; at++) {
    units[at + 1] = units[at] + ((bytes[at] & 0xC0) === 0x80 ? 0 : bytes[at] < 0xF0 ? 1 : 2);
  }
  return units;
}

const place = (text, bytes, offset) => (
  typeof text === 'string' ? unitsOf(bytes.subarray(0, offset))[offset] : offset);

/** Takes an instance of the library, or its memory after that has grown. */
function use(exports) {
  library = exports;
  memory = new Uint8Array(exports.memory.buffer);
  view = new DataView(memory.buffer);
}

/** Describes a part of the workspace, and returns where it ends. */
function describe(part, begin, size) {
  view.setBigUint64(part, BigInt(begin), true);
  view.setBigUint64(part + 8, BigInt(size), true);
  return begin + size;
}

/** Has the memory grow to so many bytes, unless it is larger. */
function grow(size) {
  if (size > MOST_MEMORY) throw new RangeError('out of memory');
  if (size <= memory.length) return;
  try {
    library.memory.grow(Math.ceil((size - memory.length) / PAGE));
  } catch (cause) {
    throw new RangeError('out of memory', { cause });
  }
  use(library);
}

/** Returns the error to throw for one that a call of the library has thrown. */
function errorOf(cause) {
  if (FULL_STACK.some((message) => cause.message.startsWith(message))) return new OutOfStack('out of stack', { cause });
  if (!(cause instanceof WebAssembly.RuntimeError)) return cause;
  return new Error(`the module trapped: ${cause.message}`, { cause });
}

/**
 * Makes one call of the library over an input. The last four arguments are the bytes of the arena, the text and the
 * output, each a multiple of 16, and those of an item of the output. A call that traps leaves its instance unusable,
 * and another replaces it.
 */
function call(make, input, arena, text, size, item) {
  grow(FREE + arena + text + size + input.length);
  const out = describe(TEXT, describe(ARENA, FREE, arena), text);
  const from = out + size;
  memory.set(input, from);
  try {
    make(...[RESULT, from, input.length, ARENA, TEXT, out, Math.floor(size / item)].map(BigInt));
  } catch (error) {
    use(new WebAssembly.Instance(compiled).exports);
    throw errorOf(error);
  }
  const length = Number(view.getBigUint64(RESULT + 16, true));
  return {
    code: CODES[view.getUint32(RESULT, true)],
    offset: Number(view.getBigUint64(RESULT + 8, true)),
    length,
    written: memory.subarray(out, out + Math.min(length * item, size)),
  };
}

/** Makes a call again with a larger output or workspace, as long as it needs that and there is memory. */
function completed(make, input, size, item = 1) {
  let arena = DEFAULT_WORKSPACE - DEFAULT_BYTES;
  let text = size ? DEFAULT_BYTES : 0;
  for (;;) {
    const found = call(make, input, arena, text, size, item);
    if (found.code === 'OUT_OF_MEMORY') {
      arena *= 2;
      text *= 2;
    } else if (size && found.length * item >= size) {
      size = 16 * Math.ceil((found.length + 1) * item / 16);
    } else {
      return found;
    }
  }
}

/**
 * Returns the declaration of the symbol that the text begins with. The grammar is 'full', what today's compilers write,
 * or 'crate', that of the Rust crate msvc-demangler 0.11.0. maxNodes limits the tree of the symbol, in which each name
 * and each type is a node, and maxBytes the declaration in UTF-8. Throws a DemangleError if there is none, and a
 * RangeError if memory or the stack runs out.
 */
export function demangle(symbol, flags = Flags.LLVM,
  { grammar = 'full', maxNodes = DEFAULT_NODES, maxBytes = DEFAULT_BYTES } = {}) {
  const input = bytesOf(symbol);
  const word = wordOf(flags, grammar);
  const nodes = limit(maxNodes);
  const bytes = limit(maxBytes);
  const found = completed((result, from, length, arena, text, out, size) => {
    library.msvc_demangler_demangle_in_parts(result, from, length, word, nodes, bytes, arena, text, out, size);
  }, input, DEFAULT_BYTES + 16);
  const text = decoder.decode(found.written);
  if (found.code !== 'OK') throw new DemangleError(text, found.code, place(symbol, input, found.offset));
  return text;
}

/** The messages of calls that write no text. */
const MESSAGES = { INVALID: 'no symbol', NOT_UTF8: 'not UTF-8', TOO_MANY_NODES: 'more nodes than allowed' };

/** Throws the error of a call that writes no text, unless it succeeded. */
function succeed(found, symbol, input) {
  if (found.code === 'OK') return;
  const message = `${MESSAGES[found.code]} (offset: ${found.offset})`;
  throw new DemangleError(message, found.code, place(symbol, input, found.offset));
}

/**
 * Returns how much of the text the symbol takes that it begins with, in code units of a string, or in bytes. Throws as
 * demangle does.
 */
export function symbolLength(symbol, { grammar = 'full', maxNodes = DEFAULT_NODES } = {}) {
  const input = bytesOf(symbol);
  const word = wordOf(0, grammar);
  const nodes = limit(maxNodes);
  const found = completed((result, from, length, arena) => {
    library.msvc_demangler_prefix_in_parts(result, from, length, word, nodes, arena);
  }, input, 0);
  succeed(found, symbol, input);
  return place(symbol, input, found.length);
}

/** Returns the tree of the symbol that the text begins with, for a person to read. Throws as demangle does. */
export function tree(symbol, { grammar = 'full', maxNodes = DEFAULT_NODES } = {}) {
  const input = bytesOf(symbol);
  const word = wordOf(0, grammar);
  const nodes = limit(maxNodes);
  const found = completed((result, from, length, arena, text, out, size) => {
    library.msvc_demangler_tree_in_parts(result, from, length, word, nodes, arena, out, size);
  }, input, DEFAULT_BYTES + 16);
  const text = decoder.decode(found.written);
  if (found.code !== 'OK') throw new DemangleError(text, found.code, place(symbol, input, found.offset));
  return text;
}

/**
 * Returns the digits of the symbol that stand for parameters before them, in their order: where each digit is, and
 * where what it stands for starts and ends, in code units of a string, or in bytes. Throws as demangle does.
 */
export function references(symbol, { grammar = 'full', maxNodes = DEFAULT_NODES } = {}) {
  const input = bytesOf(symbol);
  const word = wordOf(0, grammar);
  const nodes = limit(maxNodes);
  const found = completed((result, from, length, arena, text, out, places) => {
    library.msvc_demangler_references_in_parts(result, from, length, word, nodes, arena, out, places);
  }, input, 64 * REFERENCE, REFERENCE);
  succeed(found, symbol, input);
  const numbers = new DataView(found.written.slice().buffer);
  const units = typeof symbol === 'string' ? unitsOf(input) : undefined;
  const offset = (at) => {
    const bytes = Number(numbers.getBigUint64(at, true));
    return units ? units[bytes] : bytes;
  };
  return Array.from({ length: found.length }, (_, index) => {
    const [at, start, end] = [0, 8, 16].map((field) => offset(REFERENCE * index + field));
    return { at, start, end };
  });
}

/** Returns where the piece of a text ends that begins there: behind a space or a control character, or at the end. */
function pieceEnd(text, begin) {
  if (text.length - begin <= PIECE) return text.length;
  for (let end = begin + PIECE; end > begin; end--) {
    if (text[end - 1] <= SPACE) return end;
  }
  const end = text.subarray(begin).findIndex((byte) => byte <= SPACE);
  return end < 0 ? text.length : begin + end + 1;
}

/** Returns where a piece can be cut in two, near its middle, or 0 if it has no place for that. */
function middleOf(piece) {
  const half = piece.length >> 1;
  const before = piece.subarray(0, half).findLastIndex((byte) => byte <= SPACE) + 1;
  if (before > 0) return before;
  const after = half + piece.subarray(half).findIndex((byte) => byte <= SPACE) + 1;
  return after === half || after === piece.length ? 0 : after;
}

/** Returns a filtered piece of a text, in parts. What exhausts the stack stays, up to the next places to cut. */
function filtered(piece, word) {
  try {
    const found = completed((result, from, length, arena, text, out, size) => {
      library.msvc_demangler_filter_in_parts(result, from, length, word, arena, text, out, size);
    }, piece, 16 * Math.ceil(piece.length / 8) + PIECE);
    return [found.written.slice()];
  } catch (error) {
    if (!(error instanceof OutOfStack)) throw error;
    const middle = middleOf(piece);
    if (middle === 0) return [piece];
    return [...filtered(piece.subarray(0, middle), word), ...filtered(piece.subarray(middle), word)];
  }
}

/** Returns some bytes one after the other. */
function joined(parts) {
  const all = new Uint8Array(parts.reduce((sum, part) => sum + part.length, 0));
  let at = 0;
  for (const part of parts) {
    all.set(part, at);
    at += part.length;
  }
  return all;
}

/**
 * Returns the text, a string or bytes, with each symbol in it replaced by its declaration; all else stays. Bytes need
 * not be UTF-8, and come back as a Uint8Array. A symbol that exceeds a default limit or the stack stays. Throws a
 * RangeError if memory runs out.
 */
export function filter(text, flags = Flags.LLVM, { grammar = 'full' } = {}) {
  const input = bytesOf(text);
  const word = wordOf(flags, grammar);
  const parts = [];
  for (let begin = 0; begin < input.length;) {
    const end = pieceEnd(input, begin);
    parts.push(...filtered(input.subarray(begin, end), word));
    begin = end;
  }
  return typeof text === 'string' ? decoder.decode(joined(parts)) : joined(parts);
}
