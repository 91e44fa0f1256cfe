// Calls the ES module over rows, and compares it with the output of the native programs.
//
//     node tests/module/web.mjs FOLDER rows < ROWS             rows of tools/lib/rows
//     node tests/module/web.mjs FOLDER prefix < ROWS           rows of crates/msvc_bench/prefix.tsv
//     node tests/module/web.mjs FOLDER lines TEXT ERRORS < IN  symbols, and undname's output for them
//     node tests/module/web.mjs FOLDER trees ERRORS < IN       symbols, and the standard error of undname -v for them
//     node tests/module/web.mjs FOLDER filter FLAGS GRAMMAR < IN
//                                                     writes what the filter returns for bytes, and compares a string's
//     node tests/module/web.mjs FOLDER calls                   the edge cases of each call, in the CommonJS module too
//
// FOLDER has the module that tools/web makes. The last line has the counts; the status is 1 if anything differs.
import assert from 'node:assert/strict';
import { readFileSync, writeSync } from 'node:fs';
import { createRequire } from 'node:module';
import { inspect } from 'node:util';
import { pathToFileURL } from 'node:url';
import { runInNewContext } from 'node:vm';
import { resolve } from 'node:path';

const [folder, command, ...words] = process.argv.slice(2);
const module = await import(pathToFileURL(resolve(folder, 'index.mjs')));
const { demangle, filter, references, symbolLength, tree, Flags, DemangleError, version } = module;
const NO_LIMITS = { maxNodes: Infinity, maxBytes: Infinity };
const CRATE = { ...NO_LIMITS, grammar: 'crate' };
// The flag of the library for Full, which the rows of that grammar have.
const FULL = 0x80000000;
const top = new URL('../../', import.meta.url);

const input = () => readFileSync(0);
const lines = (bytes) => bytes.toString('latin1').split('\n').slice(0, -1).map((line) => Buffer.from(line, 'latin1'));
const isUtf8 = (bytes) => Buffer.from(bytes.toString()).equals(bytes);
const fields = (line) => line.toString('latin1').split('\t').map((field) => Buffer.from(field, 'latin1'));

/** Returns the result of a call, or the error that it throws. */
function outcome(call, ...given) {
  try {
    return call(...given);
  } catch (error) {
    return error;
  }
}

/** Prints a line for each row that differs, and the counts. */
function compared(rows, what, agrees) {
  const differing = rows.filter((row) => !agrees(row));
  for (const row of differing) console.log(row.toString());
  console.log(`${rows.length - differing.length} ${what} agree, ${differing.length} differ`);
  process.exitCode = differing.length === 0 && rows.length > 0 ? 0 : 1;
}

/** Returns whether an outcome is the text, or the error with this message at this offset in bytes of the symbol. */
function isWanted(found, symbol, kind, wanted) {
  if (kind === 'ok') return found === wanted[0];
  if (!(found instanceof DemangleError)) return false;
  const offset = Number(wanted[0]);
  const inUnits = symbol.subarray(0, offset).toString().length;
  const message = found.code === 'NOT_UTF8' ? wanted[1] : `${wanted[1]} (offset: ${offset}, remaining: `;
  return found.message.startsWith(message) && [offset, inUnits].includes(found.offset) &&
    ['INVALID', 'NOT_UTF8'].includes(found.code);
}

/** Whether a symbol with what a digit stands for in the digit's place has the same declaration, for each of them. */
function areReferences(symbol, listed) {
  const declaration = demangle(symbol, Flags.LLVM, CRATE);
  const rest = symbol.length - symbolLength(symbol, CRATE);
  return listed.every(({ at, start, end }, index) => {
    const written = Buffer.concat([symbol.subarray(0, at), symbol.subarray(start, end), symbol.subarray(at + 1)]);
    return /[0-9]/.test(String.fromCharCode(symbol[at])) && start < end && end <= at &&
      (index === 0 || listed[index - 1].at < at) && demangle(written, Flags.LLVM, CRATE) === declaration &&
      written.length - symbolLength(written, CRATE) === rest;
  });
}

/** Returns the ES module with another library in it, whose call `demangle` consists of these instructions. */
function withCode(...code) {
  const section = (kind, ...bytes) => [kind, bytes.length, ...bytes];
  const named = (name, kind) => [name.length, ...Buffer.from(name), kind, 0];
  const library = Buffer.from([...Buffer.from('\0asm'), 1, 0, 0, 0, ...section(1, 1, 0x60, 0, 0), ...section(3, 1, 0),
    ...section(5, 1, 0, 1), ...section(6, 1, 0x7E, 0, 0x42, 0, 0x0B), ...section(7, 3, ...named('memory', 2),
      ...named('__heap_base', 3), ...named('msvc_demangler_demangle_in_parts', 0)),
    ...section(10, 1, code.length + 2, 0, ...code, 0x0B)]);
  const text = readFileSync(resolve(folder, 'index.mjs'), 'utf8').replace(/atob\('[^']*'\)/,
    `atob('${library.toString('base64')}')`);
  return import(`data:text/javascript,${encodeURIComponent(text)}`);
}

/** Checks which error a call throws where its memory can't grow, and where it traps. */
async function checkTraps() {
  const [UNREACHABLE, CALL_ITSELF, LOAD_FROM_THE_END] = [[0x00], [0x10, 0], [0x41, 0x7F, 0x28, 0, 0, 0x1A]];
  const thrown = async (code) => outcome((await withCode(...code)).demangle, '?x@@3HA');
  for (const code of [CALL_ITSELF, UNREACHABLE]) {
    const error = await thrown(code);
    assert.deepEqual([error instanceof RangeError, error.message], [true, 'out of stack']);
    assert.ok(error.cause instanceof Error);
  }
  const trapped = await thrown(LOAD_FROM_THE_END);
  assert.deepEqual([trapped.constructor, trapped.message], [Error, 'the module trapped: memory access out of bounds']);
  const { grow } = WebAssembly.Memory.prototype;
  WebAssembly.Memory.prototype.grow = () => { throw new RangeError('refused'); };
  const refused = await thrown(UNREACHABLE);
  WebAssembly.Memory.prototype.grow = grow;
  assert.deepEqual([refused.constructor, refused.message], [RangeError, 'out of memory']);
}

/** Checks that each kind of bytes is taken, and nothing else. */
function checkKinds({ demangle, filter, references, symbolLength, tree }) {
  const bytes = Buffer.from('at ?x@ns@@3HA');
  const wanted = Uint8Array.from(Buffer.from('at int ns::x'));
  const buffer = Uint8Array.from(bytes).buffer;
  const shared = new Uint8Array(new SharedArrayBuffer(bytes.length));
  shared.set(bytes);
  const within = new Uint8Array([1, 2, 3, ...bytes, 4, 5]).buffer;
  const elsewhere = runInNewContext('Uint8Array.from(bytes).buffer', { bytes: [...bytes] });
  for (const text of [bytes, buffer, shared, shared.buffer, elsewhere, new DataView(within, 3, bytes.length),
    new Uint8ClampedArray(within, 3, bytes.length)]) {
    assert.deepEqual(filter(text), wanted);
  }
  const wide = new Uint16Array(Uint8Array.from(Buffer.from('?x@ns@@3HA')).buffer);
  assert.deepEqual([demangle(wide), symbolLength(wide), tree(wide)], ['int ns::x', 10, 'ns::x: Var(Global Int)']);
  assert.deepEqual(filter(new ArrayBuffer(0)), new Uint8Array());
  const rest = { Number: 3, Null: null, Undefined: undefined, Boolean: true, BigInt: 3n, Symbol: Symbol(), Array: [63],
    Object: { length: 3 }, String: new String('?x@@3HA'), Function: demangle };
  for (const call of [demangle, filter, references, symbolLength, tree]) {
    for (const [kind, text] of Object.entries(rest)) {
      assert.throws(() => call(text), { name: 'TypeError',
        message: `a text must be a string, an ArrayBuffer or a view of one, not ${kind}` });
    }
  }
  assert.throws(() => demangle('?x@@3HA', 3n), TypeError);
}

const commands = {
  rows() {
    const rows = lines(input()).filter((line) => !line.toString().startsWith('# '));
    compared(rows, 'rows', (row) => {
      const [word, symbol, kind, ...wanted] = fields(row);
      const flags = parseInt(word, 16);
      const given = [symbol, ...(isUtf8(symbol) ? [symbol.toString()] : [])];
      return given.every((text) => isWanted(outcome(demangle, text, flags, flags >= FULL ? NO_LIMITS : CRATE), symbol,
        kind.toString(), wanted.map(String)));
    });
  },

  prefix() {
    compared(lines(input()), 'texts', (row) => {
      const [text, bytes, nodes] = fields(row);
      if (nodes === undefined) return outcome(symbolLength, text, CRATE).code === 'INVALID';
      const enough = outcome(symbolLength, text, { ...CRATE, maxNodes: Number(nodes) });
      const few = outcome(symbolLength, text, { ...CRATE, maxNodes: Number(nodes) - 1 });
      return enough === Number(bytes) && few.code === 'TOO_MANY_NODES';
    });
  },

  lines(text, errors) {
    const found = lines(input()).map((line) => outcome(demangle, line, Flags.LLVM, CRATE));
    const symbols = lines(readFileSync(text));
    const messages = lines(readFileSync(errors)).map(String);
    let at = 0;
    compared(symbols, 'lines', (line) => {
      const next = found.shift();
      return next instanceof DemangleError ? messages[at++] === `error: ${next.message}` : next === line.toString();
    });
    assert.equal(at, messages.length);
  },

  trees(errors) {
    const messages = lines(readFileSync(errors)).map(String);
    compared(lines(input()), 'lines', (line) => {
      const found = outcome(tree, line, CRATE);
      const listed = outcome(references, line, CRATE);
      if (found instanceof DemangleError) {
        const same = listed.code === found.code && listed.offset === found.offset;
        return messages.shift() === `error: ${found.message}` && same;
      }
      return messages.shift() === found && areReferences(line, listed);
    });
    assert.equal(messages.length, 0);
  },

  filter(flags, grammar) {
    const bytes = input();
    const filtered = filter(bytes, Number(flags), { grammar });
    if (isUtf8(bytes)) {
      assert.equal(filter(bytes.toString(), Number(flags), { grammar }), Buffer.from(filtered).toString());
    }
    for (let at = 0; at < filtered.length;) at += writeSync(1, filtered, at);
  },

  async calls() {
    const common = createRequire(import.meta.url)(resolve(folder));
    assert.deepEqual(Object.keys(common).sort(), Object.keys(module).sort());
    assert.deepEqual([common.Flags, common.version], [Flags, version]);
    assert.throws(() => common.demangle('?x@@3L'), common.DemangleError);
    for (const one of [module, common]) checkKinds(one);
    await checkTraps();

    const header = readFileSync(new URL('include/msvc_demangler.h', top), 'utf8');
    const constants = (pattern) => Object.fromEntries([...header.matchAll(pattern)].map(([, name, number]) =>
      [name, Number(number)]));
    assert.deepEqual({ ...Flags }, constants(/MSVC_DEMANGLER_((?!FULL |CRATE )[A-Z0-9_]+) (0x[0-9A-F]+)u/g));
    const types = readFileSync(resolve(folder, 'index.d.ts'), 'utf8');
    assert.deepEqual(Object.fromEntries([...types.matchAll(/readonly ([A-Z0-9_]+): (0x[0-9A-F]+);/g)].map(
      ([, name, number]) => [name, Number(number)])), { ...Flags });
    assert.equal(version, readFileSync(new URL('VERSION', top), 'utf8').trim());
    assert.deepEqual(Object.keys(module).sort(), [...types.matchAll(/^export declare \w+ (\w+)/gm)].map(
      ([, name]) => name).filter((name, at, all) => all.indexOf(name) === at).sort());

    // Each line of the README's example, with its value.
    const example = /```js\n([^]*?)```/.exec(readFileSync(resolve(folder, 'README.md'), 'utf8'))[1];
    const shown = [...example.matchAll(/^ *(\S.*); +\/\/ (.*)$/gm)];
    assert.ok(shown.length > 3);
    for (const [, code, value] of shown) {
      const call = new Function('error', ...Object.keys(module), `return ${code}`);
      assert.equal(inspect(call(outcome(demangle, '?x@@3L'), ...Object.values(module))), value);
    }

    const rejected = (call, code, offset) => {
      const error = outcome(call);
      assert.ok(error instanceof DemangleError && error instanceof Error);
      assert.deepEqual([error.code, error.offset, error.name], [code, offset, 'DemangleError']);
    };
    rejected(() => demangle(''), 'INVALID', 0);
    rejected(() => demangle('?äö@@3'), 'INVALID', 6);
    rejected(() => demangle(Buffer.from('?äö@@3')), 'INVALID', 8);
    rejected(() => demangle('?😀@@3'), 'INVALID', 6);
    rejected(() => demangle(Uint8Array.of(0x3F, 0x78, 0xFF)), 'NOT_UTF8', 2);
    assert.equal(outcome(demangle, '?x@ns@@3HA', Flags.LLVM, { maxNodes: 1 }).code, 'TOO_MANY_NODES');
    rejected(() => demangle('?x@ns@@3HA', Flags.LLVM, { maxBytes: 8 }), 'TOO_LONG', 10);
    rejected(() => symbolLength('?x@@3L'), 'INVALID', 6);
    for (const limit of [-1, NaN]) assert.throws(() => demangle('?x@@3HA', 0, { maxNodes: limit }), RangeError);
    assert.equal(symbolLength('?äö😀@@3HA and more'), 10);
    assert.equal(symbolLength(Buffer.from('?äö😀@@3HA and more')), 14);

    // The grammars: Full is the default, and no flag chooses one.
    const auto = '?f@@YA?A?<auto>@@H@Z';
    for (const options of [undefined, {}, { grammar: 'full' }]) {
      assert.equal(demangle(auto, Flags.LLVM, options), '<auto> __cdecl f(int)');
      assert.equal(filter(`in ${auto}`, Flags.LLVM, options), 'in <auto> __cdecl f(int)');
      assert.equal(symbolLength(`${auto} and more`, options), auto.length);
      assert.equal(outcome(tree, auto, { ...options, maxNodes: 1 }).code, 'TOO_MANY_NODES');
      assert.ok(tree(auto, options).startsWith('f: '));
      assert.deepEqual(references('?f@@YA?A?<auto>@@PAH0@Z', options), [{ at: 20, start: 17, end: 20 }]);
    }
    rejected(() => demangle(auto, Flags.LLVM, CRATE), 'INVALID', 9);
    assert.equal(filter(`in ${auto}`, Flags.LLVM, CRATE), `in ${auto}`);
    for (const call of [references, symbolLength, tree]) rejected(() => call(auto, CRATE), 'INVALID', 9);
    for (const bit of [0x1, 0x40000000, FULL]) {
      assert.equal(demangle(auto, Flags.LLVM + bit), '<auto> __cdecl f(int)');
      assert.equal(demangle('?f@@9', bit, CRATE), 'f');
    }
    for (const grammar of ['', 'Full', 'llvm', null, FULL, ['full']]) {
      const error = { name: 'RangeError', message: `a grammar is 'full' or 'crate', not ${grammar}` };
      for (const call of [demangle, filter]) assert.throws(() => call('', 0, { grammar }), error);
      for (const call of [references, symbolLength, tree]) assert.throws(() => call('', { grammar }), error);
    }

    assert.equal(tree('?x@ns@@3HA and more'), 'ns::x: Var(Global Int)');
    rejected(() => tree('?äx@@3L'), 'INVALID', 7);
    assert.equal(outcome(tree, '?x@@3L').message, outcome(demangle, '?x@@3L').message);
    assert.equal(outcome(tree, '?x@ns@@3HA', { maxNodes: 1 }).code, 'TOO_MANY_NODES');
    assert.deepEqual(references('?ä😀@@YAXPAH0@Z'), [{ at: 12, start: 9, end: 12 }]);
    assert.deepEqual(references(Buffer.from('?ä😀@@YAXPAH0@Z')), [{ at: 15, start: 12, end: 15 }]);
    assert.deepEqual(references('?x@@3HA'), []);
    rejected(() => references('?äx@@3L'), 'INVALID', 7);
    rejected(() => references(Uint8Array.of(0x3F, 0x78, 0xFF)), 'NOT_UTF8', 2);
    assert.equal(outcome(references, '?f@@YAXPAH0@Z', { maxNodes: 3 }).code, 'TOO_MANY_NODES');
    // More of them than a first output has places for, and a tree that needs a larger output.
    const many = references(`?f@@YAXPAH${'0'.repeat(1000)}@Z`);
    assert.deepEqual([many.length, many[999]], [1000, { at: 1009, start: 7, end: 10 }]);
    assert.equal(tree(`?${'x'.repeat(200_000)}@@3HA`), `${'x'.repeat(200_000)}: Var(Global Int)`);

    assert.equal(filter(''), '');
    assert.deepEqual(filter(new Uint8Array()), new Uint8Array());
    assert.equal(filter('\uFEFF?x@ns@@3HA \uD800'), '\uFEFFint ns::x \uFFFD');
    assert.deepEqual(Buffer.from(filter(Buffer.from('\0\xFF ?x@ns@@3HA\0', 'latin1'))),
      Buffer.from('\0\xFF int ns::x\0', 'latin1'));
    assert.equal(filter('?x@ns@@3HA', Flags.NAME_ONLY), 'ns::x');

    // A declaration that needs a larger output, one that needs a larger workspace, and symbols that exhaust the stack.
    const twice = (levels) => `?x@${'?1???0?$A@Va@'.repeat(levels)}${'@@@QEAA@XZ'.repeat(levels)}@3HA`;
    assert.equal(demangle(twice(10)).length, 54_224);
    rejected(() => demangle(twice(11)), 'TOO_LONG', 260);
    assert.ok(demangle(twice(14), Flags.LLVM, NO_LIMITS).length > 500_000);
    assert.equal(filter(`${twice(10)} `.repeat(500)), `${demangle(twice(10))} `.repeat(500));
    for (const deep of ['PEA', 'V?$A@', 'P6AX', 'Y00']) {
      const symbol = `?x@@3${deep.repeat(1_000_000)}`;
      assert.equal(outcome(demangle, symbol, Flags.LLVM, { maxNodes: 1000 }).code, 'TOO_MANY_NODES');
      assert.throws(() => demangle(symbol, Flags.LLVM, NO_LIMITS), { name: 'RangeError', message: 'out of stack' });
      assert.equal(demangle('?x@ns@@3HA'), 'int ns::x');
      assert.equal(filter(symbol), symbol);
    }
    console.log('calls: all results are right');
  },
};
await commands[command](...words);
