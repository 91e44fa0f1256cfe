// What the types of the ES module allow, and what they don't.
import { demangle, filter, references, symbolLength, tree, version, DemangleError, Flags } from 'msvc-demangler';
import type { Bytes, Reading, Reference } from 'msvc-demangler';

const text: string = demangle('?x@ns@@3HA', Flags.LLVM | Flags.NAME_ONLY, { maxNodes: 100, maxBytes: Infinity });
const filtered: string = filter(text + version) + demangle(text, undefined, { grammar: 'full' });
const bytes: Uint8Array = filter(new Uint8Array(), 0, { grammar: 'crate' });
const others: Bytes[] = [new ArrayBuffer(0), new SharedArrayBuffer(0), new DataView(bytes.buffer), new Uint16Array()];
const each: Uint8Array[] = others.map((other) => filter(other));
const either: (text: string | Uint8Array) => string | Uint8Array = (text) => filter(text);
demangle(others[0]) + either(each[0]);
const reading: Reading = { grammar: 'crate' };
const length: number = symbolLength(bytes, { grammar: 'full', maxNodes: 100 }) + filtered.length;
const listed: Reference[] = references(tree('?x@@3HA', { ...reading, maxNodes: 100 }), reading);
const places: number = listed[0].at + listed[0].start + listed[0].end;
// @ts-expect-error: a text is a string or bytes
demangle(length);
// @ts-expect-error: an object is neither
filter({ length });
// @ts-expect-error: a length has no such limit
symbolLength('?x@@3HA', { maxBytes: places });
// @ts-expect-error: there is no such grammar
filter(text, Flags.LLVM, { grammar: 'llvm' });
// @ts-expect-error: no flag chooses the grammar
tree('?x@@3HA', { flags: 0 });
// @ts-expect-error: flags are constants
Flags.LLVM = 0;
try {
  demangle('?x@@3L');
} catch (error) {
  if (error instanceof DemangleError && error.code === 'INVALID') console.log(error.offset.toFixed());
}
