// Turns of measure/web.
//
//     node measure/web.mjs FOLDER MSVCFILT
//
// FOLDER has the caller in C, the ES module, the names and the map file. Prints a line for each turn: the call and its
// place, our time, and the native one: nanoseconds of the fastest round over all names, milliseconds for the map file.
import { execFileSync } from 'node:child_process';
import { readFileSync } from 'node:fs';
import { join } from 'node:path';
import { openPage } from '../tests/page/chromium.mjs';

const [folder, msvcfilt] = process.argv.slice(2);
const TURNS = 15;
const ROUNDS = 20;
const names = readFileSync(join(folder, 'names'), 'latin1');
const map = readFileSync(join(folder, 'map'));

/** Returns the nanoseconds of the fastest of some rounds over all names. It is called in the browser too. */
function fastest(demangle, names, rounds) {
  let least = Infinity;
  for (let round = 0; round < rounds; round++) {
    const began = performance.now();
    for (const name of names) demangle(name);
    least = Math.min(least, performance.now() - began);
  }
  return 1e6 * least;
}

/** Returns the milliseconds that a call takes. It is called in the browser too. */
function taken(call) {
  const began = performance.now();
  call();
  return performance.now() - began;
}

const native = {
  call: () => parseFloat(execFileSync(join(folder, 'in'), ['buffer', String(ROUNDS)], { input: names })),
  filter: () => taken(() => execFileSync(msvcfilt, [join(folder, 'map')], { maxBuffer: 1 << 30 })),
};

const module = join(folder, 'web/msvc-demangler/index.mjs');
const { demangle, filter } = await import(module);
const lines = names.trim().split('\n');
const page = await openPage();
await page.value(`(async () => {
  ${fastest} ${taken}
  const module = await import(${JSON.stringify(`data:text/javascript;base64,${readFileSync(module, 'base64')}`)});
  const names = ${JSON.stringify(lines)};
  const map = Uint8Array.from(atob(${JSON.stringify(map.toString('base64'))}), (letter) => letter.charCodeAt(0));
  window.call = () => fastest(module.demangle, names, ${ROUNDS});
  window.filterMap = () => taken(() => module.filter(map));
})()`);
const places = {
  node: { call: () => fastest(demangle, lines, ROUNDS), filter: () => taken(() => filter(map)) },
  Chromium: { call: () => page.value('call()'), filter: () => page.value('filterMap()') },
};
// The first turn, in which engines compile, is not counted.
for (let turn = 0; turn <= TURNS; turn++) {
  for (const [place, calls] of Object.entries(places)) {
    for (const [what, call] of Object.entries(calls)) {
      const line = `${place}-${what} ${await call()} ${native[what]()}`;
      if (turn > 0) console.log(line);
    }
  }
}
await page.close();
