// Drives a headless Chromium over its DevTools protocol, for the checks of the page.
import { spawn } from 'node:child_process';
import { mkdtempSync, rmSync } from 'node:fs';
import { tmpdir } from 'node:os';
import { join } from 'node:path';

/** Starts a browser, and returns one page of it, on which nothing is loaded yet. */
export async function openPage(program = 'chromium') {
  const profile = mkdtempSync(join(tmpdir(), 'chromium-'));
  const browser = spawn(program, [
    '--headless=new', '--no-sandbox', '--disable-gpu', '--disable-dev-shm-usage', '--no-first-run',
    '--disable-background-networking', '--disable-component-update', '--remote-debugging-pipe',
    `--user-data-dir=${profile}`,
  ], { stdio: ['ignore', 'ignore', 'ignore', 'pipe', 'pipe'] });
  const ended = new Promise((resume) => { browser.on('exit', resume); });
  const waiting = new Map();
  const listeners = [];
  let calls = 0;
  let rest = '';

  browser.stdio[4].setEncoding('utf8').on('data', (text) => {
    const messages = (rest + text).split('\0');
    rest = messages.pop();
    for (const message of messages.map(JSON.parse)) {
      if (message.id) {
        const { resolve, reject } = waiting.get(message.id);
        waiting.delete(message.id);
        if (message.error) reject(new Error(message.error.message)); else resolve(message.result);
      } else {
        for (const listener of listeners) listener(message);
      }
    }
  });
  ended.then(() => { for (const { reject } of waiting.values()) reject(new Error('the browser has ended')); });

  /** Calls a method of the protocol, of a session or of the browser. */
  const send = (method, params = {}, sessionId = undefined) => new Promise((resolve, reject) => {
    waiting.set(++calls, { resolve, reject });
    browser.stdio[3].write(`${JSON.stringify({ id: calls, method, params, sessionId })}\0`);
  });

  const { targetId } = await send('Target.createTarget', { url: 'about:blank' });
  const { sessionId } = await send('Target.attachToTarget', { targetId, flatten: true });
  const page = {
    /** Calls a method of the protocol, of this page unless another session is named. */
    send: (method, params, session = sessionId) => send(method, params, session),

    /** Has a function called with each event: its method, its parameters and its session. */
    listen: (listener) => listeners.push(({ method, params, sessionId: session }) => listener(method, params, session)),

    /** Returns the value of an expression in the page; waits for a promise. */
    async value(expression) {
      const { result, exceptionDetails } = await page.send('Runtime.evaluate',
        { expression, awaitPromise: true, returnByValue: true, userGesture: true });
      if (exceptionDetails) throw new Error(`${expression}: ${exceptionDetails.exception?.description}`);
      return result.value;
    },

    /** Waits until an expression is true in the page, for at most so many seconds. */
    async until(expression, seconds = 20) {
      const end = Date.now() + 1000 * seconds;
      while (!(await page.value(expression))) {
        if (Date.now() > end) throw new Error(`still not so after ${seconds} s: ${expression}`);
        await new Promise((resume) => { setTimeout(resume, 25); });
      }
    },

    async close() {
      await send('Browser.close').catch(() => {});
      await ended;
      rmSync(profile, { recursive: true, force: true, maxRetries: 5 });
    },
  };
  for (const domain of ['Page', 'Runtime', 'Network', 'Log']) await page.send(`${domain}.enable`);
  return page;
}
