// Debian's Chromium without windows, by its DevTools protocol over a pipe.
import { spawn } from 'node:child_process';
import fs from 'node:fs';
import os from 'node:os';
import path from 'node:path';

const WORDS = ['--remote-debugging-pipe', '--no-sandbox', '--headless', '--hide-scrollbars', '--no-first-run', '--disable-extensions',
  '--disable-background-networking', '--disable-dev-shm-usage', '--force-color-profile=srgb', '--use-angle=swiftshader', '--enable-unsafe-swiftshader'];
const PATIENCE = 120000;

/** A browser that is running: `send` asks it, `events` has what it has told since `events` was emptied. */
export class Chromium {
  constructor() {
    this.profile = fs.mkdtempSync(path.join(os.tmpdir(), 'browser-'));
    this.child = spawn('chromium-headless-shell', [...WORDS, `--user-data-dir=${this.profile}`], { detached: true, stdio: ['ignore', 'ignore', 'ignore', 'pipe', 'pipe'] });
    this.asked = new Map();
    this.count = 0;
    this.events = [];
    this.fault = null;
    this.ended = new Promise((resolve) => {
      const end = (fault) => {
        this.fault ??= fault;
        this.asked.forEach(({ reject }) => reject(fault));
        resolve();
      };
      this.child.on('error', end);
      this.child.on('exit', (code, signal) => end(new Error(`the browser ended: ${code ?? signal}`)));
    });
    this.child.stdio[3].on('error', () => {});
    let rest = '';
    this.child.stdio[4].setEncoding('utf8').on('data', (text) => {
      const parts = (rest + text).split('\0');
      rest = parts.pop();
      parts.forEach((part) => this.hear(JSON.parse(part)));
    });
  }

  hear(message) {
    const { id, error, result } = message;
    if (id === undefined) {
      this.events.push(message);
    } else {
      const { resolve, reject } = this.asked.get(id);
      this.asked.delete(id);
      if (error) reject(new Error(error.message)); else resolve(result);
    }
  }

  send(method, params = {}, sessionId = this.session) {
    this.count += 1;
    const id = this.count;
    return new Promise((resolve, reject) => {
      if (this.fault) throw this.fault;
      const late = setTimeout(() => reject(new Error(`${method}: no answer`)), PATIENCE);
      const within = (act) => (value) => { clearTimeout(late); act(value); };
      this.asked.set(id, { resolve: within(resolve), reject: within(reject) });
      this.child.stdio[3].write(`${JSON.stringify({ id, method, params, sessionId })}\0`);
    });
  }

  /** Opens an empty page, to which `send` speaks from then on. */
  async open(width, height) {
    const { targetId } = await this.send('Target.createTarget', { url: 'about:blank' });
    this.session = (await this.send('Target.attachToTarget', { targetId, flatten: true })).sessionId;
    await this.send('Emulation.setDeviceMetricsOverride', { width, height, deviceScaleFactor: 1, mobile: false });
    for (const domain of ['Page', 'Runtime', 'Debugger', 'Log']) await this.send(`${domain}.enable`);
    await this.send('Page.setLifecycleEventsEnabled', { enabled: true });
    await this.send('Page.addScriptToEvaluateOnNewDocument', { source: 'Error.stackTraceLimit = 100;' });
  }

  /** Goes to an address; its modules have run then. */
  async visit(url) {
    this.events = [];
    const { loaderId } = await this.send('Page.navigate', { url });
    await this.heard('Page.lifecycleEvent', (event) => event.name === 'load' && event.loaderId === loaderId);
  }

  /** The first event of that kind that fits, since the page was visited. */
  async heard(method, fits = () => true) {
    const end = Date.now() + PATIENCE;
    for (;;) {
      const event = this.events.find((one) => one.method === method && fits(one.params));
      if (event) return event.params;
      if (this.fault) throw this.fault;
      if (Date.now() > end) throw new Error(`${method} has not come`);
      await new Promise((resolve) => setTimeout(resolve, 20));
    }
  }

  /** What an expression of the page gives; a promise is waited for. */
  async evaluate(expression) {
    const { result, exceptionDetails } = await this.send('Runtime.evaluate', { expression, awaitPromise: true, returnByValue: true });
    if (exceptionDetails) throw new Error(exceptionDetails.exception?.description ?? exceptionDetails.text);
    return result.value;
  }

  /** A click of the mouse. */
  async click({ x, y }) {
    for (const type of ['mouseMoved', 'mousePressed', 'mouseReleased']) {
      await this.send('Input.dispatchMouseEvent', { type, x, y, button: type === 'mouseMoved' ? 'none' : 'left', clickCount: 1 });
    }
  }

  /** A key that is pressed and released. */
  async press(key) {
    for (const type of ['rawKeyDown', 'keyUp']) await this.send('Input.dispatchKeyEvent', { type, key, code: key });
  }

  /** The picture of the page as PNG in base64, once it stays as it is. */
  async picture() {
    let last;
    for (let tries = 0; tries < 20; tries += 1) {
      await this.evaluate('new Promise((resolve) => requestAnimationFrame(() => requestAnimationFrame(resolve)))');
      const { data } = await this.send('Page.captureScreenshot', { format: 'png' });
      if (data === last) return data;
      last = data;
    }
    throw new Error('the page does not come to rest');
  }

  // Debian's command is a shell script around the browser, so the whole group ends.
  close() {
    if (this.fault === null) process.kill(-this.child.pid, 'SIGKILL');
    return this.ended.then(() => fs.rmSync(this.profile, { recursive: true, force: true, maxRetries: 5 }));
  }
}
