// Opens target/page/desk.html in a headless Chromium, over its debugging port, and does what a trainer does: runs exercises, steps, types a wrong line, opens
// the village, shares. What stands in the page is compared with what the desk says and with the held pictures.
import assert from 'node:assert/strict';
import { spawn } from 'node:child_process';
import fs from 'node:fs';
import net from 'node:net';
import os from 'node:os';
import path from 'node:path';
import { EXERCISES, lessonText } from '../modules/exercises.mjs';
import { inRoot, native, read } from './programs.mjs';

// A WebSocket of its own, for text alone: node 20 has none.
class Wire {
  static open(url) {
    const { hostname, port, pathname } = new URL(url), socket = net.connect(Number(port), hostname), wire = new Wire(socket);
    socket.write(`GET ${pathname} HTTP/1.1\r\nHost: ${hostname}:${port}\r\nUpgrade: websocket\r\nConnection: Upgrade\r\n` +
      'Sec-WebSocket-Key: AAAAAAAAAAAAAAAAAAAAAA==\r\nSec-WebSocket-Version: 13\r\n\r\n');
    return new Promise((resolve, reject) => {
      socket.once('error', reject);
      wire.opened = () => resolve(wire);
    });
  }

  constructor(socket) {
    this.socket = socket;
    this.held = Buffer.alloc(0);
    this.waiting = new Map();
    this.last = 0;
    this.begun = false;
    this.text = [];
    this.errors = [];
    socket.on('data', data => this.take(data));
  }

  take(data) {
    this.held = Buffer.concat([this.held, data]);
    if (!this.begun) {
      const end = this.held.indexOf('\r\n\r\n');
      if (end < 0) return;
      this.held = this.held.subarray(end + 4);
      this.begun = true;
      this.opened();
    }
    for (;;) {
      if (this.held.length < 2) return;
      const short = this.held[1] & 127, head = short < 126 ? 2 : short === 126 ? 4 : 10;
      if (this.held.length < head) return;
      const length = short < 126 ? short : short === 126 ? this.held.readUInt16BE(2) : Number(this.held.readBigUInt64BE(2));
      if (this.held.length < head + length) return;
      this.text.push(this.held.subarray(head, head + length));
      const last = this.held[0] & 128;
      this.held = this.held.subarray(head + length);
      if (last) this.message(Buffer.concat(this.text.splice(0)).toString());
    }
  }

  message(text) {
    if (!text.startsWith('{')) return;
    const found = JSON.parse(text);
    if (found.method === 'Runtime.exceptionThrown') this.errors.push(found.params.exceptionDetails.text);
    const asked = found.method === 'Network.requestWillBeSent' ? found.params.request.url : 'about:blank';
    if (!/^(file|data|blob|about):/.test(asked)) this.errors.push(`the page asks for ${asked}`);
    this.waiting.get(found.id)?.(found);
  }

  send(method, params = {}) {
    const id = ++this.last, body = Buffer.from(JSON.stringify({ id, method, params })), mask = Buffer.from([1, 2, 3, 4]);
    const head = body.length < 126 ? Buffer.from([129, 128 | body.length]) : Buffer.alloc(body.length < 65536 ? 4 : 10, 0);
    if (body.length >= 126) {
      head[0] = 129;
      head[1] = 128 | (body.length < 65536 ? 126 : 127);
      if (body.length < 65536) head.writeUInt16BE(body.length, 2);
      else head.writeBigUInt64BE(BigInt(body.length), 2);
    }
    this.socket.write(Buffer.concat([head, mask, body.map((byte, i) => byte ^ mask[i % 4])]));
    return new Promise((resolve, reject) => {
      this.waiting.set(id, ({ result, error }) => error ? reject(new Error(`${method}: ${error.message}`)) : resolve(result));
    });
  }
}

const chromium = process.argv[2], room = fs.mkdtempSync(path.join(os.tmpdir(), 'desk-page-')), shots = process.argv[3];
const words = ['--headless=new', '--disable-gpu', '--no-first-run', '--remote-debugging-port=0', `--user-data-dir=${room}`, '--window-size=1024,768',
  'about:blank'];
if (process.getuid() === 0) words.unshift('--no-sandbox');
const browser = spawn(chromium, words, { stdio: ['ignore', 'ignore', 'pipe'] });
const late = setTimeout(() => { console.error('run-browser: the browser takes more than 100 s'); browser.kill(); process.exit(1); }, 100000);

try {
  const port = await new Promise((resolve, reject) => {
    let said = '';
    browser.stderr.on('data', data => {
      said += data;
      const found = /listening on ws:\/\/[^:]+:(\d+)/.exec(said);
      if (found) resolve(Number(found[1]));
    });
    browser.once('exit', () => reject(new Error(`the browser has ended: ${said.slice(-500)}`)));
  });
  const pages = await (await fetch(`http://127.0.0.1:${port}/json`)).json();
  const wire = await Wire.open(pages.find(({ type }) => type === 'page').webSocketDebuggerUrl);
  for (const domain of ['Runtime', 'Page', 'Network']) await wire.send(`${domain}.enable`);

  // A look at the page, and the wait until something holds in it.
  const ask = async expression => {
    const { result, exceptionDetails } = await wire.send('Runtime.evaluate', { expression, awaitPromise: true, returnByValue: true });
    if (exceptionDetails) throw new Error(`${expression}: ${exceptionDetails.exception?.description ?? exceptionDetails.text}`);
    return result.value;
  };
  const until = async (expression, what) => {
    for (let i = 0; i < 100; i++) {
      if (await ask(`Boolean(${expression})`)) return;
      await new Promise(resolve => { setTimeout(resolve, 100); });
    }
    throw new Error(`it does not come to this: ${what}`);
  };
  const open = async hash => {
    await wire.send('Page.navigate', { url: 'about:blank' });
    await wire.send('Page.navigate', { url: `file://${inRoot('target/page/desk.html')}${hash}` });
    await until("document.readyState === 'complete' && document.body.dataset.ready === 'yes'", 'the page is ready');
  };
  const press = async (key, code, { shift = false, text } = {}) => {
    for (const type of ['keyDown', 'keyUp']) await wire.send('Input.dispatchKeyEvent', { type, key, code: key, windowsVirtualKeyCode: code,
      modifiers: shift ? 8 : 0, text });
  };
  const picture = async () => ask("document.querySelector('#picture svg').outerHTML");
  // A browser writes the same picture in its own way: the texts in it are compared.
  const texts = svg => [...svg.matchAll(/<text[^>]*>([^<]*)<\/text>/g)].map(found => found[1]);
  const numbers = async () => ask("[...document.querySelectorAll('#answers .told')].map(button => button.textContent).join('\\n')");
  const shot = async name => {
    if (!shots) return;
    const { data } = await wire.send('Page.captureScreenshot', { captureBeyondViewport: true });
    fs.writeFileSync(path.join(shots, `${name}.png`), Buffer.from(data, 'base64'));
  };
  const size = (width, height, mobile = false) => wire.send('Emulation.setDeviceMetricsOverride', { width, height, deviceScaleFactor: 1, mobile });

  await size(1024, 768);
  await open('');
  assert.equal(await ask("document.getElementById('stopped').hidden"), true);

  // Every exercise of the list: the desk's numbers, and the picture that is held.
  for (const exercise of EXERCISES) {
    await ask(`(() => { const list = document.getElementById('exercise'); list.value = '${exercise.name}'; list.dispatchEvent(new Event('change')); })()`);
    await until(`document.querySelector('#picture svg title')?.textContent === ${JSON.stringify(exercise.title)}`, exercise.title);
    assert.deepEqual(texts(await picture()), texts(read('page/exercises', `${exercise.name}.svg`).toString()), exercise.name);
    const answers = native('desk', native('lesson', lessonText(exercise)).output).output.toString().trimEnd();
    assert.equal(await numbers(), answers, exercise.name);
    const wide = await ask('document.documentElement.scrollWidth <= innerWidth');
    assert.ok(wide, `${exercise.name}: the page is wider than the window`);
    await shot(exercise.name);
  }

  // By keyboard alone: from the list of exercises to the slider, and back by lines.
  await ask("(() => { const list = document.getElementById('exercise'); list.value = 'power-cut'; list.dispatchEvent(new Event('change')); list.focus(); })()");
  await until("document.querySelector('#picture svg title')?.textContent.startsWith('A power cut')", 'the power cut');
  for (let i = 0; i < 60 && await ask("document.activeElement.id !== 'step'"); i++) await press('Tab', 9);
  assert.equal(await ask('document.activeElement.id'), 'step');
  for (let i = 0; i < 4; i++) await press('ArrowLeft', 37);
  await until("document.getElementById('step-number').textContent === '4 of 8'", 'step 4 by keys');
  const now = await ask("document.getElementById('now').textContent");
  assert.match(now, /Line 4 a 0 9 1 → 4 1 500000000: .*not now: ask again in 0\.5 s, at 0\.5 s/);
  assert.match(now, /No room for modem 9/);
  assert.match(await ask("document.getElementById('shard').textContent"), /modem 8has 3 of 4all at 0\.5 s.*modem 7forgottenowes until 2 s/);
  assert.match(await ask("document.getElementById('words').textContent"), /Shard 1: 1 of 1 places/);
  assert.equal(await ask("document.querySelectorAll('#picture path[d*=\"l14 14m0\"]').length"), 1);
  await shot('step-4');
  const address = await ask('location.hash');
  assert.match(address, /step=4/);

  // The address brings the lesson and the step back.
  await open(address);
  assert.equal(await ask("document.getElementById('step-number').textContent"), '4 of 8');
  assert.equal(await ask("document.getElementById('lesson').value"), lessonText(EXERCISES[1]));

  // A lesson of one's own, typed: a full shard, a wrong line, and what the program lesson says of it at that line.
  const lesson = 's 2 1000000000 4 4 1 1 - 0\na 0 112394521950 4\nnonsense\na 0 112394521951 1\na 0 112394521952 1\n';
  await ask(`(() => { const box = document.getElementById('lesson'); box.value = ${JSON.stringify(lesson)}; box.dispatchEvent(new Event('input')); })()`);
  await until("document.getElementById('step-number').textContent === '4 of 4'", 'the lesson that was typed');
  assert.equal(await numbers(), '1 0 0\n2 0 0\n3 0 0\n4 1 500000000');
  const note = native('lesson', lesson).told.toString().split('\n').find(line => /\bline 3\b/.test(line));
  assert.ok((await ask("document.querySelectorAll('#answers tr')[2].textContent")).includes(note));
  assert.match(await ask("document.getElementById('now').textContent"), /No room for modem 112394521952/);
  await shot('typed');
  await ask("(() => { const box = document.getElementById('lesson'); box.value = 's 0 1 1 1 1 1 - 0\\n'; box.dispatchEvent(new Event('input')); })()");
  await until("/line 1 was not accepted/.test(document.getElementById('answers').textContent)", 'a line 1 that is refused');

  // The village: a mark that is tapped says its line.
  await open(`#lesson=${encodeURIComponent(lessonText(EXERCISES.at(-1)))}&view=village`);
  await until("document.querySelectorAll('#picture [data-mark]').length > 60", 'the village');
  await ask("document.querySelector('#picture [data-mark=\"45\"]').dispatchEvent(new MouseEvent('click', { bubbles: true }))");
  assert.match(await ask("document.getElementById('mark').textContent"), /^line 2\.46: modem 1046 wants 4 at 0\.225 s, try 1: no room: again at /);
  // By the arrow keys: the mark after it in the order of the tries, and the one before.
  const key = name => ask(`document.getElementById('picture').dispatchEvent(new KeyboardEvent('keydown', { key: '${name}', bubbles: true }))`);
  const told = await ask("document.getElementById('mark').textContent");
  await key('ArrowRight');
  assert.notEqual(await ask("document.getElementById('mark').textContent"), told);
  await key('ArrowLeft');
  assert.equal(await ask("document.getElementById('mark').textContent"), told);

  // A phone, and paper.
  await size(390, 844, true);
  for (const [name, exercise] of [['phone', EXERCISES[1]], ['phone-village', EXERCISES[7]]]) {
    await open(`#lesson=${encodeURIComponent(lessonText(exercise))}&view=${exercise.view}`);
    await until("document.querySelector('#picture svg')", 'a picture on a phone');
    assert.ok(await ask('document.documentElement.scrollWidth <= 390'), `${name}: the page is wider than the phone`);
    await shot(name);
  }
  await size(1024, 768);
  await open(`#lesson=${encodeURIComponent(lessonText(EXERCISES[1]))}`);
  const { data } = await wire.send('Page.printToPDF', { preferCSSPageSize: true, printBackground: true });
  const pdf = Buffer.from(data, 'base64'), sheets = pdf.toString('latin1').match(/\/Type\s*\/Page\b(?!s)/g).length;
  assert.ok(sheets <= 2, `the power cut takes ${sheets} sheets`);
  assert.match(pdf.toString('latin1'), /\/MediaBox\s*\[0 0 59[45](\.\d+)? 84[12](\.\d+)?\]/);
  if (shots) fs.writeFileSync(path.join(shots, 'print.pdf'), pdf);

  assert.deepEqual(wire.errors, []);
  console.log(`run-browser: ${EXERCISES.length} exercises, steps by keys, a typed lesson, a village, a phone and paper are as they have to be`);
} finally {
  clearTimeout(late);
  const ended = new Promise(resolve => { browser.once('exit', resolve); });
  if (browser.exitCode === null && browser.kill()) await ended;
  fs.rmSync(room, { recursive: true, force: true, maxRetries: 5, retryDelay: 200 });
}
process.exit(0);
