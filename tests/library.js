/**
 * Tests the package of callers/node in the folder that the first word names, by the bodies of the folder that the second one
 * names. tests/library-node runs it.
 */
'use strict';

const assert = require('node:assert/strict');
const { execFileSync } = require('node:child_process');
const { readFileSync, readdirSync } = require('node:fs');
const { join } = require('node:path');
const { setImmediate } = require('node:timers/promises');
const test = require('node:test');
const { Worker, isMainThread, parentPort, workerData } = require('node:worker_threads');

const GOOD = Buffer.from('{"customer":"Ada","lines":[{"code":"P1","count":1}]}');
const BAD = Buffer.from('{"customer":"","lines":[{"code":"X","count":0}],"x":1}');
const LINE = '{"code":"P1","count":1}';
const WRONG_LINE = '{"code":"X","count":"1"}';

/** An order of so many lines. */
function ofLines(count, line = LINE) {
  return Buffer.from(`{"customer":"Ada","lines":[${Array(count).fill(line).join(',')}]}`);
}

function answers(library, bodies) {
  return bodies.map((body) => String(library.problem(body)?.details ?? JSON.stringify(library.value(body))));
}

const BODIES = [GOOD, BAD, Buffer.from('nope'), ofLines(40, WRONG_LINE), ofLines(500, WRONG_LINE)];

/** What a worker does: it checks the bodies again and again, and compares. */
function work({ folder, wanted }) {
  const library = require(folder);
  const checker = new library.Checker();
  for (let round = 0; round < 50; round++) {
    assert.deepEqual(answers(library, BODIES), wanted);
    assert.deepEqual(answers(checker, BODIES), wanted);
  }
  parentPort.postMessage('done');
}

function worker(folder, wanted) {
  return new Promise((resolve, reject) => {
    const started = new Worker(__filename, { workerData: { folder, wanted } });
    let said;
    started.on('message', (message) => (said = message));
    started.on('error', reject);
    started.on('exit', () => resolve(said));
  });
}

function testAll(folder, cases) {
  const { Checker, FAULTS, FaultsError, NO_JSON, NotJsonError, check, isValid, problem, value } = require(folder);

  test('objects of names that came often', () => {
    const { valueOf } = require(join(folder, 'nodes.js'));
    const read = (names, mark = 0) => {
      const bytes = Buffer.from(names.join(''));
      const from = (n) => names.slice(0, n).join('').length;
      const nodes = names.flatMap((it, n) => [6 + (n && mark), it.length, from(n), 0, 3, 0, n, 0]);
      const whole = Int32Array.from([0, bytes.length, 0, 0, 8, 0, names.length, 0, ...nodes]);
      const inList = Int32Array.from([0, bytes.length, 0, 0, 7, 0, 2, 0, ...whole.subarray(4), ...whole.subarray(4)]);
      const found = valueOf(whole, String(bytes), bytes);
      assert.deepEqual(valueOf(inList, String(bytes), bytes), [found, found]);
      whole[1] = 0;
      assert.deepEqual(valueOf(whole, String(bytes), bytes), found);
      return found;
    };
    const rows = [['ab', 'cd', 'e'], ['ab', 'cd', 'f'], ['ab', 'ce', 'e'], ['ab', 'cde', 'e'], ['ac', 'cd', 'e'], ['ab', '__proto__', 'e'], ['a-b', 'x'],
      ['__proto__'], ['2', '1'], [], ['class', 'constructor'], Array.from({ length: 32 }, (_, n) => `n${n}`), Array.from({ length: 40 }, (_, n) => `n${n}`)];
    for (const often of rows) {
      for (let n = 0; n < 40; n++) read(often);
      for (const names of [...rows, often]) {
        const wanted = Object.fromEntries(names.map((it, n) => [it, n]));
        for (const mark of [0, 0x100, 0xabcd0000]) {
          const found = read(names, mark);
          assert.deepEqual(found, wanted);
          assert.deepEqual([Object.keys(found), Object.getPrototypeOf(found)], [Object.keys(wanted), Object.prototype]);
        }
      }
    }
    const words = ['--disallow-code-generation-from-strings', '-e', `console.log(JSON.stringify(require(${JSON.stringify(folder)}).value(Buffer.from(${JSON.stringify(String(ofLines(50)))}))))`];
    assert.equal(String(execFileSync(process.execPath, words)).trim(), JSON.stringify(JSON.parse(ofLines(50))));
  });

  test('numbers', () => {
    const { valueOf } = require(join(folder, 'nodes.js'));
    for (const text of ['-0', '0.5', '1e400', '-1.5e3', '18446744073709551616', '-9223372036854775809']) {
      const wanted = /^-?\d{9}/.test(text) ? BigInt(text) : JSON.parse(text);
      assert.ok(Object.is(valueOf(Int32Array.of(0, 0, 0, 0, 5, text.length, 0, 0), text, Buffer.from(text)), wanted), text);
    }
  });

  test('bodies of a file, beside what a program in C answers to them', { skip: !process.env.ORDER_BODIES }, () => {
    const [bodies, answers] = ['bodies', 'answers'].map((it) => readFileSync(join(process.env.ORDER_BODIES, it)));
    const checker = new Checker();
    let next = 0;
    const number = () => answers.readUInt32LE((next += 4) - 4);
    for (let at = 0; at < bodies.length;) {
      const [length, most, tag] = [0, 4, 8].map((it) => bodies.readUInt32LE(at + it));
      const body = bodies.subarray(at + 12, (at += 12 + length));
      const [status, size] = [number(), number()];
      const answer = answers.subarray(next, (next += size));
      const options = { most: most === 2 ** 32 - 1 ? Infinity : most, language: 'cs'.slice(0, tag), places: true };
      const found = checker.problem(body, options);
      assert.equal(found?.status ?? 0, status);
      if (status === 0) assert.deepEqual(checker.value(body), JSON.parse(new TextDecoder().decode(body)));
      else if (status === 2) assert.throws(() => checker.check(body, options), NotJsonError);
      else {
        const faults = checker.check(body, options);
        const places = faults.map(({ line, column }) => ` ${line}:${column}`).join('');
        assert.equal(String(found.details) + places, String(answer));
        assert.deepEqual(faults.map(({ line, column, ...it }) => it), JSON.parse(found.details).errors);
        assert.equal(faults.more, JSON.parse(found.details).detail !== undefined);
      }
    }
  });

  test('short texts', () => {
    const codes = ['P', 'P1', 'P12', 'P123', 'P1234', 'Pa', 'P\\n', 'P\\u0031', 'Pč', 'P\\"\\\\'];
    for (let n = 0; n < 2000; n++) {
      const chosen = Array.from({ length: 1 + n % 7 }, (_, at) => codes[(n * 7 + at * at) % (n % 3 === 0 ? 6 : codes.length)] + (n * at) % 50);
      const lines = chosen.map((code, at) => (at % 2 === 0 ? `{"code":"${code}","count":1}` : `{"count":99,"code":"${code}"}`));
      const body = `{"customer":"Ada","lines":[${lines.join()}]}`;
      assert.deepEqual(value(Buffer.from(body)), JSON.parse(body));
    }
  });

  test('places', () => {
    const body = Buffer.from('\ufeff{"customer":"",\n "lines":[{"code":"é","count":0}],"x":1}');
    const wanted = [[1, 13], [2, 19], [2, 31], [2, 35]];
    const placesOf = (faults) => faults.map(({ line, column }) => [line, column]);
    for (const library of [{ check }, new Checker()]) {
      assert.deepEqual(placesOf(library.check(body, { places: true })), wanted);
      assert.deepEqual(placesOf(library.check(body, { places: true, most: 2 })), wanted.slice(0, 2));
      assert.ok(library.check(body).every((fault) => !('line' in fault)));
      assert.deepEqual([...library.check(GOOD, { places: true })], []);
      assert.throws(() => library.check(Buffer.from('nope'), { places: true }), NotJsonError);
    }
    assert.equal(check(ofLines(500, WRONG_LINE), { places: true }).at(-1).line, 1);
  });

  test('stored bodies', () => {
    const names = readdirSync(cases).filter((name) => name.endsWith('.json'));
    assert.ok(names.length >= 10);
    for (const name of names) {
      const body = readFileSync(join(cases, name));
      const found = problem(body, { language: name.includes('-cs.') ? 'cs' : '' });
      assert.equal(found?.status ?? 0, Number(name[0]), name);
      assert.deepEqual(found?.details ?? Buffer.alloc(0), readFileSync(join(cases, name.replace('.json', '.answer'))));
      assert.equal(found?.httpStatus, { 1: 422, 2: 400 }[name[0]]);
      assert.equal(isValid(body), found === null);
      if (found === null) assert.deepEqual(value(body), JSON.parse(body));
      else assert.throws(() => value(body), found.status === NO_JSON ? NotJsonError : FaultsError);
    }
  });

  test('faults', () => {
    const faults = check(BAD);
    assert.deepEqual(faults.map((it) => it.pointer), ['/customer', '/lines/0/code', '/lines/0/count', '/x']);
    const low = { pointer: '/lines/0/count', detail: 'lower than 1', code: 'range_lower_than', params: { min: '1' } };
    assert.deepEqual(faults[2], low);
    assert.equal(faults.more, false);
    assert.deepEqual(check(GOOD), []);
    assert.equal(check(GOOD).more, false);
    assert.equal(problem(GOOD), null);
  });

  test('values', () => {
    const escaped = Buffer.from(String(GOOD).replace('Ada', '\\u0041\\"č\ufeff\\n').replace('"P1"', '"P\\ud83d\\ude00"'));
    for (const body of [GOOD, escaped, ofLines(50), ofLines(50, '{ "count" : 99, "code" : "Pč" }'), Buffer.concat([Buffer.from('\ufeff'), GOOD])]) {
      const wanted = JSON.parse(String(body).replace(/^\ufeff/, ''));
      for (const call of [value, new Checker().value.bind(new Checker())]) assert.deepEqual(call(body), wanted);
    }
    assert.throws(() => value(BAD, { most: 2, language: 'cs' }), (it) => it instanceof FaultsError && it.faults.length === 2 && it.faults.more
      && it.message === '/customer: délka je menší než 1');
    assert.throws(() => value(BAD, { most: 0 }), RangeError);
    const shared = new Uint8Array(new SharedArrayBuffer(GOOD.length));
    shared.set(GOOD);
    assert.deepEqual(value(shared), JSON.parse(GOOD));
    const padded = Buffer.concat([GOOD, Buffer.alloc(3e6, ' ')]);
    assert.deepEqual(value(padded), value(GOOD));
    const changed = Buffer.from(GOOD);
    const kept = value(changed);
    changed.fill('#');
    assert.deepEqual(kept, JSON.parse(GOOD));
  });

  test('languages', () => {
    assert.equal(check(BAD, { language: 'cs' })[0].detail, 'délka je menší než 1');
    for (const language of ['', 'en', 'cs-CZ', 'č'.repeat(1000), '\ud800', undefined]) {
      assert.equal(check(BAD, { language })[0].detail, 'length is lower than 1');
    }
    assert.throws(() => check(BAD, { language: 5 }), TypeError);
  });

  test('most', () => {
    for (const most of [1, 2, 3]) {
      assert.equal(check(BAD, { most }).length, most);
      assert.equal(check(BAD, { most }).more, true);
    }
    for (const most of [4, 2 ** 31, 2 ** 53, 2 ** 64, 1e300, Infinity, undefined]) {
      assert.equal(check(BAD, { most }).length, 4);
      assert.equal(check(BAD, { most }).more, false);
    }
    for (const most of [0, -1, 1.5, NaN, -Infinity]) assert.throws(() => check(GOOD, { most }), RangeError);
    for (const most of ['1', null, 1n]) assert.throws(() => check(GOOD, { most }), TypeError);
  });

  test('no JSON', () => {
    const wanted = { name: 'NotJsonError', message: 'not JSON at line 2 column 1' };
    assert.throws(() => check(Buffer.from('{"customer":\n,}')), wanted);
    const empty = [Buffer.alloc(0), new Uint8Array(0), new Uint8Array(new ArrayBuffer(0))];
    for (const body of [...empty, Buffer.from('\0'), Buffer.from('[')]) {
      assert.throws(() => check(body), NotJsonError);
      assert.equal(problem(body).status, NO_JSON);
      assert.equal(JSON.parse(problem(body).details).status, 400);
      assert.equal(isValid(body), false);
    }
    assert.match(String(problem(Buffer.alloc(100000, '[')).details), /deeper than 128/);
  });

  test('bodies of other types', () => {
    const shared = new Uint8Array(new SharedArrayBuffer(BAD.length));
    shared.set(BAD);
    const part = Buffer.concat([GOOD, BAD, GOOD]).subarray(GOOD.length, GOOD.length + BAD.length);
    for (const body of [shared, part, Uint8Array.from(BAD)]) assert.deepEqual(check(body), check(BAD));
    const buffer = new ArrayBuffer(8);
    for (const body of [String(GOOD), null, undefined, 5, {}, [], new Uint16Array(4), new DataView(buffer), buffer]) {
      for (const call of [check, problem, isValid, value]) assert.throws(() => call(body), TypeError);
    }
  });

  test('details beyond the first room', () => {
    for (const count of [10, 100, 1000, 20000]) {
      const faults = check(ofLines(count, WRONG_LINE));
      assert.equal(faults.length, 2 * count + (count > 50 ? 1 : 0));
      assert.equal(faults.at(-1).pointer, `/lines/${count - 1}/count`);
    }
    assert.equal(check(BAD).length, 4);
  });

  test('50 megabytes', () => {
    const body = ofLines(Math.floor(50e6 / (LINE.length + 1)));
    assert.deepEqual(check(body).map((it) => it.code), ['length_greater_than']);
    assert.equal(isValid(body), false);
  });

  test('a checker', () => {
    const checker = new Checker();
    for (const before of BODIES) {
      for (const body of BODIES) {
        checker.problem(before);
        assert.deepEqual(checker.problem(body, { language: 'cs' }), problem(body, { language: 'cs' }));
      }
    }
    checker.close();
    checker.close();
    assert.equal(checker.check(BAD).length, 4);
    assert.equal(checker.problem(BAD).status, FAULTS);
    assert.throws(() => Checker.prototype.check.call({}, GOOD), TypeError);
  });

  test('64 worker threads', async () => {
    const wanted = answers({ problem, value }, BODIES);
    const said = await Promise.all(Array.from({ length: 64 }, () => worker(folder, wanted)));
    assert.deepEqual(new Set(said), new Set(['done']));
  });

  test('many calls take no more memory', async () => {
    const round = async (rounds) => {
      for (let at = 0; at < rounds; at++) {
        for (let call = 0; call < 500; call++) problem(BAD), isValid(GOOD), value(GOOD), new Checker().problem(BAD);
        await setImmediate();
      }
      return process.memoryUsage.rss();
    };
    const before = await round(40);
    assert.ok((await round(200)) - before < 64e6);
  });
}

if (isMainThread) testAll(process.argv[2], process.argv[3]);
else work(workerData);
