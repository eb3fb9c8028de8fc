/**
 * Tests the package of callers/wasm, in Node and in a browser: says what is wrong, and the hashes of the answers to the bodies of the
 * file `stream`, one for each 1,000. tests/everywhere puts all of it into one folder.
 */
const encoder = new TextEncoder();
const decoder = new TextDecoder();
const GOOD = '{"customer":"Ada","lines":[{"code":"P1","count":1}]}';
const BAD = '{"customer":"","lines":[{"code":"X","count":0}],"x":1}';
const EMPTY = Uint8Array.of(0, 97, 115, 109, 1, 0, 0, 0);
// Exports `version`, which returns 1.
const OTHER = Uint8Array.of(...EMPTY, 1, 5, 1, 96, 0, 1, 127, 3, 2, 1, 0, 7, 11, 1, 7, ...encoder.encode('version'), 0, 0, 10, 6, 1, 4, 0, 65, 1, 11);

/** The bodies of a stream: each has its length, the most faults and the length of a tag before it. */
function* bodies(stream) {
  const view = new DataView(stream.buffer, stream.byteOffset, stream.byteLength);
  for (let at = 0; at < stream.length;) {
    const [length, most, tag] = [0, 4, 8].map((it) => view.getUint32(at + it, true));
    yield [stream.subarray(at + 12, at + 12 + length), { most: most === 2 ** 32 - 1 ? Infinity : most, language: tag ? 'cs' : '' }];
    at += 12 + length;
  }
}

async function hash(pieces) {
  const found = await crypto.subtle.digest('SHA-256', await new Blob(pieces).arrayBuffer());
  return Array.from(new Uint8Array(found), (it) => it.toString(16).padStart(2, '0')).join('');
}

/** The value of a valid body as a text, which is that of `JSON.parse` too, and the same where the body is given as a string. */
function valueText(order, body) {
  const [said, other, wanted] = [order.value(body), order.value(decoder.decode(body)), JSON.parse(decoder.decode(body))].map((it) => JSON.stringify(it));
  return said === wanted && other === wanted ? said : `${said} is not ${wanted}`;
}

/** The details of a body that is not valid, with the places of its faults behind them. */
function detailsOf(order, body, options, { status, details }) {
  const placed = status === 1 ? order.check(body, { ...options, places: true }) : [];
  return [details, ...placed.map(({ line, column }) => `${line}:${column}`)].join(' ');
}

/** The hashes of the answers: of each the status, a length, and the details with places or the value. */
async function hashes(order, stream) {
  const found = [];
  let pieces = [];
  for (const [body, options] of bodies(stream)) {
    const it = order.problem(body, options);
    const details = encoder.encode(it === null ? valueText(order, body) : detailsOf(order, body, options, it));
    pieces.push(Uint32Array.of(it?.status ?? 0, details.length), details);
    if (pieces.length === 2000) found.push(await hash(pieces.splice(0)));
  }
  return pieces.length ? [...found, await hash(pieces)] : found;
}

/** A module whose memory has 256 pages at most: the number before is written in three bytes. */
function bounded(module) {
  const at = module.findIndex((byte, it) => byte === 5 && module[it + 2] === 1 && module[it + 5] === 0x80 && module[it + 6] === 0x80);
  const copy = module.slice();
  copy.set([0x80, 0x82, 0], at + 5);
  return copy;
}

function thrown(call) {
  try {
    return call();
  } catch (error) {
    return error.code ?? error.name;
  }
}

const later = (milliseconds) => new Promise((resolve) => { setTimeout(resolve, milliseconds); });
const lines = (count, line) => `{"customer":"Ada","lines":[${Array(count).fill(line).join(',')}]}`;

/** Calls with bad input: of each a name, what came, and what is wanted. */
async function* rows({ load, FaultsError, NotJsonError }, module) {
  const order = await load(module);
  const small = await load(bounded(module));
  yield ['valid', [order.check(GOOD), order.problem(GOOD), order.isValid(GOOD), order.isValid(BAD)], [[], null, true, false]];
  yield ['faults', order.check(BAD, { most: 1 }).concat(order.check(BAD, { most: 1 }).more), [
    { pointer: '/customer', detail: 'length is lower than 1', code: 'length_lower_than', params: { min: '1' } }, true]];
  const placed = (body, options) => order.check(body, { ...options, places: true }).map(({ line, column, pointer }) => [line, column, pointer]);
  yield ['places', [placed(BAD.replaceAll(',', ',\n')), placed(`\ufeff${BAD}`, { most: 1 }), placed(GOOD)], [
    [[1, 13, '/customer'], [2, 18, '/lines/0/code'], [3, 9, '/lines/0/count'], [4, 1, '/x']], [[1, 13, '/customer']], []]];
  yield ['no places', Object.keys(order.check(BAD)[0]), ['pointer', 'detail', 'code', 'params']];
  yield ['a value', [order.value(GOOD), order.value(encoder.encode(GOOD.replace('Ada', '\ufeffA\\u0064\\"č')))], [
    JSON.parse(GOOD), { ...JSON.parse(GOOD), customer: '\ufeffAd"č' }]];
  for (const [body, name] of [[BAD, 'FaultsError'], ['{', 'NotJsonError'], [null, 'TypeError']]) yield ['no value', thrown(() => order.value(body)), name];
  const told = new FaultsError(order.check(BAD));
  yield ['the first fault', [told.message, told.faults.length], ['/customer: length is lower than 1', 4]];
  const big = 'x'.repeat(50e6);
  for (const body of [big, encoder.encode(big)]) {
    yield ['50 MB in 16 MiB', [small.check, small.isValid, small.value].map((call) => thrown(() => call(body))), Array(3).fill('ERR_MEMORY_ALLOCATION_FAILED')];
    yield ['after 50 MB', [small.check(GOOD), small.value(GOOD), small.held <= 2 ** 24], [[], JSON.parse(GOOD), true]];
  }
  yield ['details of more than the memory', [thrown(() => small.check(lines(2e5, '1'))), small.check(BAD).length], ['ERR_MEMORY_ALLOCATION_FAILED', 4]];
  const held = small.held;
  for (let n = 0; n < 1e5; n++) {
    small.check(n % 2 ? GOOD : BAD);
    small.value(GOOD);
    if (n % 5000 === 0) await later(0);
  }
  yield ['100,000 calls', small.held, held];
  const lying = [5, 1e9].map((length) => Object.defineProperty(encoder.encode(BAD), 'length', { value: length }));
  yield ['a length that lies', lying.map((it) => order.check(it).length), [4, 4]];
  yield ['no bodies', [null, 5, [1], new Uint16Array(2), {}].map((it) => thrown(() => order.check(it))), Array(5).fill('TypeError')];
  yield ['no number of faults', [0, -1, 1.5, NaN].map((most) => thrown(() => order.check(GOOD, { most }))), Array(4).fill('RangeError')];
  yield ['no JSON', [thrown(() => order.check('{')), thrown(() => order.check('')), new NotJsonError('a') instanceof SyntaxError], ['NotJsonError', 'NotJsonError', true]];
  for (const [depth, wanted] of [[128, 1], [129, 'NotJsonError'], [1e6, 'NotJsonError']]) {
    yield [`${depth} lists`, thrown(() => order.check('['.repeat(depth) + ']'.repeat(depth)).length), wanted];
  }
  yield ['surrogates, tags', [order.check('"\ud800"').length, order.check(BAD, { language: '\ud800č'.repeat(999) })[0].detail], [1, 'length is lower than 1']];
  const many = order.check(lines(1e5, '{"code":1,"count":0}'), { language: 'cs', places: true });
  yield ['100,000 lines', [many.length, many[2].column, many[200000].column, order.held > 2 ** 24], [200001, 46, 2100025, true]];
  for (let n = 0; n < 1e4; n++) order.check(GOOD);
  await later(500);
  yield ['memory that is given back', [order.held < 2 ** 22, order.check(GOOD)], [true, []]];
  const deep = () => { try { deep(); } catch { order.check(BAD); } };
  for (let n = 0; n < 100; n++) thrown(deep);
  yield ['no more stack', order.check(BAD).length, 4];
  const failed = await Promise.all([module.slice(0, 9999), EMPTY, OTHER].map((it) => load(it).catch((error) => error.name + error.message.slice(0, 24))));
  yield ['other modules', failed.map((it) => it.slice(0, 9)), ['CompileEr', 'Errorthe ', 'Errorthe ']];
}

/** Nodes by hand, of which an order has none: each a kind, a length, and the two halves of a number. */
function* nodes({ valueOf, Texts }) {
  const made = (texts, ...rows) => valueOf(Uint32Array.from(rows.flat()), new Texts(encoder.encode(texts)), new Texts(encoder.encode('č"')));
  const text = (it) => (typeof it === 'bigint' ? `${it}n` : it);
  for (const [row, wanted] of [[[0, 0, 0, 0], null], [[1, 0, 0, 0], false], [[2, 0, 0, 0], true], [[3, 0, 7, 0], 7], [[4, 0, 7, 0], -7],
    [[3, 0, 0xffffffff, 0x1fffff], 2 ** 53 - 1], [[3, 0, 0, 0x200000], '9007199254740992n'], [[3, 0, 0xffffffff, 0xffffffff], '18446744073709551615n'],
    [[4, 0, 0, 0x80000000], '-9223372036854775808n'], [[5, 3, 0, 0], 1.5], [[5, 20, 3, 0], '-1234567890123456789n'], [[6, 3, 0, 0], '1.5'],
    [[0xabcd0106, 3, 0, 0], 'č"'], [[6, 0, 9, 0], '']]) yield [`node ${row}`, text(made('1.5-1234567890123456789', row)), wanted];
  const object = made('__proto__', [8, 0, 1, 0], [6, 9, 0, 0], [7, 0, 2, 0], [0, 0, 0, 0], [7, 0, 0, 0]);
  yield ['a member __proto__', [Object.keys(object), Object.getPrototypeOf(object) === Object.prototype, JSON.stringify(object)], [['__proto__'], true, '{"__proto__":[null,[]]}']];
}

const isNode = typeof process === 'object';
const threads = isNode ? await import('node:worker_threads') : null;

async function read(name) {
  const url = new URL(name, import.meta.url);
  return new Uint8Array(isNode ? await (await import('node:fs/promises')).readFile(url) : await (await fetch(url)).arrayBuffer());
}

/** What this file says as a worker. */
function worker() {
  return new Promise((resolve, reject) => {
    if (isNode) new threads.Worker(new URL(import.meta.url)).once('message', resolve).once('error', reject);
    else Object.assign(new Worker(import.meta.url, { type: 'module' }), { onmessage: ({ data }) => resolve(data), onerror: reject });
  });
}

/** The bits of the module that is loaded: Node reads a file, and a browser fetches one. */
async function bitsOf({ load }, wide, options) {
  const { compile, compileStreaming } = WebAssembly;
  let bits;
  WebAssembly.compile = (it) => { bits = it.length === wide.length ? 64 : 32; return compile(it); };
  WebAssembly.compileStreaming = (it) => { bits = it.url.includes('.32.wasm') ? 32 : 64; return compileStreaming(it); };
  const said = await load(new URL('wasm/order.wasm?1', import.meta.url), options).then((it) => it.check(BAD).length, (it) => it.name);
  Object.assign(WebAssembly, { compile, compileStreaming });
  return [bits, said];
}

/** What is wrong, and the hashes that each module gives. */
async function tried(library, stream, some) {
  const found = { wrong: [], hashes: {} };
  const compare = (what, came, wanted) => {
    if (JSON.stringify(came) !== JSON.stringify(wanted)) found.wrong.push(`${what}: ${JSON.stringify(came)}`);
  };
  for (const name of ['order.wasm', 'order.32.wasm']) {
    const module = await read(`wasm/${name}`);
    if (!WebAssembly.validate(module)) continue;
    for await (const [what, ...both] of rows(library, module)) {
      compare(`${name}: ${what}`, ...both);
      await later(0);
    }
    found.hashes[name] = await hashes(await library.load(module), stream);
  }
  for (const [what, ...both] of nodes(await import(new URL('wasm/nodes.js', import.meta.url)))) compare(what, ...both);
  const wide = await read('wasm/order.wasm');
  for (const [options, ...wanted] of [[undefined, 32, 4], [{}, 32, 4], [{ bits: 64 }, 64, WebAssembly.validate(wide) ? 4 : 'CompileError'],
    [{ bits: 16 }, undefined, 'RangeError']]) compare(`bits: ${JSON.stringify(options)}`, await bitsOf(library, wide, options), wanted);
  const wanted = await hashes(await library.load(), some);
  compare('two workers', await Promise.all([worker(), worker()]), [wanted, wanted]);
  return found;
}

const library = await import(new URL('wasm/index.js', import.meta.url));
const stream = await read('stream');
const some = stream.slice(0, 12 + new DataView(stream.buffer).getUint32(0, true));
if (isNode ? threads.isMainThread : typeof document === 'object') {
  const said = await tried(library, stream, some).catch((error) => ({ wrong: [String(error.stack)], hashes: {} }));
  if (isNode) console.log(JSON.stringify(said));
  else globalThis.said = said;
} else {
  const found = await hashes(await library.load(), some);
  if (isNode) threads.parentPort.postMessage(found);
  else postMessage(found);
}
