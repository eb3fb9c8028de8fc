/** Measures checks of orders by turns, in a browser and in Node: bench/in_browser prints the least microseconds of each. */
import Ajv from './ajv.js';

const isNode = typeof process === 'object';
const module = isNode
  ? await (await import('node:fs/promises')).readFile(new URL('wasm/order.32.wasm', import.meta.url))
  : new Uint8Array(await (await fetch('wasm/order.32.wasm')).arrayBuffer());
const text = { type: 'string' };
const schema = {
  type: 'object', additionalProperties: false, required: ['customer', 'lines'],
  properties: {
    customer: { ...text, minLength: 1, maxLength: 80 },
    lines: { type: 'array', minItems: 1, maxItems: 50, items: {
      type: 'object', additionalProperties: false, required: ['code', 'count'],
      properties: { code: { ...text, pattern: '^P' }, count: { type: 'integer', minimum: 1, maximum: 99 } } } } },
};
const validate = new Ajv({ allErrors: true }).compile(schema);

function byAjv(body) {
  validate(JSON.parse(body));
  return validate.errors ?? [];
}

/** What a program does that checks by hand. */
function byHand(body) {
  const order = JSON.parse(body);
  const faults = [];
  const fault = (pointer, detail) => faults.push({ pointer, detail });
  if (typeof order !== 'object' || order === null) return [{ pointer: '', detail: 'not an object' }];
  if (typeof order.customer !== 'string') fault('/customer', 'not a text');
  else if (order.customer.length < 1 || order.customer.length > 80) fault('/customer', 'length');
  if (!Array.isArray(order.lines) || order.lines.length < 1 || order.lines.length > 50) return fault('/lines', 'items'), faults;
  order.lines.forEach((line, n) => {
    if (typeof line.code !== 'string' || !line.code.startsWith('P')) fault(`/lines/${n}/code`, 'code');
    if (!Number.isInteger(line.count) || line.count < 1 || line.count > 99) fault(`/lines/${n}/count`, 'count');
    for (const name of Object.keys(line)) if (name !== 'code' && name !== 'count') fault(`/lines/${n}/${name}`, 'unknown');
  });
  for (const name of Object.keys(order)) if (name !== 'customer' && name !== 'lines') fault(`/${name}`, 'unknown');
  return faults;
}

/** A call that throws of a faulty body. */
function valueBy(call) {
  return (body) => {
    try {
      return call(body);
    } catch (error) {
      return error.faults;
    }
  };
}

let bytes;

/** A call that takes the bytes of the body, as a server has them. */
function ofBytes(call) {
  return () => call(bytes);
}

function order(lines, line) {
  return `{"customer":"Ada","lines":[${Array.from({ length: lines }, (_, n) => line.replace('7', 7 + n)).join(',')}]}`;
}

/** The least milliseconds from the bytes of a module to a first answer. Each has a section of its own, so none is found compiled. */
async function started() {
  const { load } = await import('./wasm/index.js');
  let least = Infinity;
  for (let n = 0; n < 20; n++) {
    const bytes = new Uint8Array([...module, 0, 3, 1, 120, n]);
    const began = performance.now();
    (await load(bytes)).check('{}');
    least = Math.min(least, performance.now() - began);
  }
  return least;
}

/** An instance with a copy of the JavaScript for itself, as in a program that loads one: so V8 compiles each for what it does. */
async function instance(name, bits) {
  const { load } = await import(`./wasm/index.js?${name}`);
  return load(new URL('wasm/order.wasm', import.meta.url), { bits });
}

const start = await started();
const ways = { 'by hand': byHand, ajv: byAjv, '32 bits': (await instance('check', 32)).check, '32 bits, value': valueBy((await instance('value', 32)).value) };
const memory64 = Uint8Array.of(0, 97, 115, 109, 1, 0, 0, 0, 5, 3, 1, 4, 1);
if (WebAssembly.validate(memory64)) ways['64 bits'] = (await instance('wide', 64)).check;
if (isNode) {
  const addon = (await import('node:module')).createRequire(import.meta.url)('./node/index.js');
  Object.assign(ways, { addon: ofBytes(addon.check), 'addon, value': ofBytes(valueBy(addon.value)), 'ajv of bytes': ofBytes(byAjv) });
}
const said = { start: Number(start.toFixed(1)), rows: [] };
for (const lines of [3, 50]) {
  for (const [kind, line] of [['valid', '{"code":"P7","count":3}'], ['two faults a line', '{"code":"Q7","count":0}']]) {
    const body = order(lines, line);
    bytes = isNode ? Buffer.from(body) : null;
    const least = Object.fromEntries(Object.keys(ways).map((it) => [it, Infinity]));
    // The clock of an isolated page has steps of 5 us.
    const calls = lines === 3 ? 100 : 20;
    for (let turn = 0; turn < 200; turn++) {
      await new Promise((resolve) => { setTimeout(resolve); });
      for (const [name, way] of Object.entries(ways)) {
        const now = performance.now();
        for (let n = 0; n < calls; n++) way(body);
        least[name] = Math.min(least[name], (performance.now() - now) * 1000 / calls);
      }
    }
    said.rows.push([`${kind}, ${lines} lines`, least]);
  }
}
if (isNode) console.log(JSON.stringify(said));
else globalThis.said = said;
