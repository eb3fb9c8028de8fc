/** Checks bodies in JSON by a library that was proved, as a WebAssembly module, and reports every fault. `index.d.ts` says more. */
import { instanceOf } from './module.js';
import { Texts, valueOf } from './nodes.js';
// begin: of a schema
import { encoder, isBytes } from './module.js';
// end: of a schema

const [VALID, FAULTS, NO_JSON] = [0, 1, 2];
// Room for so many places, where they are asked for. Where there are more faults, the module checks once more.
const PLACES = 64;
const NONE = new Uint8Array();
const decoder = new TextDecoder();

export class NotJsonError extends SyntaxError {
  constructor(message, details) {
    super(message);
    this.name = 'NotJsonError';
    this.details = details;
  }
}

/** The body has faults, so it has no value. The message is the first one. */
export class FaultsError extends Error {
  constructor(faults) {
    super(`${faults[0].pointer}: ${faults[0].detail}`);
    this.name = 'FaultsError';
    this.faults = faults;
  }
}

/** The functions of an instance, by a schema, where the library takes one. */
function checkerOf(instance, schema) {
  function problem(body, { most = Infinity, language = '', places = false } = {}) {
    if (typeof most !== 'number') throw new TypeError('most is a number');
    if (!(most === Infinity || Number.isInteger(most)) || most < 1) throw new RangeError(`most is ${most}, and not 1, 2, ..`);
    const status = instance.asked('check', schema, body, String(language), most, places ? PLACES : 0);
    if (status === VALID) return null;
    const { it } = instance;
    return { status, httpStatus: status === FAULTS ? 422 : 400, details: decoder.decode(instance.bytes(it.details(), it.length())) };
  }

  /** Gives faults their places: of each two numbers of 64 bits, which fit 32. */
  function place(faults) {
    const found = instance.rows(instance.it.places_at(), instance.it.places_length());
    faults.forEach((fault, n) => Object.assign(fault, { line: found[4 * n], column: found[4 * n + 2] }));
  }

  function check(body, options) {
    const found = problem(body, options);
    const said = found === null ? { errors: [] } : JSON.parse(found.details);
    if (found !== null && found.status === NO_JSON) throw new NotJsonError(said.detail, found.details);
    if (found !== null && options?.places) place(said.errors);
    return Object.defineProperty(said.errors, 'more', { value: said.detail !== undefined });
  }

  function value(body, options) {
    if (instance.asked('value', schema, body, '') !== VALID) throw new FaultsError(check(body, options));
    const { it } = instance;
    const nodes = instance.rows(it.nodes_at(), it.nodes_length());
    const plain = new Texts(instance.bytes(it.body(), it.body_length()), typeof body === 'string' ? body : undefined);
    return valueOf(nodes, plain, new Texts(instance.bytes(it.texts_at(), it.texts_length())));
  }

  return { check, problem, value, isValid: (body) => instance.asked('is_valid', schema, body, '') === VALID };
}
// begin: of a schema

/** The functions by a schema of which a copy is kept. It is judged first, as a body is by no schema. */
function validatorOf(instance, given) {
  const text = typeof given === 'string' || isBytes(given) ? given : JSON.stringify(given);
  if (text === undefined) throw new TypeError('a schema is a text, bytes, an object or a boolean');
  const schema = typeof text === 'string' ? encoder.encode(text) : new Uint8Array(text);
  const faults = checkerOf(instance, NONE).check(schema, { places: true });
  if (faults.length > 0) throw new FaultsError(faults);
  return checkerOf(instance, schema);
}
// end: of a schema

export async function load(source = new URL('./order.wasm', import.meta.url), { bits = 32 } = {}) {
  const instance = await instanceOf(source, bits);
  const checker = checkerOf(instance, NONE);
  // begin: of a schema
  checker.validator = (schema) => validatorOf(instance, schema);
  // end: of a schema
  return Object.defineProperty(checker, 'held', { enumerable: true, get: () => instance.it.memory.buffer.byteLength });
}
