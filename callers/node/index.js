/**
 * Checks bodies in JSON by a library in C that was proved, and reports every fault. `index.d.ts` says what each function does.
 */
'use strict';

const { isUint8Array } = require('node:util').types;
const addon = require('./order_check.node');
const { faultsOf, valueOf } = require('./nodes.js');

const VALID = 0;
const FAULTS = 1;
const NO_JSON = 2;
const MEMORY = 3;
// The room of a larger body, or of larger details, is not kept: it holds some 5 to 12 bytes for each byte of the body.
const KEPT_BODY = 1024 * 1024;
const KEPT_DETAILS = 4 * KEPT_BODY;
const room = addon.newRoom();
// What the nodes of a value are read from: four numbers for each, behind four that say how many there are.
const NODES = new Int32Array(16384);
const MOST_AT_FIRST = 2 ** 22;
const lengthOf = Object.getOwnPropertyDescriptor(ArrayBuffer.prototype, 'byteLength').get;

class NotJsonError extends SyntaxError {
  constructor(message, details) {
    super(message);
    this.name = 'NotJsonError';
    this.details = details;
  }
}

/** The body has faults, so it has no value. The message is the first one. */
class FaultsError extends Error {
  constructor(faults) {
    super(`${faults[0].pointer}: ${faults[0].detail}`);
    this.name = 'FaultsError';
    this.faults = faults;
  }
}

/** The bytes as the library reads them: where they lie, or a copy where another thread could change them. */
function bytesOf(body) {
  if (!isUint8Array(body)) throw new TypeError('a body is a Buffer or a Uint8Array');
  try {
    lengthOf.call(body.buffer);
    return body;
  } catch {
    return Uint8Array.from(body);
  }
}

function outOfMemory() {
  return Object.assign(new Error('out of memory'), { code: 'ERR_MEMORY_ALLOCATION_FAILED' });
}

/** What a check reports. */
function optionsOf({ most = Infinity, language = '', places = false } = {}) {
  if (typeof most !== 'number') throw new TypeError('most is a number');
  if (!(most === Infinity || Number.isInteger(most)) || most < 1) throw new RangeError(`most is ${most}, and not 1, 2, ..`);
  return { most, language, places: Boolean(places) };
}

/** What is wrong with a body, or null. */
function problemIn(inRoom, body, options) {
  const { most, language } = optionsOf(options);
  const found = addon.check(inRoom, bytesOf(body), most, language);
  if (found === MEMORY) throw outOfMemory();
  return found === VALID ? null : { status: found[0], httpStatus: found[0] === FAULTS ? 422 : 400, details: found[1] };
}

/** Room for nodes: so many numbers at least. */
function nodesFor(wanted) {
  return wanted <= NODES.length ? NODES : new Int32Array(wanted);
}

function placed(inRoom, faults) {
  const places = addon.places(inRoom);
  faults.forEach((it, n) => Object.assign(it, { line: places[2 * n], column: places[2 * n + 1] }));
}

/** The faults of a body. */
function faultsIn(inRoom, body, options) {
  const it = bytesOf(body);
  const { most, language, places } = optionsOf(options);
  // Most have some 13 nodes for a fault, which takes 12 bytes at least. Those that have more are judged once more.
  for (let nodes = nodesFor(Math.min(5 * it.length, MOST_AT_FIRST)); ; nodes = nodesFor(4 * nodes[0] + 4)) {
    const found = addon.faults(inRoom, it, most, language, nodes, places);
    if (found === MEMORY) throw outOfMemory();
    if (found === VALID) return Object.defineProperty([], 'more', { value: false });
    if (found === NO_JSON) {
      const { details } = problemIn(inRoom, it, options);
      throw new NotJsonError(JSON.parse(details).detail, details);
    }
    if (found === FAULTS) continue;
    const faults = faultsOf(nodes, found);
    if (places) placed(inRoom, faults);
    return faults;
  }
}

/** The value of a body, or undefined where it is not valid. */
function valueIn(inRoom, body) {
  // Few have more than a node in four bytes: those are judged once more.
  for (let nodes = nodesFor(body.length + 8); ; nodes = nodesFor(4 * nodes[0] + 4)) {
    const found = addon.value(inRoom, body, nodes);
    if (typeof found === 'string') return valueOf(nodes, found, body);
    if (found === MEMORY) throw outOfMemory();
    if (found !== VALID) return undefined;
  }
}

/** Frees the room of the module after a body that is large, or an answer. */
function tidy(body, answer = 0) {
  if (body.length > KEPT_BODY || answer > KEPT_DETAILS) addon.emptyRoom(room);
}

function check(body, options) {
  const faults = faultsIn(room, body, options);
  tidy(body, 200 * faults.length);
  return faults;
}

function problem(body, options) {
  const found = problemIn(room, body, options);
  tidy(body, found?.details.length);
  return found;
}

function value(body, options) {
  const it = bytesOf(body);
  const found = valueIn(room, it);
  tidy(it);
  if (found === undefined) throw new FaultsError(check(it, options));
  return found;
}

function isValid(body) {
  const status = addon.isValid(bytesOf(body));
  if (status === MEMORY) throw outOfMemory();
  return status === 0;
}

class Checker {
  #room = addon.newRoom();
  // begin: of a schema

  /** A validator gives its schema, which was judged. */
  constructor(schema) {
    if (schema !== undefined) addon.setSchema(this.#room, schema);
  }

  isValid(body) {
    const status = addon.isValid(bytesOf(body), this.#room);
    if (status === MEMORY) throw outOfMemory();
    return status === 0;
  }
  // end: of a schema

  check(body, options) {
    return faultsIn(this.#room, body, options);
  }

  problem(body, options) {
    return problemIn(this.#room, body, options);
  }

  value(body, options) {
    const it = bytesOf(body);
    const found = valueIn(this.#room, it);
    if (found === undefined) throw new FaultsError(this.check(it, options));
    return found;
  }

  close() {
    addon.emptyRoom(this.#room);
  }
}
// begin: of a schema

class Validator extends Checker {
  constructor(schema) {
    const it = isUint8Array(schema) ? Uint8Array.from(schema) : Buffer.from(JSON.stringify(schema));
    const faults = check(it, { places: true });
    if (faults.length > 0) throw new FaultsError(faults);
    super(it);
  }
}
// end: of a schema

module.exports = { Checker, FAULTS, FaultsError, NO_JSON, NotJsonError, check, isValid, problem, value };
// begin: of a schema
module.exports.Validator = Validator;
// end: of a schema
