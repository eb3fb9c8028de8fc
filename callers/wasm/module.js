/** The module of a library, and its instance: what lies in its memory, and a call of it. */
// A library that takes a schema has other calls.
let VERSION = 3;
// begin: of a schema
VERSION = 103;
// end: of a schema
const MEMORY = 3;
// A longer text is encoded before its room is made, which is three bytes for each unit else.
const SHORT = 65536;
// Memory of a module only grows. After a call that took more than this, a fresh instance takes its place.
const KEPT = 16 * 1024 * 1024;

export const encoder = new TextEncoder();
const typed = Object.getPrototypeOf(Uint8Array.prototype);
const lengthOf = Object.getOwnPropertyDescriptor(typed, 'length').get;
const tagOf = Object.getOwnPropertyDescriptor(typed, Symbol.toStringTag).get;

/** The module of two that lie side by side whose memory has so many bits. It is compiled while it comes. */
async function fetched(url, bits) {
  url.pathname = url.pathname.replace(/(\.32)?\.wasm$/, bits === 64 ? '.wasm' : '.32.wasm');
  if (url.protocol === 'file:') return WebAssembly.compile(await (await import('node:fs/promises')).readFile(url));
  const answer = await fetch(url);
  if (!answer.ok) throw new Error(`${url}: status ${answer.status}`);
  const isNamed = answer.headers.get('content-type') === 'application/wasm';
  return isNamed ? WebAssembly.compileStreaming(answer) : WebAssembly.compile(await answer.arrayBuffer());
}

function compiled(source, bits) {
  if (bits !== 32 && bits !== 64) throw new RangeError(`bits is ${bits}, and not 32 or 64`);
  if (source instanceof WebAssembly.Module) return source;
  if (typeof source !== 'string' && !(source instanceof URL)) return WebAssembly.compile(source);
  return fetched(new URL(source, globalThis.location?.href ?? import.meta.url), bits);
}

/** What an instance exports, with its stack at rest and a view of its memory, which the first call makes. */
async function started(module) {
  const { exports } = await WebAssembly.instantiate(module);
  const version = exports.version?.();
  if (version !== VERSION) throw new Error(`the module has version ${version} of its calls, and not ${VERSION}`);
  return { ...exports, stack: exports.__stack_pointer.value, view: new Uint8Array() };
}

function outOfMemory() {
  return Object.assign(new Error('out of memory'), { code: 'ERR_MEMORY_ALLOCATION_FAILED' });
}

export function isBytes(given) {
  return tagOf.call(given) === 'Uint8Array';
}

/** The instance of a module: `it` is what it exports. */
export async function instanceOf(source, bits) {
  const module = await compiled(source, bits);
  let it = await started(module);
  let isRenewed = false;

  function bytes(at, length) {
    return new Uint8Array(it.memory.buffer, at, length);
  }

  /** So many rows of two numbers of 64 bits, as four of 32 bits. */
  function rows(at, length) {
    return new Uint32Array(it.memory.buffer, at, 4 * length);
  }

  /** Copies a body into an empty heap, a tag behind it, and a schema elsewhere. Gives the lengths of the first two in bytes. */
  function put(body, language, schema) {
    const given = typeof body === 'string' && body.length > SHORT ? encoder.encode(body) : body;
    if (typeof given !== 'string' && !isBytes(given)) throw new TypeError('a body is a string or a Uint8Array');
    const most = typeof given === 'string' ? 3 * given.length : lengthOf.call(given);
    const at = it.begin(most + 3 * language.length);
    if (at === 0) throw outOfMemory();
    // begin: of a schema
    const place = it.schema(schema.length);
    if (place === 0) throw outOfMemory();
    bytes(place, schema.length).set(schema);
    // end: of a schema
    // A view is kept until memory grows, which makes its offset 0.
    if (it.view.byteOffset !== at) it.view = bytes(at);
    const length = typeof given === 'string' ? encoder.encodeInto(given, it.view).written : most;
    if (typeof given !== 'string') it.view.set(given);
    return { length, tag: language === '' ? 0 : encoder.encodeInto(language, it.view.subarray(length)).written };
  }

  /** Puts a fresh instance in the place of one that holds much memory. */
  function renew() {
    const { byteOffset, length } = it.view;
    const isKept = (length !== 0 ? byteOffset + length : it.memory.buffer.byteLength) <= KEPT;
    if (isKept || isRenewed) return;
    isRenewed = true;
    started(module).then((fresh) => { it = fresh; }, () => {}).finally(() => { isRenewed = false; });
  }

  /** Calls an export on a body. Where JavaScript has no more stack, that of the module is put back. */
  function asked(name, schema, body, language, most, places) {
    let status;
    try {
      const { length, tag } = put(body, language, schema);
      status = it[name](length, tag, most, places);
    } catch (error) {
      it.__stack_pointer.value = it.stack;
      throw error;
    }
    renew();
    if (status === MEMORY) throw outOfMemory();
    return status;
  }

  return { asked, bytes, rows, get it() { return it; } };
}
