/**
 * Checks bodies in JSON by a library that was proved, as a WebAssembly module, and reports every fault. It runs in a browser, in a
 * worker and in Node, wherever WebAssembly has vectors of 16 bytes: Chrome 91, Firefox 89, Safari 16.4, Node 18, or later.
 */

/** A fault of a body. */
export interface Fault {
  /** The JSON Pointer (RFC 6901) of the value with the fault; of a member that is missing, where it would be. */
  readonly pointer: string;
  /** A sentence in the language that was asked for. */
  readonly detail: string;
  /** The kind of the fault, the same in each language. */
  readonly code: string;
  /** What the sentence says of the rule, by name, as `{ min: '1' }`. */
  readonly params: Readonly<Record<string, string>>;
}

/** A fault with its place: of an unknown or a repeated member its name, of a missing one its object, and else its value. */
export interface PlacedFault extends Fault {
  /** The line, from 1 on. */
  readonly line: number;
  /** The column, in characters from 1 on. U+FEFF at the beginning of a body is not counted. */
  readonly column: number;
}

/** The faults of a body, which are none where it is valid. */
export interface Faults<F extends Fault = Fault> extends Array<F> {
  /** Whether the body has more faults than were asked for. */
  readonly more: boolean;
}

export interface Options {
  /** How many faults are reported at most: all, where it is left out. A number less than 1 throws a `RangeError`. */
  most?: number;
  /** The tag of the language of the sentences. Where the library does not know it they are English. */
  language?: string;
  /** Whether `check` gives the place of each fault, which takes more time where there are faults. */
  places?: boolean;
}

/** What is wrong with a body. */
export interface Problem {
  /** 1 where the body has faults, and 2 where it is no JSON text. */
  readonly status: 1 | 2;
  /** The status of an HTTP response with the details. */
  readonly httpStatus: 422 | 400;
  /** Problem details (RFC 9457): JSON of the media type `application/problem+json`, with a member for each fault in `errors`. */
  readonly details: string;
}

/** The body is no JSON text. The message has the reason, with line and column. */
export class NotJsonError extends SyntaxError {
  /** Problem details (RFC 9457) that say so. */
  readonly details: string;
}

/** The body has faults, so it has no value. The message has the first one. */
export class FaultsError extends Error {
  readonly faults: Faults;
}

/** A body: a text, of which half a surrogate pair is read as U+FFFD, or its bytes. */
export type Body = string | Uint8Array;

/**
 * An instance of the module. Its functions throw an `Error` with the code `ERR_MEMORY_ALLOCATION_FAILED` where the memory that the
 * module may have does not suffice, and can be called again then.
 */
export interface Instance {
  /** The faults of a body. Throws a `NotJsonError` where it is no JSON text. */
  check(body: Body, options: Options & { places: true }): Faults<PlacedFault>;
  check(body: Body, options?: Options): Faults;
  /** What is wrong with a body, or null where it is valid. */
  problem(body: Body, options?: Options): Problem | null;
  /** The value of a valid body, as `JSON.parse` makes it, but for whole numbers that a `number` does not hold: those are of the type
   * `bigint`. So no second reader is needed. Throws a `FaultsError` where the body has faults, and a `NotJsonError` where it is no JSON
   * text. `T` is what you state of your type: nothing compares it with what the library checks.
   */
  value<T = unknown>(body: Body, options?: Options): T;
  /** Whether a body is valid. Reading ends at the first fault. */
  isValid(body: Body): boolean;
  // begin: of a schema
  /**
   * Keeps a copy of a JSON Schema, and gives the functions that check bodies by it: those beside this one judge schemas. A schema is its
   * text, the bytes of that, or what `JSON.stringify` makes a text of. Throws a `FaultsError` where it has faults, with the place of each,
   * and a `NotJsonError` where it is no JSON text.
   */
  validator(schema: Body | object | boolean): Validator;
  // end: of a schema
  /** How many bytes the module holds. After a call for which it took more than 16 MiB, a new instance with less takes its place soon. */
  readonly held: number;
}
// begin: of a schema

/** The functions of an instance, by a schema. */
export type Validator = Pick<Instance, 'check' | 'problem' | 'value' | 'isValid'>;
// end: of a schema

export interface Loading {
  /** Of a URL: 32 (if it is left out) loads the module whose name ends in `.32.wasm`. 64 loads the one beside it, with a memory of 64
   * bits. It is slower, and does not run everywhere. `wasm-opt` has no part in it. Another number throws a `RangeError`.
   */
  bits?: 32 | 64;
}

/** Loads the module of a URL, or the one beside this file, or takes its bytes, or one that is compiled. */
export function load(source?: string | URL | Uint8Array | ArrayBuffer | WebAssembly.Module, options?: Loading): Promise<Instance>;
