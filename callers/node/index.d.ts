/**
 * Checks bodies in JSON by a library in C that was proved, and reports every fault.
 *
 * The functions are synchronous, and may be called by any number of worker threads. The bytes of a body are read where they
 * lie, but for those in shared memory, of which a copy is made. Each function throws an `Error` with the code
 * `ERR_MEMORY_ALLOCATION_FAILED` where memory runs out, and a `TypeError` where a body is no `Uint8Array`.
 */

/** A fault of a body. */
export interface Fault {
  /** The JSON Pointer (RFC 6901) of the value with the fault; of a member that is missing, where it would be. */
  readonly pointer: string;
  /** A sentence in the language that was asked for. */
  readonly detail: string;
  /** The kind of the fault, the same in each language. */
  readonly code: string;
  /** What the sentence says of the rule, by name, as `{ min: '1' }`. */
  readonly params: Readonly<Record<string, string>>;
  /** Where it is in the body, from 1 on, if places were asked for: of an unknown or a repeated member its name, and else its value. */
  readonly line?: number;
  /** In characters from 1 on. A byte order mark is not counted. */
  readonly column?: number;
}

/** The faults of a body, which are none where it is valid. */
export interface Faults extends Array<Fault> {
  /** Whether the body has more faults than were asked for. */
  readonly more: boolean;
}

export interface Options {
  /** How many faults are reported at most: all, where it is left out. A number less than 1 throws a `RangeError`. */
  most?: number;
  /** The tag of the language of the sentences. Where the library does not know it they are English. */
  language?: string;
  /** Whether `check` says where in the body each fault is. */
  places?: boolean;
}

/** The `status` of a problem whose body has faults. */
export const FAULTS: 1;
/** The `status` of a problem whose bytes are no JSON text. */
export const NO_JSON: 2;

/** What is wrong with a body, for a service that hands it on. */
export interface Problem {
  readonly status: typeof FAULTS | typeof NO_JSON;
  /** The status of an HTTP response with the details, which is their member `status`. */
  readonly httpStatus: 422 | 400;
  /** Problem details (RFC 9457): JSON of the media type `application/problem+json`, with a member for each fault in `errors`. */
  readonly details: Buffer;
}

/** The bytes are no JSON text. The message has the reason, with line and column. */
export class NotJsonError extends SyntaxError {
  /** Problem details (RFC 9457) that say so. */
  readonly details: Buffer;
}

/** The body has faults, so it has no value. The message has the first one. */
export class FaultsError extends Error {
  readonly faults: Faults;
}

/** The faults of a body. Throws a `NotJsonError` where the bytes are no JSON text. */
export function check(body: Uint8Array, options?: Options): Faults;

/** What is wrong with a body, or null where it is valid. Bytes that are no JSON text have a problem as well. */
export function problem(body: Uint8Array, options?: Options): Problem | null;

/** The value of a valid body, as `JSON.parse` makes it, but for whole numbers that a `number` does not hold: those are of the type
 * `bigint`. So no second reader is needed. Throws a `FaultsError` where the body has faults, and a `NotJsonError` where it is no JSON
 * text. `T` is what you state of your type: nothing compares it with what the library checks.
 */
export function value<T = unknown>(body: Uint8Array, options?: Options): T;

/** Whether a body is valid. Bytes that are no JSON text are not. Reading ends at the first fault. */
export function isValid(body: Uint8Array): boolean;

/**
 * Checks bodies in room of its own, which it keeps from one body to the next however large they are. The functions of the
 * module keep room too, but free that of a body of more than 1 MiB, or of details of more than 4 MiB.
 */
export class Checker {
  /** Does what the function `check` does. */
  check(body: Uint8Array, options?: Options): Faults;
  /** Does what the function `problem` does. */
  problem(body: Uint8Array, options?: Options): Problem | null;
  /** Does what the function `value` does. */
  value<T = unknown>(body: Uint8Array, options?: Options): T;
  /** Frees the room now, and not when the checker is collected. A later call makes new room. */
  close(): void;
}
// begin: of a schema

/** Checks bodies by a JSON Schema, as a checker does. The functions of the module judge schemas. */
export class Validator extends Checker {
  /**
   * Keeps a copy of a schema, which is the bytes of one or what `JSON.stringify` makes them of. Throws a `FaultsError` where it has
   * faults, with the place of each, and a `NotJsonError` where the bytes are no JSON text.
   */
  constructor(schema: Uint8Array | object | boolean);
  /** Says whether a body meets the schema. Reading ends at the first fault. */
  isValid(body: Uint8Array): boolean;
}
// end: of a schema
