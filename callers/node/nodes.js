/**
 * The value of nodes, as order_check.c hands them over: each a kind and a mark, a length, and a number of 64 bits, in four numbers of 32
 * bits, behind a first one of which nothing is read here. All texts lie in one, whose units the offsets count.
 *
 * Objects are read by functions that are made for their names, in which V8 makes each object at once. There are at most 256 of them, of
 * names that came often and are identifiers. Where Node may make no function of a text, members are read one by one.
 */
'use strict';

const [WHOLE, TEXT, OBJECT] = [3, 6, 8];
const NO_BYTES = new Uint8Array(0);
const OFTEN = 16;
const MOST = 32;
const NAME = /^(?!__proto__$)[A-Za-z_][0-9A-Za-z_]*$/;
// Each where the number of members and the first name say: the names that came last, how often one after the other, and their function.
const shapes = Array.from({ length: 256 }, () => ({ names: [], times: 0, read: undefined, readAll: undefined }));
const NO_SHAPE = { names: [], times: OFTEN, read: undefined, readAll: undefined };
// Texts of at most four letters, each with a number that no other one has, where this says: most come again and again.
const short = Array.from({ length: 256 }, () => ({ number: -1, text: '' }));

/** A whole number, which is a BigInt where a number does not hold it. */
function whole(low, high, isNegative) {
  if (high < 2 ** 21) return isNegative ? -(high * 2 ** 32 + low) : high * 2 ** 32 + low;
  const size = (BigInt(high) << 32n) + BigInt(low);
  return isNegative ? -size : size;
}

/** A number that is not whole, or has more than 64 bits, or `-0`. */
function numberOf(text) {
  return /^-?[1-9]\d*$/.test(text) ? BigInt(text) : Number(text);
}

/** What reads the value at `at` into a variable: a text and a small number at once. */
function valueInto(variable) {
  return `kind = nodes[at] & 0xffff;
    if (kind === ${TEXT}) {
      ${variable} = nodes[at + 1] <= 4 ? reader.short(at) : text.slice(nodes[at + 2], nodes[at + 2] + nodes[at + 1]);
      at += 4;
    } else if (kind === ${WHOLE} && nodes[at + 3] === 0 && nodes[at + 2] >= 0) {
      ${variable} = nodes[at + 2];
      at += 4;
    } else {
      reader.next = at;
      ${variable} = reader.read();
      at = reader.next;
    }`;
}

/** What reads an object with these names, behind its node. From another name on it reads the members one by one, and ends so. */
function objectOf(names, end) {
  const made = names.map((name, n) => `${name}: value${n}`);
  const steps = names.map((name, n) => {
    const differs = Array.from(name, (it, i) => ` || bytes[from + ${i}] !== ${it.charCodeAt(0)}`).join('');
    return `from = nodes[at + 2];
      if ((nodes[at] & 0xffff) !== ${TEXT} || nodes[at + 1] !== ${name.length}${differs}) {
        reader.next = at;
        return ${end(`reader.members({ ${made.slice(0, n).join(', ')} }, ${names.length - n})`)};
      }
      at += 4;
      let value${n};
      ${valueInto(`value${n}`)}`;
  });
  return [steps.join('\n'), `{ ${made.join(', ')} }`];
}

/** Two functions: one reads an object with these names, and one the objects with so many members that follow in a list. */
function readersOf(names) {
  const begin = 'const { nodes, text, bytes } = reader; let at = reader.next, from, kind;';
  const [one, object] = objectOf(names, (it) => it);
  const [each, item] = objectOf(names, (it) => `made.push(${it})`);
  const read = new Function('reader', `${begin} ${one} reader.next = at; return ${object};`);
  const readAll = new Function('reader', 'made', 'count', `${begin}
    while (made.length < count && (nodes[at] & 0xff) === ${OBJECT} && nodes[at + 2] === ${names.length}) {
      at += 4;
      ${each}
      made.push(${item});
    }
    reader.next = at;`);
  return { read, readAll };
}

/** Takes down the names of an object, and makes a function for them where they came often. */
function learn(shape, made) {
  const names = Object.keys(made);
  const isSame = names.length === shape.names.length && names.every((it, n) => it === shape.names[n]);
  shape.names = names;
  shape.times = isSame ? shape.times + 1 : 1;
  if (shape.times < OFTEN || !names.every((it) => NAME.test(it))) return;
  try {
    Object.assign(shape, readersOf(names));
  } catch (error) {
    if (!(error instanceof EvalError)) throw error;
  }
}

/** Reads nodes one by one. Where the text is ASCII, `bytes` are those that it begins with, and else there are none. */
class Reader {
  constructor(nodes, text, bytes) {
    this.nodes = nodes;
    this.text = text;
    this.bytes = bytes;
    this.next = 4;
  }

  textAt(at) {
    const from = this.nodes[at + 2];
    return this.text.slice(from, from + this.nodes[at + 1]);
  }

  /** A text of at most four letters, of which a string is kept. */
  short(at) {
    const { nodes, bytes } = this;
    let number = nodes[at + 1];
    let from = nodes[at + 2];
    const end = from + number;
    if (end > nodes[1]) return this.textAt(at);
    while (from < end) number = number << 7 | bytes[from++];
    const kept = short[(number ^ number >> 9) & 255];
    if (kept.number !== number) {
      kept.number = number;
      kept.text = this.textAt(at);
    }
    return kept.text;
  }

  list(count) {
    const made = [];
    while (made.length < count) {
      const shape = (this.nodes[this.next] & 0xff) === OBJECT ? this.shapeAt(this.next + 4, this.nodes[this.next + 2]) : NO_SHAPE;
      if (shape.readAll !== undefined) shape.readAll(this, made, count);
      else made.push(this.read());
    }
    return made;
  }

  /** What is known of an object with so many members, the first of which is there. */
  shapeAt(at, count) {
    const shape = shapes[(count * 31 + this.nodes[at + 1] * 7 + this.bytes[this.nodes[at + 2]]) & 255];
    return shape.read === undefined || shape.names.length === count ? shape : NO_SHAPE;
  }

  /** Reads so many members into an object. */
  members(made, count) {
    for (let n = 0; n < count; n++) {
      const name = this.textAt(this.next);
      this.next += 4;
      // Else a name of `Object.prototype` would be set there.
      if (name in made) Object.defineProperty(made, name, { value: this.read(), configurable: true, enumerable: true, writable: true });
      else made[name] = this.read();
    }
    return made;
  }

  object(count) {
    const shape = this.shapeAt(this.next, count);
    if (shape.read !== undefined) return shape.read(this);
    const made = this.members({}, count);
    if (shape.times < OFTEN && count !== 0 && count <= MOST) learn(shape, made);
    return made;
  }

  read() {
    const { nodes, next: at } = this;
    this.next = at + 4;
    switch (nodes[at] & 0xff) {
      case 0: return null;
      case 1: return false;
      case 2: return true;
      case 3: return whole(nodes[at + 2] >>> 0, nodes[at + 3] >>> 0, false);
      case 4: return whole(nodes[at + 2] >>> 0, nodes[at + 3] >>> 0, true);
      case 5: return numberOf(this.textAt(at));
      case 6: return this.textAt(at);
      case 7: return this.list(nodes[at + 2]);
      default: return this.object(nodes[at + 2]);
    }
  }
}

/** The value of nodes. The text begins with these bytes where they are ASCII, as the second number of the first node says. */
function valueOf(nodes, text, body) {
  return new Reader(nodes, text, nodes[1] === 0 ? NO_BYTES : body).read();
}

/** The faults of nodes of problem details, whose last member they are. Each has its members in this order. */
function faultsOf(nodes, text) {
  const reader = new Reader(nodes, text, NO_BYTES);
  const members = nodes[6];
  const list = 4 + 8 * members;
  const faults = [];
  reader.next = list + 4;
  while (faults.length < nodes[list + 2]) {
    const at = reader.next;
    reader.next = at + 32;
    faults.push({ pointer: reader.textAt(at + 8), detail: reader.textAt(at + 16), code: reader.textAt(at + 24), params: reader.read() });
  }
  return Object.defineProperty(faults, 'more', { value: members > 3 });
}

module.exports = { faultsOf, valueOf };
