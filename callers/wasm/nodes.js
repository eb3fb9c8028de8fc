/** The value of nodes, as order.h has them: a kind and a mark, a length, and a number of 64 bits, in four numbers of 32 bits. */
const decoder = new TextDecoder('utf-8', { ignoreBOM: true });
// Names of members that came before, each where its length and its first letter say: most come again and again.
const names = new Array(256).fill('');

/** Where texts lie: bytes, and the text that they are, where that is ASCII. */
export class Texts {
  constructor(bytes, text = decoder.decode(bytes)) {
    this.bytes = bytes;
    this.text = text;
    this.isPlain = text.length === bytes.length;
  }

  at(from, length) {
    if (this.isPlain) return this.text.slice(from, from + length);
    return length === 0 ? '' : decoder.decode(this.bytes.subarray(from, from + length));
  }

  /** The name of a member. */
  name(from, length) {
    if (!this.isPlain) return this.at(from, length);
    const place = (length * 31 + this.text.charCodeAt(from)) & 255;
    const kept = names[place];
    if (kept.length === length && length !== 0 && this.text.startsWith(kept, from)) return kept;
    return (names[place] = this.at(from, length));
  }
}

/** A whole number, which is a BigInt where a number does not hold it. */
function whole(low, high, isNegative) {
  if (high < 2 ** 21) return isNegative ? -(high * 2 ** 32 + low) : high * 2 ** 32 + low;
  const size = (BigInt(high) << 32n) + BigInt(low);
  return isNegative ? -size : size;
}

/** A number that is not whole, or has more than 64 bits, or `-0`. */
function numberOf(text) {
  return /^-?[1-9]\d*$/.test(text) ? BigInt(text) : Number(text);
}

/** Reads the nodes of a value one by one, from where its texts without an escape lie, and those with one. */
export class Reader {
  constructor(nodes, plain, escaped) {
    this.nodes = nodes;
    this.plain = plain;
    this.escaped = escaped;
    this.next = 0;
  }

  textsAt(at) {
    return this.nodes[at] & 0xff00 ? this.escaped : this.plain;
  }

  text(at) {
    return this.textsAt(at).at(this.nodes[at + 2], this.nodes[at + 1]);
  }

  list(count) {
    const made = [];
    for (let n = 0; n < count; n++) made.push(this.read());
    return made;
  }

  /** Reads so many members into an object. */
  members(made, count) {
    for (let n = 0; n < count; n++) {
      const at = this.next;
      this.next += 4;
      const name = this.textsAt(at).name(this.nodes[at + 2], this.nodes[at + 1]);
      // Else it would set the prototype.
      if (name === '__proto__') Object.defineProperty(made, name, { value: this.read(), configurable: true, enumerable: true, writable: true });
      else made[name] = this.read();
    }
    return made;
  }

  object(count) {
    return this.members({}, count);
  }

  read() {
    const at = this.next;
    this.next += 4;
    switch (this.nodes[at] & 0xff) {
      case 0: return null;
      case 1: return false;
      case 2: return true;
      case 3: return whole(this.nodes[at + 2], this.nodes[at + 3], false);
      case 4: return whole(this.nodes[at + 2], this.nodes[at + 3], true);
      case 5: return numberOf(this.text(at));
      case 6: return this.text(at);
      case 7: return this.list(this.nodes[at + 2]);
      default: return this.object(this.nodes[at + 2]);
    }
  }
}

/** The value of nodes. */
export function valueOf(nodes, plain, escaped) {
  return new Reader(nodes, plain, escaped).read();
}
