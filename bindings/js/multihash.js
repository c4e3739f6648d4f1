// The class Multihash, and the functions that decode and compare multihashes. index.d.ts documents what is public.
import { checkedLength, checkedWide, copyOf, isBytes, received, shown, wrongType } from './arguments.js';
import { hex, unhex } from './bases.js';
import { checkPair, encode } from './core.js';
import { MultihashError, errorOf, forJSON, scaleReasonOf } from './errors.js';
// not as a namespace, over which `decode` takes a tenth longer in V8 11
import { compare as compareParts, compareBytes, decode as decodeWhole, read as readPrefix } from './format.js';
import { scaleDecode as scaleDecodePrefix } from './format.js';
import { DIGEST_MAX } from './limits.js';

/** The first argument of the constructors. It is not exported by the package, so its users call `of`, which checks. */
export const MAKING = Symbol('making');

export class Multihash {
  constructor(making, code, digest) {
    if (making !== MAKING) throw new TypeError('Multihash.of(code, digest) makes a multihash');
    // the fields are not frozen: that would double the time of `decode`
    this.code = code;
    this.size = digest.length;
    this.digest = digest;
  }

  static of(code, digest) {
    const length = checkedLength(digest, 'digest');
    const number = checkedWide(code, 'code');
    checkPair(number, length);
    const copy = new Uint8Array(digest);
    // shared memory may have grown
    return new Multihash(MAKING, number, copy.length === length ? copy : copy.slice(0, length));
  }

  static fromHex(text) {
    return decode(unhex(text));
  }

  static fromJSON(json) {
    if (typeof json !== 'object' || json === null) throw wrongType('json', 'an object', json);
    const { code, size, digest } = json;
    const bytes = unhex(digest, 'digest');
    if (size !== undefined && size !== bytes.length)
      throw new RangeError(`size must be ${bytes.length}, the length of the digest, got ${received(size)}`);
    const isText = typeof code === 'string' && /^\d+$/.test(code);
    // a number of 64 bits has at most 20 digits, and converting a long text takes long
    if (isText && code.length > 20) throw new RangeError(`code must be from 0 to 2^63 - 1, got ${shown(code)}`);
    return Multihash.of(isText ? BigInt(code) : code, bytes);
  }

  get bytes() {
    return encode(this.code, this.digest);
  }

  get digestHex() {
    return hex(checkedDigest(this, 'this multihash'));
  }

  toString() {
    return hex(this.bytes);
  }

  toJSON() {
    return { code: forJSON(this.code), size: this.size, digest: this.digestHex };
  }

  /** Returns what console.log shows in Node.js. */
  [Symbol.for('nodejs.util.inspect.custom')]() {
    const digest = this.digest.length === this.size ? this.digestHex || 'empty' : 'detached';
    return `Multihash(0x${this.code.toString(16)}, ${digest})`;
  }

  equals(other) {
    const digest = checkedDigest(this, 'this multihash');
    if (!isBytes(other?.digest) || (typeof other.code !== 'number' && typeof other.code !== 'bigint')) return false;
    const length = checkedLength(other.digest, 'the other digest');
    // a number and a bigint of the same value are the same code
    if (other.code != this.code || length !== digest.length) return false;
    return compareBytes(digest, other.digest, length) === 0;
  }

  narrow() {
    if (typeof this.code !== 'number') throw new RangeError(`the code ${this.code} is 2^53 or more, so it is a bigint`);
    return this;
  }
}

/** Returns the multihash that format.js decoded from the bytes. Its digest is a copy. */
export const multihashFrom = (bytes, { code, size, next }) =>
  new Multihash(MAKING, code, copyOf(bytes, next - size, next));

export function decode(bytes) {
  const length = checkedLength(bytes, 'bytes');
  const result = decodeWhole(bytes, length);
  if (result.status !== 'ok') throw errorOf(result, bytes, 0, length, DIGEST_MAX);
  return multihashFrom(bytes, result);
}

/** Returns the maximum length of a digest for the argument `limit`, which may be larger. */
export const checkedLimit = (limit) => Math.min(Number(checkedWide(limit, 'limit')), DIGEST_MAX);

export function read(bytes, limit) {
  const maximum = limit === undefined ? DIGEST_MAX : checkedLimit(limit);
  const length = checkedLength(bytes, 'bytes');
  const result = readPrefix(bytes, 0, length, maximum);
  if (result.status !== 'ok') throw errorOf(result, bytes, 0, length, maximum);
  return { multihash: multihashFrom(bytes, result), consumed: result.next };
}

export function scaleDecode(bytes) {
  const length = checkedLength(bytes, 'bytes');
  const result = scaleDecodePrefix(bytes, length);
  const { status, code, next } = result;
  if (status === 'ok') return { multihash: multihashFrom(bytes, result), consumed: next };
  throw new MultihashError(scaleReasonOf(result, bytes, length), { status, code: code || undefined, consumed: next });
}

/** Returns the digest of a Multihash. Throws a TypeError if its length has changed. */
function checkedDigest({ digest, size }, name) {
  if (digest.length !== size) throw new TypeError(`the digest of ${name} is detached or was replaced`);
  return digest;
}

export function compare(left, right) {
  if (!(left instanceof Multihash)) throw wrongType('left', 'a Multihash', left);
  if (!(right instanceof Multihash)) throw wrongType('right', 'a Multihash', right);
  const leftDigest = checkedDigest(left, 'left');
  const rightDigest = checkedDigest(right, 'right');
  return compareParts(left.code, leftDigest, left.size, right.code, rightDigest, right.size);
}
