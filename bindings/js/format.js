// The format: decodes, encodes and compares bytes. Each function that is exported is checked for all inputs, by
// proof/check_js.py of the repository. The public function of the same name checks the arguments and throws errors.
//
// Bytes are a Uint8Array, whose length is a separate argument, since a subclass may redefine `length`. Codes, sizes and
// the values of varints are numbers up to 2^53 - 1, where numbers are exact, and bigints above.
import { DIGEST_MAX, VARINT_LENGTH_MAX } from './limits.js';

// ---- numbers of up to 64 bits, in two parts, each of which is exact as a number

// Each byte of a varint has seven bits of its value, the lowest first: the first seven bytes have the low part, the
// last two the high part.
const LOW_BYTES = 7;
const LOW_BITS = 49;

/** Returns low + high * 2^bits. */
function joined(low, high, bits) {
  if (high < 2 ** (53 - bits)) return low + high * 2 ** bits;
  return BigInt(low) + (BigInt(high) << BigInt(bits));
}

/** Returns the lowest bits of a number or a bigint. */
const lowPart = (value, bits) =>
  typeof value === 'number' ? value % 2 ** bits : Number(BigInt.asUintN(bits, value));

/** Returns the bits above the lowest ones. */
const highPart = (value, bits) =>
  typeof value === 'number' ? Math.floor(value / 2 ** bits) : Number(value >> BigInt(bits));

// ---- decoding
// A result has a status, and `next`, the index after the bytes that were consumed, for an error too. A digest that was
// read ends at `next`. The other fields of an error are 0, except a size or a code that is invalid. The public
// functions return `consumed` instead, the number of bytes.

/** Reads the varint that starts at an index, of the bytes before `end`. */
export function readVarint(bytes, at, end) {
  const stop = Math.min(end, at + VARINT_LENGTH_MAX);
  const middle = at + LOW_BYTES;
  let low = 0;
  let high = 0;
  let weight = 1; // the weight of the byte within its part
  for (let index = at; index < stop; index++) {
    const byte = bytes[index];
    if (byte === 0 && index > at) return { status: 'not_minimal', value: 0, next: index + 1 };
    if (index === middle) weight = 1;
    if (index < middle) low += (byte & 127) * weight;
    else high += (byte & 127) * weight;
    if (byte < 128) return { status: 'ok', value: high === 0 ? low : joined(low, high, LOW_BITS), next: index + 1 };
    weight *= 128;
  }
  return { status: stop < at + VARINT_LENGTH_MAX ? 'insufficient' : 'overflow', value: 0, next: stop };
}

const failed = (status, next) => ({ status, code: 0, size: 0, next });

/** Reads the two varints before a digest: a code, and the digest's size. */
export function head(bytes, at, end) {
  if (end - at >= 2) {
    const first = bytes[at];
    const second = bytes[at + 1];
    // the usual case
    if (first < 128 && second < 128) return { status: 'ok', code: first, size: second, next: at + 2 };
  }
  const code = readVarint(bytes, at, end);
  if (code.status !== 'ok') return failed(code.status, code.next);
  const size = readVarint(bytes, code.next, end);
  if (size.status !== 'ok') return failed(size.status, size.next);
  return { status: 'ok', code: code.value, size: size.value, next: size.next };
}

/** Reads the multihash that starts at an index, with a digest of at most `limit` bytes. */
export function read(bytes, at, end, limit) {
  const { status, code, size, next } = head(bytes, at, end);
  if (status !== 'ok') return failed(status, next);
  if (size > limit) return { status: 'invalid_size', code: 0, size, next };
  if (end - next < size) return failed('unexpected_eof', next);
  return { status: 'ok', code, size, next: next + size };
}

/** Decodes the multihash whose encoding is all of the bytes. */
export function decode(bytes, length) {
  const result = read(bytes, 0, length, DIGEST_MAX);
  const { status, size, next } = result;
  if (status !== 'ok') return { status, code: 0, size, next: length };
  if (next < length) return { status: 'invalid_size', code: 0, size: length - next, next: length };
  return result;
}

const wordAt = (bytes, at) => bytes[at] + bytes[at + 1] * 2 ** 8 + bytes[at + 2] * 2 ** 16 + bytes[at + 3] * 2 ** 24;

/** Reads the multihash whose SCALE encoding the bytes start with. */
export function scaleDecode(bytes, length) {
  if (length < 8) return failed('unexpected_eof', 0);
  const high = wordAt(bytes, 4);
  const code = joined(wordAt(bytes, 0), high, 32);
  if (high >= 2 ** 31) return { status: 'invalid_code', code, size: 0, next: 8 };
  if (length === 8) return failed('unexpected_eof', 8);
  const size = bytes[8];
  if (length - 9 < size) return failed('unexpected_eof', 9);
  return { status: 'ok', code, size, next: 9 + size };
}

// ---- encoding
// All functions but `encodingStatus` require a code and a size for which it returns 'ok'.

/** Returns the status of encoding a code of up to 64 bits and a digest of that size. */
export function encodingStatus(code, size) {
  if (size > DIGEST_MAX) return 'invalid_size';
  return typeof code === 'number' || code < 2 ** 63 ? 'ok' : 'invalid_code';
}

/** Returns the length of the varint of a number below 2^63. */
export function varintLength(value) {
  if (typeof value === 'bigint') return LOW_BYTES + varintLength(highPart(value, LOW_BITS));
  let length = 1;
  for (let limit = 128; value >= limit; limit *= 128) length++;
  return length;
}

/** Writes the varint of a number below 2^63 at an index of bytes that have room for it. Returns the index after it. */
export function writeVarint(value, bytes, at) {
  let index = at;
  let rest = value;
  if (typeof value === 'bigint') {
    let low = lowPart(value, LOW_BITS);
    for (; index < at + LOW_BYTES; index++) {
      bytes[index] = (low & 127) + 128;
      low = Math.floor(low / 128);
    }
    rest = highPart(value, LOW_BITS);
  }
  for (; rest >= 128; index++) {
    bytes[index] = (rest & 127) + 128;
    rest = Math.floor(rest / 128);
  }
  bytes[index] = rest;
  return index + 1;
}

/** Returns the length of the encoding of a code and a digest of that size. */
export const encodedLength = (code, size) => varintLength(code) + varintLength(size) + size;

/** Returns the encoding of a code and a digest of that size. */
export function encode(code, digest, size) {
  const bytes = new Uint8Array(encodedLength(code, size));
  bytes.set(digest, writeVarint(size, bytes, writeVarint(code, bytes, 0)));
  return bytes;
}

function writeWord(word, bytes, at) {
  for (let index = 0; index < 4; index++) bytes[at + index] = (word >>> (8 * index)) & 255;
}

/** Returns the SCALE encoding of a code and a digest of that size. */
export function scaleEncode(code, digest, size) {
  const bytes = new Uint8Array(9 + size);
  writeWord(lowPart(code, 32), bytes, 0);
  writeWord(highPart(code, 32), bytes, 4);
  bytes[8] = size;
  bytes.set(digest, 9);
  return bytes;
}

// ---- order

/** Returns the order of two multihashes, -1, 0 or 1: by code, by size, and by the first digest byte that differs. */
export function compare(leftCode, left, leftSize, rightCode, right, rightSize) {
  if (leftCode !== rightCode) return leftCode < rightCode ? -1 : 1;
  if (leftSize !== rightSize) return leftSize < rightSize ? -1 : 1;
  return compareBytes(left, right, leftSize);
}

/** Returns the order of two arrays of that length by the first byte that differs: -1, 0 or 1. */
export function compareBytes(left, right, length) {
  for (let index = 0; index < length; index++)
    if (left[index] !== right[index]) return left[index] < right[index] ? -1 : 1;
  return 0;
}
