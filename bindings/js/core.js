// The public functions over bytes and numbers, which index.d.ts documents: they check the arguments, call format.js,
// and throw an error if that fails.
import { checkedLength, checkedWide, viewOf, wrongType } from './arguments.js';
import { MultihashError, errorOf, varintReasonOf } from './errors.js';
import * as format from './format.js';
import { DIGEST_MAX } from './limits.js';
import { tooLarge, tooLong } from './statuses.js';

/** Throws an error if a code and a digest of `length` bytes have no encoding. */
export function checkPair(code, length) {
  const status = format.encodingStatus(code, length);
  if (status !== 'ok') throw encodingError(status, code, length); // engines inline a short function
}

function encodingError(status, code, length) {
  if (status === 'invalid_code') return new MultihashError(tooLarge('code', code), { status, code });
  return new MultihashError(tooLong('digest', length, DIGEST_MAX), { status, size: length });
}

export function encode(code, digest) {
  const number = checkedWide(code, 'code');
  const length = checkedLength(digest, 'digest');
  checkPair(number, length);
  return format.encode(number, digest, length);
}

export function scaleEncode(code, digest) {
  const number = checkedWide(code, 'code');
  const length = checkedLength(digest, 'digest');
  checkPair(number, length);
  return format.scaleEncode(number, digest, length);
}

export function encodedLength(code, digestLength) {
  const number = checkedWide(code, 'code');
  const length = checkedWide(digestLength, 'digestLength');
  checkPair(number, length);
  return format.encodedLength(number, length);
}

export function head(bytes) {
  const length = checkedLength(bytes, 'bytes');
  const result = format.head(bytes, 0, length);
  if (result.status !== 'ok') throw errorOf(result, bytes, 0, length, DIGEST_MAX);
  return { code: result.code, digestLength: result.size, consumed: result.next };
}

// ---- varints

/** Returns a value that has a varint. Throws an error if it is 2^63 or more. */
function checkedValue(value) {
  const number = checkedWide(value, 'value');
  if (number < 2 ** 63) return number;
  throw new MultihashError(tooLarge('value', value), { status: 'overflow' });
}

export function encodeVarint(value) {
  const number = checkedValue(value);
  const bytes = new Uint8Array(format.varintLength(number));
  format.writeVarint(number, bytes, 0);
  return bytes;
}

export function writeVarint(value, bytes, at = 0) {
  const room = checkedLength(bytes, 'bytes');
  const number = checkedValue(value);
  const length = format.varintLength(number);
  if (typeof at !== 'number') throw wrongType('at', 'a number', at);
  if (!Number.isInteger(at) || at < 0 || length > room - at)
    throw new RangeError(`at must be an index with room for ${length} more in bytes, got ${at} of ${room}`);
  format.writeVarint(number, bytes, at);
  return length;
}

export function readVarint(bytes) {
  const length = checkedLength(bytes, 'bytes');
  const { status, value, next } = format.readVarint(bytes, 0, length);
  if (status !== 'ok') throw new MultihashError(varintReasonOf(status, length), { status });
  return { value, consumed: next };
}

// ---- many multihashes

/** Returns new columns with this capacity. They start with the rows of others, as many as fit. */
function columnsOf(capacity, others = {}) {
  const codes = new BigUint64Array(capacity);
  const halves = new Uint32Array(codes.buffer); // each code in two parts, for `setCode`
  const columns = { codes, offsets: new Float64Array(capacity), lengths: new Uint8Array(capacity) };
  for (const name in columns) if (others[name]) columns[name].set(others[name].subarray(0, capacity));
  return { ...columns, halves };
}

// The index of the low half of 64 bits: the platform's byte order decides.
const LOW_HALF = new Uint8Array(Uint32Array.of(1).buffer)[0] === 1 ? 0 : 1;

/** Sets a code that was 0. Below 2^32 only the low half is written, since making a bigint would double the time. */
function setCode({ codes, halves }, index, code) {
  if (code < 2 ** 32) halves[2 * index + LOW_HALF] = code;
  else codes[index] = BigInt(code);
}

export function readMany(bytes) {
  const length = checkedLength(bytes, 'bytes');
  const view = viewOf(bytes, 0, length);
  // the capacity at first: enough if each encoding has 34 bytes, but at most a million
  let columns = columnsOf(Math.min(Math.ceil(length / 34), 2 ** 20));
  let consumed = 0;
  let count = 0;
  let error;
  while (consumed < length) {
    const result = format.read(view, consumed, length, DIGEST_MAX);
    const { status, code, size, next } = result;
    if (status !== 'ok') {
      error = errorOf(result, view, consumed, length, DIGEST_MAX);
      break;
    }
    if (count === columns.lengths.length) columns = columnsOf(2 * count, columns);
    setCode(columns, count, code);
    columns.offsets[count] = next - size;
    columns.lengths[count] = size;
    consumed = next;
    count++;
  }
  const { codes, offsets, lengths } = count < columns.lengths.length ? columnsOf(count, columns) : columns;
  return { codes, offsets, lengths, consumed, error };
}
