// MultihashError, which index.d.ts documents, and the functions that choose its message.
import * as format from './format.js';
import * as texts from './statuses.js';

const ALL = [...texts.STATUSES.slice(1), 'not_hexadecimal'];

/** Returns what JSON.stringify accepts: a bigint as decimal text, a number as it is. */
export const forJSON = (number) => (typeof number === 'bigint' ? `${number}` : number);

export class MultihashError extends Error {
  constructor(message, details) {
    const { status, size, code, consumed } = { __proto__: null, ...details };
    const fields = { status, size, code, consumed };
    super(message, { cause: fields }); // `structuredClone` keeps the cause, and drops other fields
    Object.assign(this, fields);
  }

  toJSON() {
    const { name, message, status, size, code, consumed } = this;
    return { name, message, status, size: forJSON(size), code: forJSON(code), consumed };
  }

  static from(value) {
    if (value instanceof MultihashError) return value;
    const cause = value?.cause;
    return ALL.includes(cause?.status) ? new MultihashError(value.message, cause) : undefined;
  }

  get isIncomplete() {
    return texts.INCOMPLETE.includes(this.status);
  }
}
MultihashError.prototype.name = 'MultihashError'; // a static block would need Safari 16.4

/** The message for a varint that is too long or not minimal; `varint` names it. */
const malformed = (varint, status) => (status === 'overflow' ? texts.overflow(varint) : texts.notMinimal(varint));

/** The message for bytes that, from the index `at` on, are not a multihash with a digest of at most `limit` bytes. */
function reasonOf(status, bytes, at, end, limit) {
  const { size, next } = format.head(bytes, at, end);
  const rest = end - next;
  if (status === 'unexpected_eof') return texts.truncated('digest', rest, size);
  if (size > limit) return texts.tooLong('digest', size, limit);
  if (status === 'invalid_size') return texts.trailing(rest - size);
  const code = format.readVarint(bytes, at, end);
  const name = code.status === 'ok' ? "digest's length" : 'code';
  if (status !== 'insufficient') return malformed(`varint of the ${name}`, status);
  if (at === end) return texts.empty();
  return texts.ends(code.status === 'ok' && code.next === end ? 'before' : 'inside', name);
}

/** The error for a result of format.js about the bytes from an index on. Its size is 0 unless that is invalid. */
export function errorOf({ status, size, next }, bytes, at, end, limit) {
  const details = { status, size: size || undefined, consumed: next - at };
  return new MultihashError(reasonOf(status, bytes, at, end, limit), details);
}

/** The message for an input of `length` bytes that does not start with a varint. */
export function varintReasonOf(status, length) {
  if (status !== 'insufficient') return malformed('varint', status);
  return length === 0 ? texts.empty() : texts.ends('inside', 'varint');
}

/** The message for an invalid frame in the bytes before `end`; `limit` is the maximum length of a frame. */
export function frameReasonOf({ status, size, next }, end, limit) {
  if (status === 'invalid_size') return texts.tooLong('frame', size, limit);
  return status === 'unexpected_eof' ? texts.truncated('frame', end - next, size) : varintReasonOf(status, end);
}

/** The message for an input of `length` bytes that does not start with a SCALE encoding. */
export function scaleReasonOf({ status, code }, input, length) {
  if (status === 'invalid_code') return texts.tooLarge('code', code);
  if (length === 0) return texts.empty();
  if (length < 8) return texts.truncated('code', length, 8);
  if (length === 8) return texts.ends('before', "digest's length");
  return texts.truncated('digest', length - 9, input[8]);
}
