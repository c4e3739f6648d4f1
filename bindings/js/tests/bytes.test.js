// Calls over bytes: the test vectors, in arrays of each kind; varints, heads, lengths, and many multihashes at once.
import assert from 'node:assert/strict';
import { test } from 'node:test';
import { Multihash, MultihashError, compare, decode, encode, encodeVarint, encodedLength, head, read, readMany,
  readVarint, scaleDecode, scaleEncode, writeVarint } from '../index.js';
import { KINDS, hex, outcome, rowsOf, unhex } from './support.js';

/** The result of a call as a row has it, and the multihash or the error. */
function described(call) {
  const result = outcome(call);
  const { status, size, code, consumed, multihash = result } = result;
  if (result instanceof MultihashError) return [[status, size ?? code ?? []].flat().join(' '), result, consumed];
  return [`pair ${multihash.code} ${hex(multihash.digest) || '-'}`, multihash, consumed];
}

/** Compares the result of a call that decodes the start of its input, and the number of bytes that it consumed. */
function consumes(call, wanted, wantedConsumed, row) {
  const [words, result, consumed] = described(call);
  assert.equal(words, wanted, row.input);
  if (result.isIncomplete) assert.equal(wantedConsumed, '-', row.input); // more input can change the result
  else assert.equal(consumed, Number(wantedConsumed), row.input);
}

/** Whether the result with a limit is the result with 255 too. */
const isForAll = (verdict, limit) =>
  limit >= 255 || !verdict.startsWith('invalid_size') || BigInt(verdict.slice(13)) > 255n;

test('vectors of decoding', () => {
  for (const [index, row] of rowsOf('verdicts').entries()) {
    const kind = KINDS[index % KINDS.length];
    const data = unhex(row.input);
    const limit = Number(row.S);
    // bytes that follow do not change the result
    const more = row.read_consumed === '-' ? data : Uint8Array.of(...data, ...new Uint8Array(400));
    consumes(() => (limit === 255 ? read(kind(more)) : read(kind(more), limit)), row.read, row.read_consumed, row);
    if (isForAll(row.scale_decode, limit))
      consumes(() => scaleDecode(kind(data)), row.scale_decode, row.scale_consumed, row);
    if (!isForAll(row.read, limit)) continue;
    const [words, result] = described(() => decode(kind(data)));
    assert.equal(words, row.from_bytes, row.input);
    if (result instanceof MultihashError) assert.equal(result.consumed, data.length, row.input);
    else assert.equal(`${result}`, row.input);
  }
});

/** The encoding as a row has it, or the error. */
function valueOf(call) {
  const result = outcome(call);
  return result instanceof MultihashError ? `${result.status} ${result.size ?? result.code}` : hex(result);
}

test('vectors of encoding, and of order', () => {
  for (const { kind, limit, code, digest, encoding, scale } of rowsOf('values')) {
    const bytes = unhex(digest);
    if (kind === 'order') {
      const [left, right] = [Multihash.of(BigInt(limit), unhex(code)), Multihash.of(BigInt(digest), unhex(encoding))];
      assert.equal(compare(left, right), Number(scale), `${left} ${right}`);
      assert.equal(left.equals(right), scale === '0', `${left} ${right}`);
    } else if (bytes.length <= Number(limit) || bytes.length > 255) { // the encoders have the limit 255
      for (const call of [encode, (...pair) => Multihash.of(...pair).bytes])
        assert.equal(valueOf(() => call(BigInt(code), bytes)), encoding);
      assert.equal(valueOf(() => scaleEncode(BigInt(code), bytes)), scale);
    }
  }
});

/** The calls that reject the input of a row with its message. */
function callsOf({ call, limit, input, status }) {
  const bytes = unhex(input);
  if (call === 'scale_decode') return [() => scaleDecode(bytes)];
  const calls = call === 'read' ? [() => read(bytes, BigInt(limit))] : [];
  if (limit === '255') calls.push(() => decode(bytes));
  if (['insufficient', 'overflow', 'not_minimal'].includes(status)) calls.push(() => head(bytes));
  return calls;
}

test('vectors of messages', () => {
  for (const row of rowsOf('messages')) {
    const { status, message } = row;
    for (const call of callsOf(row)) assert.throws(call, { name: 'MultihashError', status, message });
  }
  const longest = Uint8Array.of(1, 255, 1, ...new Uint8Array(255));
  assert.throws(() => decode(Uint8Array.of(...longest, 7)), { message: '1 byte follows the multihash' });
});

const joined = (...parts) => Uint8Array.from(parts.flatMap((part) => [...part]));

// The varint of a number is checked for all numbers: these are the shortest and the longest, a number and a bigint.
const VARINTS = [[0, '00'], [127, '7f'], [128, '8001'], [2 ** 53 - 1, 'ffffffffffffff0f'],
  [2n ** 53n, '8080808080808010'], [2n ** 63n - 1n, 'ffffffffffffffff7f']];

test('varints of each kind of number, in memory of each kind', () => {
  for (const [value, text] of VARINTS) {
    const varint = unhex(text);
    assert.deepEqual([hex(encodeVarint(value)), hex(encodeVarint(BigInt(value)))], [text, text]);
    for (const kind of KINDS) {
      const bytes = kind(new Uint8Array(12).fill(0xee));
      assert.equal(writeVarint(value, bytes, 2), varint.length);
      assert.equal(hex([...bytes]), `eeee${text}`.padEnd(24, 'e'));
      assert.deepEqual(readVarint(kind(joined(varint, [0x81]))), { value, consumed: varint.length });
    }
    for (let cut = 0; cut < varint.length; cut++) {
      const message = cut === 0 ? 'the input is empty' : 'the input ends inside the varint';
      assert.throws(() => readVarint(varint.subarray(0, cut)), { name: 'MultihashError', message, isIncomplete: true });
    }
  }
  assert.equal(encodeVarint(5).buffer.byteLength, 1);
  const bytes = new Uint8Array(2); // exactly enough for the varint
  assert.deepEqual([writeVarint(300, bytes), hex(bytes)], [2, 'ac02']);
});

test('malformed varints, numbers that have none, and where none fits', () => {
  for (const [text, status, message] of [['ff'.repeat(9), 'overflow', 'the varint has more than nine bytes'],
    ['8000', 'not_minimal', 'the varint is not minimal: it ends in a zero byte']])
    assert.throws(() => readVarint(unhex(text)), { status, message, isIncomplete: false, consumed: undefined });
  const bytes = new Uint8Array(3);
  for (const call of [encodeVarint, (value) => writeVarint(value, bytes)])
    assert.throws(() => call(2n ** 63n), { status: 'overflow', message: `the value ${2n ** 63n} is 2^63 or more` });
  for (const at of [2, -1, 0.5, NaN])
    assert.throws(() => writeVarint(300, bytes, at),
      RangeError(`at must be an index with room for 2 more in bytes, got ${at} of 3`));
  for (const at of ['1', 2n])
    assert.throws(() => writeVarint(300, bytes, at), TypeError(`at must be a number, got ${typeof at}`));
  assert.deepEqual(bytes, new Uint8Array(3)); // nothing was written
});

test('heads and lengths', () => {
  assert.deepEqual(head(unhex('ac02ff01')), { code: 300, digestLength: 255, consumed: 4 });
  assert.deepEqual(head(unhex('12ffffffffffffffff7f')), { code: 18, digestLength: 2n ** 63n - 1n, consumed: 10 });
  for (const [code, size] of [[18, 32], [300, 0], [2n ** 63n - 1n, 255]]) {
    const digest = new Uint8Array(size);
    assert.equal(encodedLength(code, size), encode(code, digest).length);
    const { multihash, consumed } = scaleDecode(joined(scaleEncode(code, digest), digest));
    assert.deepEqual([multihash.code, multihash.size, consumed], [code, size, 9 + size]);
  }
  assert.throws(() => encodedLength(2n ** 63n, 2), { status: 'invalid_code', code: 2n ** 63n });
  assert.throws(() => encodedLength(2n ** 63n, 2n ** 63n + 256n), { status: 'invalid_size', size: 2n ** 63n + 256n });
  assert.throws(() => read(unhex('0101aa'), 0), { status: 'invalid_size', size: 1 });
  assert.equal(read(unhex('0101aa'), 2n ** 64n - 1n).consumed, 3);
});

/** Compares the columns of readMany with calls of read. */
function checkMany(bytes, kind = (each) => each) {
  const { codes, offsets, lengths, consumed, error } = readMany(kind(bytes));
  let end = 0;
  for (const [index, code] of codes.entries()) {
    const { multihash, consumed: length } = read(bytes.subarray(end));
    end += length;
    const wanted = [BigInt(multihash.code), end - multihash.size, multihash.size];
    assert.deepEqual([code, offsets[index], lengths[index]], wanted);
  }
  assert.equal(consumed, end);
  assert.deepEqual(error, end === bytes.length ? undefined : outcome(() => read(bytes.subarray(end))));
  assert.ok(codes instanceof BigUint64Array && offsets instanceof Float64Array && lengths instanceof Uint8Array);
  for (const column of [codes, offsets, lengths]) {
    assert.equal(column.length, codes.length);
    assert.equal(column.buffer.byteLength, column.byteLength);
  }
  return codes.length;
}

test('many multihashes at once', () => {
  const pairs = [[18, 32], [2n ** 62n, 255], [0, 0]];
  const few = joined(...pairs.map(([code, size]) => encode(code, new Uint8Array(size))));
  for (let cut = 0; cut <= few.length; cut++) checkMany(few.subarray(0, cut), KINDS[cut % KINDS.length]);
  for (const end of ['8000', 'ff'.repeat(9), '12ac02']) checkMany(joined(few, unhex(end)));
  // more multihashes than the columns have capacity for at first, and codes of up to 32 bits and of more
  const codes = [0, 1, 2 ** 32 - 1, 2 ** 32, 2n ** 63n - 1n];
  const mixed = Array.from({ length: 3000 }, (_, at) => encode(codes[at % 5], new Uint8Array(at % 7).fill(at)));
  assert.equal(checkMany(joined(...mixed)), 3000);
});
