// Arguments of wrong types and ranges: the error names the argument, what was expected and what was passed.
import assert from 'node:assert/strict';
import { test } from 'node:test';
import { CID } from '../cid.js';
import { FrameReader, Hasher, Multihash, MultihashReader, compare, decode, digest, encode, encodeVarint, encodedLength,
  head, read, readMany, readVarint, scaleDecode, scaleEncode, sha256, verify, writeVarint } from '../index.js';
import { TEXT, unhex, withoutMemory } from './support.js';

const EXAMPLE = unhex('1620644bcc7e564373040999aac89e7622f3ca71fba1d972fd94a31c3bfbf24e3938');
const MULTIHASH = decode(EXAMPLE);
const NOTHING = { [Symbol.asyncIterator]: () => ({ next() {} }) };
const READERS = [MultihashReader, FrameReader];
// what an error says of a type
const ARRAY = 'Array: Uint8Array.from(array) makes bytes';
const VIEW = 'new Uint8Array(view.buffer, view.byteOffset, view.byteLength) makes bytes';
const NO_BYTES = [
  [null, 'null'], [true, 'true'], [34, '34'], [34n, 'bigint'], [Symbol('bytes'), 'symbol'], [() => 0, 'function'],
  [{}, 'Object'], [{ __proto__: null }, 'Object'], [new (class Own {})(), 'Own'], [MULTIHASH, 'Multihash'],
  [Promise.resolve(), 'Promise: await it'], [[22, 0], ARRAY],
  [new ArrayBuffer(4), 'ArrayBuffer: new Uint8Array(buffer) makes bytes'],
  [new DataView(new ArrayBuffer(4)), `DataView: ${VIEW}`], [new Uint8ClampedArray(2), `Uint8ClampedArray: ${VIEW}`],
  [new Proxy(new Uint8Array(2), {}), 'a Proxy of a Uint8Array'],
  [Object.create(Uint8Array.prototype), 'a Proxy of a Uint8Array'],
];
const OF_BYTES = [
  ...[decode, read, head, readVarint, readMany, scaleDecode, CID.decode, CID.read].map((call) => ['bytes', call]),
  ['bytes', (bytes) => writeVarint(1, bytes)],
  ...[encode, scaleEncode, Multihash.of].map((call) => ['digest', (bytes) => call(18, bytes)]),
  ...READERS.map((Reader) => ['rest', (bytes) => new Reader(NOTHING, { rest: bytes })]),
  ['content', (bytes) => new Hasher('sha1').update(bytes)],
];

test('bytes', () => {
  for (const [name, call] of OF_BYTES) {
    for (const [value, got] of [...NO_BYTES, ['1620', TEXT]])
      assert.throws(() => call(value), TypeError(`${name} must be a Uint8Array, got ${got}`));
    for (const bytes of withoutMemory())
      assert.throws(() => call(bytes), TypeError(`${name} is a Uint8Array that is detached or out of bounds`));
  }
  assert.throws(() => decode(), TypeError('bytes must be a Uint8Array, got undefined'));
});

const OF_NUMBERS = [
  ...[encode, scaleEncode, Multihash.of].map((call) => ['code', (code) => call(code, EXAMPLE)]),
  ['code', (code) => encodedLength(code, 2)], ['digestLength', (length) => encodedLength(18, length)],
  ['value', encodeVarint], ['value', (value) => writeVarint(value, new Uint8Array(9))],
  ['codec', (codec) => CID.of(1, codec, MULTIHASH)], ['version', (version) => CID.of(version, 0x55, MULTIHASH)],
  ['limit', (limit) => read(EXAMPLE, limit)],
  ...READERS.map((Reader) => ['limit', (limit) => new Reader(NOTHING, { limit })]),
];

test('numbers', () => {
  for (const [name, call] of OF_NUMBERS) {
    for (const [value, got] of [['18', 'string'], [null, 'null'], [{}, 'Object'], [[18], 'Array'], [true, 'true']])
      assert.throws(() => call(value), TypeError(`${name} must be a number or a bigint, got ${got}`));
    for (const value of [-1, 1.5, NaN, Infinity, 2 ** 53])
      assert.throws(() => call(value),
        RangeError(`${name} must be a whole number from 0 to 2^53 - 1, or a bigint, got ${value}`));
    const range = `${name} must be from 0 to 2^${name === 'code' ? 63 : 64} - 1, got`;
    for (const value of [-1n, 1n << 64n, 10n ** 39n]) assert.throws(() => call(value), RangeError(`${range} ${value}`));
    assert.throws(() => call(10n ** 40n), RangeError(`${range} ${10n ** 39n}...`)); // a longer number is cut
  }
});

test('multihashes and CIDs', () => {
  const cid = CID.of(1, 0x55, MULTIHASH);
  for (const [value, got] of [[{ ...MULTIHASH }, 'Object'], [EXAMPLE, 'Uint8Array'], [null, 'null']]) {
    assert.throws(() => compare(value, MULTIHASH), TypeError(`left must be a Multihash, got ${got}`));
    assert.throws(() => compare(MULTIHASH, value), TypeError(`right must be a Multihash, got ${got}`));
    assert.throws(() => CID.of(1, 0x55, value), TypeError(`multihash must be a Multihash, got ${got}`));
  }
  assert.throws(() => new Multihash(Symbol(), 22, EXAMPLE), TypeError('Multihash.of(code, digest) makes a multihash'));
  assert.throws(() => new CID(1, 0x55, MULTIHASH), TypeError('CID.of(version, codec, multihash) makes a CID'));
  const texts = [[undefined, 'undefined'], [EXAMPLE, 'Uint8Array'], [new String('b'), 'String'], [cid, 'CID']];
  for (const [value, got] of texts)
    for (const call of [CID.parse, Multihash.fromHex])
      assert.throws(() => call(value), TypeError(`text must be a string, got ${got}`));
  for (const base of ['m', 'base32', '__proto__', null, Symbol('b')])
    assert.throws(() => cid.toString(base),
      RangeError(`base must be 'b', 'f' or 'z', and 'z' for version 0, got ${String(base)}`));
});

test('sources and options of readers', () => {
  const sources = [
    [null, 'null'], [3, '3'], ['path', 'string'], [[EXAMPLE], 'Array'], [EXAMPLE, 'Uint8Array'],
    [new (class {})(), 'Object'], [new Response(), 'Response'], [new Blob(), 'Blob'],
    [{ [Symbol.asyncIterator]: () => null }, 'Object'], [{ [Symbol.asyncIterator]: () => ({}) }, 'Object'],
  ];
  const options = [[null, 'must be an object, got null'], [[], 'must be an object, got Array'],
    [{ limit: 1, max: 2 }, 'can have limit and rest, got max']];
  const noSource = 'source must be a ReadableStream or an async iterable, got';
  for (const Reader of READERS) {
    for (const [source, got] of sources) assert.throws(() => new Reader(source), TypeError(`${noSource} ${got}`));
    for (const [value, message] of options) {
      const stream = new ReadableStream();
      assert.throws(() => new Reader(stream, value), TypeError(`options ${message}`));
      assert.ok(!stream.locked);
    }
  }
});

test('content, claims, names and options of hash functions', async () => {
  const abc = new TextEncoder().encode('abc');
  const whole = await sha256.digest(abc);
  const noContent = 'content must be a Uint8Array, a ReadableStream or an async iterable, got';
  const noClaim = 'multihash must be a Multihash or its encoding, got';
  const noHash = 'hash must be a name in CODES or a code, got';
  const calls = [
    [digest('abc', 18), TypeError(`${noContent} ${TEXT}`)],
    [verify(whole, null), TypeError(`${noContent} null`)],
    [verify(abc, whole), TypeError(`${noContent} Multihash`)], // the arguments are swapped
    [verify('1200', abc), TypeError(`${noClaim} string`)],
    [verify({}, abc), TypeError(`${noClaim} Object`)],
    [verify(null, abc), TypeError(`${noClaim} null`)],
    [verify({ code: null, digest: abc }, abc), TypeError('code must be a number or a bigint, got null')],
    [verify(whole, abc, null), TypeError('options must be an object, got null')],
    [verify(whole, abc, { truncate: 20 }), TypeError('options can have functions, got truncate')],
    [digest(abc, 18, { length: 20 }), TypeError('options can have truncate and functions, got length')],
    [digest(abc, 18, { truncate: 20n }), TypeError('truncate must be a number, got bigint')],
    [digest(abc, undefined), TypeError(`${noHash} undefined`)],
    [digest(abc, 'toString'), RangeError(`${noHash} toString`)],
    [digest(abc, -1), RangeError('hash must be a whole number from 0 to 2^53 - 1, or a bigint, got -1')],
    ...[33, -1, 1.5, NaN].map((truncate) => [digest(abc, 18, { truncate }),
      RangeError(`truncate must be a whole number from 0 to 32, got ${truncate}`)]),
  ];
  for (const [promise, error] of calls) await assert.rejects(promise, error);
  assert.throws(() => new Hasher('sha1', { truncate: 2 }), TypeError('options can have functions, got truncate'));
  assert.throws(() => new Hasher('sha3'), RangeError(`${noHash} sha3`));
});
