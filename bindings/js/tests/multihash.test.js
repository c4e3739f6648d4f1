// Values and errors: their fields, texts, JSON and clones, and what they equal.
import assert from 'node:assert/strict';
import { test } from 'node:test';
import { inspect } from 'node:util';
import { Multihash, MultihashError, compare, decode, encode, head, read } from '../index.js';
import { KINDS, detach, hex, outcome, unhex, withoutMemory } from './support.js';

const EXAMPLE = unhex('1620644bcc7e564373040999aac89e7622f3ca71fba1d972fd94a31c3bfbf24e3938');
const EMPTY = new Uint8Array();
const LONG = 2n ** 53n; // the least code that is a bigint

test('fields', () => {
  const multihash = decode(EXAMPLE);
  assert.deepEqual({ ...multihash }, { code: 22, size: 32, digest: EXAMPLE.slice(2) });
  detach(multihash.bytes); // each time there is another array
  assert.deepEqual(multihash.bytes, EXAMPLE);
  assert.deepEqual(new Proxy(multihash, {}).bytes, EXAMPLE);
  assert.equal(multihash.digestHex, hex(EXAMPLE.subarray(2)));
  assert.equal(`${multihash}`, hex(EXAMPLE));
  assert.equal(Multihash.of(18, EMPTY).digestHex, '');
  assert.ok(Object.is(Multihash.of(-0, EXAMPLE.subarray(2)).code, 0));
  assert.equal(inspect(multihash), `Multihash(0x16, ${multihash.digestHex})`);
  assert.equal(inspect(Multihash.of(2n ** 63n - 1n, EMPTY)), 'Multihash(0x7fffffffffffffff, empty)');
});

test('a multihash has a copy of the bytes, of each kind of memory', () => {
  for (const kind of KINDS) {
    const [bytes, digest] = [kind(EXAMPLE), kind(EXAMPLE.subarray(2))];
    const multihashes = [decode(bytes), read(bytes).multihash, Multihash.of(22, digest)];
    const encoded = encode(22, digest);
    for (const array of [bytes, digest]) Uint8Array.prototype.fill.call(array, 1);
    for (const multihash of multihashes) {
      assert.deepEqual(multihash.bytes, EXAMPLE);
      assert.equal(multihash.digest.buffer.byteLength, 32); // and no more memory
    }
    assert.deepEqual(encoded, EXAMPLE);
  }
});

test('a code is a number if that is exact', () => {
  for (const [code, text] of [[22, '22'], [LONG - 1n, '9007199254740991'], [LONG, '"9007199254740992"']]) {
    const multihash = Multihash.of(code, unhex('00ab'));
    const json = `{"code":${text},"size":2,"digest":"00ab"}`;
    for (const each of [multihash, decode(multihash.bytes), Multihash.fromJSON(JSON.parse(json))]) {
      assert.equal(JSON.stringify(each), json);
      assert.equal(typeof each.code, code < LONG ? 'number' : 'bigint');
      if (code < LONG) assert.equal(each.narrow(), each);
      else assert.throws(() => each.narrow(), RangeError(`the code ${LONG} is 2^53 or more, so it is a bigint`));
    }
  }
  const { code, digestLength } = head(encode(LONG, EXAMPLE));
  assert.deepEqual([code, digestLength], [LONG, 34]);
});

test('texts and JSON', () => {
  const text = hex(EXAMPLE);
  for (const digits of [text, text.toUpperCase()]) assert.equal(`${Multihash.fromHex(digits)}`, text);
  const noHex = [['1g01', 'g', 1], ['0x16', 'x', 1], ['\n160', '\\n', 0], ['1\u{1f600}', '\u{1f600}', 1]]
    .map(([text, digit, at]) => [text, `the text has "${digit}" at index ${at}, which is not a hexadecimal digit`]);
  for (const [text, message] of [['162', 'the text has an odd number of digits, 3'], ...noHex])
    assert.throws(() => Multihash.fromHex(text), { name: 'MultihashError', status: 'not_hexadecimal', message });
  const json = { code: 18, size: 2, digest: '00ab' };
  for (const each of [json, { code: '18', digest: '00AB' }, { ...json, code: 18n }])
    assert.equal(`${Multihash.fromJSON(each)}`, '120200ab');
  const range = 'code must be from 0 to 2^63 - 1, got';
  const wrong = [
    ['{}', TypeError('json must be an object, got string')],
    [null, TypeError('json must be an object, got null')],
    [{}, TypeError('digest must be a string, got undefined')],
    [{ ...json, code: undefined }, TypeError('code must be a number or a bigint, got undefined')],
    [{ ...json, code: '' }, TypeError('code must be a number or a bigint, got string')],
    [{ ...json, code: '9'.repeat(99) }, RangeError(`${range} ${'9'.repeat(40)}...`)],
    [{ ...json, code: '18'.padStart(21, '0') }, RangeError(`${range} ${'18'.padStart(21, '0')}`)],
    [{ ...json, size: 3 }, RangeError('size must be 2, the length of the digest, got 3')],
    [{ ...json, size: '2' }, RangeError('size must be 2, the length of the digest, got string')],
    [{ ...json, digest: '00a' }, { status: 'not_hexadecimal', message: 'the digest has an odd number of digits, 3' }],
    [{ code: 18, digest: '00'.repeat(256) }, { status: 'invalid_size', size: 256 }],
    [{ ...json, code: `${2n ** 64n - 1n}` }, { status: 'invalid_code', code: 2n ** 64n - 1n }],
  ];
  for (const [each, error] of wrong) assert.throws(() => Multihash.fromJSON(each), error);
});

test('what has the same code and the same digest is equal', () => {
  const multihash = Multihash.of(0, Uint8Array.of(5));
  const { digest } = multihash;
  for (const kind of KINDS)
    for (const code of [0, 0n]) assert.ok(multihash.equals({ code, digest: kind(digest) }));
  for (const other of [structuredClone(multihash), new Proxy(multihash, {})]) assert.ok(multihash.equals(other));
  const codes = ['0', '', false, [], [0], null, undefined, Symbol('0'), Object.create(null), { valueOf: () => 0 },
    0.5, 1n];
  const digests = [[5], '5', Int8Array.of(5), Uint8ClampedArray.of(5), Uint8Array.of(6), Uint8Array.of(5, 6)];
  const others = [null, undefined, 22, 'text', {}, EXAMPLE, Multihash.of(0, Uint8Array.of(6)), Multihash.of(1, digest)];
  for (const code of codes) others.push({ code, digest });
  for (const each of digests) others.push({ code: 0, digest: each });
  for (const other of others) assert.equal(multihash.equals(other), false);
  const [zeros, last] = [new Uint8Array(255), new Uint8Array(255).fill(1, 254)];
  const long = Multihash.of(LONG, zeros);
  for (const other of [Multihash.of(LONG, last), { code: LONG, digest: last }, { code: LONG + 1n, digest: zeros }])
    assert.ok(!long.equals(other));
  assert.equal(compare(long, Multihash.of(LONG, last)), -1);
});

test('a digest without its memory', () => {
  const [moved, whole] = [decode(EXAMPLE), decode(EXAMPLE)];
  detach(moved.digest);
  const calls = [
    ['left', () => compare(moved, whole)], ['right', () => compare(whole, moved)],
    ['this multihash', () => moved.equals(whole)], ['this multihash', () => moved.equals({ code: 22, digest: EMPTY })],
    ['this multihash', () => moved.digestHex], ['this multihash', () => JSON.stringify(moved)],
  ];
  for (const [name, call] of calls) assert.throws(call, TypeError(`the digest of ${name} is detached or was replaced`));
  assert.throws(() => `${moved}`, TypeError('digest is a Uint8Array that is detached or out of bounds'));
  assert.equal(inspect(moved), 'Multihash(0x16, detached)');
  for (const digest of [moved.digest, ...withoutMemory()])
    assert.throws(() => Multihash.of(18, EMPTY).equals({ code: 18, digest }),
      TypeError('the other digest is a Uint8Array that is detached or out of bounds'));
});

test('errors have fields that are exact, and are restored from a clone', () => {
  const code = 2n ** 63n;
  const cases = [
    [() => encode(1, new Uint8Array(256)), '"invalid_size","size":256'],
    [() => encode(code, EXAMPLE), `"invalid_code","code":"${code}"`],
    [() => decode(unhex('12ffffffffffffffff7f')), `"invalid_size","size":"${code - 1n}","consumed":10`],
    [() => decode(new Uint8Array(1 << 22)), '"invalid_size","size":4194302,"consumed":4194304'],
    [() => decode(unhex('80')), '"insufficient","consumed":1'],
    [() => head(unhex('8000')), '"not_minimal","consumed":2'],
    [() => Multihash.fromHex('1g'), '"not_hexadecimal"'],
    [() => Multihash.fromHex(''), '"insufficient","consumed":0'],
  ];
  for (const [call, rest] of cases) {
    const error = outcome(call);
    const start = `{"name":"MultihashError","message":${JSON.stringify(error.message)},"status":`;
    assert.equal(JSON.stringify(error), `${start}${rest}}`);
    assert.deepEqual(Object.keys(error), ['status', 'size', 'code', 'consumed']); // what console.log shows
    const again = MultihashError.from(structuredClone(error));
    assert.ok(again instanceof MultihashError);
    for (const name of ['name', 'message', 'status', 'size', 'code', 'consumed', 'isIncomplete', 'cause'])
      assert.deepEqual(again[name], error[name]);
    assert.equal(MultihashError.from(error), error);
  }
  const causes = [undefined, { status: 'ok' }, { status: 404 }].map((cause) => new Error('text', { cause }));
  for (const value of [null, undefined, 3, {}, ...causes]) assert.equal(MultihashError.from(value), undefined);
});

test('the fields of an error are its own, whatever Object.prototype has', () => {
  Object.assign(Object.prototype, { size: 5, code: 6 });
  try {
    const { size, code, consumed } = outcome(() => head(unhex('8000')));
    assert.equal(`${size} ${code} ${consumed}`, 'undefined undefined 2');
  } finally {
    delete Object.prototype.size;
    delete Object.prototype.code;
  }
});
