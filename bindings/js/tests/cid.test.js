// Content identifiers: the vectors of texts, CIDs that are made, their values and errors.
import assert from 'node:assert/strict';
import { test } from 'node:test';
import { inspect } from 'node:util';
import { CID, CIDError, CODECS } from '../cid.js';
import { Multihash, MultihashError } from '../index.js';
import { KINDS, detach, hex, outcome, rowsOf, unhex } from './support.js';

const HELLO = Multihash.fromHex('1220b94d27b9934d3e08a52e52d7da7dabfac484efe37a5380ee9088f7ace2efcde9');
const RAW = CID.of(1, CODECS.raw, HELLO);
const OLD = CID.of(0, CODECS['dag-pb'], HELLO);

/** The text of a column: a dash is empty, and \xHH a byte of UTF-8. */
function textOf(column) {
  if (column === '-') return '';
  const bytes = column.match(/\\x..|[^]/g).map((part) => (part[1] ? parseInt(part.slice(2), 16) : part.charCodeAt(0)));
  return new TextDecoder('utf-8', { ignoreBOM: true }).decode(Uint8Array.from(bytes));
}

/** The result as a row has it, and the CID or the error. */
function described(call) {
  const value = outcome(call);
  if (value instanceof CIDError) return [value.status, value];
  const { version, codec, multihash } = value;
  return [`cid ${version} ${codec} ${multihash.code} ${multihash.digestHex || '-'}`, value];
}

test('vectors of content identifiers', () => {
  for (const [index, { text: column, result, bytes }] of rowsOf('cids').entries()) {
    const [kind, text, data] = [KINDS[index % KINDS.length], textOf(column), unhex(bytes)];
    const [words, cid] = described(() => CID.parse(text));
    assert.equal(words, result, column);
    if (bytes === '-' || result === 'wrong_prefix') continue;
    assert.equal(described(() => CID.decode(kind(data)))[0], result, column);
    if (cid instanceof CIDError) {
      assert.equal(cid.cause instanceof MultihashError, result !== 'unknown_version');
      continue;
    }
    assert.deepEqual([hex(cid.bytes), cid.toString(cid.version ? text[0] : 'z')], [bytes, text]);
    assert.deepEqual(CID.read(kind(Uint8Array.of(...data, ...data))), { cid, consumed: data.length });
    assert.equal(typeof cid.codec, BigInt(cid.codec) < 2n ** 53n ? 'number' : 'bigint');
  }
});

test('messages', () => {
  const rows = [
    ['', 'insufficient', 'the text is empty'],
    ['mAVUSIA', 'unknown_base', 'the text must start with b, f, z or Qm'],
    ['bafk\ud800', 'invalid_digit', 'the character at index 4 is not a base32 digit'],
    ['f'.padEnd(600, '0'), 'too_long', 'the text has more than 553 characters'],
    ['fa', 'trailing_bits', 'the last base16 digit has superfluous bits'],
    ['QmA', 'wrong_prefix', 'a CID of version 0 has the text Qm.., and no other has'],
    [`z${OLD}`, 'wrong_prefix', 'a CID of version 0 has the text Qm.., and no other has'],
    ['f01d5', 'insufficient', 'codec: the input ends inside the varint'],
    ['f01551220aa', 'unexpected_eof', 'multihash: the input ends inside the digest (1 of 32 bytes)'],
    ['f0255', 'unknown_version', 'the version must be 1, not 2'],
  ];
  for (const [text, status, message] of rows) {
    const error = outcome(() => CID.parse(text));
    assert.equal(JSON.stringify(error), JSON.stringify({ name: 'CIDError', message, status }));
  }
});

test('fields that make no CID', () => {
  const short = Multihash.of(0x12, HELLO.digest.subarray(1));
  const rows = [['unknown_version', 2, 0x55, HELLO], ['not_version_0', 0, 0x55, HELLO],
    ['not_version_0', 0, 0x70, short], ['not_version_0', 0, 0x70, Multihash.of(0x13, HELLO.digest)],
    ['overflow', 1, 2n ** 63n, HELLO]];
  for (const [status, ...fields] of rows) assert.throws(() => CID.of(...fields), { name: 'CIDError', status });
});

test('values', () => {
  assert.equal(`${RAW}`, 'bafkreifzjut3te2nhyekklss27nh3k72ysco7y32koao5eei66wof36n5e');
  for (const cid of [RAW, OLD]) {
    assert.deepEqual(CID.parse(JSON.parse(JSON.stringify(cid))), cid);
    assert.equal(inspect(cid), `CID(${cid})`);
    for (const bytes of [cid.bytes, cid.multihash.bytes]) detach(bytes); // each time there are other arrays
    assert.ok(cid.equals(CID.parse(`${cid}`)));
  }
  const others = [OLD, CID.of(1, 0x70, HELLO), CID.of(1, 0x55, Multihash.of(0x12, HELLO.digest.subarray(1))), null, {}];
  for (const other of others) assert.ok(!RAW.equals(other));
  assert.ok(!OLD.equals(CID.of(1, 0x70, HELLO)));
  assert.ok(CID.of(1n, 0x55n, HELLO).equals(RAW));
  const proxy = new Proxy(RAW, {});
  assert.equal(`${proxy} ${hex(proxy.bytes)} ${proxy.equals(RAW)}`, `${RAW} ${hex(RAW.bytes)} true`);
  const message = "base must be 'b', 'f' or 'z', and 'z' for version 0, got b";
  assert.throws(() => OLD.toString('b'), { name: 'RangeError', message });
  const moved = CID.of(1, CODECS.raw, Multihash.of(0, Uint8Array.of(5)));
  detach(moved.multihash.digest);
  assert.throws(() => `${moved}`, { message: 'digest is a Uint8Array that is detached or out of bounds' });
});
