// Hash functions: of node:crypto, and where web.test.js imports these tests of WebCrypto.
import assert from 'node:assert/strict';
import { createHash, getHashes } from 'node:crypto';
import { createReadStream } from 'node:fs';
import { Readable } from 'node:stream';
import { test } from 'node:test';
import { clearImmediate, setImmediate } from 'node:timers';
import { fileURLToPath } from 'node:url';
import { CODES, Hasher, Multihash, NAMES, UnsupportedHashError, digest, hashers, identity, sha256,
  sha384, sha512, verify } from '../index.js';
import { KINDS, TEXT, chunks, detach, hex, rowsOf, withoutMemory } from './support.js';

const ABC = new TextEncoder().encode('abc');
const CONTENT = new Uint8Array(2500).map((_, index) => index);
const PARTS = [CONTENT.subarray(0, 1), CONTENT.subarray(1, 1500), CONTENT.subarray(1500)];
const ON_ALL_PLATFORMS = ['identity', 'sha1', 'sha2-256', 'sha2-512', 'sha2-384', 'dbl-sha2-256'];
const FILE = fileURLToPath(import.meta.url);
const byNode = process.getBuiltinModule !== undefined;

for (const { code, name, 'digest of abc': wanted } of rowsOf('hashes'))
  test(`vectors of ${name}`, async () => {
    assert.deepEqual([CODES[name], NAMES[Number(code)]], [Number(code), name]);
    if (!hashers[name]) return;
    const multihash = await hashers[name].digest(ABC);
    assert.ok(multihash instanceof Multihash);
    assert.deepEqual([multihash.code, multihash.digestHex, hashers[name].name], [Number(code), wanted, name]);
    for (const kind of KINDS) assert.deepEqual(await hashers[name].digest(kind(ABC)), multihash);
    for (const claim of [multihash, structuredClone(multihash), ...KINDS.map((kind) => kind(multihash.bytes))])
      assert.deepEqual([await verify(claim, ABC), await verify(claim, ABC.subarray(1))], [true, false]);
    const input = ABC.slice();
    const early = [hashers[name].digest(input), verify(multihash, input)];
    input.fill(0); // content of up to 1 MiB may change meanwhile
    assert.deepEqual(await Promise.all(early), [multihash, true]);
  });

test('the functions, names and codes', async () => {
  const exported = ['identity', 'sha2-256', 'sha2-384', 'sha2-512'].map((name) => hashers[name]);
  assert.deepEqual(exported, [identity, sha256, sha384, sha512]);
  for (const each of [CODES, NAMES, hashers, sha256]) assert.ok(Object.isFrozen(each));
  assert.deepEqual([CODES.constructor, NAMES.toString, hashers.valueOf], [undefined, undefined, undefined]);
  // OpenSSL has other names for some of them
  const short = (name) => name.replace('sha2-', 'sha').replace(/-|(?<=sm3-)256/g, '');
  const ofNode = Object.keys(CODES).filter((name) => getHashes().map(short).includes(short(name)));
  assert.deepEqual(new Set(Object.keys(hashers)), new Set([...ON_ALL_PLATFORMS, ...(byNode ? ofNode : [])]));
});

test('content of streams, and in parts', async () => {
  for (const name of ON_ALL_PLATFORMS.slice(1)) {
    const wanted = await hashers[name].digest(CONTENT);
    for (const source of [() => new Blob([CONTENT]).stream(), () => chunks(...PARTS)]) {
      assert.deepEqual(await hashers[name].digest(source()), wanted);
      assert.ok(await verify(wanted, source()));
    }
    for (const hash of [name, wanted.code, BigInt(wanted.code)]) {
      const hasher = new Hasher(hash);
      for await (const chunk of chunks(...PARTS)) assert.equal(hasher.update(chunk), hasher);
      assert.deepEqual(await hasher.multihash(), wanted);
      assert.equal(hasher.multihash(), hasher.multihash());
      assert.throws(() => hasher.update(ABC), TypeError('multihash() was called, so this hasher takes no more bytes'));
    }
  }
  const empty = await sha256.digest(new Uint8Array());
  assert.equal(empty.digestHex.slice(0, 8), 'e3b0c442');
  assert.deepEqual([await sha256.digest(chunks()), await new Hasher('sha2-256').multihash()], [empty, empty]);
  const source = new Blob([CONTENT]).stream();
  await sha256.digest(source);
  assert.ok(!source.locked);
});

test('identity has at most 255 bytes of content', async () => {
  assert.equal(`${await identity.digest(chunks(ABC))}`, '0003616263');
  assert.equal(`${await new Hasher('identity').update(ABC).update(ABC).multihash()}`, '0006616263616263');
  assert.equal((await identity.digest(new Uint8Array(255))).size, 255);
  const parts = new Hasher('identity').update(new Uint8Array(200)).update(new Uint8Array(100));
  for (const [promise, length] of [[identity.digest(new Uint8Array(256)), 256], [parts.multihash(), 300]]) {
    const message = `identity takes at most 255 bytes of content, got ${length}`;
    await assert.rejects(promise, { name: 'MultihashError', message, status: 'invalid_size', size: length });
  }
  assert.equal(await verify(Multihash.of(0, new Uint8Array(255)), new Uint8Array(300)), false);
});

test('a digest that is truncated, or another', async () => {
  const whole = await sha256.digest(ABC);
  for (const truncate of [0, 20, 32])
    assert.deepEqual(await sha256.digest(ABC, { truncate }), Multihash.of(18, whole.digest.subarray(0, truncate)));
  const { digest: bytes } = whole;
  const others = [bytes.subarray(1), bytes.subarray(0, 31), bytes.subarray(0, 0), Uint8Array.of(...bytes, 0),
    ...[0, 31].map((at) => bytes.map((byte, index) => (index === at ? byte ^ 1 : byte)))];
  for (const other of others) assert.equal(await verify(Multihash.of(18, other), ABC), false);
  const moved = Multihash.of(0, ABC);
  detach(moved.digest);
  const gone = (name) => TypeError(`${name} is a Uint8Array that is detached or out of bounds`);
  await assert.rejects(verify(moved, new Uint8Array()), gone('the digest'));
  for (const content of withoutMemory())
    for (const call of [sha256.digest(content), verify(whole, content)]) await assert.rejects(call, gone('content'));
});

test('as many bytes of a digest are read, whichever of them differs', async () => {
  const { digest: bytes } = await sha256.digest(ABC);
  for (const differing of [0, 31]) {
    let count = 0;
    const get = (array, name) => {
      count += /^\d+$/.test(String(name));
      return array[name];
    };
    const claimed = new Proxy(bytes.map((byte, at) => (at === differing ? byte ^ 1 : byte)), { get });
    assert.equal(await verify(Object.assign(Multihash.of(18, ABC), { digest: claimed }), ABC), false);
    assert.equal(count, 32);
  }
});

/** A function that no platform has: the sum of the bytes, in four bytes. */
function summing() {
  let sum = 0;
  return {
    update: (bytes) => bytes.forEach((byte) => (sum += byte)),
    digest: () => new Uint8Array(Uint32Array.of(sum).buffer),
  };
}

// The same function as @noble/hashes and hash-wasm have theirs, of which the latter returns hexadecimal by default.
const noble = Object.assign(() => ABC, { create: summing });
const hashWasm = () => {
  const { update, digest: end } = summing();
  return { init() {}, update, digest: (type) => (type === 'binary' ? end() : hex(end())) };
};
const delayed = () => ({ ...summing(), digest: async () => Uint8Array.of(38, 1, 0, 0) });

test("a caller's functions are found by code and by name, before those of the platform", async () => {
  const wanted = Multihash.of(0x1e, Uint8Array.of(38, 1, 0, 0)); // 97 + 98 + 99
  for (const own of [summing, noble, hashWasm, delayed]) {
    for (const functions of [{ blake3: own }, { 0x1e: own, blake3: null }]) {
      for (const hash of ['blake3', 0x1e, 0x1en]) assert.deepEqual(await digest(ABC, hash, { functions }), wanted);
      for (const content of [ABC, chunks(ABC)]) assert.ok(await verify(wanted.bytes, content, { functions }));
      assert.equal(`${await digest(new Blob([ABC]).stream(), 30, { functions, truncate: 2 })}`, '1e022601');
      assert.deepEqual(await new Hasher(0x1e, { functions }).update(ABC).multihash(), wanted);
    }
  }
  const ofNode = { 'sha2-256': () => createHash('sha256') }; // which returns a text if it is asked for 'binary'
  assert.deepEqual(await digest(ABC, 'sha2-256', { functions: ofNode }), await sha256.digest(ABC));
  const functions = { 'sha2-256': summing, [2n ** 60n]: summing };
  assert.equal(`${await sha256.digest(ABC, { functions })}`, '120426010000');
  assert.equal(`${await digest(ABC, 2n ** 60n, { functions })}`, '8080808080808080100426010000');
});

test('a function that is missing or wrong', async () => {
  const claim = Multihash.of(0x1e, ABC);
  const noObject = 'functions must be an object, got';
  const noHash = 'functions[blake3] must return an object with the methods update and digest, got';
  const message = 'this platform has no function for the code 0x1e (blake3): the option functions takes one';
  const missing = { name: 'UnsupportedHashError', code: 0x1e, message };
  const wrong = [
    [new Map([[30, summing]]), TypeError(`${noObject} Map`)],
    [null, TypeError(`${noObject} null`)], [summing, TypeError(`${noObject} function`)],
    [{ 30: null }, TypeError('functions[30] must be a function, got null')],
    [{ blake3: () => ({ update() {} }) }, TypeError(`${noHash} Object`)],
    [{ blake3: () => ({ digest() {} }) }, TypeError(`${noHash} Object`)],
    [{ blake3: async () => summing() }, TypeError(`${noHash} Promise`)],
    [{ blake3: () => ({ ...summing(), digest: () => 'ab' }) },
      TypeError('functions[blake3] must make a digest that is a Uint8Array, got string')],
    [{ blake3: () => { throw Error('broken'); } }, Error('broken')],
    [{ __proto__: { blake3: summing } }, missing],
  ];
  for (const [functions, error] of wrong) {
    await assert.rejects(verify(claim, ABC, { functions }), error);
    for (const content of [ABC, chunks(ABC)]) await assert.rejects(digest(content, 'blake3', { functions }), error);
  }
  const long = () => ({ update() {}, digest: () => new Uint8Array(256) });
  await assert.rejects(digest(ABC, 'blake3', { functions: { blake3: long } }), { status: 'invalid_size', size: 256 });
  Object.prototype.blake3 = 'SHA-256';
  await assert.rejects(verify(claim, ABC), missing).finally(() => delete Object.prototype.blake3);
  assert.ok(new UnsupportedHashError(0x1e) instanceof RangeError);
  assert.throws(() => new Hasher(0x5555), { message: message.replace('0x1e (blake3)', '0x5555') });
});

test('a source is cancelled after an error, even if nothing was read', async () => {
  const [claim, reasons] = [await sha256.digest(ABC), []];
  const calls = [(content) => verify('1200', content), (content) => verify(claim.bytes.subarray(1), content),
    (content) => verify(Multihash.of(0x1e, ABC), content), (content) => sha256.digest(content, 20)];
  const fail = async () => {
    reasons.push('iterable');
    throw new Error('a later one');
  };
  const iterable = { [Symbol.asyncIterator]: () => ({ next: async () => ({ value: 'a' }), return: fail }) };
  for (const call of calls) {
    const stream = new ReadableStream({ cancel: () => void reasons.push('stream') });
    for (const content of [stream, iterable])
      await assert.rejects(call(content), ({ message }) => message !== 'a later one');
    assert.deepEqual([stream.locked, reasons.splice(0)], [false, ['stream', 'iterable']]);
    for (const path of [FILE, 'missing']) {
      const file = createReadStream(path);
      await assert.rejects(call(file));
      assert.ok(file.destroyed);
      await new Promise((resolve) => (file.closed ? resolve() : file.once('close', resolve))); // its error is caught
    }
  }
  await assert.rejects(sha256.digest(iterable), TypeError(`a chunk of the stream must be a Uint8Array, got ${TEXT}`));
  assert.equal(reasons.length, 1);
  const failing = new ReadableStream({ pull: () => Promise.reject(Error('broken')) });
  await assert.rejects(sha256.digest(failing), Error('broken'));
  await assert.rejects(sha256.digest(createReadStream('missing')), { code: 'ENOENT' });
  for (const read of [Readable.from([ABC]), createReadStream(FILE)]) {
    await sha256.digest(read);
    await assert.rejects(sha256.digest(read), TypeError('content is a stream that was read before: open it again'));
  }
});

test('WebCrypto is missing', { skip: byNode }, async () => {
  const { crypto } = globalThis;
  Object.defineProperty(globalThis, 'crypto', { value: undefined, configurable: true });
  const message = 'WebCrypto is missing: a page has it only over HTTPS or on localhost';
  await assert.rejects(sha256.digest(ABC), TypeError(message)).finally(() =>
    Object.defineProperty(globalThis, 'crypto', { value: crypto, configurable: true }));
});

test('large content leaves time for other work, and identity copies none', { skip: !byNode }, async () => {
  const content = new Uint8Array(2 ** 25 + 1).fill(1, 2 ** 25);
  let turns = 0;
  let timer = setImmediate(function turn() {
    turns++;
    timer = setImmediate(turn);
  });
  const { digestHex } = await sha256.digest(content);
  clearImmediate(timer);
  assert.ok(turns > 16);
  assert.equal(digestHex, 'f3ee9df6ba3824e76a713d37debd794de902d21d45328e62363e7a7664c469bd');
  const start = process.cpuUsage();
  const larger = new Uint8Array(2 ** 29); // no memory is touched
  assert.equal(await verify(Multihash.of(0, Uint8Array.of(1)), larger), false);
  await assert.rejects(identity.digest(larger), { status: 'invalid_size', size: 2 ** 29 });
  const { user, system } = process.cpuUsage(start);
  assert.ok(user + system < 3e5);
});
