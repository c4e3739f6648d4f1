// For measure.py: prints the least nanoseconds of each call, or for each of many multihashes, of the package for
// JavaScript and of plain JavaScript with the same checks and copies, by turns.
import * as ours from '../js/index.js';

const COUNT = 100_000; // multihashes of a list

// ---- plain JavaScript

function varint(bytes, from) {
  for (let value = 0, scale = 1, at = from; ; scale *= 128) {
    if (at - from >= 9 || at >= bytes.length) throw new RangeError('a varint');
    const byte = bytes[at++];
    value += (byte & 127) * scale;
    if (byte >= 128) continue;
    if (byte === 0 && at - from > 1) throw new RangeError('a varint that is not minimal');
    return [value, at];
  }
}

function putVarint(bytes, from, number) {
  let at = from;
  for (; number >= 128; number = Math.floor(number / 128)) bytes[at++] = (number % 128) + 128;
  bytes[at++] = number;
  return at;
}

function varintLength(number) {
  let length = 1;
  for (; number >= 128; number = Math.floor(number / 128)) length++;
  return length;
}

function check(code, digest) {
  if (!(digest instanceof Uint8Array)) throw new TypeError('a digest');
  if (!Number.isSafeInteger(code) || code < 0 || digest.length > 255) throw new RangeError('a multihash');
}

class Multihash {
  constructor(code, digest) {
    this.code = code;
    this.size = digest.length;
    this.digest = digest;
  }

  static of(code, digest) {
    check(code, digest);
    return new Multihash(code, digest.slice());
  }

  equals({ code, digest }) {
    return code === this.code && digest.length === this.size && digest.every((byte, at) => byte === this.digest[at]);
  }
}

function read(bytes) {
  if (!(bytes instanceof Uint8Array)) throw new TypeError('bytes');
  const [code, at] = varint(bytes, 0);
  const [size, start] = varint(bytes, at);
  if (size > 255 || size > bytes.length - start) throw new RangeError('a digest');
  return { multihash: new Multihash(code, bytes.slice(start, start + size)), consumed: start + size };
}

function decode(bytes) {
  const { multihash, consumed } = read(bytes);
  if (consumed !== bytes.length) throw new RangeError('trailing bytes');
  return multihash;
}

function encode(code, digest) {
  check(code, digest);
  const bytes = new Uint8Array(varintLength(code) + varintLength(digest.length) + digest.length);
  bytes.set(digest, putVarint(bytes, putVarint(bytes, 0, code), digest.length));
  return bytes;
}

function compare(left, right) {
  if (!(left instanceof Multihash && right instanceof Multihash)) throw new TypeError('multihashes');
  if (left.digest.length !== left.size || right.digest.length !== right.size) throw new TypeError('detached');
  if (left.code !== right.code) return left.code < right.code ? -1 : 1;
  if (left.size !== right.size) return left.size < right.size ? -1 : 1;
  for (let index = 0; index < left.size; index++)
    if (left.digest[index] !== right.digest[index]) return left.digest[index] < right.digest[index] ? -1 : 1;
  return 0;
}

async function* readStream(source) {
  let rest = new Uint8Array();
  for await (const chunk of source) {
    const bytes = new Uint8Array(rest.length + chunk.length);
    bytes.set(rest);
    bytes.set(chunk, rest.length);
    let at = 0;
    while (bytes.length - at >= 2 && bytes.length - at >= 2 + bytes[at + 1]) { // codes and lengths below 128
      const { multihash, consumed } = read(bytes.subarray(at));
      at += consumed;
      yield multihash;
    }
    rest = bytes.subarray(at);
  }
}

const plain = { Multihash, decode, encode, compare, stream: readStream };

// ---- the calls

const digest = new Uint8Array(32).map((_, index) => index * 7);
const bytes = Uint8Array.of(18, 32, ...digest);
const longer = Uint8Array.of(0x96, 0xa2, 3, 32, ...digest);
const random = Array.from({ length: 256 }, () => crypto.getRandomValues(new Uint8Array(32)));
const list = Uint8Array.from({ length: COUNT * 34 }, (_, at) => (at % 34 < 2 ? bytes[at % 34] : (at * 7) ^ (at >> 8)));

async function* chunks() {
  for (let at = 0; at < list.length; at += 65536) yield list.subarray(at, at + 65536);
}

// short calls, and calls with many multihashes
function callsOf(library) {
  const values = random.map((each) => library.Multihash.of(18, each));
  const [left, right] = [library.decode(bytes), library.decode(bytes)];
  let at = 0;
  return {
    '`decode` of 34 bytes': () => library.decode(bytes),
    '`decode`, a code of 3 bytes': () => library.decode(longer),
    '`encode` of 32 bytes': () => library.encode(18, digest),
    '`Multihash.of`': () => library.Multihash.of(18, digest),
    '`equals`, equal digests': () => left.equals(right),
    '`compare`, random digests': () => library.compare(values[at % 256], values[++at % 256]),
  };
}

function manyOf(library) {
  const decodeAll = () => {
    for (let at = 0; at < list.length; at += 34) library.decode(list.subarray(at, at + 34));
  };
  return {
    'a multihash by `decode`': decodeAll,
    'a multihash of a stream': async () => {
      for await (const _ of library.stream(chunks()));
    },
    'a multihash by `readMany`': library.readMany ? () => library.readMany(list) : decodeAll,
  };
}

// Prints the least of the times of each call, by turns of the libraries. What a call returns is kept, so that none is
// optimized away.
let result;
async function measure(make, rounds, turns, count) {
  const calls = [{ ...ours, stream: (source) => new ours.MultihashReader(source) }, plain].map(make);
  const least = Object.fromEntries(Object.keys(calls[0]).map((name) => [name, [Infinity, Infinity]]));
  for (let round = 0; round < rounds; round++)
    for (const name in least)
      for (const column of round % 2 ? [0, 1] : [1, 0]) { // the first one has the garbage of the call before
        const { [name]: call } = calls[column];
        const start = process.hrtime.bigint();
        for (let turn = 0; turn < turns; turn++) result = call();
        if (result instanceof Promise) await result;
        const time = Number(process.hrtime.bigint() - start) / turns / count;
        least[name][column] = Math.min(least[name][column], time);
      }
  for (const name in least) console.log([name, ...least[name].map((time) => time.toFixed(1))].join('\t'));
}

await measure(callsOf, 300, 100, 1); // short rounds, so that some have no garbage collection
await measure(manyOf, 10, 1, COUNT);
