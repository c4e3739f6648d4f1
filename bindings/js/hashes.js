// Makes and verifies multihashes with hash functions of node:crypto or WebCrypto. hashes.d.ts documents what is public.
import { bufferOf, checkedLength, checkedObject, checkedOptions, checkedWide, isBytes, received, shown, viewOf,
  wrongType } from './arguments.js';
import { CODES, NAMES } from './codes.js';
import { MultihashError } from './errors.js';
import { DIGEST_MAX } from './limits.js';
import { Multihash, decode } from './multihash.js';
import { sourceOf } from './sources.js';

// Browsers have no node:crypto. An `import` of it would be followed by bundlers.
const node = globalThis.process?.getBuiltinModule?.('node:crypto');

// The number of bytes that are hashed at once. WebCrypto has a thread of its own.
const PIECE = node ? 2 ** 20 : Infinity;

export class UnsupportedHashError extends RangeError {
  constructor(code) {
    const name = NAMES[code] ? ` (${NAMES[code]})` : '';
    super(`this platform has no function for the code 0x${code.toString(16)}${name}: the option functions takes one`);
    this.code = code;
  }
}
UnsupportedHashError.prototype.name = 'UnsupportedHashError';

/** Hashes pieces with WebCrypto, which takes all of them in one call, and rejects shared and resizable memory. */
function webCryptoHash(algorithm) {
  const pieces = [];
  return {
    update(piece) {
      const buffer = bufferOf.call(piece);
      pieces.push(buffer instanceof ArrayBuffer && !buffer.resizable ? piece : new Uint8Array(piece));
    },
    async digest() {
      const { subtle } = globalThis.crypto ?? {};
      if (!subtle) throw new TypeError('WebCrypto is missing: a page has it only over HTTPS or on localhost');
      const whole = pieces.length === 1 ? pieces[0] : await new Blob(pieces).arrayBuffer();
      return new Uint8Array(await subtle.digest(algorithm, whole));
    },
  };
}

/** Hashes with `identity`, whose digest is the content, or the start of that if it is too long. */
function identityHash() {
  const content = new Uint8Array(DIGEST_MAX + 1);
  let length = 0;
  return {
    update(piece) {
      if (length < content.length) content.set(piece.subarray(0, content.length - length), length);
      length += piece.length;
    },
    /** Throws an error if no multihash can have the content. */
    checkLength() {
      if (length > DIGEST_MAX)
        throw new MultihashError(`identity takes at most ${DIGEST_MAX} bytes of content, got ${length}`,
          { status: 'invalid_size', size: length });
    },
    digest: () => content.slice(0, length),
  };
}

/** Hashes the pieces, and then their digest. */
function doubleHash(create) {
  const first = create();
  const second = create();
  return {
    update: (piece) => first.update(piece),
    async digest() {
      second.update(await first.digest());
      return second.digest();
    },
  };
}

// The names that OpenSSL has for functions, where they are not those of CODES.
const OPENSSL_NAMES = {
  'sha2-224': 'sha224', 'sha2-256': 'sha256', 'sha2-384': 'sha384', 'sha2-512': 'sha512', 'sha2-512-224': 'sha512-224',
  'sha2-512-256': 'sha512-256', 'shake-128': 'shake128', 'shake-256': 'shake256', 'ripemd-160': 'ripemd160',
  'sm3-256': 'sm3', 'blake2b-256': 'blake2b256', 'blake2b-512': 'blake2b512', 'blake2s-256': 'blake2s256',
};
const OUTPUT_LENGTHS = { 'shake-128': 32, 'shake-256': 64 };

// The functions of this platform, by their names. Each value creates an object that hashes pieces.
const creators = { __proto__: null, identity: identityHash };
if (node) {
  const available = node.getHashes();
  for (const name of Object.keys(CODES)) {
    const algorithm = OPENSSL_NAMES[name] ?? name;
    const options = { outputLength: OUTPUT_LENGTHS[name] };
    if (available.includes(algorithm)) creators[name] = () => node.createHash(algorithm, options);
  }
} else {
  for (const bits of [256, 384, 512]) creators[`sha2-${bits}`] = () => webCryptoHash(`SHA-${bits}`);
  creators.sha1 = () => webCryptoHash('SHA-1');
}
creators['dbl-sha2-256'] = () => doubleHash(creators['sha2-256']);

/**
 * Returns what `call(source)` returns, with the source of the content, or undefined if the content is bytes. After an
 * error the source is cancelled, even if it was not read.
 */
async function reading(content, call) {
  if (content?.readableEnded) throw new TypeError('content is a stream that was read before: open it again');
  const source = isBytes(content) ? undefined : sourceOf(content, 'content', 'a Uint8Array, ');
  try {
    return await call(source);
  } catch (error) {
    try {
      await source?.close();
    } catch {} // the first error is thrown, not one of cancelling
    throw error;
  }
}

/**
 * Hashes the content: the chunks of its source, or bytes. Returns what `finish(hash)` returns, where `hash` has
 * hashed it. For bytes up to `PIECE` that is called before this function returns, since they may change afterwards.
 */
async function hashOf(create, content, source, finish) {
  const hash = create();
  if (source === undefined) {
    const length = checkedLength(content, 'content');
    for (let at = 0; at < length; at += PIECE) {
      if (at > 0) await new Promise((resolve) => globalThis.setImmediate(resolve)); // lets other tasks run
      hash.update(viewOf(content, at, Math.min(PIECE, length - at)));
    }
    return finish(hash);
  }
  while (true) {
    const { done, value } = await source.next();
    if (done) break;
    checkedLength(value, 'a chunk of the stream');
    hash.update(new Uint8Array(value)); // a copy, since a source may reuse its memory
  }
  source.release();
  return finish(hash);
}

/** Hashes pieces with an object that a caller's function creates, such as one of @noble/hashes or hash-wasm. */
function callersHash(create, name) {
  const hash = create();
  if (typeof hash?.update !== 'function' || typeof hash.digest !== 'function')
    throw new TypeError(`${name} must return an object with the methods update and digest, got ${received(hash)}`);
  return {
    update: (piece) => hash.update(piece),
    async digest() {
      // without 'binary' objects of hash-wasm, which have `init`, return a text; with it those of node:crypto do
      const result = await (hash.init ? hash.digest('binary') : hash.digest());
      if (!isBytes(result))
        throw new TypeError(`${name} must make a digest that is a Uint8Array, got ${received(result)}`);
      return result;
    },
  };
}

/** Returns the function for a code, which creates an object that hashes: the caller's, or else the platform's. */
function creatorOf(code, functions = {}) {
  checkedObject(functions, 'functions');
  const key = [code, NAMES[code]].find((name) => Object.prototype.hasOwnProperty.call(functions, name));
  if (key === undefined) {
    if (!creators[NAMES[code]]) throw new UnsupportedHashError(code);
    return creators[NAMES[code]];
  }
  const value = functions[key];
  const create = typeof value?.create === 'function' ? () => value.create() : value;
  if (typeof create !== 'function') throw wrongType(`functions[${key}]`, 'a function', value);
  return () => callersHash(create, `functions[${key}]`);
}

/** Returns the code of a name, or the code that was passed. */
function codeOf(hash) {
  if (typeof hash === 'number' || typeof hash === 'bigint') return checkedWide(hash, 'hash');
  if (typeof hash !== 'string') throw wrongType('hash', 'a name in CODES or a code', hash);
  if (CODES[hash] === undefined) throw new RangeError(`hash must be a name in CODES or a code, got ${shown(hash)}`);
  return CODES[hash];
}

/** Returns the multihash of what an object hashed, with the first `truncate` bytes of the digest. */
async function multihashOf(code, hash, truncate) {
  hash.checkLength?.();
  const whole = await hash.digest();
  const { length } = whole;
  const size = truncate ?? length;
  if (typeof size !== 'number') throw wrongType('truncate', 'a number', size);
  if (!Number.isInteger(size) || size < 0 || size > length)
    throw new RangeError(`truncate must be a whole number from 0 to ${length}, got ${shown(size)}`);
  return Multihash.of(code, whole.subarray(0, size));
}

export const digest = (content, hash, options = {}) => reading(content, async (source) => {
  const { truncate, functions } = checkedOptions(options, ['truncate', 'functions']);
  const code = codeOf(hash);
  return hashOf(creatorOf(code, functions), content, source, (hasher) => multihashOf(code, hasher, truncate));
});

export class Hasher {
  #code;
  #hash;
  #multihash; // the promise that `multihash` returns, after its first call

  constructor(hash, options = {}) {
    const { functions } = checkedOptions(options, ['functions']);
    this.#code = codeOf(hash);
    this.#hash = creatorOf(this.#code, functions)();
  }

  update(content) {
    const length = checkedLength(content, 'content');
    if (this.#multihash) throw new TypeError('multihash() was called, so this hasher takes no more bytes');
    // WebCrypto hashes later, so it needs a copy
    this.#hash.update(node ? viewOf(content, 0, length) : new Uint8Array(content));
    return this;
  }

  multihash() {
    this.#multihash ??= multihashOf(this.#code, this.#hash);
    return this.#multihash;
  }
}

export const hashers = { __proto__: null };
for (const name of Object.keys(creators)) {
  const hasher = { name, code: CODES[name], digest: (content, options) => digest(content, name, options) };
  hashers[name] = Object.freeze(hasher);
}
Object.freeze(hashers);
export const { identity, 'sha2-256': sha256, 'sha2-384': sha384, 'sha2-512': sha512 } = hashers;

/** Returns an object with the code and the digest of a multihash, which may be its encoding or a similar object. */
function claimOf(multihash) {
  if (isBytes(multihash)) return decode(multihash);
  if (multihash instanceof Multihash) return multihash;
  if (!isBytes(multihash?.digest)) throw wrongType('multihash', 'a Multihash or its encoding', multihash);
  return Multihash.of(multihash.code, multihash.digest);
}

export const verify = (multihash, content, options = {}) => reading(content, async (source) => {
  const { functions } = checkedOptions(options, ['functions']);
  const claim = claimOf(multihash);
  const actual = await hashOf(creatorOf(claim.code, functions), content, source, (hash) => hash.digest());
  if (claim.digest.length === 0) checkedLength(claim.digest, 'the digest');
  if (claim.digest.length !== actual.length) return false;
  let difference = 0; // all bytes are compared, so that the time does not depend on them
  for (let index = 0; index < actual.length; index++) difference |= actual[index] ^ claim.digest[index];
  return difference === 0;
});
