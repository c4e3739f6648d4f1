// Hash functions of node:crypto, or of WebCrypto in browsers.
import type { ByteStream, Multihash, MultihashDigest, Wide } from './index.js';

/**
 * What is hashed: bytes, or the chunks of a stream, such as `createReadStream(path)` or `blob.stream()`. A stream is
 * read to its end. After an error it is cancelled, even if nothing was read, and a Node.js `Readable` is destroyed.
 */
export type Content = Uint8Array | ByteStream | AsyncIterable<Uint8Array>;

/** An object that hashes, as those of `@noble/hashes`, `hash-wasm` and `createHash` of node:crypto do. */
export interface Hash {
  update(bytes: Uint8Array): unknown;
  /** `'binary'` is passed only to objects that have `init`: those of `hash-wasm`, which otherwise return a text. */
  digest(encoding: 'binary'): Uint8Array | PromiseLike<Uint8Array>;
}

/**
 * Hash functions, by their codes or their names in `CODES`. Each is a function that returns a new `Hash`, or an object
 * with such a method `create`, as in `@noble/hashes`. They take precedence over the functions of the platform.
 */
export type Functions = Readonly<Record<string | number, (() => Hash) | { create(options?: any): Hash }>>;

/** The error for a hash function that neither the platform nor `functions` has. Nothing was hashed. */
export class UnsupportedHashError extends RangeError {
  constructor(code: Wide);
  readonly code: Wide;
}

/** With `truncate` a digest has only that many bytes, the first ones. */
export interface DigestOptions { truncate?: number; functions?: Functions }

/** A hash function, with the properties of `MultihashHasher` in js-multiformats. */
export interface MultihashHasher<Code extends number = number> {
  readonly name: string;
  readonly code: Code;
  /**
   * Returns the multihash of the content. The memory of content above 1 MiB must not change until the promise is
   * settled. A browser holds a whole stream in memory.
   */
  digest(content: Content, options?: DigestOptions): Promise<Multihash<Code>>;
}

/** The functions that this platform has, by their names: those listed here, and in Node.js those of its OpenSSL. */
export const hashers: Readonly<Record<string, MultihashHasher | undefined>> & {
  readonly identity: MultihashHasher<0>;
  readonly sha1: MultihashHasher<0x11>;
  readonly 'sha2-256': MultihashHasher<0x12>;
  readonly 'sha2-384': MultihashHasher<0x20>;
  readonly 'sha2-512': MultihashHasher<0x13>;
  readonly 'dbl-sha2-256': MultihashHasher<0x56>;
};
/** The digest is the content itself, of at most 255 bytes. */
export const identity: MultihashHasher<0>;
export const sha256: MultihashHasher<0x12>;
export const sha384: MultihashHasher<0x20>;
export const sha512: MultihashHasher<0x13>;

/**
 * Hashes the content with the function that has a name in `CODES`, or a code, and returns the multihash. Throws an
 * `UnsupportedHashError` if neither `functions` nor the platform has it.
 */
export function digest(content: Content, hash: string | number, options?: DigestOptions): Promise<Multihash<number>>;
export function digest(content: Content, hash: string | Wide, options?: DigestOptions): Promise<Multihash>;

/** Makes the multihash of content that arrives in parts. */
export class Hasher {
  /**
   * `hash` is a name in `CODES` or a code. Throws a `RangeError` for another name, and an `UnsupportedHashError` if
   * neither `functions` nor the platform has the function.
   */
  constructor(hash: string | Wide, options?: { functions?: Functions });
  /** Appends bytes, and returns this hasher. Throws a `TypeError` after `multihash`. A browser keeps all in memory. */
  update(content: Uint8Array): this;
  /** Returns the multihash of all bytes, by the same promise each time. With `identity` more than 255 are an error. */
  multihash(): Promise<Multihash>;
}

/**
 * Returns whether a multihash, which may be its encoding, is that of the content: false if its digest is truncated.
 * Throws an `UnsupportedHashError` if neither `functions` nor the platform has the function. The time for digests of
 * equal lengths does not depend on their bytes.
 */
export function verify(
  multihash: MultihashDigest | Uint8Array, content: Content, options?: { functions?: Functions },
): Promise<boolean>;
