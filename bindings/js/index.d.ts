// What the package declares.
export * from './codes.js';
export * from './hashes.js';
export * from './limits.js';

/** A whole number of 64 bits: a safe integer, or a `bigint`. A result above `Number.MAX_SAFE_INTEGER` is a `bigint`. */
export type Wide = number | bigint;

/** Why a call failed. */
export type Status =
  | 'insufficient' // the input ends before or inside a varint
  | 'overflow' // a varint has more than nine bytes, as those of numbers of 2^63 and above have
  | 'not_minimal' // a varint of more than one byte ends in a zero byte
  | 'invalid_size' // `size` is the length of a digest or frame that is too long, or the number of trailing bytes
  | 'invalid_code' // the code is 2^63 or more: `code` is the code
  | 'unexpected_eof' // the input ends between the varints and the end of the digest or frame; in SCALE, before the end
  | 'not_hexadecimal'; // a text is not an even number of hexadecimal digits

/** The fields of an error. */
export interface Details {
  readonly status: Status;
  /** The invalid size: the length of the digest or frame, or the number of trailing bytes. */
  readonly size?: Wide;
  /** The invalid code. */
  readonly code?: Wide;
  /** The number of bytes that a decoding consumed. */
  readonly consumed?: number;
}

/** The error of invalid input. An argument of a wrong type or range throws a `TypeError` or a `RangeError` instead. */
export class MultihashError extends Error {
  constructor(message: string, details: Details);
  /**
   * Whether the input is truncated. If it is not, more input cannot change the result, except for `decode` and
   * `fromHex`, which reject trailing bytes.
   */
  readonly isIncomplete: boolean;
  /** The same fields as a plain object, which `structuredClone` and `postMessage` keep in most engines. */
  readonly cause: Details;
  /** Restores an error from its clone. Returns a `MultihashError` itself, and undefined for other values. */
  static from(value: unknown): MultihashError | undefined;
  /** Returns the name, the message and the fields, a bigint as decimal text. */
  toJSON(): { name: string; message: string; status: Status; size?: number | string; code?: number | string;
    consumed?: number };
}
export interface MultihashError extends Details {}

/** A code and a digest: a `Multihash`, its clone, or a digest of js-multiformats. */
export interface MultihashDigest {
  readonly code: Wide;
  readonly digest: Uint8Array;
}

/**
 * A code, which names a hash function, and a digest. A `Multihash<number>` has the properties of `MultihashDigest`
 * in js-multiformats. Do not write to `code`, or to the bytes of `digest`.
 */
export class Multihash<Code extends Wide = Wide> implements MultihashDigest {
  private constructor();
  /** Makes the multihash of a code and a digest, which is copied. Throws what `encode` throws. */
  static of(code: number, digest: Uint8Array): Multihash<number>;
  static of(code: Wide, digest: Uint8Array): Multihash;
  /** Decodes exactly one multihash from hexadecimal digits of either case. Throws what `decode` throws. */
  static fromHex(text: string): Multihash;
  /**
   * Makes the multihash of what `toJSON` returned: a code, which may be decimal text, and a digest in hexadecimal. If
   * `size` is there, it must be the digest's length. Throws a `TypeError`, a `RangeError`, or what `of` and `fromHex`
   * throw.
   */
  static fromJSON(json: { readonly code: Wide | string; readonly size?: number; readonly digest: string }): Multihash;
  /** Below 2^63. A `number` up to `Number.MAX_SAFE_INTEGER`, and a `bigint` above. */
  readonly code: Code;
  /** The digest's length in bytes. */
  readonly size: number;
  readonly digest: Uint8Array;
  /** The digest in hexadecimal. */
  readonly digestHex: string;
  /** The encoding: a new array each time. */
  readonly bytes: Uint8Array;
  /** Returns the encoding in hexadecimal: a key for a `Map`, a log or a URL. */
  toString(): string;
  /** Returns whether `other` has the same code and digest. Throws a `TypeError` if a digest is detached. */
  equals(other: unknown): boolean;
  /** Returns this multihash, whose code is a `number`. Throws a `RangeError` if it is a `bigint`. */
  narrow(): Multihash<number>;
  /** Returns the code, a bigint as decimal text, the size, and the digest in hexadecimal. */
  toJSON(): { code: number | string; size: number; digest: string };
}

/** A multihash, and the number of bytes that were decoded. */
export interface Read {
  readonly multihash: Multihash;
  readonly consumed: number;
}

/** Concatenated multihashes as columns: element `i` of each column belongs to multihash `i`, counted from 0. */
export interface Columns {
  readonly codes: BigUint64Array;
  /** The indices at which the digests start in the input. */
  readonly offsets: Float64Array;
  /** The digests' lengths in bytes. */
  readonly lengths: Uint8Array;
  /** The number of bytes that were decoded: those of all multihashes in the columns. */
  readonly consumed: number;
  /** The error for the bytes from `consumed` on; its own `consumed` counts from there. Undefined if no bytes follow. */
  readonly error: MultihashError | undefined;
}

/** The two varints before a digest. */
export interface Head {
  readonly code: Wide;
  /** Below 2^63. It may exceed 255, the maximum of a multihash. */
  readonly digestLength: Wide;
  /** The length of both varints. */
  readonly consumed: number;
}

/**
 * Decodes `bytes`, which must be exactly one multihash.
 * @throws {MultihashError} They are not a multihash: they are malformed, are truncated, or continue after it.
 */
export function decode(bytes: Uint8Array): Multihash;
/**
 * Decodes the multihash at the start of `bytes`. More bytes may follow.
 * @param limit The maximum length of the digest, by default 255.
 * @throws {MultihashError} They do not start with such a multihash. If `isIncomplete` is true, append bytes and call
 * again.
 */
export function read(bytes: Uint8Array, limit?: Wide): Read;
/**
 * Decodes the multihashes in `bytes`, one after the other, up to the end or the first that is invalid or truncated. It
 * copies no digest, throws no `MultihashError`, and takes a fraction of the time of `read` for each.
 */
export function readMany(bytes: Uint8Array): Columns;
/**
 * Decodes the two varints at the start of `bytes`. The digest may be missing.
 * @throws {MultihashError} A varint is malformed or truncated.
 */
export function head(bytes: Uint8Array): Head;
/**
 * Decodes the varint at the start of `bytes`. `consumed` is the varint's length.
 * @throws {MultihashError} The varint is malformed or truncated.
 */
export function readVarint(bytes: Uint8Array): { readonly value: Wide; readonly consumed: number };
/** Returns the varint of a number. Throws a `MultihashError` with the status `overflow` if that is 2^63 or more. */
export function encodeVarint(value: Wide): Uint8Array;
/**
 * Writes the varint of a number to `bytes`, from the index `at` on, by default 0. Returns the number of bytes that it
 * wrote. Throws what `encodeVarint` does, and a `RangeError` if the varint does not fit; then it wrote nothing.
 */
export function writeVarint(value: Wide, bytes: Uint8Array, at?: number): number;
/**
 * Returns the encoding of a code and a digest.
 * @throws {MultihashError} The digest has more than 255 bytes, or the code is a `bigint` from 2^63 to 2^64 - 1.
 */
export function encode(code: Wide, digest: Uint8Array): Uint8Array;
/**
 * Returns the length of the encoding of a code and a digest of `digestLength` bytes.
 * @throws {MultihashError} As `encode`.
 */
export function encodedLength(code: Wide, digestLength: Wide): number;
/**
 * Returns -1 if `left` comes first, 0 if both are equal, and 1 if `right` comes first. Compares by code, then by digest
 * length, then by the first digest byte that differs.
 */
export function compare(left: Multihash, right: Multihash): -1 | 0 | 1;
/**
 * Decodes the SCALE encoding at the start of `bytes`. More bytes may follow.
 * @throws {MultihashError} The encoding is truncated, or its code is 2^63 or more.
 */
export function scaleDecode(bytes: Uint8Array): Read;
/**
 * Returns the SCALE encoding: the code in eight bytes, least significant first, the digest's length in one byte, and
 * the digest.
 * @throws {MultihashError} As `encode`.
 */
export function scaleEncode(code: Wide, digest: Uint8Array): Uint8Array;

/** The part of `ReadableStream` that this package uses. */
export interface ByteStream {
  readonly locked: boolean;
  getReader(): {
    read(): Promise<{ done: boolean; value?: Uint8Array | undefined }>;
    cancel(reason?: unknown): Promise<void>;
    releaseLock(): void;
  };
  cancel(reason?: unknown): Promise<void>;
}

/** What both readers have: `Item` is a multihash, or a frame. */
export interface ItemReader<Item> extends AsyncIterable<Item> {
  /** A copy of the bytes received that belong to no item returned so far. */
  readonly rest: Uint8Array;
  /**
   * The number of bytes of the items returned so far, including bytes of the option `rest`: the position at which the
   * next item starts, or after a `MultihashError` the invalid one.
   */
  readonly consumed: number;
  /** The number of items returned: that of the next one, or after a `MultihashError` of the invalid one. */
  readonly count: number;
  /**
   * Returns the next item, or null if the source has ended after the last one. After an error every call rejects with
   * that error. After an error or null the source is released. An error of a Node.js `Readable` before the first call
   * rejects that call.
   */
  read(): Promise<Item | null>;
  /**
   * Unlocks a `ReadableStream` for another reader; `rest` has the bytes received. From then on every `read`, including
   * a pending one, rejects with a `TypeError`, unless the reader had already ended. The source is not cancelled. With
   * an async iterable, a pending `read` rejects only once its chunk has arrived; `rest` then includes the chunk.
   */
  release(): void;
  /**
   * Cancels the source, and a Node.js `Readable` is destroyed. From then on every `read`, including a pending one,
   * returns null. The promise waits for the source: an async generator ends only once what it awaits has arrived.
   */
  cancel(reason?: unknown): Promise<void>;
  /** Calls `cancel`, in engines that have `Symbol.asyncDispose`. */
  [Symbol.asyncDispose](): Promise<void>;
  /** Leaving the loop cancels the source. If that fails, its error is thrown only if the loop itself threw none. */
  [Symbol.asyncIterator](): AsyncGenerator<Item, void, void>;
}

/** Reads concatenated encodings from a `ReadableStream` or an async iterable. */
export class MultihashReader {
  /**
   * `limit` is the maximum length of a digest, by default 255. `rest` has bytes that precede the source, left by
   * another reader.
   */
  constructor(source: ByteStream | AsyncIterable<Uint8Array>, options?: { limit?: Wide; rest?: Uint8Array });
}
export interface MultihashReader extends ItemReader<Multihash> {}

/**
 * Reads frames from a `ReadableStream` or an async iterable: each is a varint, and then that many bytes, such as a
 * section of a CAR or a message of libp2p. The bytes of a frame are a copy. If the stream ends inside a frame, the
 * error is a `MultihashError` with `isIncomplete`. The message of each error has the number of the frame, counted from
 * 0, and its offset. Memory grows with the bytes that arrive, not with the length that a frame claims.
 */
export class FrameReader {
  /**
   * `limit` is the maximum length of a frame in bytes, without its varint, by default 2^22: a longer one is an error
   * with the status `invalid_size` before its bytes arrive. `rest` has bytes that precede the source, left by another
   * reader.
   */
  constructor(source: ByteStream | AsyncIterable<Uint8Array>, options?: { limit?: Wide; rest?: Uint8Array });
}
export interface FrameReader extends ItemReader<Uint8Array> {}

declare global {
  interface SymbolConstructor {
    readonly asyncDispose: unique symbol;
  }
}
