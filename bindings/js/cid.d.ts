// Content identifiers (CIDs), as bytes and as strings.
import type { Multihash, Status as MultihashStatus, Wide } from './index.js';

/** The codecs that most CIDs have, by their names in the multicodec table. Other numbers below 2^63 are codecs too. */
export const CODECS: {
  readonly raw: 0x55;
  readonly 'dag-pb': 0x70;
  readonly 'dag-cbor': 0x71;
  readonly 'libp2p-key': 0x72;
  readonly 'dag-json': 0x129;
};

/** The maximum length of an encoding, in bytes. */
export const CID_LENGTH_MAX: 276;
/** The maximum length of a text, in characters. A longer text is rejected before its base is decoded. */
export const CID_TEXT_MAX: 553;

/**
 * Why a call failed. The packages for other languages use the same names. Those of `Status` are of the version, the
 * codec or the multihash, and `cause` is the `MultihashError`. An empty text is `insufficient`.
 */
export type CIDStatus =
  | Exclude<MultihashStatus, 'invalid_code' | 'not_hexadecimal'>
  | 'unknown_base' // the text does not start with `b`, `f`, `z` or `Qm`
  | 'invalid_digit' // a character is not a digit of the base
  | 'too_long' // the text has more than `CID_TEXT_MAX` characters
  | 'trailing_bits' // the last digit is superfluous, or its unused bits are not zero
  | 'wrong_prefix' // the text of a CID of version 0 has a prefix, or a text that starts with `Qm` is not of version 0
  | 'unknown_version' // the bytes have a version other than 1, or `CID.of` got one other than 0 and 1
  | 'not_version_0'; // the codec or the multihash is not one that version 0 can have

/** The error of a string, bytes or fields that are not a CID. Arguments of a wrong type throw a `TypeError` instead. */
export class CIDError extends Error {
  constructor(status: CIDStatus, message: string, options?: { cause?: unknown });
  readonly status: CIDStatus;
  /** Returns the name, the message and the status. */
  toJSON(): { name: string; message: string; status: CIDStatus };
}

/**
 * A content identifier. The bytes of version 1 are the varints of 1 and of the codec, and the multihash; those of
 * version 0 are the multihash alone, of SHA2-256 with 32 bytes. Do not write to the properties.
 */
export class CID {
  private constructor();
  /**
   * Makes a CID. Version 0 has the codec `dag-pb` and a multihash of SHA2-256 with 32 bytes. Throws a `CIDError` with
   * the status `unknown_version`, `not_version_0` or, for the codec, `overflow`.
   */
  static of(version: 0 | 1, codec: Wide, multihash: Multihash): CID;
  /** Decodes `bytes`, which must be exactly one CID. Throws a `CIDError`. */
  static decode(bytes: Uint8Array): CID;
  /** Decodes the CID at the start of `bytes`. `consumed` is the length of its encoding. Throws a `CIDError`. */
  static read(bytes: Uint8Array): { readonly cid: CID; readonly consumed: number };
  /**
   * Decodes a text: `b..` (base32), `f..` (base16), `z..` (base58btc), or `Qm..` (version 0). A CID has one text in
   * each base, and no other is accepted: no capitals, no padding. Throws a `CIDError`.
   */
  static parse(text: string): CID;
  readonly version: 0 | 1;
  /** Below 2^63. A `number` up to `Number.MAX_SAFE_INTEGER`, and a `bigint` above. */
  readonly codec: Wide;
  readonly multihash: Multihash;
  /** The encoding: a new array each time. */
  readonly bytes: Uint8Array;
  /**
   * Returns the text in the base of a prefix, by default `b`, which is base32; `f` is base16 and `z` base58btc.
   * Version 0 has the text `Qm..` alone: its base is `z`. Throws a `RangeError` for other bases.
   */
  toString(base?: 'b' | 'f' | 'z'): string;
  /** Returns the text in the base that `toString` has by default. */
  toJSON(): string;
  /** Returns whether `other` is a CID with the same version, codec and multihash. */
  equals(other: unknown): boolean;
}
