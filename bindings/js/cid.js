// Content identifiers (CIDs), as bytes and as texts. cid.d.ts documents what is public.
import { checkedLength, checkedWide, shown, viewOf, wrongType } from './arguments.js';
import { BASES } from './bases.js';
import { encodeVarint, readVarint } from './core.js';
import { LENGTH_MAX, VARINT_LENGTH_MAX } from './limits.js';
import { MAKING, Multihash, decode, read } from './multihash.js';

export const CODECS = Object.freeze({
  __proto__: null, raw: 0x55, 'dag-pb': 0x70, 'dag-cbor': 0x71, 'libp2p-key': 0x72, 'dag-json': 0x129,
});

export const CID_LENGTH_MAX = 1 + VARINT_LENGTH_MAX + LENGTH_MAX;
// The length of a text in base16, whose texts are the longest. A longer text is not decoded, since the time for base58
// grows with the square of the length.
export const CID_TEXT_MAX = 1 + 2 * CID_LENGTH_MAX;

export class CIDError extends Error {
  constructor(status, message, options) {
    super(message, options);
    this.status = status;
  }

  toJSON() {
    return { name: this.name, message: this.message, status: this.status };
  }
}
CIDError.prototype.name = 'CIDError';

/** Returns what `call` returns, which decodes or encodes a part of a CID. Throws a CIDError for its MultihashError. */
function ofPart(part, call) {
  try {
    return call();
  } catch (cause) {
    throw new CIDError(cause.status, `${part}: ${cause.message}`, { cause });
  }
}

/** Whether the bytes start with the code of SHA2-256 and the length 32, as those of version 0 do. */
const isVersion0 = (bytes) => bytes[0] === 0x12 && bytes[1] === 0x20;

/** Decodes the version and the codec. `start` is the index at which the multihash starts. */
function headOf(bytes, length) {
  if (isVersion0(bytes)) return { version: 0, codec: CODECS['dag-pb'], start: 0 };
  const version = ofPart('version', () => readVarint(bytes));
  if (version.value !== 1) throw new CIDError('unknown_version', `the version must be 1, not ${version.value}`);
  const codec = ofPart('codec', () => readVarint(viewOf(bytes, version.consumed, length - version.consumed)));
  return { version: 1, codec: codec.value, start: version.consumed + codec.consumed };
}

export class CID {
  constructor(making, version, codec, multihash) {
    if (making !== MAKING) throw new TypeError('CID.of(version, codec, multihash) makes a CID');
    this.version = version;
    this.codec = codec;
    this.multihash = multihash;
  }

  static of(version, codec, multihash) {
    const number = checkedWide(codec, 'codec');
    if (!(multihash instanceof Multihash)) throw wrongType('multihash', 'a Multihash', multihash);
    if (checkedWide(version, 'version') > 1) throw new CIDError('unknown_version', 'the version must be 0 or 1');
    ofPart('codec', () => encodeVarint(number));
    if (Number(version) === 0 && (number !== CODECS['dag-pb'] || !isVersion0(multihash.bytes)))
      throw new CIDError('not_version_0', 'version 0 has the codec 0x70 and a multihash of SHA2-256 with 32 bytes');
    return new CID(MAKING, Number(version), number, multihash);
  }

  static decode(bytes) {
    const length = checkedLength(bytes, 'bytes');
    const { version, codec, start } = headOf(bytes, length);
    return CID.of(version, codec, ofPart('multihash', () => decode(viewOf(bytes, start, length - start))));
  }

  static read(bytes) {
    const length = checkedLength(bytes, 'bytes');
    const { version, codec, start } = headOf(bytes, length);
    const { multihash, consumed } = ofPart('multihash', () => read(viewOf(bytes, start, length - start)));
    return { cid: CID.of(version, codec, multihash), consumed: start + consumed };
  }

  static parse(text) {
    if (typeof text !== 'string') throw wrongType('text', 'a string', text);
    if (text === '') throw new CIDError('insufficient', 'the text is empty');
    const hasNoPrefix = text.startsWith('Qm');
    const [base, start] = hasNoPrefix ? [BASES.z, 0] : [BASES[text[0]], 1];
    if (!base) throw new CIDError('unknown_base', 'the text must start with b, f, z or Qm');
    const at = text.slice(start, CID_TEXT_MAX).search(base.other);
    if (at >= 0) // the character is not shown: it may be one that changes how the text is displayed
      throw new CIDError('invalid_digit', `the character at index ${start + at} is not a ${base.name} digit`);
    if (text.length > CID_TEXT_MAX) throw new CIDError('too_long', `the text has more than ${CID_TEXT_MAX} characters`);
    const bytes = base.decode(text.slice(start));
    if (!bytes) throw new CIDError('trailing_bits', `the last ${base.name} digit has superfluous bits`);
    if (isVersion0(bytes) !== hasNoPrefix)
      throw new CIDError('wrong_prefix', 'a CID of version 0 has the text Qm.., and no other has');
    return CID.decode(bytes);
  }

  get bytes() {
    const { bytes } = this.multihash;
    return this.version === 0 ? bytes : Uint8Array.of(1, ...encodeVarint(this.codec), ...bytes);
  }

  toString(base = this.version === 0 ? 'z' : 'b') {
    if (!BASES[base] || (this.version === 0 && base !== 'z'))
      throw new RangeError(`base must be 'b', 'f' or 'z', and 'z' for version 0, got ${shown(base)}`);
    const digits = BASES[base].encode(this.bytes);
    return this.version === 0 ? digits : base + digits;
  }

  toJSON() {
    return this.toString();
  }

  /** Returns what console.log shows in Node.js. */
  [Symbol.for('nodejs.util.inspect.custom')]() {
    return `CID(${this})`;
  }

  equals(other) {
    return other instanceof CID && other.version === this.version && other.codec === this.codec &&
      this.multihash.equals(other.multihash);
  }
}
