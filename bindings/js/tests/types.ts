// What tsc --strict --exactOptionalPropertyTypes accepts: types of other packages that have to fit, and types that
// depend on arguments. After each @ts-expect-error is a line that it rejects.
import { CODES, FrameReader, Hasher, Multihash, MultihashError, MultihashReader, NAMES, UnsupportedHashError, decode,
  digest, hashers, head, identity, readMany, sha256, verify } from 'verified-multihash';
import type { ByteStream, Content, Functions, Status, Wide } from 'verified-multihash';
import { CID, CODECS } from 'verified-multihash/cid';

type Same<A, B> = (<T>() => T extends A ? 1 : 2) extends <T>() => T extends B ? 1 : 2 ? true : false;
/** The value has this type and no other, such as `any` or a union with more. */
const is = <A>() => <B>(value: B, ..._: Same<A, B> extends true ? [] : [never]): B => value;

const bytes = new Uint8Array([0x12, 0]);
const found = decode(bytes);
is<Wide>()(head(bytes).code);
is<BigUint64Array>()(readMany(bytes).codes);
is<Multihash<number>>()(found.narrow());
is<Multihash<number>>()(Multihash.of(18, bytes));
is<Multihash>()(Multihash.of(18n, bytes));
Multihash.fromJSON(found.toJSON());
// @ts-expect-error Multihash.of makes one
new Multihash();
// @ts-expect-error a field is not assigned to
found.code = 18;
// @ts-expect-error bytes are no other view
decode(new Uint8ClampedArray(2));

const error: Error & MultihashError = new MultihashError('a text', { status: 'not_hexadecimal', size: 2n ** 60n });
is<Status>()(error.status);
// @ts-expect-error 'ok' is the status of no error
new MultihashError('a text', { status: 'ok' });
// @ts-expect-error a field may be absent, not undefined
new MultihashError('a text', { status: 'overflow', consumed: undefined });

declare const stream: ReadableStream<Uint8Array>;
export const source: ByteStream = stream;
is<Promise<Multihash | null>>()(new MultihashReader(stream, { limit: 64, rest: bytes }).read());
is<Promise<Uint8Array | null>>()(new FrameReader(stream, { limit: 64n }).read());
export const iterable = (chunks: AsyncIterable<Uint8Array>): MultihashReader => new MultihashReader(chunks);
// @ts-expect-error chunks are no texts
export const texts = (stream: ReadableStream<string>): MultihashReader => new MultihashReader(stream);

/** A digest and a hasher as in js-multiformats, whose `CID.create` takes the digest. */
interface Digest { code: number; size: number; digest: Uint8Array; bytes: Uint8Array }
interface TheirHasher {
  name: string;
  code: number;
  digest(input: Uint8Array, options?: { truncate?: number }): Promise<Digest> | Digest;
}
export const theirs: Digest[] = [found.narrow(), Multihash.of(0x12, bytes)];
export const theirHashers: TheirHasher[] = [sha256, identity];
verify(theirs[0]!, stream);
// @ts-expect-error the code may be a bigint
export const wide: Digest = found;
is<Multihash<0x11>>()(await hashers.sha1.digest(bytes));
is<Promise<Multihash<number>>>()(digest(bytes, 'sha2-256'));
is<Promise<Multihash>>()(new Hasher('sha2-256').update(bytes).multihash());
sha256.digest(stream as Content, { truncate: 20 });

/** As in @noble/hashes, hash-wasm and node:crypto. */
interface Noble {
  (bytes: Uint8Array | string, options?: { dkLen?: number }): Uint8Array;
  create(options: { dkLen?: number }): { update(bytes: Uint8Array | string): Noble; digest(): Uint8Array };
}
interface HashWasm {
  init(): HashWasm;
  update(bytes: Uint8Array | string): HashWasm;
  digest: { (type: 'binary'): Uint8Array; (type?: 'hex'): string };
}
interface NodeHash {
  update(bytes: Uint8Array): NodeHash;
  digest: { (): Uint8Array; (encoding: 'hex' | 'binary'): string };
}
declare const [noble, wasm, ofNode]: [Noble, HashWasm, NodeHash];
export const functions: Functions = { blake3: noble, 0x1b: () => wasm.init(), 'blake2b-256': () => ofNode,
  0xb220: () => noble.create({ dkLen: 32 }) };
verify(found, stream, { functions });
// @ts-expect-error a function that hashes at once
export const once: Functions = { blake3: (bytes: Uint8Array) => bytes };
export const range: RangeError = new UnsupportedHashError(0x1e);
is<string | undefined>()(NAMES[18]);
is<0x12>()(CODES['sha2-256']);
is<number | undefined>()(CODES['blake2b-128']);
is<0 | 1>()(CID.of(1, CODECS.raw, found).version);
