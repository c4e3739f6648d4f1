// What the package exports.
export { encode, encodeVarint, encodedLength, head, readMany, readVarint, scaleEncode, writeVarint } from './core.js';
export { MultihashError } from './errors.js';
export * from './codes.js';
export * from './hashes.js';
export * from './limits.js';
export { Multihash, compare, decode, read, scaleDecode } from './multihash.js';
export { FrameReader, MultihashReader } from './reader.js';
