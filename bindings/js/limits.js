// Limits and the version of multihash.h. Made by tools/generate tables.

/** The version of the library. */
export const version = '1.0.0';
/** The maximum length of a digest, in bytes. */
export const DIGEST_MAX = 255;
/** The maximum length of a varint, in bytes. */
export const VARINT_LENGTH_MAX = 9;
/** The maximum length of the two varints before a digest, in bytes. */
export const HEAD_MAX = 18;
/** The maximum length of an encoding, in bytes. */
export const LENGTH_MAX = 266;
/** The maximum length of a SCALE encoding, in bytes. */
export const SCALE_LENGTH_MAX = 264;
