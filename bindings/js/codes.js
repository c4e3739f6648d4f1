// Names of hash functions in the multicodec table. Made by tools/generate tables.

const family = (name, first, count) =>
  Object.fromEntries(Array.from({ length: count }, (_, index) => [`${name}-${8 * (index + 1)}`, first + index]));

/** The code of each hash function by its name. */
export const CODES = Object.freeze({
  __proto__: null,
  'identity': 0x0,
  'sha1': 0x11,
  'sha2-256': 0x12,
  'sha2-512': 0x13,
  'sha3-512': 0x14,
  'sha3-384': 0x15,
  'sha3-256': 0x16,
  'sha3-224': 0x17,
  'shake-128': 0x18,
  'shake-256': 0x19,
  'keccak-224': 0x1a,
  'keccak-256': 0x1b,
  'keccak-384': 0x1c,
  'keccak-512': 0x1d,
  'blake3': 0x1e,
  'sha2-384': 0x20,
  'murmur3-x64-64': 0x22,
  'murmur3-32': 0x23,
  'dbl-sha2-256': 0x56,
  'md4': 0xd4,
  'md5': 0xd5,
  'bmt': 0xd6,
  'fr32-sha256-trunc254-padbintree': 0x1011,
  'sha2-256-trunc254-padded': 0x1012,
  'sha2-224': 0x1013,
  'sha2-512-224': 0x1014,
  'sha2-512-256': 0x1015,
  'murmur3-x64-128': 0x1022,
  'ripemd-128': 0x1052,
  'ripemd-160': 0x1053,
  'ripemd-256': 0x1054,
  'ripemd-320': 0x1055,
  'x11': 0x1100,
  'kangarootwelve': 0x1d01,
  'sm3-256': 0x534d,
  'sha256a': 0x7012,
  ...family('blake2b', 0xb201, 64),
  ...family('blake2s', 0xb241, 32),
  ...family('skein256', 0xb301, 32),
  ...family('skein512', 0xb321, 64),
  ...family('skein1024', 0xb361, 128),
  'xxh-32': 0xb3e1,
  'xxh-64': 0xb3e2,
  'xxh3-64': 0xb3e3,
  'xxh3-128': 0xb3e4,
  'poseidon-bls12_381-a2-fc1': 0xb401,
  'poseidon-bls12_381-a2-fc1-sc': 0xb402,
  'ssz-sha2-256-bmt': 0xb502,
  'sha2-256-chunked': 0xb510,
});

/** The name of each code. */
export const NAMES = { __proto__: null };
for (const [name, code] of Object.entries(CODES)) NAMES[code] = name;
Object.freeze(NAMES);
