// Statuses, and the texts of errors, of the headers for C. Made by tools/generate tables.

/** The statuses, by their numbers. */
export const STATUSES = [
  'ok',
  'insufficient',
  'overflow',
  'not_minimal',
  'invalid_size',
  'invalid_code',
  'unexpected_eof',
  'no_room',
];
/** Those of truncated input. */
export const INCOMPLETE = ['insufficient', 'unexpected_eof'];

export const empty = () =>
  `the input is empty`;
export const ends = (place, part) =>
  `the input ends ${place} the ${part}`;
export const truncated = (part, there, whole) =>
  `the input ends ${there === 0 ? 'before' : 'inside'} the ${part} (${there} of ${whole} ${whole === 1 ? 'byte' : 'bytes'})`;
export const overflow = (varint) =>
  `the ${varint} has more than nine bytes`;
export const notMinimal = (varint) =>
  `the ${varint} is not minimal: it ends in a zero byte`;
export const tooLong = (part, length, limit) =>
  `the ${part} has ${length} ${length === 1 ? 'byte' : 'bytes'}, and the limit is ${limit}`;
export const tooLarge = (name, number) =>
  `the ${name} ${number} is 2^63 or more`;
export const trailing = (count) =>
  `${count} ${count === 1 ? 'byte follows' : 'bytes follow'} the multihash`;
