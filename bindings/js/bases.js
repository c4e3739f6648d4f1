// The bases of texts of multihashes and content identifiers. They are tested, not checked for all inputs.
import { wrongType } from './arguments.js';
import { MultihashError } from './errors.js';
import { LENGTH_MAX, VARINT_LENGTH_MAX } from './limits.js';

// ---- base16: hexadecimal digits

/** The value of a hexadecimal digit: 0x30 is the code of 0, 0x41 of A, 0x61 of a. */
function digitAt(text, index) {
  const code = text.charCodeAt(index);
  return (code & 15) + 9 * (code >> 6);
}

/** The bytes of a text of hexadecimal digits. */
export function unhex(text, name = 'text') {
  if (typeof text !== 'string') throw wrongType(name, 'a string', text);
  const at = text.search(/[^0-9a-f]/i);
  if (at >= 0 || text.length % 2 !== 0) {
    const what = at < 0 ? `an odd number of digits, ${text.length}` :
      `${JSON.stringify(String.fromCodePoint(text.codePointAt(at)))} at index ${at}, which is not a hexadecimal digit`;
    throw new MultihashError(`the ${name} has ${what}`, { status: 'not_hexadecimal' });
  }
  const bytes = new Uint8Array(text.length / 2);
  for (let index = 0; index < bytes.length; index++)
    bytes[index] = 16 * digitAt(text, 2 * index) + digitAt(text, 2 * index + 1);
  return bytes;
}

const BASE16 = Uint8Array.from('0123456789abcdef', (digit) => digit.charCodeAt(0));
const hexBuffer = new Uint8Array(2 * (1 + VARINT_LENGTH_MAX + LENGTH_MAX)); // enough for the longest CID
const decoder = new TextDecoder();

/** The bytes of a multihash or a CID in hexadecimal. Appending each digit to a text takes several times as long. */
export function hex(bytes) {
  for (let index = 0; index < bytes.length; index++) {
    hexBuffer[2 * index] = BASE16[bytes[index] >> 4];
    hexBuffer[2 * index + 1] = BASE16[bytes[index] & 15];
  }
  return decoder.decode(hexBuffer.subarray(0, 2 * bytes.length));
}

// ---- base32 and base58btc

const BASE32 = 'abcdefghijklmnopqrstuvwxyz234567';
const BASE58 = '123456789ABCDEFGHJKLMNPQRSTUVWXYZabcdefghijkmnopqrstuvwxyz';

const textOf = (values, digits) => values.map((value) => digits[value]).join('');
const valuesOf = (text, digits) => Array.from(text, (digit) => digits.indexOf(digit));

/** Regroups the bits of values, with zeros after the last bit. */
function regrouped(values, fromBits, toBits) {
  const groups = [];
  let rest = 0; // the bits that are in no group yet
  let count = 0; // their number
  for (const value of values) {
    rest = (rest << fromBits) | value;
    count += fromBits;
    while (count >= toBits) {
      count -= toBits;
      groups.push(rest >> count);
      rest &= (1 << count) - 1;
    }
  }
  if (count > 0) groups.push(rest << (toBits - count));
  return groups;
}

/** Converts a number to another base, from and to values with the most significant first. Leading zeros stay. */
function inBase(values, from, to) {
  const digits = []; // least significant first
  for (const value of values) {
    let carry = value;
    for (let at = 0; at < digits.length; at++) {
      carry += digits[at] * from;
      digits[at] = carry % to;
      carry = Math.floor(carry / to);
    }
    for (; carry > 0; carry = Math.floor(carry / to)) digits.push(carry % to);
  }
  for (let at = 0; values[at] === 0; at++) digits.push(0);
  return digits.reverse();
}

const toBase32 = (bytes) => textOf(regrouped(bytes, 8, 5), BASE32);
const toBase58 = (bytes) => textOf(inBase(bytes, 256, 58), BASE58);
const fromBase16 = (text) => (text.length % 2 === 0 ? unhex(text) : undefined);
const fromBase58 = (text) => Uint8Array.from(inBase(valuesOf(text, BASE58), 58, 256));

function fromBase32(text) {
  const bytes = regrouped(valuesOf(text, BASE32), 5, 8);
  const trailing = (text.length * 5) % 8; // the number of bits after the last byte
  if (trailing > 0 && (bytes.pop() !== 0 || trailing >= 5)) return undefined;
  return Uint8Array.from(bytes);
}

/**
 * The bases, by the prefixes of texts. `other` matches a character that is not a digit. `encode` returns digits without
 * the prefix, and `decode` expects digits without it. `decode` returns undefined if the last digit is superfluous, or
 * if its unused bits are not zero.
 */
export const BASES = {
  __proto__: null,
  b: { name: 'base32', other: /[^a-z2-7]/, encode: toBase32, decode: fromBase32 },
  f: { name: 'base16', other: /[^0-9a-f]/, encode: hex, decode: fromBase16 },
  z: { name: 'base58btc', other: /[^1-9A-HJ-NP-Za-km-z]/, encode: toBase58, decode: fromBase58 },
};
