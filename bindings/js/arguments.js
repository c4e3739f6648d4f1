// Checks of arguments. An error names the argument, what was expected, and what was passed.

/** The type of a value, as an error names it. */
export function received(value) {
  if (value === null || ['undefined', 'boolean', 'number'].includes(typeof value)) return String(value);
  if (typeof value !== 'object') return typeof value;
  const kind = Object.prototype.toString.call(value).slice(8, -1);
  return kind === 'Object' ? value.constructor?.name || kind : kind;
}

/** A number or a name as an error shows it: 40 characters at most. */
export function shown(number) {
  const text = String(number);
  return text.length > 40 ? `${text.slice(0, 40)}...` : text;
}

/** What a caller can do instead, by the type of what was passed. */
const HINTS = {
  __proto__: null,
  string: 'Multihash.fromHex(text) decodes hexadecimal, new TextEncoder().encode(text) makes bytes',
  Array: 'Uint8Array.from(array) makes bytes',
  ArrayBuffer: 'new Uint8Array(buffer) makes bytes',
  view: 'new Uint8Array(view.buffer, view.byteOffset, view.byteLength) makes bytes',
  Promise: 'await it',
};

/** The error for an argument of a wrong type. Only where bytes are expected it has a hint. */
export function wrongType(name, expected, value) {
  let type = received(value);
  if (type === 'Uint8Array' && !isBytes(value)) type = 'a Proxy of a Uint8Array';
  const hint = expected.includes('a Uint8Array') ? HINTS[ArrayBuffer.isView(value) ? 'view' : type] : undefined;
  return new TypeError(`${name} must be ${expected}, got ${type}${hint ? `: ${hint}` : ''}`);
}

const getter = (prototype, name) => Object.getOwnPropertyDescriptor(prototype, name).get;
const typedArray = Object.getPrototypeOf(Uint8Array.prototype);
const { slice } = typedArray;
// These are the getters of the prototype, since a subclass may override them.
const tagOf = getter(typedArray, Symbol.toStringTag);
const lengthOf = getter(typedArray, 'length');
const offsetOf = getter(typedArray, 'byteOffset');
export const bufferOf = getter(typedArray, 'buffer');

/** Whether the value is a Uint8Array, of any realm. */
export const isBytes = (value) => tagOf.call(value) === 'Uint8Array';

/** The length of a Uint8Array. Throws a TypeError for other values, and if the array is detached or out of bounds. */
export function checkedLength(data, name) {
  if (tagOf.call(data) !== 'Uint8Array') throw wrongType(name, 'a Uint8Array', data);
  // In V8 11 `encode` and `equals` take 6 % less time if an element is read before the length.
  return data[0] === undefined ? emptyLength(data, name) : lengthOf.call(data);
}

/** Returns 0, the length of an empty array. Throws a TypeError if the array is detached or out of bounds. */
function emptyLength(data, name) {
  try {
    return new Uint8Array(data).length;
  } catch (cause) {
    throw new TypeError(`${name} is a Uint8Array that is detached or out of bounds`, { cause });
  }
}

/** A plain Uint8Array over `length` bytes of another one, from an index on. */
export const viewOf = (data, at, length) => new Uint8Array(bufferOf.call(data), offsetOf.call(data) + at, length);

/** A copy of the bytes from one index to another: a plain Uint8Array, even if the data is of a subclass. */
export function copyOf(data, start, end) {
  // `slice` returns an array of the same class. In V8 11 a view takes three times as long: it needs `buffer`, an object
  // that the engine makes when it is first asked for
  if (data.constructor === Uint8Array) return slice.call(data, start, end);
  return new Uint8Array(viewOf(data, start, end - start));
}

/** Returns the value if it is an object of names and values. Throws a TypeError for others, such as a Map. */
export function checkedObject(value, name) {
  const isObject = typeof value === 'object' && value !== null && !(Symbol.iterator in value);
  if (!isObject) throw wrongType(name, 'an object', value);
  return value;
}

/** Returns the options of a call. Throws a TypeError if they are not an object, or have other names. */
export function checkedOptions(options, names) {
  const other = Object.keys(checkedObject(options, 'options')).find((key) => !names.includes(key));
  if (other !== undefined) throw new TypeError(`options can have ${names.join(' and ')}, got ${shown(other)}`);
  return options;
}

/** Returns a whole number from 0 to 2^64 - 1, a safe integer or a bigint: as a number if that is exact. */
export function checkedWide(number, name) {
  if (Number.isSafeInteger(number) && number >= 0) return number + 0; // -0 is 0
  if (typeof number !== 'bigint' || BigInt.asUintN(64, number) !== number) throw wrongNumber(name, number);
  return number > Number.MAX_SAFE_INTEGER ? number : Number(number);
}

function wrongNumber(name, number) {
  if (typeof number === 'number')
    return new RangeError(`${name} must be a whole number from 0 to 2^53 - 1, or a bigint, got ${number}`);
  if (typeof number !== 'bigint') return wrongType(name, 'a number or a bigint', number);
  return new RangeError(`${name} must be from 0 to 2^${name === 'code' ? 63 : 64} - 1, got ${shown(number)}`);
}
