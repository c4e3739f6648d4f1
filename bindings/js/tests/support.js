// What the tests share: the test vectors, and bytes in memory of each kind.
import { readFileSync } from 'node:fs';
import { dirname, join } from 'node:path';
import { fileURLToPath } from 'node:url';

export const hex = (bytes) => Buffer.from(bytes).toString('hex');
export const unhex = (text) => Uint8Array.from(Buffer.from(text, 'hex'));

const vectors = process.env.MULTIHASH_VERDICTS ??
  fileURLToPath(new URL('../../../crates/vectors/data/verdicts.tsv', import.meta.url));

/** The rows of verdicts.tsv, or of a list beside it: the words of each by the names of the columns. */
export function rowsOf(name) {
  const text = readFileSync(name === 'verdicts' ? vectors : join(dirname(vectors), `${name}.tsv`), 'utf8');
  const [columns, ...lines] = text.trimEnd().split('\n').map((line) => line.split('\t'));
  return lines.map((words) => Object.fromEntries(columns.map((column, at) => [column, words[at]])));
}

/** Returns what a call returns or throws. */
export function outcome(call) {
  try {
    return call();
  } catch (error) {
    return error;
  }
}

/** What an error says of a string where bytes are expected. */
export const TEXT = 'string: Multihash.fromHex(text) decodes hexadecimal, new TextEncoder().encode(text) makes bytes';

/** A subclass whose properties lie about its bytes. */
class Lying extends Uint8Array {}
Object.defineProperty(Lying, Symbol.species, { value: Array });
Object.defineProperties(Lying.prototype, {
  length: { value: 5e9 },
  byteOffset: { value: 0 },
  buffer: { value: new ArrayBuffer(1) },
  [Symbol.toStringTag]: { value: 'Int8Array' },
});

/** A view of bytes amid others in a larger buffer. */
function amid(bytes, buffer = new ArrayBuffer(bytes.length + 7), Kind = Uint8Array) {
  new Uint8Array(buffer).fill(0x81);
  const view = new Kind(buffer, 3, bytes.length);
  Uint8Array.prototype.set.call(view, bytes);
  return view;
}

const resizable = ({ length }) => new ArrayBuffer(length + 7, { maxByteLength: 2 * length + 7 });

function shrunk(bytes) {
  const { buffer } = amid(bytes, resizable(bytes));
  buffer.resize(bytes.length + 3);
  return new Uint8Array(buffer, 3);
}

/** Arrays of each kind with these bytes. */
export const KINDS = [
  (bytes) => bytes.slice(),
  (bytes) => amid(bytes),
  (bytes) => amid(bytes, undefined, Lying),
  (bytes) => amid(bytes, new SharedArrayBuffer(bytes.length + 7)),
  (bytes) => amid(bytes, resizable(bytes)),
  shrunk,
  (bytes) => Buffer.from(amid(bytes).buffer, 3, bytes.length),
];

/** Chunks in the same memory, and empty ones, as sources may have them. What a generator returns is not a chunk. */
export async function* chunks(...parts) {
  const memory = new Uint8Array(2048);
  for (const part of parts) {
    memory.set(part);
    yield memory.subarray(0, part.length);
    yield memory.subarray(2048);
  }
  return memory;
}

/** Moves the memory of an array elsewhere. */
export const detach = ({ buffer }) => structuredClone(buffer, { transfer: [buffer] });

/** Arrays without their memory: it was moved, or has shrunk. */
export function withoutMemory() {
  const moved = new Uint8Array(8);
  detach(moved);
  const buffer = new ArrayBuffer(8, { maxByteLength: 16 });
  const outOfBounds = new Uint8Array(buffer, 4, 4);
  buffer.resize(2);
  return [moved, outOfBounds];
}
