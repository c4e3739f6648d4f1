// The classes that read a stream's multihashes or frames, one after the other. index.d.ts documents what is public.
import { checkedLength, checkedOptions, checkedWide } from './arguments.js';
import { MultihashError, errorOf, frameReasonOf } from './errors.js';
import * as format from './format.js';
import { DIGEST_MAX } from './limits.js';
import { checkedLimit, multihashFrom } from './multihash.js';
import { sourceOf } from './sources.js';
import { INCOMPLETE } from './statuses.js';

/** The bytes that were received, and how many of them the items consumed. */
class Received {
  bytes = new Uint8Array(); // with capacity for more
  at = 0; // the index after the last item
  end = 0; // the index after the bytes received
  consumed = 0; // the number of bytes of the items
  count = 0; // the number of items

  /** Appends a copy of bytes. Throws a TypeError if they are not a Uint8Array, or are detached. */
  append(bytes, name) {
    const length = checkedLength(bytes, name);
    if (this.end + length > this.bytes.length) {
      const rest = this.bytes.subarray(this.at, this.end);
      // at least doubled, so that a long item in short chunks takes linear time
      this.bytes = new Uint8Array(rest.length + Math.max(rest.length, length));
      this.bytes.set(rest);
      this.end = rest.length;
      this.at = 0;
    }
    this.bytes.set(bytes, this.end);
    this.end += length;
  }
}

/**
 * The iterator of a loop over a reader, which cancels the reader's source at its end. It is not an async
 * generator: `return` would wait for a pending `next`, and a loop over received items would take 1.7 times as long.
 */
class ItemIterator {
  #reader;
  #ready;
  #isOver = false;

  /** `ready()` returns the next item if it was received, and otherwise undefined. */
  constructor(reader, ready) {
    this.#reader = reader;
    this.#ready = ready;
  }

  [Symbol.asyncIterator]() {
    return this;
  }

  next() {
    const value = this.#ready(); // undefined after the end, since `return` cancels
    return value ? Promise.resolve({ done: false, value }) : this.#read();
  }

  async #read() {
    if (this.#isOver) return { done: true, value: undefined };
    let value;
    try {
      value = await this.#reader.read();
    } catch (error) {
      return this.throw(error);
    }
    return value === null ? this.return() : { done: false, value };
  }

  async return(value) {
    if (!this.#isOver) {
      this.#isOver = true;
      await this.#reader.cancel();
    }
    return { done: true, value };
  }

  async throw(error) {
    await this.return().catch(() => {}); // the first error is thrown, not one of cancelling
    throw error;
  }
}
if (Symbol.asyncDispose) ItemIterator.prototype[Symbol.asyncDispose] = ItemIterator.prototype.return;

class ItemReader {
  #source; // undefined after `release`
  #find;
  #make;
  #received = new Received();
  #pending = 0; // the number of calls that wait
  #last = Promise.resolve(); // settles with the last of them
  #outcome; // null, or the error that each call throws, once the reader has ended
  #stop; // ends the wait for a chunk

  /**
   * `rest` holds bytes that precede those of the source. `find(bytes, at, end)` returns the status of the item that
   * starts at an index, and the index `next` after it. `make(result, bytes, at, end)` returns the item, or throws.
   */
  constructor(source, rest, find, make) {
    this.#find = find;
    this.#make = make;
    this.#received.append(rest, 'rest');
    this.#source = sourceOf(source, 'source');
  }

  get rest() {
    const { bytes, at, end } = this.#received;
    return bytes.slice(at, end);
  }

  get consumed() {
    return this.#received.consumed;
  }

  get count() {
    return this.#received.count;
  }

  // Calls that overlap run one after the other.
  read() {
    const item = this.#ready();
    if (item) return Promise.resolve(item);
    const next = this.#pending++ === 0 ? this.#next() : this.#last.then(() => this.#next());
    this.#last = next.catch(() => {});
    return next;
  }

  /** Waits for the next item and returns it. At an error or the end of the source the reader ends. */
  async #next() {
    try {
      let isLast = false;
      while (this.#outcome === undefined) {
        const item = this.#take(isLast);
        if (item) return item;
        isLast = await this.#more();
        if (isLast && this.#received.at === this.#received.end) this.#finish(null);
      }
    } catch (error) {
      this.#finish(error ?? new Error('the source failed without a reason'));
    } finally {
      this.#pending--;
    }
    this.#source?.release();
    if (this.#outcome === null) return null;
    throw this.#outcome;
  }

  /** Ends the reader, if it has not ended before. */
  #finish(outcome) {
    if (this.#outcome === undefined) this.#outcome = outcome;
  }

  /** Returns the next item, or undefined if more of it may follow. Throws if the item is invalid or truncated. */
  #take(isLast) {
    const received = this.#received;
    const { bytes, at, end } = received;
    const result = this.#find(bytes, at, end);
    if (!isLast && INCOMPLETE.includes(result.status)) return undefined;
    const item = this.#make(result, bytes, at, end);
    received.at = result.next;
    received.consumed += result.next - at;
    received.count++;
    return item;
  }

  /** Returns the next item if it was received and no call waits, and otherwise undefined. `#next` throws the errors. */
  #ready() {
    if (this.#pending > 0 || this.#outcome !== undefined) return undefined;
    try {
      return this.#take(false);
    } catch {
      return undefined;
    }
  }

  /** Waits for a chunk of the source, or until `cancel` is called. Returns whether the source has ended. */
  #more() {
    return new Promise((resolve, reject) => {
      this.#stop = resolve;
      // if `cancel` comes first, the chunk is appended to `rest` all the same
      this.#receive().then(resolve, reject);
    });
  }

  async #receive() {
    const { done, value } = await this.#source.next();
    if (!done) this.#received.append(value, 'a chunk of the stream');
    return done;
  }

  release() {
    this.#finish(new TypeError('release() was called, so this reader reads no more'));
    this.#source?.release();
    this.#source = undefined;
  }

  async cancel(reason) {
    this.#finish(null);
    if (!this.#source) return;
    this.#stop?.();
    await this.#source.close(reason);
  }

  [Symbol.asyncIterator]() {
    return new ItemIterator(this, () => this.#ready());
  }
}
if (Symbol.asyncDispose) ItemReader.prototype[Symbol.asyncDispose] = ItemReader.prototype.cancel;

/** Returns the options: the maximum length of an item, and bytes that precede those of the source. */
const checkedLimits = (options) => checkedOptions(options, ['limit', 'rest']);

export class MultihashReader extends ItemReader {
  constructor(source, options = {}) {
    const { limit = DIGEST_MAX, rest = new Uint8Array() } = checkedLimits(options);
    const maximum = checkedLimit(limit);
    super(source, rest, (bytes, at, end) => format.read(bytes, at, end, maximum), (result, bytes, at, end) => {
      if (result.status !== 'ok') throw errorOf(result, bytes, at, end, maximum);
      return multihashFrom(bytes, result);
    });
  }
}

/** Finds the frame that starts at an index: a varint, and then that many bytes. */
function frameAt(bytes, at, end, limit) {
  const { status, value: size, next } = format.readVarint(bytes, at, end);
  if (status !== 'ok') return { status, next };
  if (size > limit) return { status: 'invalid_size', size, next };
  return end - next < size ? { status: 'unexpected_eof', size, next } : { status, size, next: next + size };
}

export class FrameReader extends ItemReader {
  constructor(source, options = {}) {
    const { limit = 2 ** 22, rest = new Uint8Array() } = checkedLimits(options);
    const maximum = checkedWide(limit, 'limit');
    super(source, rest, (bytes, at, end) => frameAt(bytes, at, end, maximum), (result, bytes, at, end) => {
      const { status, size, next } = result;
      if (status === 'ok') return bytes.slice(next - size, next);
      const reason = `frame ${this.count} at offset ${this.consumed}: ${frameReasonOf(result, end, maximum)}`;
      const details = { status, size: status === 'invalid_size' ? size : undefined, consumed: next - at };
      throw new MultihashError(reason, details);
    });
  }
}
