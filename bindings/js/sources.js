// The sources that the readers and the hash functions read: a ReadableStream or an async iterable.
import { wrongType } from './arguments.js';

const ignore = () => {};

/**
 * Returns an object that reads the chunks of a ReadableStream, which in Safari is not an async iterable, or of an async
 * iterable. Its `next` is that of an iterator, `release` unlocks a stream for others, and `close` ends the source.
 */
export function sourceOf(source, name, others = '') {
  if (typeof source?.getReader === 'function') return chunksOfStream(source);
  const iterator = source?.[Symbol.asyncIterator]?.();
  if (typeof iterator?.next !== 'function')
    throw wrongType(name, `${others}a ReadableStream or an async iterable`, source);
  if (typeof source.destroy === 'function') {
    // an error of a Node.js Readable must not be uncaught, since `next` throws it; the listener is added only once
    source.off?.('error', ignore);
    source.on?.('error', ignore);
  }
  return {
    next: () => iterator.next(),
    release() {},
    // `return` waits for a pending `next`, and does nothing before the first: so a Node.js Readable is destroyed too
    close() {
      if (typeof source.destroy === 'function') source.destroy();
      return iterator.return?.();
    },
  };
}

function chunksOfStream(stream) {
  const reader = stream.getReader();
  let isHeld = true;
  return {
    next: () => reader.read(),
    release() {
      isHeld = false;
      reader.releaseLock();
    },
    // another reader may have locked the stream after the release
    async close(reason) {
      try {
        if (isHeld) await reader.cancel(reason);
        else if (!stream.locked) await stream.cancel(reason);
      } finally {
        this.release();
      }
    },
  };
}
