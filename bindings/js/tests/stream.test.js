// The readers: over streams that are cut, end by an error, or are malformed, and that are left, released or cancelled.
import assert from 'node:assert/strict';
import { createReadStream } from 'node:fs';
import { Readable } from 'node:stream';
import { test } from 'node:test';
import { setImmediate, setTimeout } from 'node:timers/promises';
import { FrameReader, MultihashError, MultihashReader, encode, encodeVarint } from '../index.js';
import { TEXT, chunks, detach, hex, unhex } from './support.js';

const DIGESTS = [[0x12, new Uint8Array(32).fill(7)], [0, new Uint8Array()], [2n ** 62n, new Uint8Array(255).fill(9)]];
const MULTIHASHES = DIGESTS.map(([code, digest]) => hex(encode(code, digest)));
const STREAM = unhex(MULTIHASHES.join(''));
const FRAMES = ['', '00', '010203', 'ab'.repeat(127), 'cd'.repeat(128), '', 'ef'.repeat(300)];
const PREFIXES = ['00', '01', '03', '7f', '8001', '00', 'ac02'];

/** For each reader its items, and their encodings, all in hexadecimal. */
const READERS = [
  { Reader: MultihashReader, items: MULTIHASHES, encodings: MULTIHASHES },
  { Reader: FrameReader, items: FRAMES, encodings: FRAMES.map((frame, at) => PREFIXES[at] + frame) },
];

const RELEASED = 'release() was called, so this reader reads no more';

const textOf = (item) => item && hex(item.bytes ?? item);

/** A stream of chunks, which then closes or does something else. */
const streamOf = (parts, after = (controller) => controller.close(), cancel = undefined) => new ReadableStream({
  start: (controller) => parts.forEach((part) => controller.enqueue(part.slice())),
  pull: after,
  cancel,
});

/** The items up to an error or the end. */
async function drained(reader) {
  const items = [];
  try {
    for (let item; (item = await reader.read()) !== null; ) items.push(textOf(item));
  } catch (error) {
    return { items, error };
  }
  return { items };
}

/** A stream in two chunks has the same items. If it ends at the cut, another reader reads the others. */
async function cutAt(cut, { Reader, items, encodings }, starts) {
  const bytes = unhex(encodings.join(''));
  const parts = [bytes.subarray(0, cut), bytes.subarray(cut)];
  for (const source of [chunks(...parts), streamOf(parts)]) {
    const whole = new Reader(source);
    assert.deepEqual(await drained(whole), { items });
    assert.deepEqual([whole.consumed, whole.rest.length], [bytes.length, 0]);
  }
  const count = starts.filter((start) => start <= cut).length - 1;
  const reader = new Reader(chunks(parts[0]));
  const { items: before, error } = await drained(reader);
  assert.deepEqual(before, items.slice(0, count));
  const rest = hex(bytes.subarray(starts[count], cut));
  assert.deepEqual([reader.count, reader.consumed, hex(reader.rest)], [count, starts[count], rest]);
  assert.equal(error?.isIncomplete, cut === starts[count] ? undefined : true);
  const place = `frame ${count} at offset ${starts[count]}: `;
  if (error && Reader === FrameReader) assert.ok(error.message.startsWith(place));
  const other = new Reader(chunks(parts[1]), { rest: reader.rest });
  assert.deepEqual(await drained(other), { items: items.slice(count) });
  assert.equal(other.consumed, bytes.length - starts[count]);
}

for (const reader of READERS)
  test(`${reader.Reader.name} over a stream that is cut anywhere`, async () => {
    const starts = [0];
    for (const [at, encoding] of reader.encodings.entries()) starts.push(starts[at] + encoding.length / 2);
    for (let cut = 0; cut <= starts.at(-1); cut++) await cutAt(cut, reader, starts);
  });

test('an item that is too long, before its bytes arrive, or malformed', async () => {
  const [long, longest] = [2 ** 22 + 1, 2n ** 63n - 1n];
  const ofFrames = [
    ['0103', { limit: 0 }, ['invalid_size', 1, 1], 'frame 0 at offset 0: the frame has 1 byte, and the limit is 0'],
    ['0301020304', { limit: 3 }, ['invalid_size', 4, 1],
      'frame 1 at offset 4: the frame has 4 bytes, and the limit is 3'],
    [`00${hex(encodeVarint(long))}`, {}, ['invalid_size', long, 4],
      `frame 1 at offset 1: the frame has ${long} bytes, and the limit is ${long - 1}`],
    [hex(encodeVarint(longest)), { limit: 2n ** 53n }, ['invalid_size', longest, 9],
      `frame 0 at offset 0: the frame has ${longest} bytes, and the limit is ${2n ** 53n}`],
    ['0102ff00', {}, ['not_minimal', undefined, 2],
      'frame 1 at offset 2: the varint is not minimal: it ends in a zero byte'],
    ['ff'.repeat(9), {}, ['overflow', undefined, 9], 'frame 0 at offset 0: the varint has more than nine bytes'],
  ];
  const ofMultihashes = [
    ['1220', { limit: 31 }, ['invalid_size', 32, 2], 'the digest has 32 bytes, and the limit is 31'],
    ['12ac02', { limit: 2n ** 63n }, ['invalid_size', 300, 3], 'the digest has 300 bytes, and the limit is 255'],
  ];
  for (const [Reader, rows] of [[FrameReader, ofFrames], [MultihashReader, ofMultihashes]])
    for (const [text, options, fields, message] of rows) {
      const { error } = await drained(new Reader(streamOf([unhex(text)], () => {}), options));
      assert.ok(error instanceof MultihashError);
      assert.deepEqual([error.status, error.size, error.consumed, error.message], [...fields, message]);
    }
});

test('a frame that is truncated', async () => {
  for (const [text, place] of [['80', 'inside the varint'], ['01', 'before the frame (0 of 1 byte)'],
    ['0301', 'inside the frame (1 of 3 bytes)']])
    await assert.rejects(new FrameReader(chunks(unhex(text))).read(),
      { message: `frame 0 at offset 0: the input ends ${place}`, consumed: 1 });
});

test('time and memory are linear in the items, and in the chunks of an item', async () => {
  const [count, first, more] = [50_000, 2 ** 24, 3000];
  const list = new Uint8Array(count * 34);
  for (let at = 0; at < list.length; at += 34) list.set(STREAM.subarray(0, 34), at);
  async function* longFrame() {
    yield encodeVarint(first + more);
    yield new Uint8Array(first);
    for (let sent = 0; sent < more; sent++) yield Uint8Array.of(1);
  }
  const start = process.cpuUsage();
  assert.equal((await drained(new MultihashReader(streamOf([list])))).items.length, count);
  assert.equal((await new FrameReader(longFrame(), { limit: 2 ** 25 }).read()).indexOf(1), first);
  assert.ok(process.cpuUsage(start).user < 2e6); // quadratic time would be many times as long
});

test('a source that fails, and a chunk that is not bytes', async () => {
  const part = STREAM.slice(0, 20);
  const failing = async function* () {
    yield part;
    throw new Error('broken');
  };
  const moved = new Uint8Array(1);
  detach(moved);
  const chunk = 'a chunk of the stream';
  const [broken, unknown] = [Error('broken'), Error('the source failed without a reason')];
  const sources = [
    [failing(), broken], [Readable.from(failing()), broken],
    [streamOf([part], (stream) => stream.error(broken)), broken],
    [streamOf([part], (stream) => stream.error()), unknown],
    [streamOf([part], (stream) => stream.error(null)), unknown],
    [Readable.from([part, 'text']), TypeError(`${chunk} must be a Uint8Array, got ${TEXT}`)],
    [Readable.from([part, moved]), TypeError(`${chunk} is a Uint8Array that is detached or out of bounds`)],
  ];
  for (const [source, error] of sources) {
    const reader = new MultihashReader(source);
    await assert.rejects(reader.read(), error);
    reader.release();
    await assert.rejects(reader.read(), error); // as every later call
    reader.rest.fill(0); // a copy
    assert.deepEqual(reader.rest, part);
  }
});

test('an error releases a stream for another reader, and a loop that it ends cancels the stream', async () => {
  let cancelled = 0;
  const source = streamOf([STREAM], undefined, () => (cancelled += 1));
  const ended = new MultihashReader(source, { limit: 31 });
  const { error } = await drained(ended);
  assert.deepEqual([ended.consumed, source.locked, await ended.read().catch((again) => again)], [0, false, error]);
  const other = new MultihashReader(source, { rest: ended.rest });
  await ended.cancel(); // the stream is the other's now
  assert.deepEqual([(await drained(other)).items, cancelled, source.locked], [MULTIHASHES, 0, false]);
  const left = streamOf([], () => {}, () => (cancelled += 1));
  const { rest } = ended;
  const loop = new MultihashReader(left, { limit: 31, rest })[Symbol.asyncIterator]();
  rest.fill(0); // the reader has a copy
  const message = 'the digest has 32 bytes, and the limit is 31';
  await assert.rejects(loop.next(), { name: 'MultihashError', message });
  assert.deepEqual([cancelled, left.locked], [1, false]);
});

test('a loop ends as that over an async generator, and cancels the source unless the reader was released', async () => {
  const end = { done: true, value: undefined };
  const endings = [
    [true, async (loop) => assert.deepEqual(await loop.return(7), { done: true, value: 7 })],
    [true, (loop) => assert.rejects(loop.throw(Error('left')), Error('left'))],
    [true, async (loop) => { for await (const item of loop) if (item) break; }],
    [true, (loop) => loop[Symbol.asyncDispose ?? 'return']()],
    [false, async (loop, reader) => { reader.release(); await loop.return(); }],
  ];
  for (const [cancels, ending] of endings) {
    let isCancelled = false;
    const source = streamOf([STREAM], () => {}, () => (isCancelled = true));
    const reader = new MultihashReader(source);
    const loop = reader[Symbol.asyncIterator]();
    assert.equal(textOf((await loop.next()).value), MULTIHASHES[0]);
    await ending(loop, reader);
    assert.deepEqual([isCancelled, source.locked], [cancels, false]);
    assert.deepEqual([await loop.next(), await loop.next()], [end, end]);
    if (cancels) assert.equal(await reader.read(), null);
    else await assert.rejects(reader[Symbol.asyncIterator]().next(), TypeError(RELEASED));
  }
  const waiting = new MultihashReader(new ReadableStream())[Symbol.asyncIterator]();
  const next = waiting.next();
  assert.deepEqual([await waiting.return(), await next], [end, end]);
  // an iterator need not have `return`
  await new MultihashReader({ [Symbol.asyncIterator]: () => ({ next: async () => end }) }).cancel();
});

test('calls that overlap return the items in order', async () => {
  const reader = new MultihashReader(chunks(...Array.from(STREAM, (byte) => Uint8Array.of(byte))));
  const items = await Promise.all([reader.read(), reader.read(), reader.read(), reader.read()]);
  assert.deepEqual(items.map(textOf), [...MULTIHASHES, null]);
  const loop = new MultihashReader(chunks(STREAM))[Symbol.asyncIterator]();
  const results = await Promise.all([loop.next(), loop.next(), loop.next(), loop.next(), loop.next()]);
  assert.deepEqual(results.map(({ value }) => textOf(value)), [...MULTIHASHES, undefined, undefined]);
  const both = new MultihashReader(chunks(STREAM));
  const [first, second] = [both.read(), both.read()];
  await first;
  const { value } = await both[Symbol.asyncIterator]().next();
  assert.deepEqual([await first, await second, value].map(textOf), MULTIHASHES);
});

test('calls that wait at a release or a cancellation end as later ones do', async () => {
  const ends = { release: 'TypeError', cancel: null, [Symbol.asyncDispose]: null };
  for (const name of ['release', 'cancel', Symbol.asyncDispose ?? 'cancel']) {
    for (const part of [STREAM.subarray(0, 20), STREAM]) {
      const reasons = [];
      const source = streamOf([STREAM.subarray(0, 20)], () => {}, (reason) => void reasons.push(reason));
      let deliver;
      const chunk = new Promise((resolve) => (deliver = resolve));
      const iterable = { destroy() {}, [Symbol.asyncIterator]: () => ({ next: () => chunk, return: () => chunk }) };
      const readers = [source, iterable].map((each) => new MultihashReader(each));
      const itemOrError = (reader) => reader.read().catch((error) => error.name);
      const calls = readers.flatMap((reader) => [itemOrError(reader), itemOrError(reader)]);
      await readers.map((reader) => reader[name]('why'))[0]; // the other one waits for the chunk
      assert.deepEqual([reasons, source.locked], [name === 'release' ? [] : ['why'], false]);
      if (name === 'cancel') assert.deepEqual(await Promise.all(calls), [null, null, null, null]); // at once
      deliver({ done: false, value: part });
      for (const call of [...calls, ...readers.map(itemOrError)]) assert.equal(await call, ends[name]);
      assert.deepEqual(readers[1].rest, part.slice());
    }
  }
});

test('a release or a cancellation after any number of turns loses no byte', async () => {
  const bytes = Uint8Array.of(18, 2, 1, 2, 0, 0, 1, 1, 9);
  for (const name of ['release', 'cancel']) {
    for (let turns = 0; turns < 100; turns++) { // 100 turns are enough to read all
      let sent = 0;
      const generated = (async function* () {
        while (sent < bytes.length) yield Uint8Array.of(bytes[sent++]);
      })();
      const source = name === 'release' ? ReadableStream.from(generated) : generated;
      const reader = new MultihashReader(source);
      const call = drained(reader);
      for (let turn = 0; turn < turns; turn++) await null;
      await reader[name]();
      const { items } = await call;
      let { rest } = reader;
      if (name === 'release') {
        const next = new MultihashReader(source, { rest });
        items.push(...(await drained(next)).items);
        rest = next.rest;
      }
      assert.equal(items.join('') + hex(rest), hex(bytes.subarray(0, sent)), `a ${name} after ${turns} turns`);
    }
  }
});

test("a source's error at a cancellation is that of the call, if that has no other one", async () => {
  let hasEnded;
  const fail = async (reason = 'stuck') => {
    await setTimeout();
    hasEnded = true;
    throw new Error(reason);
  };
  const iterable = (value) => {
    const iterators = [{ next: async () => ({ value }), return: fail }];
    return { [Symbol.asyncIterator]: () => iterators.pop() };
  };
  for (const [sourceOf, text] of [[(bytes) => streamOf([bytes], () => {}, fail), 'why'], [iterable, 'stuck']]) {
    const [first, second, left] = [[0x80, 0], [0x80, 0], [1, 0]].map((bytes) => sourceOf(Uint8Array.from(bytes)));
    const reader = new MultihashReader(first);
    await assert.rejects(reader.read(), { status: 'not_minimal' });
    await assert.rejects(reader.cancel('why'), Error(text));
    hasEnded = false;
    await assert.rejects(new MultihashReader(second)[Symbol.asyncIterator]().next(), { status: 'not_minimal' });
    assert.ok(hasEnded);
    const loop = new MultihashReader(left)[Symbol.asyncIterator]();
    await loop.next();
    await assert.rejects(loop.return(), Error('stuck'));
    assert.ok(!left.locked);
  }
});

test('streams of Node.js', async () => {
  const waiting = new MultihashReader(new Readable({ read() {} }));
  const call = waiting.read();
  await waiting.cancel();
  assert.equal(await call, null);
  const unread = new Readable({ read() {} });
  await new MultihashReader(unread).cancel('why');
  assert.deepEqual([unread.destroyed, unread.errored], [true, null]);
  const early = createReadStream('missing').on('error', () => {});
  const reader = new MultihashReader(early);
  new MultihashReader(early); // adds no listener, and removes none
  await new Promise((resolve) => early.once('close', resolve));
  assert.equal(early.listenerCount('error'), 2);
  await assert.rejects(reader.read(), { code: 'ENOENT' });
  await setImmediate(); // an error without a listener would have ended the process
});
