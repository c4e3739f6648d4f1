// What the files of the package state of one another.
import assert from 'node:assert/strict';
import { readFileSync } from 'node:fs';
import { test } from 'node:test';
import * as cid from '../cid.js';
import * as index from '../index.js';

const textOf = (name) => readFileSync(new URL(`../${name}`, import.meta.url), 'utf8');

test('names and numbers of *.d.ts, and package.json', () => {
  const { type, version, exports } = JSON.parse(textOf('package.json'));
  assert.deepEqual([type, index.version], ['module', version]);
  for (const { types, default: code } of Object.values(exports)) assert.equal(types, code?.replace(/js$/, 'd.ts'));
  for (const [module, files] of [[index, ['index', 'hashes', 'codes', 'limits']], [cid, ['cid']]]) {
    const text = files.map((name) => textOf(`${name}.d.ts`)).join('');
    const stated = [...text.matchAll(/^export (?:const|class|function) (\w+)(?:: (\d+);)?/gm)];
    assert.deepEqual(Object.keys(module).sort(), [...new Set(stated.map(([, name]) => name))].sort());
    for (const [, name, value] of stated) if (value) assert.equal(module[name], Number(value), name);
    const codes = module.CODECS ?? module.CODES;
    for (const [, name, code] of text.matchAll(/^  readonly '?([\w-]+)'?: (0x\w+);/gm))
      assert.equal(codes[name], Number(code), name);
  }
});
