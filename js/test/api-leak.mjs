// Ten million calls take no more memory than the first ones. usage: node api-leak.mjs [CALLS]
import assert from 'node:assert/strict';
import { createRequire } from 'node:module';
import { dirname, join } from 'node:path';
import { Iri, Uri, encode } from 'fluent-uri';

const require = createRequire(import.meta.url);
const folder = dirname(require.resolve('fluent-uri/package.json'));
const { core } = require(join(folder, 'cjs', 'platform.cjs'));
const most = Number(process.argv[2] ?? 1e7), CALLS_A_ROUND = 8;
const base = Uri.parse('http://example.com/a/b');

function round(n) {
  Uri.parse(`HTTP://h${n % 977}/%7e/../${n}`).normalize();
  Uri.canParse(`http://a b/${n}`);
  base.relativize(base.resolve(`../${n}/x`));
  Iri.parse(`http://é/${n}`).toUri();
  encode(`a ${n}`, 'path');
}

let memory;
for (let n = 0, calls = 0; calls < most; n++, calls += CALLS_A_ROUND) {
  round(n);
  if (n === 1000) memory = core.calls.memory.buffer.byteLength;
}
assert.equal(core.calls.memory.buffer.byteLength, memory);
const heap = process.memoryUsage();
assert.ok(heap.heapUsed + heap.external < 100e6, JSON.stringify(heap));
console.log(`leak: passed: ${most} calls, ${memory / 1024} KiB of memory`);
