// Makes the calls where memory is used up: each gives what it gives elsewhere, or OUT_OF_MEMORY,
// and keeps no memory. usage: node memory.mjs MODULE CALLS LINES
import assert from 'node:assert/strict';
import { readFileSync } from 'node:fs';
import { Room, linesOf, read } from './room.mjs';

const [file, calls, lines] = process.argv.slice(2);
const module = new WebAssembly.Module(readFileSync(file));
const open = () => new WebAssembly.Instance(module);
const given = linesOf(readFileSync(lines)).slice(0, 60);
const OUT_OF_MEMORY = 8;

/** What each call returned and wrote. */
function said(room) {
  const found = [];
  room.run(given, (it) => found.push([it]),
    (at, size) => found.at(-1).push(Buffer.from(room.bytes.subarray(at, at + size))));
  return found;
}

/** Takes all memory that is left, the largest blocks first. */
function takeAll(exports) {
  const taken = [];
  for (let size = 2 ** 31; size >= 32; size /= 2)
    for (let it; (it = exports.allocate(size - 16)) !== 0;) taken.push([it, size]);
  return taken;
}

const of = await read(calls);
const room = new Room(open, of), wanted = said(room);
assert.deepEqual(said(room), wanted, 'a second run gives something else');
const taken = takeAll(room.exports);
room.look();
assert.equal(room.exports.memory.buffer.byteLength, 2 ** 31, 'the memory is not used up');
let refused = 0;
// No block is left, then one more of some size each time: so calls fail at each of their requests.
const sizes = [32, 64, 128, 256, 64, 512, 1024, 128, 4096, 2048, 256, 16384];
for (let free = 0; free <= sizes.length; free++) {
  const given_back = sizes.slice(0, free).map((size) => {
    const found = taken.findIndex((it) => it[1] === size);
    return found < 0 ? null : taken.splice(found, 1)[0];
  }).filter(Boolean);
  for (const [it] of given_back) room.exports.deallocate(it);
  said(room).forEach(([result, ...made], i) => {
    if (result === OUT_OF_MEMORY && wanted[i][0] !== OUT_OF_MEMORY) refused++;
    else assert.deepEqual([result, ...made], wanted[i], `call ${i} with ${free} blocks`);
  });
  // No call has kept a block.
  for (const [, size] of given_back) {
    const it = room.exports.allocate(size - 16);
    assert.notEqual(it, 0, `a block of ${size} bytes is lost`);
    taken.push([it, size]);
  }
  if (free === 0) assert.ok(refused > given.length, `only ${refused} calls lacked memory`);
}
for (const [it] of taken) room.exports.deallocate(it);
assert.deepEqual(said(room), wanted, 'with memory again something else');
console.log(`memory: ${wanted.length} calls in ${sizes.length + 1} runs, ${refused} lacked memory`);
