// Makes the calls with short stacks: each gives what it gives elsewhere, or traps.
// usage: node stacks.mjs MODULE CALLS LINES
import assert from 'node:assert/strict';
import { readFileSync } from 'node:fs';
import { Room, linesOf, read } from './room.mjs';

const [file, calls, lines] = process.argv.slice(2);
const whole = readFileSync(file), of = await read(calls);
const given = linesOf(readFileSync(lines)).slice(0, 16);

/** The module with so many bytes of stack: the first global is where it begins, a number of 64
 * bits of which three bytes are written. */
function withStack(bytes) {
  const start = Buffer.from([0x7e, 0x01, 0x42, 0x80, 0x80, 0x10, 0x0b]), at = whole.indexOf(start);
  assert.ok(at > 0 && whole.indexOf(start, at + 1) < 0, 'the global of the stack is not known');
  const changed = Buffer.from(whole);
  changed.set([bytes & 127 | 128, bytes >> 7 & 127 | 128, bytes >> 14], at + 3);
  return new WebAssembly.Module(changed);
}

// What the whole stack gave of `isParsed`, which a call needs where the stack is short too.
const parsed = [];

class Replayed extends Room {
  #next = 0;

  isParsed(kind, length) {
    const { PARSED, PARTS } = of.places, n = this.#next++;
    if (n === parsed.length) {
      const holds = super.isParsed(kind, length);
      parsed.push([holds, this.bytes.slice(PARSED, PARTS)]);
    }
    this.bytes.set(parsed[n][1], PARSED);
    return parsed[n][0];
  }
}

/** What each call returned and wrote; undefined where it trapped. */
function said(bytes) {
  const module = withStack(bytes), open = () => new WebAssembly.Instance(module);
  const room = new Replayed(open, of), found = [];
  let trapped = false;
  const safe = Object.fromEntries(Object.keys(room.exports).map((name) => [name, (...values) => {
    try {
      return room.exports[name](...values);
    } catch (why) {
      assert.ok(why instanceof WebAssembly.RuntimeError, String(why));
      room.enter(open().exports);
      // What the call wrote before it trapped is no part of the next result.
      room.bytes.fill(0, of.places.OUT, of.places.OUT + of.places.OUT_SIZE);
      trapped = true;
      return 0;
    }
  }]));
  room.run(given, (it) => {
    found.push(trapped ? undefined : [it]);
    trapped = false;
  }, (at, size) => found.at(-1)?.push(Buffer.from(room.bytes.subarray(at, at + size))), safe);
  return found;
}

const wanted = said(262144);
assert.ok(!wanted.includes(undefined), 'a call traps with the whole stack');
const told = [];
for (let bytes = 0; bytes <= 16384; bytes = bytes ? bytes * 2 : 64) {
  const found = said(bytes);
  assert.equal(found.length, wanted.length);
  found.forEach((it, i) => it && assert.deepEqual(it, wanted[i], `call ${i} with ${bytes} bytes`));
  told.push(`${found.filter((it) => !it).length} at ${bytes}`);
}
assert.ok(told[0] !== '0 at 0', 'no call traps without a stack');
assert.ok(told.at(-1).startsWith('0 '), `calls trap: ${told.at(-1)}`);
console.log(`stacks: of ${wanted.length} calls trap ${told.join(', ')} bytes`);
