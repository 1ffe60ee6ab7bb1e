// Makes the calls of calls.mjs of each line of standard input, over a WebAssembly module, and
// writes all that each returns and changes. usage: node differ.mjs MODULE CALLS
import { readFileSync, writeSync } from 'node:fs';
import { Room, linesOf, read } from './room.mjs';

const [file, calls] = process.argv.slice(2);
const module = new WebAssembly.Module(readFileSync(file));
const room = new Room(() => new WebAssembly.Instance(module), await read(calls));

const said = Buffer.alloc(1 << 22);
let length = 0, all = 0;
const flush = () => {
  for (let from = 0; from < length;) from += writeSync(1, said, from, length - from);
  all += length;
  length = 0;
};
const result = (it) => {
  if (length > said.length - 65536) flush();
  length = said.writeInt32LE(it, length);
};
const dump = (at, size) => {
  said.set(room.bytes.subarray(at, at + size), length);
  length += size;
};
const lines = linesOf(readFileSync(0));
room.run(lines, result, dump);
flush();
console.error(`${all} bytes of ${lines.length} lines`);
