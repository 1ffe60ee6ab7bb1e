// The room of differ.c in the memory of a module, and the calls of calls.mjs with each line.
import { pathToFileURL } from 'node:url';

export class Room {
  #open;
  #places;
  #calls;

  /** `open` makes an instance; `calls` is what calls.mjs has. */
  constructor(open, { calls, places }) {
    this.#open = open;
    this.#places = places;
    this.#calls = calls;
    this.enter(open().exports);
  }

  /** Goes on in another instance, with all that is in the room. */
  enter(exports) {
    const was = this.bytes?.slice();
    this.exports = exports;
    this.at = exports.allocate(this.#places.ROOM);
    this.bytes = this.view = undefined;
    this.look();
    this.bytes.fill(0);
    if (was) this.bytes.set(was);
  }

  /** Reads memory anew, if it has grown. */
  look() {
    if (this.bytes?.length) return;
    this.bytes = new Uint8Array(this.exports.memory.buffer, this.at, this.#places.ROOM);
    this.view = new DataView(this.exports.memory.buffer, this.at, this.#places.ROOM);
  }

  #put(line, before) {
    const { LINE, BEFORE, COLUMN, OFFSETS } = this.#places;
    this.bytes.set(line, LINE);
    this.bytes.set(before, BEFORE);
    this.bytes.set(line, COLUMN);
    this.bytes[COLUMN + line.length] = 10;
    this.bytes.set(before, COLUMN + line.length + 1);
    [0, line.length, line.length + 1 + before.length].forEach((it, i) =>
      this.view.setUint32(OFFSETS + 4 * i, it, true));
  }

  /** Whether the line is of the kind; its parts are in the room then. */
  isParsed(kind, length) {
    const { LINE, PARSED } = this.#places;
    return this.exports.parse(kind, this.at + LINE, length, this.at + PARSED) === 0;
  }

  /** Puts what a reference is built of: all components but the authority. */
  #putComponents() {
    const { COMPONENTS, PARSED } = this.#places;
    this.bytes.copyWithin(COMPONENTS, PARSED + 16, PARSED + 32);
    this.bytes.copyWithin(COMPONENTS + 16, PARSED + 48, PARSED + 144);
  }

  /** Makes the calls of each line. `result` takes what one returned, and `dump` what it wrote. */
  run(lines, result, dump, calls = this.exports) {
    const { PARTS, OUTCOME, OUT, OUT_SIZE } = this.#places;
    const P = (offset) => this.at + offset;
    const out = () => {
      const length = Number(this.view.getBigUint64(OUTCOME + 16, true)) + 8;
      dump(OUT, Math.min(length, OUT_SIZE));
      this.bytes.fill(0, OUT, OUT + Math.min(length, OUT_SIZE));
    };
    const done = () => this.bytes.fill(0, PARTS, OUT);
    let before = new Uint8Array(0);
    lines.forEach((line, number) => {
      this.#put(line, before);
      for (let turn = 0; turn < 4; turn++) {
        const kind = number % 64 === 63 ? 4 : turn, n = number + turn;
        const isParsed = this.isParsed(kind, line.length);
        this.#putComponents();
        this.#calls(calls, P, (it) => { this.look(); result(it); }, dump, out, done, {
          kind, option: n % 9, component: n % 11, error: n % 19,
          is_parsed: isParsed, line_length: line.length, before_length: before.length,
          column_length: line.length + 1 + before.length,
        });
      }
      before = line;
    });
  }
}

/** The lines of a file. */
export function linesOf(bytes) {
  const lines = [];
  for (let from = 0; from < bytes.length;) {
    const to = bytes.indexOf(10, from);
    lines.push(bytes.subarray(from, to));
    from = to + 1;
  }
  return lines;
}

export const read = (file) => import(pathToFileURL(file));
