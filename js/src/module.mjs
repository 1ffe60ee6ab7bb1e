// A module of WebAssembly and its memory: texts are put into it, calls are made, results read.
// Pointers and lengths of a call are numbers of 32 bits; structs in memory are those of
// fluent_uri.h with `size_t` of 64 bits, of which the low half is read.
import { NOT_UTF8, OUT_OF_MEMORY, failure } from './errors.mjs';
import { Cursor, loneSurrogate } from './units.mjs';

// Where the records are, each by its offset in bytes.
const PARTS = 0, OUTCOME = 144, PAIR = 184, POSITION = 216, COMPONENTS = 224, RECORDS = 336;
// Rooms of this many UTF-16 units are kept; larger ones go with the job that needed them.
const FIRST_CAPACITY = 1 << 10, KEPT_CAPACITY = 1 << 16;
// A unit takes at most three bytes, and so do two rooms for texts; a result has three times that.
const UNIT = 3, ROOMS = 5;
const LARGEST = 0x7fff0000;
const encoder = new TextEncoder();

export class Module {
  #open;
  #reader;
  #shortLength;
  #short = 0;
  #messages = new Map();
  #text = null;
  #length = 0;
  #read = null;
  #room = 0;
  // What the encoder writes into: the first room and the second.
  #firstView = null;
  #secondView = null;
  // In units; below 0 until an instance is open.
  #capacity = -1;

  /** `open` returns the exports of a new instance. `reader` returns what reads texts in its memory.
   * Texts of up to `shortLength()` units are written by a loop, which takes less time. */
  constructor(open, reader, shortLength) {
    this.#open = open;
    this.#reader = reader;
    this.#shortLength = shortLength;
  }

  /** Reads the signed numbers of 32 bits in memory. */
  ints = null;
  /** The exports of the instance. */
  calls = null;
  /** Where the records are, in bytes. */
  records = 0;

  get parts() { return this.records + PARTS; }
  get outcome() { return this.records + OUTCOME; }
  get pair() { return this.records + PAIR; }
  get position() { return this.records + POSITION; }
  get components() { return this.records + COMPONENTS; }
  /** The first room, which `put` fills, and the second, which `putSecond` fills. */
  get first() { return this.#room; }
  get second() { return this.#room + UNIT * this.#capacity; }
  get out() { return this.#room + 2 * UNIT * this.#capacity; }
  get outLength() { return (ROOMS - 2) * UNIT * this.#capacity; }

  /** The number at an offset of the outcome of the last call. */
  #outcome(offset) { return this.ints[(this.records + OUTCOME + offset) >> 2]; }
  get which() { return this.#outcome(4); }
  get index() { return this.#outcome(8); }
  get length() { return this.#outcome(16); }
  get needed() { return this.#outcome(24); }
  get consumed() { return this.#outcome(32); }

  #start() {
    const calls = { ...this.#open() };
    const records = calls.allocate(RECORDS);
    const room = calls.allocate(ROOMS * UNIT * FIRST_CAPACITY);
    if (!records || !room) throw failure(OUT_OF_MEMORY, 'out of memory');
    this.calls = calls;
    this.#short = this.#shortLength();
    this.records = records;
    this.#room = room;
    this.#capacity = FIRST_CAPACITY;
    this.look();
  }

  /** Drops the instance: the next call opens a new one. */
  drop() {
    this.#text = null;
    this.#capacity = -1;
  }

  /** Reads memory anew, which has grown. */
  look() {
    const { buffer } = this.calls.memory;
    this.ints = new Int32Array(buffer);
    this.#read = this.#reader(buffer);
    const room = UNIT * this.#capacity;
    this.#firstView = new Uint8Array(buffer, this.first, room);
    this.#secondView = new Uint8Array(buffer, this.second, room);
  }

  /** Makes rooms of so many units. */
  reserve(units) {
    if (this.#capacity < 0) this.#start();
    if (units <= this.#capacity) return;
    const capacity = units > KEPT_CAPACITY ? units : Math.max(units, 2 * this.#capacity);
    const bytes = ROOMS * UNIT * capacity;
    const room = bytes > LARGEST ? 0 : this.calls.allocate(bytes);
    if (!room) {
      this.look();
      throw this.failure(OUT_OF_MEMORY);
    }
    this.calls.deallocate(this.#room);
    this.#room = room;
    this.#capacity = capacity;
    this.#text = null;
    this.look();
    // Memory never shrinks, so a large one is dropped with its instance.
    if (capacity > KEPT_CAPACITY) Promise.resolve().then(() => this.drop());
  }

  /** Puts a text into the first room, where it may be already. Returns its length in bytes, or -1
   * if it has a lone surrogate. */
  put(text) {
    if (text === this.#text) return this.#length;
    if (text.length > this.#capacity) this.reserve(text.length);
    this.#text = null;
    const length = this.#write(text, this.#firstView);
    if (length !== text.length && loneSurrogate(text) >= 0) return -1;
    this.#text = text;
    this.#length = length;
    return length;
  }

  // Writes the UTF-8 of a text. Returns its length.
  #write(text, view) {
    const { length } = text;
    if (length <= this.#short) {
      let all = 0;
      for (let i = 0; i < length; i++) {
        const unit = text.charCodeAt(i);
        all |= unit;
        view[i] = unit;
      }
      if (all < 0x80) return length;
    }
    return encoder.encodeInto(text, view).written;
  }

  /** Puts bytes into the first room. */
  putBytes(bytes) {
    this.reserve(bytes.length);
    this.#text = null;
    new Uint8Array(this.calls.memory.buffer).set(bytes, this.#room);
    return bytes.length;
  }

  /** Puts a text into the second room, which is large enough. Returns its length. */
  putSecond(text) {
    const length = this.#write(text, this.#secondView);
    if (length !== text.length && loneSurrogate(text) >= 0) throw this.notUtf8(text);
    return length;
  }

  /** The same as `put`, but throws if there is a lone surrogate. */
  putWhole(text) {
    const length = this.put(text);
    if (length < 0) throw this.notUtf8(text);
    return length;
  }

  /** Returns the text of so many bytes at an address. What is not UTF-8 becomes U+FFFD. */
  read(address, length, isAscii) {
    return this.#read(address, length, isAscii);
  }

  bytes(address, length) {
    return new Uint8Array(this.calls.memory.buffer).slice(address, address + length);
  }

  /** After a trap memory may be half-written, so the next call has a new instance. */
  trapped(why) {
    this.drop();
    throw why;
  }

  /** Parses the text in the first room: the number of the error, or 0. Its parts are in memory. */
  parse(kind, length) {
    let error;
    try {
      error = this.calls.parse(kind, this.#room, length, this.records);
    } catch (why) {
      this.trapped(why);
    }
    return error;
  }

  /** Makes a call that returns a number, of the text in the first room. */
  number(name, ...values) {
    let number;
    try {
      number = this.calls[name](...values) >>> 0;
    } catch (why) {
      this.trapped(why);
    }
    if (this.ints.length === 0) this.look();
    return number;
  }

  /** Whether the result of a call is in memory. If not, the rooms are large enough for it now. */
  isDone(error, one, other) {
    if (this.ints.length === 0) this.look();
    if (error !== 0) {
      const isOther = other !== undefined && this.which === 1;
      throw this.failure(error, isOther ? other : one, this.index);
    }
    const length = this.length >>> 0;
    if (length <= this.outLength) return true;
    this.reserveResult(length);
    return false;
  }

  /** Makes rooms of which that for a result has so many bytes. */
  reserveResult(length) {
    this.reserve(Math.ceil(length / (UNIT * (ROOMS - 2))));
  }

  /** Makes a call of a kind and options with one text: the result is in memory. */
  callOne(name, kind, options, text) {
    for (;;) {
      const length = this.putWhole(text);
      let error;
      try {
        error = this.calls[name](kind, options, this.#room, length, this.out, this.outLength,
          this.records, 1, this.records + OUTCOME);
      } catch (why) {
        this.trapped(why);
      }
      if (this.isDone(error, text)) return;
    }
  }

  /** The same with two texts. */
  callTwo(name, kind, options, one, other) {
    for (;;) {
      // The first text may make larger rooms, and never smaller ones.
      this.reserve(other.length);
      const first = this.putWhole(one), second = this.putSecond(other);
      let error;
      try {
        error = this.calls[name](kind, options, this.#room, first, this.second, second, this.out,
          this.outLength, this.records, 1, this.records + OUTCOME);
      } catch (why) {
        this.trapped(why);
      }
      if (this.isDone(error, one, other)) return;
    }
  }

  /** The same of a call that takes no options. The index of an error is in `input(text)`. */
  callPlain(name, kind, text, input = (it) => it) {
    for (;;) {
      const length = this.putWhole(text);
      let error;
      try {
        error = this.calls[name](kind, this.#room, length, this.out, this.outLength,
          this.records, 1, this.records + OUTCOME);
      } catch (why) {
        this.trapped(why);
      }
      if (this.isDone(error, error === 0 ? text : input(text))) return;
    }
  }

  /** Makes a call whose result has no parts, of a text or of bytes. */
  callBytes(name, number, given) {
    for (;;) {
      const length = typeof given === 'string' ? this.putWhole(given) : this.putBytes(given);
      let error;
      try {
        error = this.calls[name](number, this.#room, length, this.out, this.outLength,
          this.records + OUTCOME);
      } catch (why) {
        this.trapped(why);
      }
      if (this.isDone(error, given)) return;
    }
  }

  /** The result of the last call as a text. */
  result(isAscii = false) {
    return this.#read(this.out, this.length, isAscii);
  }

  /** What is wrong, by the number of an error: the library's words. */
  message(error) {
    if (!this.#messages.has(error)) {
      this.reserve(0);
      const { calls, out, outLength, records } = this;
      calls.error_message(error, out, outLength, records + OUTCOME);
      this.#messages.set(error, this.result());
    }
    return this.#messages.get(error);
  }

  /** Returns the error with a number, at a byte of a text. */
  failure(error, input, offset) {
    const index = typeof input === 'string' && offset !== undefined
      ? new Cursor(input).indexOf(offset) : offset;
    return failure(error, this.message(error), index, input);
  }

  notUtf8(text) {
    return failure(NOT_UTF8, this.message(NOT_UTF8), loneSurrogate(text), text);
  }
}
