// Calls for many texts: one call is made for as many texts as a room holds.
import { COLUMNS, componentNumber } from './components.mjs';
import { relativizingOf, resolvingOf, rulesOf } from './calls.mjs';
import { full } from './platform.mjs';
import { Iri, IriRef, Uri, UriRef, isOfKind, numberOf, textOf } from './values.mjs';
import { byteLength, loneSurrogate } from './units.mjs';

const FULL = 10;
// The texts of a call have so many units in all, unless one has more, and there are no more texts.
const MOST_UNITS = 1 << 14, MOST_TEXTS = 1 << 10;
// What the arrays of a call take beside the texts, in units of three bytes.
const ARRAYS = 1 << 12;

/** A call for many texts: its name, its numbers, and a base if it takes one. */
class Batch {
  constructor(name, numbers, base = null) {
    this.name = name;
    this.numbers = numbers;
    this.base = base;
  }

  /** Returns the results for texts, null for one that has none, or is null. */
  results(texts) {
    const results = [];
    for (let from = 0; from < texts.length; from = results.length) {
      let to = from;
      for (let units = 0; to < texts.length && to - from < MOST_TEXTS; to++) {
        units += texts[to] === null ? 0 : texts[to].length;
        if (to > from && units > MOST_UNITS) break;
      }
      this.#call(texts.slice(from, to), results);
    }
    return results;
  }

  // Appends results for texts: for all, or for as many as the room of results holds.
  #call(texts, results) {
    const { base } = this, baseUnits = base === null ? 0 : base.length;
    const column = putColumn(texts, baseUnits), count = texts.length + 1;
    const offsets = (full.second + 3 * baseUnits + 3) & ~3;
    const ends = offsets + 4 * count, valid = ends + 4 * count;
    putOffsets(column, offsets >> 2);
    const before = base === null ? [] : [full.second, full.putSecond(base)];
    const error = full.number(this.name, ...this.numbers, ...before, full.first, column.length,
      offsets, count, full.out, full.outLength, ends, count, valid, (count + 6) >> 3, full.outcome);
    const { index: done, needed } = full;
    if (error !== 0 && error !== FULL) throw full.failure(error);
    if (error === FULL && done === 0) return full.reserveResult(needed);
    appendResults(results, done, ends >> 2, valid, column.isLost);
  }
}

// Puts texts one after another into the first room. One that is null or has a lone surrogate is
// lost: an empty text is in its place.
function putColumn(texts, baseUnits) {
  const whole = texts.join('');
  full.reserve(whole.length + baseUnits + ARRAYS);
  const length = full.put(whole);
  const isAscii = length === whole.length;
  if (isAscii && !texts.includes(null)) return { texts, length, isAscii, isLost: null };
  const isLost = texts.map((text) => text === null || loneSurrogate(text) >= 0);
  const kept = texts.map((text, i) => (isLost[i] ? '' : text));
  return { texts: kept, length: full.putWhole(kept.join('')), isAscii, isLost };
}

// Writes where each text begins and ends.
function putOffsets({ texts, isAscii }, at) {
  const { ints } = full;
  let offset = 0;
  ints[at] = 0;
  for (let i = 0; i < texts.length; i++) {
    offset += isAscii ? texts[i].length : byteLength(texts[i]);
    ints[at + 1 + i] = offset;
  }
}

function appendResults(results, count, ends, valid, isLost) {
  const { ints, length, out } = full, whole = full.read(out, length);
  const bits = full.bytes(valid, (count + 7) >> 3), isAscii = whole.length === length;
  let start = 0;
  for (let i = 0; i < count; i++) {
    const end = ints[ends + i + 1];
    const hasResult = (bits[i >> 3] >> (i & 7)) & 1 && !isLost?.[i];
    results.push(!hasResult ? null
      : isAscii ? whole.slice(start, end) : full.read(out + start, end - start));
    start = end;
  }
}

const textsOf = (texts) => {
  if (typeof texts === 'string') throw new TypeError('texts are needed, and not one text');
  const made = [];
  for (const it of texts) made.push(typeof it === 'string' ? it : textOf(it));
  return made;
};

function mended(texts, kind, options) {
  const given = textsOf(texts);
  return options?.mend ? new Batch('mend_batch', [kind]).results(given) : given;
}

// The number of a base's kind, and that of its references.
function kindsOf(base) {
  const kind = [Uri, Iri].map(numberOf).find((it) => isOfKind(it, base));
  if (kind === undefined) throw new TypeError('a base is a Uri or an Iri');
  return [kind, kind + 1];
}

const LINE_FEED = 10;

/** Returns the normal form of each line, and the number of the error of each, or 0. */
function normalizeLines(lines, Class = Uri, options) {
  const numbers = [numberOf(Class), rulesOf(options)];
  const bytes = typeof lines === 'string' ? new TextEncoder().encode(lines) : lines;
  if (!(bytes instanceof Uint8Array)) throw new TypeError('lines are a string or a Uint8Array');
  const made = [], errors = [];
  // As `\n` at the end of all ends the last line, no line is after it.
  const end = bytes.at(-1) === LINE_FEED ? bytes.length - 1 : bytes.length;
  for (let from = 0; from < bytes.length; ) {
    let to = Math.min(end, from + MOST_UNITS);
    if (to < end) {
      const last = bytes.lastIndexOf(LINE_FEED, to);
      to = last > from ? last : bytes.indexOf(LINE_FEED, to);
      if (to < 0) to = end;
    }
    full.reserve(to - from);
    const length = full.putBytes(bytes.subarray(from, to));
    const error = full.number('normalize_lines', ...numbers, full.first, length, full.out,
      full.outLength, full.second, MOST_UNITS, full.outcome);
    const { index: done, needed, consumed } = full;
    if (error !== 0 && error !== FULL) throw full.failure(error);
    if (error === FULL && done === 0) {
      full.reserveResult(needed);
      continue;
    }
    made.push(full.bytes(full.out, full.length));
    errors.push(full.bytes(full.second, done));
    from = error === 0 ? to + 1 : from + consumed;
  }
  return { lines: joined(made), errors: joined(errors) };
}

function joined(pieces) {
  const whole = new Uint8Array(pieces.reduce((length, it) => length + it.length, 0));
  let at = 0;
  for (const it of pieces) {
    whole.set(it, at);
    at += it.length;
  }
  return whole;
}

/** Calls for many texts. A result is a string, or null where the call of one text would throw. */
export const batch = Object.freeze({
  normalize(texts, Class = Uri, options = {}) {
    const kind = numberOf(Class);
    return new Batch('normalize_batch', [kind, rulesOf(options)])
      .results(mended(texts, kind, options));
  },
  resolve(base, texts, options = {}) {
    const [kind, ofReferences] = kindsOf(base), { call, number } = resolvingOf(options);
    return new Batch(`${call}_batch`, [kind, number], textOf(base))
      .results(mended(texts, ofReferences, options));
  },
  relativize(base, texts, options = {}) {
    const [kind, ofReferences] = kindsOf(base);
    return new Batch('relativize_batch', [kind, relativizingOf(options)], textOf(base))
      .results(mended(texts, ofReferences, options));
  },
  toUri(texts, Class = Iri) {
    if (Class !== Iri && Class !== IriRef) throw new TypeError('Iri or IriRef is needed');
    return new Batch('to_uri_batch', [numberOf(Class)]).results(textsOf(texts));
  },
  mend: (texts, Class = UriRef) =>
    new Batch('mend_batch', [numberOf(Class)]).results(textsOf(texts)),
  mendLink: (links, Class = UriRef) =>
    new Batch('mend_link_batch', [numberOf(Class)]).results(textsOf(links)),
  component: (texts, name, Class = Uri) =>
    new Batch('component_batch', [numberOf(Class), componentNumber(name, COLUMNS)])
      .results(textsOf(texts)),
  normalizeLines,
});
