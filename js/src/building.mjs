// Texts that are built of components (RFC 3986, section 5.3).
import { NOT_UTF8, OUT_OF_MEMORY, buildFailure } from './errors.mjs';
import { full } from './platform.mjs';
import { resultOf } from './calls.mjs';
import { CLASSES, extend } from './values.mjs';
import { Cursor, byteLength, loneSurrogate } from './units.mjs';

// The components in the order of `fluent_uri_components`, and the numbers that errors name.
const ORDER = ['scheme', 'userinfo', 'host', 'port', 'path', 'query', 'fragment'];
const NUMBERED = ['userinfo', 'host', 'path', 'query', 'fragment', 'scheme', 'authority', 'port'];
const ABSENT = -1;

function textOfPort(port) {
  if (typeof port !== 'number') return port;
  if (!Number.isInteger(port) || port < 0 || port > 65535)
    throw new RangeError(`a port is from 0 to 65535, not ${port}`);
  return String(port);
}

// The text of each component that is given, null for one that is absent.
function textsOf(components) {
  for (const name of Object.keys(components))
    if (!ORDER.includes(name)) throw new TypeError(`there is no component ${name}`);
  return ORDER.map((name) => {
    const text = (name === 'port' ? textOfPort(components.port) : components[name]) ?? null;
    if (text !== null && typeof text !== 'string') throw new TypeError(`${name} is not a string`);
    return text;
  });
}

function failure(error, which, text, offset) {
  if (error === OUT_OF_MEMORY) return full.failure(error);
  const index = error === NOT_UTF8 ? loneSurrogate(text) : new Cursor(text ?? '').indexOf(offset);
  return buildFailure(error, full.message(error), which, index, text);
}

// Writes where each component is in the text of them all.
function putSpans(texts) {
  let offset = 0, at = full.components >> 2;
  const put = (number) => {
    full.ints[at++] = number;
    full.ints[at++] = number < 0 ? ABSENT : 0;
  };
  for (const text of texts) {
    const length = text === null ? 0 : byteLength(text);
    put(text === null ? ABSENT : offset);
    put(text === null ? ABSENT : offset + length);
    offset += length;
  }
}

function build(kind, components) {
  const texts = textsOf(components), whole = texts.join('');
  const lone = texts.findIndex((text) => text !== null && loneSurrogate(text) >= 0);
  if (lone >= 0) throw failure(NOT_UTF8, ORDER[lone], texts[lone]);
  for (;;) {
    const length = full.putWhole(whole);
    putSpans(texts);
    const error = full.number('build', kind, full.first, length, full.components, full.out,
      full.outLength, full.parts, 1, full.outcome);
    const { which, index } = full, name = NUMBERED[which];
    if (error !== 0) throw failure(error, name, texts[ORDER.indexOf(name)], index);
    if (full.isDone(error, whole)) return resultOf(kind, full);
  }
}

const callsOf = (kind) => ({
  build: (components) => build(kind, components),
});

const membersOf = (kind) => ({
  replace(components) {
    const own = Object.fromEntries(ORDER.map((name) => [name, this[name]]));
    for (const [name, value] of Object.entries(components))
      if (value !== undefined) own[name] = value;
    return build(kind, own);
  },
});

CLASSES.forEach((Class, kind) =>
  extend(Class, { calls: callsOf(kind), members: membersOf(kind) }));
