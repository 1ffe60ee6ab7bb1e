// Components on their own: encoded and decoded.
import { NOT_UTF8, failure } from './errors.mjs';
import { core } from './platform.mjs';
import { textOf } from './values.mjs';
import { byteLength } from './units.mjs';

// The numbers of `enum fluent_uri_component`.
const NUMBERS = {
  userinfo: 0, host: 1, path: 2, query: 3, fragment: 4, scheme: 5, authority: 6, port: 7, data: 8,
};
const CODED = ['userinfo', 'host', 'path', 'query', 'fragment'];
export const COLUMNS = [...CODED, 'scheme', 'authority', 'port'];
const strict = new TextDecoder('utf-8', { fatal: true, ignoreBOM: true });
const lossy = new TextDecoder('utf-8', { ignoreBOM: true });

/** The number of a component that is one of some. */
export function componentNumber(name, names) {
  if (!names.includes(name)) throw new TypeError(`a component is one of ${names.join(', ')}`);
  return NUMBERS[name];
}

export function encode(data, component, { keepEncoded = false } = {}) {
  const number = componentNumber(component, keepEncoded ? CODED : [...CODED, 'data']);
  const given = data instanceof Uint8Array ? data : textOf(data);
  core.callBytes(keepEncoded ? 'mend_component' : 'encode', number, given);
  return core.result();
}

export function decodeBytes(text, component) {
  core.callBytes('decode', componentNumber(component, CODED), textOf(text));
  return core.bytes(core.out, core.length);
}

export function decode(text, component) {
  const bytes = decodeBytes(text, component);
  try {
    return strict.decode(bytes);
  } catch {
    const index = encodedIndex(textOf(text), validLength(bytes));
    throw failure(NOT_UTF8, core.message(NOT_UTF8), index, text);
  }
}

// How many bytes are before the first one that is not of a character in UTF-8.
function validLength(bytes) {
  let length = 0;
  for (const before of lossy.decode(bytes).split('\ufffd')) {
    length += byteLength(before);
    const isReplacement = [0xef, 0xbf, 0xbd].every((it, i) => bytes[length + i] === it);
    if (!isReplacement) break;
    length += 3;
  }
  return length;
}

// The index in a component of what stands for the byte at an offset.
function encodedIndex(text, offset) {
  let index = 0;
  for (let at = 0; at < offset; ) {
    const isOctet = text[index] === '%';
    const character = String.fromCodePoint(text.codePointAt(index));
    at += isOctet ? 1 : byteLength(character);
    index += isOctet ? 3 : character.length;
  }
  return index;
}
