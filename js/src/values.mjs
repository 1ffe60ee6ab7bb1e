// The values of the four kinds: a text, and where its components are.
import { Cursor } from './units.mjs';

const SECRET = Symbol('made by the calls alone');
const ABSENT = -1;
const HOST_KINDS = [null, 'REG_NAME', 'IPV4', 'IPV6', 'IPV_FUTURE'];
// Where the start of a component is in the parts, in numbers of 32 bits. Its end is two later.
const SCHEME = 4, AUTHORITY = 8, HOST = 16, PATH = 24, QUERY = 28;
const COMPONENTS = [
  'scheme', 'authority', 'userinfo', 'host', 'port', 'path', 'query', 'fragment',
];

/** What the four classes have in common. */
export class Reference {
  constructor() {
    throw new TypeError('call parse of a class: values are made by calls alone');
  }
}

// A text, and where each of its components ends or starts, ABSENT if it is absent.
class Places {
  /** Takes the parts of a text from memory, where `length` is that of its UTF-8. */
  constructor(text, length, ints, at) {
    this.text = text;
    this.hostKind = ints[at + 1];
    this.schemeEnd = ints[at + SCHEME + 2];
    this.authority = ints[at + AUTHORITY];
    this.host = ints[at + HOST];
    this.hostEnd = ints[at + HOST + 2];
    this.authorityEnd = ints[at + AUTHORITY + 2];
    this.pathEnd = ints[at + PATH + 2];
    this.queryEnd = ints[at + QUERY + 2];
    if (length !== text.length) this.#convert();
  }

  // Makes indices of byte offsets. A scheme and the delimiters after it are ASCII.
  #convert() {
    const cursor = new Cursor(this.text);
    if (this.authority !== ABSENT) {
      this.host = cursor.indexOf(this.host);
      this.hostEnd = cursor.indexOf(this.hostEnd);
      this.authorityEnd = cursor.indexOf(this.authorityEnd);
    }
    this.pathEnd = cursor.indexOf(this.pathEnd);
    if (this.queryEnd !== ABSENT) this.queryEnd = cursor.indexOf(this.queryEnd);
  }

  get path() {
    return this.authority === ABSENT ? this.schemeEnd + 1 : this.authorityEnd;
  }
  // Past the end of the text where there is no fragment.
  get fragment() {
    return (this.queryEnd === ABSENT ? this.pathEnd : this.queryEnd) + 1;
  }
}

// For each kind, what returns the text of a value of it, or undefined of anything else, and what
// makes a value of a text of so many bytes, of which a module has the parts.
const readers = [], makers = [];

// The four classes share this code. So a class has one private field: with more V8 takes several
// times as long to make values, once a program makes those of two classes.
const classOf = (kind, name) => {
  const Class = class {
    #places;

    static {
      readers[kind] = (value) => (#places in value ? value.#places.text : undefined);
      makers[kind] = (text, length, { ints, parts }) =>
        new Class(SECRET, new Places(text, length, ints, parts >> 2));
    }

    constructor(secret, places) {
      if (secret !== SECRET) return new Reference();
      this.#places = places;
      Object.freeze(this);
    }

    get scheme() {
      const { text, schemeEnd } = this.#places;
      return schemeEnd === ABSENT ? null : text.slice(0, schemeEnd);
    }
    get authority() {
      const { text, authority, authorityEnd } = this.#places;
      return authority === ABSENT ? null : text.slice(authority, authorityEnd);
    }
    get userinfo() {
      const { text, authority, host } = this.#places;
      return host === authority ? null : text.slice(authority, host - 1);
    }
    get host() {
      const { text, host, hostEnd } = this.#places;
      return host === ABSENT ? null : text.slice(host, hostEnd);
    }
    get port() {
      const { text, hostEnd, authorityEnd } = this.#places;
      return hostEnd === authorityEnd ? null : text.slice(hostEnd + 1, authorityEnd);
    }
    get path() {
      const { text, path, pathEnd } = this.#places;
      return text.slice(path, pathEnd);
    }
    get query() {
      const { text, pathEnd, queryEnd } = this.#places;
      return queryEnd === ABSENT ? null : text.slice(pathEnd + 1, queryEnd);
    }
    get fragment() {
      const { text, fragment } = this.#places;
      return fragment > text.length ? null : text.slice(fragment);
    }
    get hostKind() {
      return HOST_KINDS[this.#places.hostKind];
    }

    span(name) {
      if (!COMPONENTS.includes(name)) throw new TypeError(`there is no component ${String(name)}`);
      const value = this[name];
      if (value === null) return null;
      const { authority, host, hostEnd, path, pathEnd, fragment } = this.#places;
      const start = {
        scheme: 0, authority, userinfo: authority, host, port: hostEnd + 1, path,
        query: pathEnd + 1, fragment,
      }[name];
      return [start, start + value.length];
    }

    toString() {
      return this.#places.text;
    }
    toJSON() {
      return this.#places.text;
    }
    [Symbol.for('nodejs.util.inspect.custom')]() {
      return `${name} { '${this.#places.text}' }`;
    }
  };
  Object.setPrototypeOf(Class, Reference);
  Object.setPrototypeOf(Class.prototype, Reference.prototype);
  return Object.defineProperty(Class, 'name', { value: name, configurable: true });
};

export const Uri = classOf(0, 'Uri');
export const UriRef = classOf(1, 'UriRef');
export const Iri = classOf(2, 'Iri');
export const IriRef = classOf(3, 'IriRef');
/** The classes by the numbers of their kinds. */
export const CLASSES = [Uri, UriRef, Iri, IriRef];

/** What makes a value of a kind: of a text of so many bytes, of which a module has the parts. */
export const makerOf = (kind) => makers[kind];

/** The text of a value, or a string itself. */
export function textOf(given) {
  if (typeof given === 'string') return given;
  if (typeof given === 'object' && given !== null)
    for (let kind = 0; kind < readers.length; kind++) {
      const text = readers[kind](given);
      if (text !== undefined) return text;
    }
  throw new TypeError('a string, a Uri, UriRef, Iri or IriRef is needed');
}

/** Whether something is a value of a kind. */
export const isOfKind = (kind, given) =>
  typeof given === 'object' && given !== null && readers[kind](given) !== undefined;

/** The number of the kind of a class. */
export function numberOf(Class) {
  const number = CLASSES.indexOf(Class);
  if (number < 0) throw new TypeError('one of Uri, UriRef, Iri and IriRef is needed');
  return number;
}

/** Gives calls to a class, and members to its values. */
export function extend(Class, { calls = {}, members = {} }) {
  for (const [place, given] of [[Class, calls], [Class.prototype, members]]) {
    const descriptors = Object.getOwnPropertyDescriptors(given);
    for (const it of Object.values(descriptors)) it.enumerable = false;
    Object.defineProperties(place, descriptors);
  }
}
