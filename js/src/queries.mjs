// The pairs of a query.
import { encode } from './components.mjs';
import { core } from './platform.mjs';
import { CLASSES, extend } from './values.mjs';
import { Cursor } from './units.mjs';

const QUERY = 3;

// What a name or a value of a pair stands for. What is not UTF-8 becomes U+FFFD.
function decoded(encoded, plusIsSpace) {
  const text = plusIsSpace ? encoded.replaceAll('+', '%20') : encoded;
  if (!text.includes('%')) return text;
  core.callBytes('decode', QUERY, text);
  return core.result();
}

// The names and values of a query as they are. Without `=` a value is empty.
function encodedPairs(query) {
  const length = core.putWhole(query), cursor = new Cursor(query), made = [];
  const pair = core.pair >> 2, position = core.position >> 2;
  core.ints[position] = core.ints[position + 1] = 0;
  const cut = (at) => {
    const start = core.ints[at];
    if (start < 0) return '';
    const from = cursor.indexOf(start);
    return query.slice(from, cursor.indexOf(core.ints[at + 2]));
  };
  while (core.number('next_pair', core.first, length, core.position, core.pair) === 1)
    made.push([cut(pair), cut(pair + 4)]);
  return made;
}

const members = {
  queryPairs({ plusIsSpace = false } = {}) {
    const { query } = this;
    if (query === null) return [];
    return encodedPairs(query).map((pair) => pair.map((it) => decoded(it, plusIsSpace)));
  },

  withQuery(pairs, { plusIsSpace = false } = {}) {
    if (pairs === null) return this.replace({ query: null });
    const coded = (text) => {
      const made = encode(text, 'data');
      return plusIsSpace ? made.replaceAll('%20', '+') : made;
    };
    const given = Symbol.iterator in pairs ? [...pairs] : Object.entries(pairs);
    const query = given.map(([name, value]) => `${coded(name)}=${coded(value)}`).join('&');
    return this.replace({ query });
  },
};

for (const Class of CLASSES) extend(Class, { members });
