// Random strings, lone surrogates among them: what the calls return of each fits together.
// usage: node random.mjs HOW-MANY SEED
import assert from 'node:assert/strict';
import {
  Iri, IriRef, ParseError, Uri, UriError, UriRef, decode, decodeBytes, encode,
} from 'fluent-uri';

let [count, state] = process.argv.slice(2).map(Number);
const below = (n) => {
  state = (Math.imul(state, 1103515245) + 12345) >>> 0;
  return (state >>> 8) % n;
};
const PIECES = ['http:', '//', '/', '?', '#', ':', '@', '[::1]', '[', ']', '%41', '%', '%C3%BC',
  'a', 'B', '..', '.', '1.2.3.4', '80', ' ', '\t', 'ü', 'ß', '日', '😀', '\ud83d', '\ude00',
  '\ue000', '\u200e', '<', 'x'.repeat(30), 'ü'.repeat(20), '\0'];
const drawn = () => {
  let text = below(2) ? '' : 'http://h/';
  for (let n = below(9); n >= 0; n--) text += PIECES[below(PIECES.length)];
  return text;
};

const LONE = /[\ud800-\udbff](?![\udc00-\udfff])|(?<![\ud800-\udbff])[\udc00-\udfff]/;
const COMPONENTS = ['scheme', 'authority', 'userinfo', 'host', 'port', 'path', 'query', 'fragment'];
const withMark = (before, it, after) => (it === null ? '' : before + it + after);

/** Components joined are the text (RFC 3986, section 5.3), and each is where its span is. */
function fits(it, text) {
  assert.equal(withMark('', it.scheme, ':') + withMark('//', it.authority, '') + it.path
    + withMark('?', it.query, '') + withMark('#', it.fragment, ''), text);
  const authority = withMark('', it.userinfo, '@') + it.host + withMark(':', it.port, '');
  assert.equal(it.authority ?? 'null', authority);
  for (const name of COMPONENTS)
    assert.equal(it.span(name) && text.slice(...it.span(name)), it[name]);
  assert.ok(Object.isFrozen(it));
}

/** The error says where the text is wrong: a lone surrogate is an error at its index. */
function isError(error, text) {
  assert.ok(error instanceof ParseError, error.stack);
  assert.equal(error.input, text);
  assert.ok(error.index >= 0 && error.index <= text.length);
  const lone = text.search(LONE);
  if (error.code === 'NOT_UTF8') assert.equal(error.index, lone);
  else assert.ok(lone < 0 || error.index <= lone, `${JSON.stringify(text)}: ${error.index}`);
  if (error.code === 'INVALID_PCT_ENCODED_OCTET') assert.equal(text[error.index], '%');
}

let parsed = 0, mended = 0, resolved = 0;
function tryKind(Class, text, other) {
  let it;
  try {
    it = Class.parse(text);
  } catch (error) {
    isError(error, text);
  }
  assert.equal(Class.canParse(text), it !== undefined);
  assert.equal(Class.tryParse(text) === null, it === undefined);
  if (!it) {
    try {
      const made = Class.mend(text);
      mended++;
      assert.equal(String(Class.parse(String(made))), String(made));
      assert.ok(!String(made).includes('\ufffd'));
    } catch (error) {
      isError(error, text);
    }
    return;
  }
  parsed++;
  fits(it, text);
  assert.equal(String(Class.mend(text)), text);
  for (const options of [undefined, { schemeRules: true }]) {
    const normal = it.normalize(options);
    assert.ok(normal.isNormal(options) && normal.equals(it, options));
    assert.equal(it.isNormal(options), String(normal) === text);
    assert.equal(String(normal.normalize(options)), String(normal));
    fits(normal, String(normal));
  }
  if (it.toUri) assert.ok((Class === Iri ? Uri : UriRef).canParse(String(it.toUri())));
  if (it.resolve && it.fragment === null)
    for (const reference of [other, '../x?y'].filter((Class === Uri ? UriRef : IriRef).canParse))
      try {
        const target = it.resolve(reference);
        resolved++;
        assert.equal(String(it.resolve(it.relativize(target))), String(target));
      } catch (error) {
        assert.ok(error instanceof UriError, error.stack);
      }
}

/** What is encoded is decoded to the same, where it is a text. */
function tryCoding(text) {
  if (LONE.test(text)) {
    assert.throws(() => encode(text, 'data'), (error) => error.index === text.search(LONE));
    return;
  }
  for (const component of ['userinfo', 'path', 'query', 'fragment'])
    assert.equal(decode(encode(text, component), component), text);
  const bytes = Buffer.from(text, 'utf16le');
  assert.deepEqual(Buffer.from(decodeBytes(encode(bytes, 'query'), 'query')), bytes);
}

let before = '';
for (let n = 0; n < count; n++) {
  const text = drawn();
  for (const Class of [Uri, UriRef, Iri, IriRef]) tryKind(Class, text, before);
  tryCoding(text);
  before = text;
}
assert.ok(Math.min(parsed, mended, resolved) > count / 20, `${[parsed, mended, resolved]}`);
console.log(`random: ${count} strings: ${parsed} parsed, ${mended} mended, ${resolved} resolved`);
