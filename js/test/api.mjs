// The edges of the package: errors and their indices, wrong types, lone surrogates, long texts.
import assert from 'node:assert/strict';
import { createRequire } from 'node:module';
import { dirname, join } from 'node:path';
import {
  AsciiHostError, BuildError, Iri, IriRef, ParseError, Reference, ResolveError, Uri, UriError,
  UriRef, batch, decode, decodeBytes, encode, normalVersion,
} from 'fluent-uri';

const require = createRequire(import.meta.url);
const CLASSES = [Uri, UriRef, Iri, IriRef];
const COMPONENTS = [
  'scheme', 'authority', 'userinfo', 'host', 'port', 'path', 'query', 'fragment',
];

function fails(make, Class, code, fields = {}) {
  try {
    make();
  } catch (error) {
    assert.ok(error instanceof Class && error instanceof UriError, String(error));
    assert.equal(error.name, Class.name);
    for (const [name, value] of Object.entries({ code, ...fields }))
      assert.equal(error[name], value, `${name} of ${error}`);
    return;
  }
  assert.fail('no error');
}
const texts = (value) => COMPONENTS.map((name) => value[name]);

function components() {
  const uri = Uri.parse('http://user@example.com:8042/over/there?name=ferret#nose');
  assert.deepEqual(texts(uri), ['http', 'user@example.com:8042', 'user', 'example.com', '8042',
    '/over/there', 'name=ferret', 'nose']);
  assert.deepEqual(texts(Uri.parse('urn:a')), ['urn', null, null, null, null, 'a', null, null]);
  assert.deepEqual(texts(UriRef.parse('//@:')), [null, '@:', '', '', '', '', null, null]);
  assert.deepEqual(texts(UriRef.parse('')), [null, null, null, null, null, '', null, null]);
  assert.deepEqual(texts(UriRef.parse('?#')), [null, null, null, null, null, '', '', '']);
  const iri = Iri.parse('http://ü@bücher.example:1/straße?größe=😀#é');
  assert.deepEqual(texts(iri), ['http', 'ü@bücher.example:1', 'ü', 'bücher.example', '1',
    '/straße', 'größe=😀', 'é']);
  for (const value of [uri, iri, UriRef.parse('//@:'), UriRef.parse('?#')])
    for (const name of COMPONENTS) {
      const span = value.span(name);
      assert.equal(span && value.toString().slice(...span), value[name]);
    }
  assert.deepEqual([uri.hostKind, uri.portNumber, uri.defaultPort], ['REG_NAME', 8042, 80]);
  assert.equal(Uri.parse('HTTPS://a').origin, 'https://a');
  assert.equal(Uri.parse('urn:a').origin, null);
  assert.deepEqual([...Uri.parse('x://1.2.3.4').hostAddress], [1, 2, 3, 4]);
  assert.equal(Uri.parse('x://[::1]').hostAddress.length, 16);
  assert.deepEqual([Uri.parse('x:').hostKind, Uri.parse('x://a').hostAddress], [null, null]);
  assert.equal(Uri.parse('x://[v1.a]').hostKind, 'IPV_FUTURE');
  assert.deepEqual(['x:', 'x://a', 'x://a:', 'x://a:007'].map((it) => Uri.parse(it).portNumber),
    [null, null, null, 7]);
  assert.throws(() => Uri.parse('x://a:65536').portNumber, RangeError);
  assert.equal(`${uri}`, JSON.parse(JSON.stringify(uri)));
}

function errors() {
  const rejected = (Class, text, code, index) =>
    fails(() => Class.parse(text), ParseError, code, { index, input: text });
  rejected(Uri, 'http://exa mple/', 'UNEXPECTED_CHAR', 10);
  rejected(Iri, 'http://ü/😀 ', 'UNEXPECTED_CHAR', 11);
  rejected(Uri, 'http://ü/', 'UNEXPECTED_CHAR', 7);
  rejected(Uri, 'http://a/%zz', 'INVALID_PCT_ENCODED_OCTET', 9);
  rejected(Uri, 'http://[::1::]/', 'INVALID_IPV6_ADDR', 8);
  rejected(Uri, 'http', 'UNEXPECTED_CHAR', 4);
  rejected(Iri, 'é\ud800 ', 'NOT_UTF8', 1);
  rejected(Iri, '\ude00\ud83d', 'NOT_UTF8', 0);
  // The index is in the link without what HTML drops.
  fails(() => UriRef.mendLink(' \tx://a\n b/ '), ParseError, 'UNEXPECTED_CHAR',
    { index: 5, input: 'x://a b/' });
  const base = Uri.parse('http://a/b');
  fails(() => base.resolve('a b'), ParseError, 'UNEXPECTED_CHAR', { index: 1, input: 'a b' });
  fails(() => base.resolve('\ud800'), ParseError, 'NOT_UTF8', { index: 0, input: '\ud800' });
  fails(() => Uri.parse('x:a').resolve('b'), ResolveError,
    'INVALID_REFERENCE_AGAINST_OPAQUE_BASE');
  fails(() => Uri.parse('foo:/a').resolve('.//b', { basic: true }), ResolveError,
    'PATH_STARTS_WITH_DOUBLE_SLASH');
  fails(() => UriRef.parse('//%FF/').asciiHost, AsciiHostError, 'NAME_NOT_UTF8');
  fails(() => Iri.parse('x://a..é/').toUri({ asciiHost: true }), AsciiHostError, 'INVALID_NAME');
  for (const [given, code, fields] of [
    [{ scheme: 'x', host: 'a', path: '/b?c' }, 'UNEXPECTED_CHAR', { component: 'path', index: 2 }],
    [{ scheme: 'x', query: 'ü%' }, 'UNEXPECTED_CHAR', { component: 'query', index: 0 }],
    [{ host: 'a' }, 'MISSING_COMPONENT', { component: 'scheme' }],
    [{ scheme: 'x', port: 1 }, 'MISSING_COMPONENT', { component: 'host' }],
    [{ scheme: 'x', host: 'a', path: 'b' }, 'NONEMPTY_ROOTLESS_PATH', { component: 'path' }],
    [{ scheme: 'x', path: '//b' }, 'PATH_STARTS_WITH_DOUBLE_SLASH', { component: 'path' }],
    [{ scheme: 'x', path: 'é\ud800' }, 'NOT_UTF8', { component: 'path', index: 1 }],
  ]) fails(() => Uri.build(given), BuildError, code, fields);
  fails(() => UriRef.build({ path: 'a:b' }), BuildError, 'FIRST_PATH_SEGMENT_CONTAINS_COLON');
  fails(() => IriRef.build({ path: '/é ' }), BuildError, 'UNEXPECTED_CHAR', { index: 2 });
}

// A lone surrogate is never in a text, and never becomes another character.
function loneSurrogates() {
  const uri = Uri.parse('http://a/');
  for (const lone of ['x:\ud800', 'x:\udc00', 'x:\ude00\ud83d', `x:${'é'.repeat(50)}\ud83d`]) {
    const index = lone.search(/[\ud800-\udfff]/);
    for (const make of [
      () => Iri.mend(lone), () => Iri.mendLink(lone), () => uri.compare(lone),
      () => Iri.equivalent(lone, 'x:\ufffd'), () => encode(lone, 'data'),
      () => uri.relativize(lone), () => decode(lone, 'query'),
      () => Uri.parse('a:b').withQuery([[lone, '']]),
    ]) fails(make, ParseError, 'NOT_UTF8', { index, input: lone });
    for (const Class of CLASSES) assert.ok(!Class.canParse(lone) && Class.tryParse(lone) === null);
    assert.deepEqual(batch.mend([lone, 'a b'], IriRef), [null, 'a%20b']);
  }
}

// Each call with each wrong type.
function wrongTypes() {
  const uri = Uri.parse('http://a/b'), iri = Iri.parse(uri);
  const wrong = [undefined, null, 1, 1n, true, Symbol('a'), {}, [], ['a:b'], () => 'a:b',
    new String('a:b'), new URL('a:b'), Object.create(Uri.prototype), { toString: () => 'a:b' }];
  for (const it of wrong)
    for (const make of [
      ...CLASSES.flatMap((Class) => [
        () => Class.parse(it), () => Class.tryParse(it), () => Class.canParse(it),
        () => Class.mend(it), () => Class.mendLink(it), () => Class.compare('a:b', it),
        () => Class.equivalent(it, 'a:b'),
      ]),
      () => uri.resolve(it), () => uri.relativize(it), () => uri.joinLink(it),
      () => uri.compare(it), () => uri.equals(it), () => encode(it, 'path'),
      () => decode(it, 'path'), () => decodeBytes(it, 'path'), () => encode('a', it),
      () => decode('a', it), () => uri.span(it), () => batch.normalize(['a:b', it]),
      () => batch.resolve(it, ['a']), () => batch.component(['a:b'], it),
    ]) assert.throws(make, TypeError, `${String(make)} of ${typeof it}`);
  for (const make of [
    () => new Uri('a:b'), () => new Reference('a:b'), () => Uri('a:b'),
    () => Uri.prototype.normalize.call({}), () => Uri.prototype.scheme,
    () => UriRef.parse('a').resolve('b'),
    () => Uri.build({ hostname: 'a' }), () => Uri.build({ scheme: 1 }),
    () => uri.replace({ path: 1 }), () => Uri.build(),
    () => uri.resolve('a', { basic: true, normalize: true }),
    () => uri.resolve('a', { schemeRules: true }), () => batch.normalize('a:b'),
    () => batch.normalize(['a:b'], String), () => batch.toUri(['a:b'], Uri),
    () => batch.normalizeLines(['a']), () => decode('a', 'data'),
  ]) assert.throws(make, TypeError, String(make));
  assert.throws(() => Uri.build({ scheme: 'x', host: 'a', port: 65536 }), RangeError);
  assert.throws(() => Uri.build({ scheme: 'x', host: 'a', port: 1.5 }), RangeError);
}

function values() {
  const uri = Uri.parse('http://a/b');
  assert.ok(Object.isFrozen(uri) && uri instanceof Uri && uri instanceof Reference);
  assert.ok(!(uri instanceof UriRef) && !(uri instanceof Iri));
  assert.throws(() => { 'use strict'; uri.path = '/c'; }, TypeError);
  assert.throws(() => { 'use strict'; uri.more = 1; }, TypeError);
  assert.equal(Uri.parse(uri), uri);
  assert.equal(uri.normalize(), uri);
  assert.equal(UriRef.mend(UriRef.parse('a')).path, 'a');
  assert.ok(Iri.parse(uri) instanceof Iri && Uri.parse(Iri.parse(uri)) instanceof Uri);
  assert.deepEqual(['a:b', 'a b', ''].map(Uri.canParse), [true, false, false]);
  assert.deepEqual(['a:c', 'HTTP://b', 'no', 'a:b'].sort(Uri.compare),
    ['a:b', 'a:c', 'HTTP://b', 'no']);
  assert.deepEqual(['a:b', ''].map(Uri.tryParse).map(String), ['a:b', 'null']);
  assert.equal(require('fluent-uri').Uri, Uri);
}

function calls() {
  const normal = (text, options) => String(Uri.parse(text).normalize(options));
  assert.equal(normal('HTTP://EXAMPLE.com:80/%7efoo/./a/../b'), 'http://example.com/~foo/b');
  assert.equal(normal('http://a', { schemeRules: true }), 'http://a/');
  assert.equal(String(Iri.parse('x:%C3%A9é%FF').normalize()), 'x:éé%FF');
  assert.equal(Uri.parse('http://a').equals('http://a/', { schemeRules: true }), true);
  assert.equal(Uri.parse('http://a').equals('http://a/'), false);
  assert.deepEqual(['x://a', 'x://A'].map((it) => Uri.parse(it).isNormal()), [true, false]);
  // What options do when they are read changes no result.
  const meddling = { get schemeRules() { Uri.parse('z:z').isNormal(); return true; } };
  assert.equal(Uri.parse('http://a').compare('http://a/', meddling), 0);
  assert.equal(Uri.parse('http://a').isNormal(meddling), false);
  const base = Uri.parse('http://a/b/c/d;p?q');
  for (const [reference, target] of [['g:h', 'g:h'], ['../../../g', 'http://a/g'],
    ['//g', 'http://g'], ['?y', 'http://a/b/c/d;p?y'], ['', 'http://a/b/c/d;p?q'],
    ['#s', 'http://a/b/c/d;p?q#s']])
    assert.equal(String(base.resolve(reference)), target);
  assert.equal(String(base.resolve('%7E', { normalize: true })), 'http://a/b/c/~');
  assert.equal(String(base.resolve('%2E%2E/g', { basic: true })), 'http://a/b/c/%2E%2E/g');
  assert.equal(String(base.resolve('x y', { mend: true })), 'http://a/b/c/x%20y');
  const target = base.resolve('../x/y?z');
  assert.equal(String(base.relativize(target)), '../x/y?z');
  assert.equal(String(base.joinLink(' ../c d\n?x=[1]#e ')), 'http://a/b/c%20d?x=%5B1%5D#e');
  assert.equal(String(base.joinLink('?x#e', { keepFragment: false })), 'http://a/b/c/d;p?x');
  assert.equal(String(UriRef.mend('a b?c d%')), 'a%20b?c%20d%25');
  assert.equal(String(UriRef.mendLink(' a\t b ')), 'a%20b');
  const iri = Iri.parse('http://bücher.example/é');
  assert.equal(String(iri.toUri()), 'http://b%C3%BCcher.example/%C3%A9');
  assert.equal(String(iri.toUri({ asciiHost: true })), 'http://xn--bcher-kva.example/%C3%A9');
  assert.deepEqual([iri.asciiHost, Uri.parse('urn:a').asciiHost], ['xn--bcher-kva.example', null]);
  assert.equal(String(Uri.build({ scheme: 'x', host: 'a', port: 8443, path: '/b', query: 'c=d' })),
    'x://a:8443/b?c=d');
  assert.equal(String(Iri.build({ scheme: 'x', userinfo: 'é', host: 'ü', path: '/😀' })),
    'x://é@ü/😀');
  assert.equal(String(Uri.parse('http://u@a:80/b?c#d').replace({ port: null, fragment: null })),
    'http://u@a/b?c');
  assert.ok(normalVersion() > 0);
}

function coding() {
  assert.equal(encode('ü &/', 'data'), '%C3%BC%20%26%2F');
  assert.equal(encode(new Uint8Array([0, 255, 65]), 'path'), '%00%FFA');
  assert.equal(encode('50%/a%20b c', 'path', { keepEncoded: true }), '50%25/a%20b%20c');
  assert.equal(decode('%C3%BC%20', 'query'), 'ü ');
  assert.equal(decode('%EF%BB%BFa', 'path'), '\ufeffa');
  assert.deepEqual([...decodeBytes('%FFa', 'path')], [255, 97]);
  for (const [text, index] of [['a%FF', 1], ['%C3%A9%C3', 6], ['%EF%BF%BD%80', 9], ['%C3a', 0]])
    fails(() => decode(text, 'query'), ParseError, 'NOT_UTF8', { index, input: text });
  fails(() => decode('a#', 'path'), ParseError, 'UNEXPECTED_CHAR', { index: 1 });
  const uri = Uri.parse('x:?a=b%20c&&d&=e&é=ü'.replace(/[éü]/g, encodeURIComponent));
  assert.deepEqual(uri.queryPairs(), [['a', 'b c'], ['d', ''], ['', 'e'], ['é', 'ü']]);
  assert.deepEqual(Iri.parse('x:?é=%C3%A9😀&b=ü+').queryPairs({ plusIsSpace: true }),
    [['é', 'é😀'], ['b', 'ü ']]);
  assert.deepEqual([Uri.parse('x:?').queryPairs(), Uri.parse('x:').queryPairs()], [[], []]);
  const made = uri.withQuery([['name', 'a b'], ['page', '2&3'], ['ü', '+']]);
  assert.equal(made.query, 'name=a%20b&page=2%263&%C3%BC=%2B');
  assert.deepEqual(made.queryPairs(), [['name', 'a b'], ['page', '2&3'], ['ü', '+']]);
  assert.equal(uri.withQuery({ q: 'a b+' }, { plusIsSpace: true }).query, 'q=a+b%2B');
  assert.equal(String(uri.withQuery(null)), 'x:');
}

function longTexts() {
  const long = `http://h/${'ü'.repeat(300000)}/../%7e`, kept = Iri.parse(long);
  assert.equal(kept.path.length, 300008);
  assert.equal(String(kept.normalize()), 'http://h/~');
  assert.equal(String(kept.toUri()).length, 1800016);
  assert.equal(kept.compare(long), 0);
  const tooLong = 'x:'.padEnd(2 ** 28, 'a');
  for (const make of [() => Uri.parse(tooLong), () => Uri.canParse(tooLong),
    () => Uri.parse('x:').resolve(tooLong), () => encode(tooLong, 'path')])
    fails(make, UriError, 'OUT_OF_MEMORY');
  assert.equal(Uri.parse('x:a').path, 'a');
  const uri = Uri.parse('http://example.com/');
  const many = Array.from({ length: 20000 }, (_, n) => `HTTP://h${n}/a/../${n}`);
  const values = many.map((it) => Uri.parse(it).normalize());
  assert.ok(values.every((it, n) => String(it) === `http://h${n}/${n}`));
  assert.equal(uri.host, 'example.com');
  assert.equal(Iri.parse(`x:?${'é=😀&'.repeat(100000)}`).queryPairs().length, 100000);
}

// A batch has what calls of one text have.
function batches() {
  const base = Uri.parse('http://a/b/c?d');
  const given = ['HTTP://A:80', 'a b', '', '../%7e', 'http://é/', 'x:\ud800', 'x'.repeat(40000),
    ...Array.from({ length: 3000 }, (_, n) => `http://h${n}/${'é'.repeat(n % 3)}/./?${n}`)];
  const orNull = (make) => (it) => {
    try {
      return String(make(it));
    } catch {
      return null;
    }
  };
  const same = (made, call) => assert.deepEqual(made, given.map(orNull(call)));
  for (const Class of CLASSES) {
    same(batch.normalize(given, Class), (it) => Class.parse(it).normalize());
    same(batch.mend(given, Class), Class.mend);
    same(batch.mendLink(given, Class), Class.mendLink);
    same(batch.normalize(given, Class, { mend: true, schemeRules: true }),
      (it) => Class.mend(it).normalize({ schemeRules: true }));
    for (const name of COMPONENTS)
      assert.deepEqual(batch.component(given, name, Class),
        given.map((it) => Class.tryParse(it)?.[name] ?? null));
  }
  const rules = { normalize: true, schemeRules: true };
  for (const options of [{}, rules, { basic: true }, { mend: true }])
    same(batch.resolve(base, given, options), (it) => base.resolve(it, options));
  same(batch.relativize(base, given), (it) => base.relativize(it));
  same(batch.toUri(given, IriRef), (it) => IriRef.parse(it).toUri());
  const wellFormed = given.filter((it) => it !== 'x:\ud800');
  const { lines, errors } = batch.normalizeLines(wellFormed.join('\n'), Iri);
  const made = new TextDecoder().decode(lines).split('\n');
  assert.equal(made.length, errors.length + 1);
  assert.deepEqual(made.slice(0, -1).map((it, i) => (errors[i] ? null : it)),
    batch.normalize(wellFormed, Iri));
  assert.deepEqual(batch.normalize([]), []);
  assert.equal(batch.normalizeLines('').errors.length, 0);
}

// After a trap the next call has a new instance, and values stay what they are.
function traps() {
  const folder = dirname(require.resolve('fluent-uri/package.json'));
  const { core } = require(join(folder, 'cjs', 'platform.cjs'));
  const kept = Uri.parse('http://a/b'), own = core.calls;
  const names = ['parse', 'normalize', 'resolve', 'compare', 'to_uri', 'encode'];
  for (const name of names) {
    core.calls[name] = () => { throw new WebAssembly.RuntimeError('unreachable'); };
    assert.throws(() => {
      Uri.parse('http://a/%7e').normalize();
      kept.resolve('c');
      kept.compare('d:');
      Iri.parse('x:é').toUri();
      encode('a', 'data');
    }, WebAssembly.RuntimeError);
    assert.equal(String(Uri.parse('HTTP://a/d').normalize()), 'http://a/d');
    assert.equal(kept.path, '/b');
  }
  assert.notEqual(core.calls, own);
  const deep = () => { Uri.parse('http://a/%7e').normalize(); deep(); };
  assert.throws(deep, RangeError);
  assert.equal(String(Uri.parse('HTTP://a/e').normalize()), 'http://a/e');
}

for (const it of [components, errors, loneSurrogates, wrongTypes, values, calls, coding, longTexts,
  batches, traps]) it();
console.log('api: passed');
