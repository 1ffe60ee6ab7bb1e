// Asks the package the rows of crates/vectors/data, as README.txt there describes them.
// usage: node rows.mjs FILE..
import assert from 'node:assert/strict';
import { readFileSync } from 'node:fs';
import { basename } from 'node:path';
import {
  AsciiHostError, Iri, IriRef, ParseError, ResolveError, Uri, UriRef, decode, decodeBytes, encode,
} from 'fluent-uri';

const KINDS = { uri: Uri, 'uri-ref': UriRef, iri: Iri, 'iri-ref': IriRef };
const COMPONENTS = {
  userinfo: 'userinfo', 'reg-name': 'host', path: 'path', query: 'query', fragment: 'fragment',
  data: 'data',
};
// What the package has no call for.
const WITHOUT_A_CALL = new Set(`compare-under normalize-by-every-rule normalize-by-rules-strict
  normalize-strict normalize-under print-ipv4 print-ipv6 resolve-strict rsplit-once same-scheme
  scheme segments socket split split-once table to-iri to-iri-ref to-uri to-uri-ref`.split(/\s+/));
const SKIPPED = Symbol('a row for which the package has no call');

/** The text of a field. */
function field(written) {
  if (written === '""') return '';
  return written.replace(/\\(\d+)\{([^}]*)\}/g, (_, times, it) => it.repeat(times))
    .replace(/\\u\{([0-9A-Fa-f]+)\}/g, (_, hex) => String.fromCodePoint(parseInt(hex, 16)))
    .replace(/\\s/g, ' ');
}

// The rows have bytes, and names of errors as Rust writes them.
const bytesBefore = (text, index) => Buffer.byteLength(text.slice(0, index));
const nameOf = (code) => code.toLowerCase().replace(/(?:^|_)(\w)/g, (_, it) => it.toUpperCase());

/** What a call returns, or the words for its error. */
function attempt(call, Class, words) {
  try {
    return call();
  } catch (error) {
    if (!(error instanceof Class)) throw error;
    return words(error);
  }
}

const components = (value, names) =>
  names.filter((it) => value[it] !== null).map((it) => `${it}=${value[it]}`);
const parseError = (error) => [nameOf(error.code), String(bytesBefore(error.input, error.index))];
const named = (error) => ['error', nameOf(error.code)];

function host(Class, text) {
  const value = Class.parse(text), address = value.hostAddress;
  if (value.hostKind === 'REG_NAME' || value.hostKind === 'IPV_FUTURE') {
    assert.equal(address, null);
    return value.hostKind === 'REG_NAME' ? ['name', value.host] : ['ipvfuture'];
  }
  if (value.hostKind === 'IPV4') {
    assert.equal([...address].join('.'), value.host);
    return ['ipv4', ...[...address].map(String)];
  }
  const groups = Array.from({ length: 8 }, (_, i) => address[2 * i] << 8 | address[2 * i + 1]);
  return ['ipv6', ...groups.map((it) => it.toString(16))];
}

function normal(Class, text, options) {
  const made = Class.parse(text).normalize(options);
  assert.equal(String(made.normalize(options)), String(made));
  assert.ok(made.isNormal(options));
  return [String(made)];
}

function isNormal(Class, text, options) {
  const found = Class.parse(text).isNormal(options);
  assert.equal(normal(Class, text, options)[0] === text, found);
  return [found ? 'yes' : 'no'];
}

function order(Class, one, other, options) {
  const found = Class.compare(one, other, options);
  assert.equal(Class.compare(other, one, options), found === 0 ? 0 : -found);
  assert.equal(Class.equivalent(one, other, options), found === 0);
  return [['less', 'equal', 'greater'][found + 1]];
}

/** The link that a text makes within white space is mended as the text is. */
function mend(Class, text) {
  const found = attempt(() => [String(Class.mend(text))], ParseError, parseError);
  if (found.length === 1 && !/[\t\n\f\r]|^ | $/.test(text))
    assert.equal(String(Class.mendLink(` \n${text}\t `)), found[0]);
  return found;
}

function asciiHost(Class, text) {
  const value = Class.parse(text);
  if (value.host === null) return [text];
  const [start, end] = value.span('host');
  return attempt(() => [text.slice(0, start) + value.asciiHost + text.slice(end)],
    AsciiHostError, named);
}

/** Here the fragment of a base plays no part. */
function target(Class, base, reference, options) {
  const value = Class.parse(base);
  if (value.fragment !== null) return SKIPPED;
  return attempt(() => [String(value.resolve(reference, options))], ResolveError, named);
}

function relativizeBack(Class, base, to) {
  const [found] = CALLS.relativize(Class, base, to);
  const back = target(Class, base, found);
  if (back === SKIPPED) return SKIPPED;
  assert.deepEqual(back, [to]);
  return target(Class, base, found, { basic: true })[0] === to ? [found] : [found, 'lost'];
}

function swap(Class, base, reference) {
  const Relative = Class === Uri ? UriRef : IriRef;
  const from = Class.parse(base), to = Relative.parse(reference);
  const after = String(from.resolve(to).normalize());
  assert.equal(String(from.normalize().resolve(to.normalize()).normalize()), after);
  assert.equal(String(from.resolve(to, { normalize: true })), after);
  return [after];
}

const hex = (bytes) => [...bytes].map((it) => it.toString(16).toUpperCase().padStart(2, '0'));
const held = (path) => (path.includes('%') ? 'owned' : 'borrowed');
const decoder = new TextDecoder('utf-8', { ignoreBOM: true });
const lossy = (path) => decoder.decode(decodeBytes(path, 'path'));
/** The text of a path, or null if it is no UTF-8: then the error is at a `%`. */
const textOf = (path) => attempt(() => decode(path, 'path'), ParseError, (error) => {
  assert.deepEqual([error.code, path[error.index]], ['NOT_UTF8', '%']);
  return null;
});

const rules = { schemeRules: true };
const CALLS = {
  parse: (Class, text) => attempt(() => components(Class.parse(text),
    ['scheme', 'authority', 'path', 'query', 'fragment']), ParseError,
  (error) => `error: ${error.message.replace(/\d+$/, bytesBefore(text, error.index))}`.split(' ')),
  error: (Class, text) => attempt(() => (Class.parse(text), ['none']), ParseError, parseError),
  authority: (Class, text) => components(Class.parse(text), ['userinfo', 'host', 'port']),
  host,
  ipv6: (Class, text) => (Class.tryParse(text)?.hostKind === 'IPV6' ? host(Class, text) : ['none']),
  port: (Class, text) => attempt(() => [String(Class.parse(text).portNumber ?? 'none')],
    RangeError, () => ['error']),
  mend,
  normalize: (Class, text) => normal(Class, text),
  'normalize-by-rules': (Class, text) => normal(Class, text, rules),
  'is-normal': (Class, text) => isNormal(Class, text),
  'is-normal-by-rules': (Class, text) => isNormal(Class, text, rules),
  compare: (Class, one, other) => order(Class, one, other),
  'compare-by-rules': (Class, one, other) => order(Class, one, other, rules),
  'ascii-host': asciiHost,
  'encode-as-uri': (Class, text) => [String(Class.parse(text).toUri())],
  'with-fragment': (Class, text, given) =>
    [String(Class.parse(text).replace({ fragment: given === 'none' ? null : given.slice(1) }))],
  'strip-fragment': (Class, text) => [String(Class.parse(text).replace({ fragment: null }))],
  resolve: (Class, base, reference) => target(Class, base, reference),
  'resolve-normalized': (Class, base, reference) =>
    target(Class, base, reference, { normalize: true }),
  'resolve-by-rules': (Class, base, reference) =>
    target(Class, base, reference, { normalize: true, ...rules }),
  'resolve-basic': (Class, base, reference) => target(Class, base, reference, { basic: true }),
  'resolve-both': (Class, base, reference) => {
    const found = target(Class, base, reference);
    assert.deepEqual(target(Class, base, reference, { basic: true }), found);
    return found;
  },
  relativize: (Class, base, to) => [String(Class.parse(base).relativize(to))],
  'relativize-path': (Class, base, to) =>
    [String(Class.parse(base).relativize(to, { preferRelativePath: true }))],
  'relativize-back': relativizeBack,
  swap,
  'swap-as-uris': (Class, base, reference) => swap(Uri, String(Class.parse(base).toUri()),
    String(IriRef.parse(reference).toUri())),
};
const CALLS_OF_TEXTS = {
  'default-port': (scheme) => [String(UriRef.build({ scheme, path: '' }).defaultPort ?? 'none')],
  // (`decode` takes what a component of an IRI may hold)
  'is-valid': (encoder, text) => {
    const component = COMPONENTS[encoder];
    if (!component || component === 'data' || /[^\0-\x7f]/.test(text)) return SKIPPED;
    return attempt(() => (decodeBytes(text, component), ['yes']), ParseError, () => ['no']);
  },
  encode: (encoder, text) => (COMPONENTS[encoder] ? [encode(text, COMPONENTS[encoder])] : SKIPPED),
  'encode-bytes': (encoder, bytes) =>
    [encode(Uint8Array.from(Buffer.from(bytes.replaceAll(',', ''), 'hex')), COMPONENTS[encoder])],
  'to-bytes': (path) => [held(path), ...hex(decodeBytes(path, 'path'))],
  'to-string': (path) => {
    const text = textOf(path);
    return text === null ? ['not-utf8', ...hex(decodeBytes(path, 'path'))] : [held(path), text];
  },
  'to-string-lossy': (path) => [held(path), lossy(path)],
  read: (path) => [String(IriRef.parse(path).normalize()), textOf(path) === null ? 'bytes' : 'text',
    lossy(path)],
};

/** The words that the package returns for a row, or SKIPPED. */
function result(operation, fields) {
  if (WITHOUT_A_CALL.has(operation)) return SKIPPED;
  const [kind, ...more] = fields;
  if (CALLS[operation]) return CALLS[operation](KINDS[kind], ...more);
  return CALLS_OF_TEXTS[operation](...fields);
}

const shown = (text) => JSON.stringify(text).slice(0, 200);
const failed = [];
let tried = 0, skipped = 0;
for (const file of process.argv.slice(2).filter((it) => basename(it) !== 'README.txt'))
  readFileSync(file, 'utf8').split('\n').forEach((line, number) => {
    if (!line.trim() || line.startsWith('#')) return;
    const [asked, expected] = line.split(' -> ', 2), where = `${basename(file)}:${number + 1}`;
    const [operation, ...fields] = asked.split(' ').filter(Boolean);
    let found;
    try {
      found = result(operation, fields.map(field));
    } catch (why) {
      found = [`${why.name}: ${why.message}`];
    }
    if (found === SKIPPED) return skipped++;
    tried++;
    const wanted = expected.split(' ').filter(Boolean).map(field).join(' ');
    if (found.join(' ') !== wanted)
      failed.push(`${where}: ${operation}: ${shown(found.join(' '))}, and not ${shown(wanted)}`);
    return undefined;
  });
for (const it of failed.slice(0, 20)) console.log(it);
assert.ok(tried > 5000, `only ${tried} rows were tried`);
console.log(`rows: ${tried} tried, ${failed.length} failed, ${skipped} without a call`);
process.exitCode = failed.length ? 1 : 0;
