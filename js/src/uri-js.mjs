// The calls of uri-js 4.4, for programs that name it, as Ajv 6 does.
import { encode } from './components.mjs';
import { SCHEMES } from './uri-js-schemes.mjs';
import { IriRef, Uri, UriRef } from './values.mjs';
import './api.mjs';

const attempt = (make) => {
  try {
    return make();
  } catch {
    return null;
  }
};

const handlerOf = (scheme, options) => SCHEMES[(options.scheme || scheme || '').toLowerCase()];

// The reference that a text is, perhaps mended, or null where its authority is none: as an IRI
// reference by the option `iri`, or else as a URI reference.
function referenceOf(text, options = {}) {
  const iri = IriRef.tryParse(text) ?? attempt(() => IriRef.mend(text));
  if (!iri || options.iri) return iri;
  return (options.domainHost && attempt(() => iri.toUri({ asciiHost: true }))) || iri.toUri();
}

// The normal form of the octets of a component: a query may have each of its characters.
const octets = (value, Class) =>
  (value.includes('%') ? Class.parse(`?${value}`).normalize().query : value);

// A host in its normal form. An address of IPv6 has no brackets.
function hostOf(host, Class) {
  const normal = attempt(() => Class.parse(`//${host}`).normalize().host) ?? host;
  return /^\[[0-9a-f:.]*\]$/i.test(normal) ? normal.slice(1, -1) : normal;
}

function kindOf({ scheme, userinfo, host, port, path, query, fragment }) {
  const isEmpty = [scheme, userinfo, host, port, query].every((it) => it === undefined) && !path;
  if (isEmpty) return 'same-document';
  if (scheme === undefined) return 'relative';
  return fragment === undefined ? 'absolute' : 'uri';
}

const COMPONENTS = /^(?:([^:/?#]+):)?(?:\/\/([^/?#]*))?([^?#]*)(?:\?([^#]*))?(?:#([^]*))?/;

function componentsOf(text, options) {
  const it = referenceOf(text, options);
  if (!it) {
    const [, scheme, host, path, query, fragment] = COMPONENTS.exec(text);
    const error = 'URI can not be parsed.';
    return { scheme, userinfo: undefined, host, port: undefined, path, query, fragment, error };
  }
  const Class = options.iri ? IriRef : UriRef;
  const orNone = (value, change) => (value === null ? undefined : change(value, Class));
  const inOctets = (value) => orNone(value, octets);
  return {
    scheme: orNone(it.scheme, (scheme) => scheme.toLowerCase()),
    userinfo: inOctets(it.userinfo),
    host: orNone(it.host, hostOf),
    port: orNone(it.port, (port) => (port === '' ? '' : Number(port))),
    path: inOctets(it.path),
    query: inOctets(it.query),
    fragment: inOctets(it.fragment),
  };
}

export function parse(text, options = {}) {
  let given = String(text);
  if (options.reference === 'suffix')
    given = `${options.scheme ? `${options.scheme}:` : ''}//${given}`;
  const handler = handlerOf(/^[^:/?#]+(?=:)/.exec(given)?.[0], options);
  // Characters past ASCII stay where both options, or one and the scheme, say so.
  const iri = options.iri && (options.unicodeSupport || handler?.unicodeSupport);
  const made = componentsOf(given, { ...withHandler(options, handler), iri });
  made.reference = kindOf(made);
  if (options.reference && options.reference !== 'suffix' && options.reference !== made.reference)
    made.error ??= `URI is not a ${options.reference} reference.`;
  return (!made.error && handler?.parse?.(made, options)) || made;
}

// A handler says whether the hosts of its scheme are names that DNS has.
const withHandler = (options, handler) =>
  (handler?.domainHost && !options.unicodeSupport ? { ...options, domainHost: true } : options);

const hostText = (host) => {
  if (UriRef.canParse(`//[${host}]`)) return `[${host}]`;
  return IriRef.canParse(`//${host}`) ? host : encode(host, 'host', { keepEncoded: true });
};

const mended = (value, component) => encode(String(value), component, { keepEncoded: true });

// The text of components (RFC 3986, section 5.3).
function textOf(it, options, keepsDots) {
  let text = it.scheme && options.reference !== 'suffix' ? `${it.scheme}:` : '';
  const hasPort = typeof it.port === 'number' || typeof it.port === 'string';
  const hasAuthority = it.userinfo !== undefined || it.host !== undefined || hasPort;
  if (hasAuthority) {
    if (options.reference !== 'suffix') text += '//';
    if (it.userinfo !== undefined) text += `${mended(it.userinfo, 'userinfo')}@`;
    text += hostText(String(it.host ?? ''));
    if (hasPort) text += `:${it.port}`;
  }
  let path = it.path === undefined ? '' : mended(it.path, 'path');
  if (hasAuthority && path && !path.startsWith('/')) path = `/${path}`;
  if (!keepsDots) path = removeDotSegments(path);
  if (!hasAuthority) path = path.replace(/^\/\//, '/%2F');
  if (!hasAuthority && !it.scheme)
    path = path.replace(/^[^/:]*:/, (first) => `${first.slice(0, -1)}%3A`);
  text += path;
  if (it.query !== undefined) text += `?${mended(it.query, 'query')}`;
  if (it.fragment !== undefined) text += `#${mended(it.fragment, 'fragment')}`;
  return text;
}

// The normal form of a text. A port stays, also the default one of its scheme.
function normalText(text, options) {
  const it = referenceOf(text, options);
  if (!it) return text;
  const normal = it.normalize(), { port } = it;
  return String(port === null || normal.port !== null ? normal : normal.replace({ port }));
}

export function serialize(components, options = {}) {
  const given = { ...components }, handler = handlerOf(given.scheme, options);
  const made = handler?.serialize?.(given, options) ?? given;
  const all = withHandler(options, handler);
  const text = textOf(made, options, options.absolutePath || handler?.absolutePath);
  return options.reference === 'suffix' ? normalText(`//${text}`, all).slice(2)
    : normalText(text, all);
}

/** Removes the dot segments of a path (RFC 3986, section 5.2.4). */
export function removeDotSegments(path) {
  if (!path.includes('.')) return path;
  const segments = path.match(/\/?[^/]+|\//g), made = [];
  let isFirst = true;
  segments.forEach((segment, i) => {
    const isLast = i === segments.length - 1;
    if (isFirst && (segment === '.' || segment === '..')) {
      if (!isLast) segments[i + 1] = segments[i + 1].slice(1);
      return;
    }
    isFirst = false;
    if (segment === '/..') made.pop();
    if (segment !== '/.' && segment !== '/..') made.push(segment);
    else if (isLast) made.push('/');
  });
  return made.join('');
}

// The path of a reference after that of a base (RFC 3986, section 5.2.3).
function mergedPath(base, path) {
  const hasAuthority = [base.userinfo, base.host, base.port].some((it) => it !== undefined);
  if (hasAuthority && !base.path) return `/${path}`;
  const whole = base.path ?? '';
  return whole.slice(0, whole.lastIndexOf('/') + 1) + path;
}

// What a target has of a reference, and of its base (RFC 3986, section 5.2.2).
const AUTHORITY = ['userinfo', 'host', 'port'];
function targetOf(base, reference) {
  const own = (names) => Object.fromEntries(names.map((name) => [name, reference[name]]));
  const path = removeDotSegments(reference.path ?? '');
  const { fragment } = reference;
  if (reference.scheme !== undefined)
    return { ...own(['scheme', ...AUTHORITY, 'query']), path, fragment };
  if (AUTHORITY.some((name) => reference[name] !== undefined))
    return { ...base, ...own([...AUTHORITY, 'query']), path, fragment };
  if (!reference.path)
    return { ...base, query: reference.query ?? base.query, fragment };
  const whole = reference.path.startsWith('/') ? path
    : removeDotSegments(mergedPath(base, reference.path));
  return { ...base, path: whole, query: reference.query, fragment };
}

export function resolveComponents(base, reference, options = {}, skipNormalization = false) {
  const normal = (it) => (skipNormalization ? it : parse(serialize(it, options), options));
  const from = normal(base), given = { ...normal(reference) };
  // uri-js is tolerant of each scheme, and not of the base's alone (RFC 3986, section 5.2.2).
  if (options.tolerant) given.scheme = undefined;
  return targetOf(from, given);
}

export function resolve(base, reference, options = {}) {
  // The handlers of schemes take no part.
  const all = { scheme: 'null', ...options };
  const [from, given] = [base, reference].map((it) => parse(it, all));
  return serialize(resolveComponents(from, given, all, true), all);
}

export const normalize = (uri, options = {}) =>
  (typeof uri === 'string' ? serialize(parse(uri, options), options)
    : parse(serialize(uri, options), options));

export function equal(one, other, options = {}) {
  const [left, right] = [one, other].map((it) =>
    serialize(typeof it === 'string' ? parse(it, options) : it, { ...options, iri: true }));
  return left === right;
}

export const escapeComponent = (text) => text && encode(String(text), 'host');
export const unescapeComponent = (text) => text && pctDecChars(String(text));
export const pctEncChar = (character) => encode(character, 'data');
export const pctDecChars = (text) => attempt(() => decodeURIComponent(text)) ?? text;
export { SCHEMES };
