// What uri-js knows of addresses of mail (RFC 6068).
import { encode } from './components.mjs';
import { IriRef } from './values.mjs';

const percent = (character) => encode(character, 'data');

function decoded(text) {
  try {
    return decodeURIComponent(text);
  } catch {
    return text;
  }
}

function domainOf(domain) {
  try {
    return IriRef.parse(`//${domain}`).asciiHost.toLowerCase();
  } catch {
    return domain;
  }
}

// An address with its two parts changed.
function addressOf(address, ofLocalPart) {
  const at = address.lastIndexOf('@');
  if (at < 0) return ofLocalPart(address);
  return `${ofLocalPart(address.slice(0, at))}@${domainOf(address.slice(at + 1))}`;
}

// RFC 6068, section 2: what a local part has as it is, and a field of a header, beside unreserved
// characters `some-delims`.
const encodedLocalPart = (text) =>
  encode(text, 'host', { keepEncoded: true }).replace(/[&=;,()]/g, percent);
const encodedField = (text) =>
  encode(text, 'data').replace(/%(2[14789ABC]|3[AB]|40)/g, decodeURIComponent);

const addresses = (text) => (text ? text.split(',') : []);

export const mailto = {
  scheme: 'mailto',
  parse(components) {
    const to = addresses(components.path), headers = {};
    for (const field of components.query ? components.query.split('&') : []) {
      const [, name, value] = /^([^=]*)=?(.*)/s.exec(field);
      if (name === 'to') to.push(...addresses(value));
      else if (name === 'subject' || name === 'body') components[name] = decoded(value);
      else headers[decoded(name)] = decoded(value);
    }
    components.to = to.map((it) => addressOf(it, decoded));
    if (Object.keys(headers).length > 0) components.headers = headers;
    components.path = components.query = undefined;
    return components;
  },
  serialize(components) {
    const { to = [], subject, body, headers } = components;
    const fields = { ...headers };
    if (subject) fields.subject = subject;
    if (body) fields.body = body;
    components.path = [to].flat().map((it) => addressOf(it, encodedLocalPart)).join(',');
    const query = Object.entries(fields).map((it) => it.map(encodedField).join('='));
    if (query.length > 0) components.query = query.join('&');
    return components;
  },
};
