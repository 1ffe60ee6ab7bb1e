// What uri-js knows of schemes: of the web (RFC 9110, RFC 6455) and of names (RFC 8141, RFC 9562).
import { mailto } from './uri-js-mailto.mjs';

const isSecure = ({ secure, scheme }) =>
  (typeof secure === 'boolean' ? secure : String(scheme).toLowerCase() === 'wss');

const web = (scheme, defaultPort) => ({
  scheme,
  domainHost: true,
  parse(components) {
    if (!components.host) components.error ??= 'HTTP URIs must have a host.';
    return components;
  },
  serialize(components) {
    if (components.port === defaultPort || components.port === '') components.port = undefined;
    components.path ||= '/';
    return components;
  },
});

const socket = (scheme) => ({
  scheme,
  domainHost: true,
  parse(components) {
    components.secure = isSecure(components);
    components.resourceName = (components.path || '/')
      + (components.query ? `?${components.query}` : '');
    components.path = components.query = undefined;
    return components;
  },
  serialize(components) {
    const defaultPort = isSecure(components) ? 443 : 80;
    if (components.port === defaultPort || components.port === '') components.port = undefined;
    const { secure } = components;
    if (typeof secure === 'boolean') components.scheme = secure ? 'wss' : 'ws';
    components.secure = undefined;
    if (components.resourceName) {
      const [path, query] = components.resourceName.split('?');
      components.path = path && path !== '/' ? path : undefined;
      components.query = query;
      components.resourceName = undefined;
    }
    components.fragment = undefined;
    return components;
  },
});

const UUID = /^[0-9a-f]{8}(-[0-9a-f]{4}){3}-[0-9a-f]{12}$/i;

/** The handlers of schemes. A program can add its own. */
export const SCHEMES = {
  http: web('http', 80),
  https: web('https', 443),
  ws: socket('ws'),
  wss: socket('wss'),
  mailto,

  urn: {
    scheme: 'urn',
    parse(components, options) {
      const found = /^([^:]+):(.*)/s.exec(components.path ?? '');
      if (!found) {
        components.error ??= 'URN can not be parsed.';
        return components;
      }
      components.nid = found[1].toLowerCase();
      components.nss = found[2];
      components.path = undefined;
      return namespaceOf(components, options)?.parse(components, options) ?? components;
    },
    serialize(components, options) {
      const { nid } = components;
      const made = namespaceOf(components, options)?.serialize(components, options) ?? components;
      made.path = `${nid || options.nid}:${made.nss}`;
      return made;
    },
  },

  'urn:uuid': {
    scheme: 'urn:uuid',
    parse(components, options) {
      components.uuid = components.nss;
      components.nss = undefined;
      if (!options.tolerant && !UUID.test(components.uuid ?? ''))
        components.error ??= 'UUID is not valid.';
      return components;
    },
    serialize(components) {
      components.nss = (components.uuid ?? '').toLowerCase();
      return components;
    },
  },
};

// The handler of a namespace of names.
const namespaceOf = ({ scheme, nid }, options) =>
  SCHEMES[`${options.scheme || scheme || 'urn'}:${options.nid || nid}`];
