// The calls of the four classes, and those of their values.
import { core, full } from './platform.mjs';
import { CLASSES, extend, isOfKind, makerOf, textOf } from './values.mjs';

const PREFER_RELATIVE_PATH = 1, SCHEME_RULES = 2, BASIC = 4;
const URI = 0, URI_REF = 1, IRI = 2;
const NO_PORT = 65536, EMPTY_PORT = 65537;
// Where the index of an error is in the parts, in numbers of 32 bits.
const INDEX = 2;

/** The options of normal forms, as a number. */
export const rulesOf = ({ schemeRules = false } = {}) => (schemeRules ? SCHEME_RULES : 0);

// The texts of URIs are ASCII.
const isAscii = (kind) => kind < IRI;

/** The value of a kind that is the result of a call, or null if its text is the one given. */
export function resultOf(kind, module, given) {
  const text = module.result(isAscii(kind));
  return text === given ? null : makerOf(kind)(text, module.length, module);
}

// What a reference is mended to: those of a base of a kind are of the next.
const mendedText = (kind, reference) => textOf(CLASSES[kind + 1].mend(reference));

const RESOLVE = { call: 'resolve', number: 0 };

/** The call of a module that resolves by these options, and their number. */
export function resolvingOf({ basic = false, normalize = false, schemeRules = false }) {
  if (basic && normalize) throw new TypeError('normalize does not go with basic');
  if (schemeRules && !normalize) throw new TypeError('schemeRules goes with normalize');
  return normalize ? { call: 'resolve_normalized', number: schemeRules ? SCHEME_RULES : 0 }
    : { call: 'resolve', number: basic ? BASIC : 0 };
}

export const relativizingOf = ({ preferRelativePath = false }) =>
  (preferRelativePath ? PREFER_RELATIVE_PATH : 0);

// What HTML drops of a link: white space at both ends, and tabs and line breaks everywhere.
function withoutWhiteSpace(link) {
  const text = link.replace(/[\t\n\r]/g, '');
  let start = 0, end = text.length;
  while (start < end && ' \f'.includes(text[start])) start++;
  while (start < end && ' \f'.includes(text[end - 1])) end--;
  return text.slice(start, end);
}

function compareTexts(kind, one, other, options) {
  const rules = rulesOf(options);
  core.reserve(other.length);
  const first = core.putWhole(one), second = core.putSecond(other);
  return core.number('compare', kind, rules, core.first, first, core.second, second) - 1;
}

// The calls of a class read no `this`, so that they can be handed on: `texts.filter(Uri.canParse)`.
function callsOf(kind) {
  const make = makerOf(kind);
  const mended = (call, given, input) => {
    const text = textOf(given);
    core.callPlain(call, kind, text, input);
    return resultOf(kind, core, isOfKind(kind, given) ? text : undefined) ?? given;
  };
  return {
    parse(given) {
      if (typeof given !== 'string' && isOfKind(kind, given)) return given;
      const text = textOf(given), length = core.putWhole(text), error = core.parse(kind, length);
      if (error === 0) return make(text, length, core);
      throw core.failure(error, text, core.ints[(core.parts >> 2) + INDEX]);
    },
    tryParse(given) {
      if (typeof given !== 'string' && isOfKind(kind, given)) return given;
      const text = textOf(given), length = core.put(text);
      return length < 0 || core.parse(kind, length) !== 0 ? null : make(text, length, core);
    },
    canParse(given) {
      const length = core.put(textOf(given));
      return length >= 0 && core.parse(kind, length) === 0;
    },
    mend: (text) => mended('mend', text),
    mendLink: (link) => mended('mend_link', link, withoutWhiteSpace),
    compare: (one, other, options) => compareTexts(kind, textOf(one), textOf(other), options),
    equivalent: (one, other, options) =>
      compareTexts(kind, textOf(one), textOf(other), options) === 0,
  };
}

const membersOf = (kind) => ({
  normalize(options) {
    const text = textOf(this), rules = options === undefined ? 0 : rulesOf(options);
    core.callOne('normalize', kind, rules, text);
    return resultOf(kind, core, text) ?? this;
  },
  isNormal(options) {
    const rules = rulesOf(options), length = core.put(textOf(this));
    return core.number('is_normal', kind, rules, core.first, length) === 1;
  },
  compare(other, options) {
    return compareTexts(kind, textOf(this), textOf(other), options);
  },
  equals(other, options) {
    return compareTexts(kind, textOf(this), textOf(other), options) === 0;
  },

  get hostAddress() {
    if (this.hostKind !== 'IPV4' && this.hostKind !== 'IPV6') return null;
    core.callBytes('host_address', kind, textOf(this));
    return core.bytes(core.out, core.length);
  },
  get portNumber() {
    const length = core.put(textOf(this));
    core.number('port_number', kind, core.first, length, core.position);
    const number = core.ints[core.position >> 2];
    if (number > EMPTY_PORT) throw new RangeError(`the port ${this.port} is above 65535`);
    return number < NO_PORT ? number : null;
  },
  get defaultPort() {
    const { scheme } = this;
    if (scheme === null) return null;
    const length = core.put(scheme);
    return core.number('default_port', core.first, length) || null;
  },
  get asciiHost() {
    if (this.host === null) return null;
    full.callBytes('ascii_host', kind, textOf(this));
    return full.result();
  },
});

const membersOfBases = (kind) => ({
  resolve(reference, options) {
    const { call, number } = options === undefined ? RESOLVE : resolvingOf(options);
    const text = textOf(this);
    const other = options?.mend ? mendedText(kind, reference) : textOf(reference);
    core.callTwo(call, kind, number, text, other);
    return resultOf(kind, core, text) ?? this;
  },
  relativize(target, options = {}) {
    const other = options.mend ? mendedText(kind, target) : textOf(target);
    core.callTwo('relativize', kind, relativizingOf(options), textOf(this), other);
    return resultOf(kind + 1, core);
  },
  joinLink(link, { keepFragment = true, ...options } = {}) {
    const target = this.resolve(CLASSES[kind + 1].mendLink(link), options), { fragment } = target;
    if (keepFragment || fragment === null) return target;
    return CLASSES[kind].parse(String(target).slice(0, -1 - fragment.length));
  },
});

const membersOfUris = (kind) => ({
  get origin() {
    core.callBytes('origin', kind, textOf(this));
    return core.length === 0 ? null : core.result();
  },
});

const membersOfIris = (kind) => ({
  toUri({ asciiHost = false } = {}) {
    const module = asciiHost ? full : core;
    module.callPlain(asciiHost ? 'to_uri_with_ascii_host' : 'to_uri', kind, textOf(this));
    return resultOf(kind - IRI, module);
  },
});

CLASSES.forEach((Class, kind) => {
  extend(Class, { calls: callsOf(kind), members: membersOf(kind) });
  extend(Class, { members: kind < IRI ? membersOfUris(kind) : membersOfIris(kind) });
  if (kind !== URI_REF && kind !== URI_REF + IRI) extend(Class, { members: membersOfBases(kind) });
});
