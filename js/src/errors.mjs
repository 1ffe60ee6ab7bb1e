// What a call throws. The numbers are those of `enum fluent_uri_error` in fluent_uri.h.

const CODES = [
  'OK', 'INVALID_PCT_ENCODED_OCTET', 'UNEXPECTED_CHAR', 'INVALID_IPV6_ADDR', 'NOT_UTF8',
  'BASE_WITH_FRAGMENT', 'INVALID_REFERENCE_AGAINST_OPAQUE_BASE', 'PATH_UNDERFLOW',
  'OUT_OF_MEMORY', 'INVALID_ARGUMENT', 'FULL', 'NONEMPTY_ROOTLESS_PATH',
  'PATH_STARTS_WITH_DOUBLE_SLASH', 'FIRST_PATH_SEGMENT_CONTAINS_COLON', 'MISSING_COMPONENT',
  'NAME_NOT_UTF8', 'INVALID_NAME',
];
export const NOT_UTF8 = 4;
export const OUT_OF_MEMORY = 8;
const LAST_WITH_INDEX = NOT_UTF8, FIRST_OF_HOSTS = 15;

/** Why a call has no result. The other errors are `TypeError` and `RangeError`. */
export class UriError extends Error {
  constructor(message, fields) {
    super(message);
    Object.assign(this, fields);
  }
}
/** A text is not of the kind. */
export class ParseError extends UriError {}
/** A reference has no target against a base. */
export class ResolveError extends UriError {}
/** Components are not those of a text of the kind. */
export class BuildError extends UriError {}
/** A host has no name in ASCII. */
export class AsciiHostError extends UriError {}
for (const it of [UriError, ParseError, ResolveError, BuildError, AsciiHostError])
  Object.defineProperty(it.prototype, 'name', { value: it.name, writable: true });

/** Returns the error with this number, at an index of the input where it has one. */
export function failure(number, message, index, input) {
  const code = CODES[number];
  if (number <= LAST_WITH_INDEX)
    return new ParseError(`${message} at index ${index}`, { code, index, input });
  if (number === OUT_OF_MEMORY) return new UriError(message, { code, input });
  const Class = number < FIRST_OF_HOSTS ? ResolveError : AsciiHostError;
  return new Class(message, { code, input });
}

/** Returns the error of components: which one it is in, and where in that. */
export function buildFailure(number, message, component, index, input) {
  const code = CODES[number];
  if (number > LAST_WITH_INDEX) return new BuildError(message, { code, component });
  const where = `${message} at index ${index} of the ${component}`;
  return new BuildError(where, { code, component, index, input });
}
