// For `import` in Node: the same classes that `require` gives.
import api from './node.cjs';

export const {
  Uri, UriRef, Iri, IriRef, Reference, UriError, ParseError, ResolveError, BuildError,
  AsciiHostError, batch, decode, decodeBytes, encode, normalVersion,
} = api;
