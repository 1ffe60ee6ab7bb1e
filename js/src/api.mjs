// What the package exports.
import './calls.mjs';
import './queries.mjs';
import './building.mjs';
import { core } from './platform.mjs';

export { Uri, UriRef, Iri, IriRef, Reference } from './values.mjs';
export {
  UriError, ParseError, ResolveError, BuildError, AsciiHostError,
} from './errors.mjs';
export { batch } from './batch.mjs';
export { decode, decodeBytes, encode } from './components.mjs';

/** Returns the version of normal forms: a number that changes where any of them does. */
export function normalVersion() {
  core.reserve(0);
  return core.number('normal_version');
}
