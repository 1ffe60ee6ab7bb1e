/** The calls of uri-js 4.4 over this package (RFC 3986, RFC 3987). */

export interface URIComponents {
  scheme?: string;
  userinfo?: string;
  /** An address of IPv6 has no brackets. */
  host?: string;
  port?: number | string;
  path?: string;
  query?: string;
  fragment?: string;
  /** `same-document`, `relative`, `absolute` or `uri`. */
  reference?: string;
  /** Why the text is none, or is none of its scheme. */
  error?: string;
}
export interface URIOptions {
  scheme?: string;
  reference?: string;
  tolerant?: boolean;
  absolutePath?: boolean;
  /** Keeps characters past ASCII. */
  iri?: boolean;
  unicodeSupport?: boolean;
  /** Converts a host past ASCII as DNS has it. */
  domainHost?: boolean;
}
export interface URISchemeHandler {
  scheme: string;
  parse(components: URIComponents, options: URIOptions): URIComponents;
  serialize(components: URIComponents, options: URIOptions): URIComponents;
  unicodeSupport?: boolean;
  domainHost?: boolean;
  absolutePath?: boolean;
}

/** The handlers of schemes, to which a program can add its own. */
export const SCHEMES: { [scheme: string]: URISchemeHandler };
/** Returns the components of a text, in their normal form. */
export function parse(text: string, options?: URIOptions): URIComponents;
/** Returns the normal text of components. */
export function serialize(components: URIComponents, options?: URIOptions): string;
/** Returns the target of a reference against a base (RFC 3986, section 5.2). */
export function resolve(base: string, reference: string, options?: URIOptions): string;
export function resolveComponents(
  base: URIComponents, reference: URIComponents, options?: URIOptions, skipNormalization?: boolean,
): URIComponents;
/** Returns the normal form. */
export function normalize(uri: string, options?: URIOptions): string;
export function normalize(uri: URIComponents, options?: URIOptions): URIComponents;
/** Returns whether both have one normal form. */
export function equal(
  one: string | URIComponents, other: string | URIComponents, options?: URIOptions,
): boolean;
/** Removes the dot segments of a path (RFC 3986, section 5.2.4). */
export function removeDotSegments(path: string): string;
/** Percent-encodes what a host may not have. */
export function escapeComponent(text: string, options?: URIOptions): string;
/** Decodes what is UTF-8. */
export function unescapeComponent(text: string, options?: URIOptions): string;
export function pctEncChar(character: string): string;
export function pctDecChars(text: string): string;
