/** URIs (RFC 3986) and IRIs (RFC 3987). An index of a text counts UTF-16 units, as strings do. */

/** A text, or a value of any kind. */
export type Text = string | Reference;

/** The components of a text (RFC 3986, section 3). */
export type ComponentName =
  | 'scheme' | 'authority' | 'userinfo' | 'host' | 'port' | 'path' | 'query' | 'fragment';
/** The components that have percent-encoded octets. */
export type CodedComponent = 'userinfo' | 'host' | 'path' | 'query' | 'fragment';
/** The kinds of hosts (RFC 3986, section 3.2.2). */
export type HostKind = 'REG_NAME' | 'IPV4' | 'IPV6' | 'IPV_FUTURE';

export type ParseErrorCode =
  | 'INVALID_PCT_ENCODED_OCTET' | 'UNEXPECTED_CHAR' | 'INVALID_IPV6_ADDR' | 'NOT_UTF8';
export type ResolveErrorCode =
  | 'INVALID_REFERENCE_AGAINST_OPAQUE_BASE' | 'PATH_STARTS_WITH_DOUBLE_SLASH';
export type BuildErrorCode =
  | ParseErrorCode | 'MISSING_COMPONENT' | 'NONEMPTY_ROOTLESS_PATH'
  | 'PATH_STARTS_WITH_DOUBLE_SLASH' | 'FIRST_PATH_SEGMENT_CONTAINS_COLON';
export type AsciiHostErrorCode = 'NAME_NOT_UTF8' | 'INVALID_NAME';

/** Why a call has no result. The other errors are `TypeError`, for an argument of a wrong type,
 * and `RangeError`, for the number of a port. */
export class UriError extends Error {
  /** The error's name in `fluent_uri.h`. */
  readonly code:
    | ParseErrorCode | ResolveErrorCode | BuildErrorCode | AsciiHostErrorCode | 'OUT_OF_MEMORY';
  /** The text that is rejected. */
  readonly input?: string;
}
/** A text is not of the kind.
 *
 * @example
 * Uri.parse('http://exa mple/')   // ParseError: unexpected character at index 10
 */
export class ParseError extends UriError {
  readonly code: ParseErrorCode;
  /** Where `input` is wrong: of a text that ends too early it is the length. */
  readonly index: number;
  readonly input: string;
}
/** A reference has no target against a base. */
export class ResolveError extends UriError {
  readonly code: ResolveErrorCode;
}
/** Components are not those of a text of the kind. */
export class BuildError extends UriError {
  readonly code: BuildErrorCode;
  /** The component that is wrong. */
  readonly component: ComponentName;
  /** Where it is wrong, if one of its characters is. */
  readonly index?: number;
}
/** A host has no name in ASCII. */
export class AsciiHostError extends UriError {
  readonly code: AsciiHostErrorCode;
}

/** The options of normal forms. */
export interface RuleOptions {
  /** By the rules of schemes too (RFC 3986, section 6.2.3): `http://a` is `http://a/`. */
  schemeRules?: boolean;
}
/** The options of `resolve`. */
export interface ResolveOptions extends RuleOptions {
  /** By the algorithm as RFC 3986, section 5.2 prints it. It goes without `normalize`. */
  basic?: boolean;
  /** Returns the normal form of the target. `schemeRules` goes with it alone. */
  normalize?: boolean;
  /** Mends the reference first, as `UriRef.mend` does. */
  mend?: boolean;
}
export interface RelativizeOptions {
  /** Returns a relative path also where the path from the root is shorter. */
  preferRelativePath?: boolean;
  /** Mends the target first. */
  mend?: boolean;
}
export interface JoinOptions extends Omit<ResolveOptions, 'mend'> {
  /** False: the target has no fragment. */
  keepFragment?: boolean;
}
/** Components without their delimiters. One that is null or left out is absent. */
export interface Components {
  scheme?: string | null;
  userinfo?: string | null;
  host?: string | null;
  port?: string | number | null;
  path?: string | null;
  query?: string | null;
  fragment?: string | null;
}
export interface PairOptions {
  /** A `+` is a space, as in the queries of forms. */
  plusIsSpace?: boolean;
}

/** What values of the four kinds have in common: a frozen text, and where its components are. */
export abstract class Reference {
  protected constructor();
  /** The scheme without its `:`, or null (RFC 3986, section 3.1). */
  readonly scheme: string | null;
  /** The authority without its `//`, or null (section 3.2). */
  readonly authority: string | null;
  /** The userinfo without its `@`, or null (section 3.2.1). */
  readonly userinfo: string | null;
  /** The host, or null where there is no authority (section 3.2.2). */
  readonly host: string | null;
  /** The port without its `:`, which may be empty, or null (section 3.2.3). */
  readonly port: string | null;
  /** The path, which may be empty (section 3.3). */
  readonly path: string;
  /** The query without its `?`, or null (section 3.4). */
  readonly query: string | null;
  /** The fragment without its `#`, or null (section 3.5). */
  readonly fragment: string | null;
  /** The kind of the host, or null where there is no authority. */
  readonly hostKind: HostKind | null;
  /** The octets of the address that the host is, 4 or 16, or null. */
  readonly hostAddress: Uint8Array | null;
  /** The host in ASCII, as DNS has it (UTS 46), or null where there is no authority.
   * @throws {AsciiHostError} for a host without such a name. */
  readonly asciiHost: string | null;
  /** The number of the port, or null where it is absent or empty.
   * @throws {RangeError} above 65535. */
  readonly portNumber: number | null;
  /** The default port of the scheme, or null. */
  readonly defaultPort: number | null;

  /** Returns the start and the end of a component in the text, or null where it is absent. */
  span(component: ComponentName): [start: number, end: number] | null;
  /** Returns the normal form (RFC 3986, section 6.2.2), without a default or empty port.
   *
   * @example
   * String(Uri.parse('HTTP://a:80/%7e').normalize())   // 'http://a/~'
   */
  normalize(options?: RuleOptions): this;
  /** Returns whether this is its own normal form. */
  isNormal(options?: RuleOptions): boolean;
  /** Returns -1, 0 or 1: the order of the two normal forms. A text that is not of this kind is
   * after all that are.
   * @throws {ParseError} for a lone surrogate. */
  compare(other: Text, options?: RuleOptions): -1 | 0 | 1;
  /** Returns whether the two are equivalent: whether they have one normal form. */
  equals(other: Text, options?: RuleOptions): boolean;
  /** Returns the same with these components in place of its own, and without those that are null.
   * @throws {BuildError} as `build` does. */
  replace(components: Components): this;
  /** Returns the names and values of the query, decoded. Without `=` a value is empty. What is not
   * UTF-8 becomes U+FFFD. */
  queryPairs(options?: PairOptions): [name: string, value: string][];
  /** Returns the same with the query of these pairs, or with none. */
  withQuery(
    pairs: Iterable<readonly [string, string]> | Record<string, string> | null,
    options?: PairOptions,
  ): this;
  /** Returns the text. */
  toString(): string;
  toJSON(): string;
}

/** A class, whose values are made by its calls alone. They read no `this`:
 * `texts.filter(Uri.canParse)`. */
export interface Class<T> extends Function {
  readonly prototype: T;
  /** Returns the value of a text of this kind.
   * @throws {ParseError} for any other text. */
  parse(text: Text): T;
  /** Returns the same, or null for any other text. */
  tryParse(text: Text): T | null;
  /** Returns whether a text is of this kind. */
  canParse(text: Text): boolean;
  /** Returns the value that a text is mended to by the least change: what the path, the query and
   * the fragment may not have is percent-encoded.
   * @throws {ParseError} where the scheme or the authority is wrong. */
  mend(text: Text): T;
  /** The same for a link of a page, without the white space that HTML drops. */
  mendLink(link: Text): T;
  /** Returns the value that has these components, and no others (RFC 3986, section 5.3).
   * @throws {BuildError} where there is none. */
  build(components: Components): T;
  /** Returns -1, 0 or 1, as `compare` of a value does: `texts.sort(Uri.compare)`.
   * @throws {ParseError} for a lone surrogate. */
  compare(one: Text, other: Text, options?: RuleOptions): -1 | 0 | 1;
  /** Returns whether two texts have one normal form, or are the same text not of this kind. */
  equivalent(one: Text, other: Text, options?: RuleOptions): boolean;
}

interface Base<Target, Relative> {
  /** Returns the target of a reference against this base (RFC 3986, section 5.2).
   * @throws {ParseError} if the reference is none.
   * @throws {ResolveError} if there is no target.
   *
   * @example
   * String(Uri.parse('http://a/b/c/d;p?q').resolve('../g'))   // 'http://a/b/g'
   */
  resolve(reference: Text, options?: ResolveOptions): Target;
  /** Returns a short reference that leads from this base to a target: `resolve` leads back.
   * @throws {ParseError} if the target is not of this kind. */
  relativize(target: Text, options?: RelativizeOptions): Relative;
  /** Returns the target of a link of a page against the page's address. */
  joinLink(link: Text, options?: JoinOptions): Target;
}

// Of no value: it keeps the types of the four kinds apart.
declare const kind: unique symbol;

interface HasOrigin {
  /** Scheme, host and port as RFC 6454, section 6.2 writes them, or null where it writes `null`. */
  readonly origin: string | null;
}

/** A URI (RFC 3986, section 3). */
export interface Uri extends Reference, Base<Uri, UriRef>, HasOrigin {
  readonly [kind]: 'Uri';
}
export const Uri: Class<Uri>;

/** A URI or a relative reference (RFC 3986, section 4.1). */
export interface UriRef extends Reference, HasOrigin {
  readonly [kind]: 'UriRef';
}
export const UriRef: Class<UriRef>;

/** An IRI (RFC 3987, section 2.2). */
export interface Iri extends Reference, Base<Iri, IriRef> {
  readonly [kind]: 'Iri';
  /** Returns the URI (RFC 3987, section 3.1). With `asciiHost` the host is `asciiHost` of this.
   * @throws {AsciiHostError} with `asciiHost`, as that does.
   *
   * @example
   * String(Iri.parse('http://bücher.example/é').toUri({ asciiHost: true }))
   * // 'http://xn--bcher-kva.example/%C3%A9'
   */
  toUri(options?: { asciiHost?: boolean }): Uri;
}
export const Iri: Class<Iri>;

/** An IRI or a relative reference (RFC 3987, section 2.2). */
export interface IriRef extends Reference {
  readonly [kind]: 'IriRef';
  /** Returns the URI reference, as `toUri` of an `Iri` does. */
  toUri(options?: { asciiHost?: boolean }): UriRef;
}
export const IriRef: Class<IriRef>;

/** Returns a text in UTF-8, or bytes, as a component: each character that it may have as it is, all
 * else percent-encoded. `data` keeps unreserved characters alone.
 * @param options With `keepEncoded` each `%XX` stays.
 * @throws {ParseError} for a lone surrogate, and with `keepEncoded` for what is not UTF-8. */
export function encode(data: Text | Uint8Array, component: CodedComponent | 'data'): string;
export function encode(
  data: Text | Uint8Array, component: CodedComponent, options: { keepEncoded?: boolean },
): string;
/** Returns the text that a component stands for. A `+` is no space.
 * @throws {ParseError} if the component may not hold the text, and with the code `NOT_UTF8`, at the
 * `%` of the first octet, if what it stands for is not UTF-8. */
export function decode(text: Text, component: CodedComponent): string;
/** Returns the bytes that a component stands for.
 * @throws {ParseError} if the component may not hold the text. */
export function decodeBytes(text: Text, component: CodedComponent): Uint8Array;

type OfReferences = Class<Uri> | Class<UriRef> | Class<Iri> | Class<IriRef>;
type Texts = Iterable<Text>;
type Results = (string | null)[];

/** Calls for many texts. A result is null where the call of one text would throw. */
export const batch: {
  /** Normal forms, of `Uri` if no class is given. With `mend` each text is mended first. */
  normalize(
    texts: Texts, Class?: OfReferences, options?: RuleOptions & { mend?: boolean },
  ): Results;
  /** The targets of references against one base. */
  resolve(base: Uri | Iri, texts: Texts, options?: ResolveOptions): Results;
  /** The references that lead from one base to targets. */
  relativize(base: Uri | Iri, texts: Texts, options?: RelativizeOptions): Results;
  /** The URIs of IRIs, or the URI references of IRI references. */
  toUri(texts: Texts, Class?: Class<Iri> | Class<IriRef>): Results;
  /** Mended texts, of `UriRef` if no class is given. */
  mend(texts: Texts, Class?: OfReferences): Results;
  /** Mended links of a page. */
  mendLink(links: Texts, Class?: OfReferences): Results;
  /** A component of each text, null also where a text has none. */
  component(texts: Texts, component: ComponentName, Class?: OfReferences): Results;
  /** The normal form of each line of UTF-8, with a line feed after each, and a byte for each line:
   * 0, or the number of its error in `fluent_uri.h`, and then the line is empty. */
  normalizeLines(
    lines: string | Uint8Array, Class?: OfReferences, options?: RuleOptions,
  ): { lines: Uint8Array; errors: Uint8Array };
};

/** Returns the version of normal forms, which changes where any of them does: keep it beside stored
 * ones, and make them anew if it is another. */
export function normalVersion(): number;
