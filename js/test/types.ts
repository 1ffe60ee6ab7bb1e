// What a compiler of TypeScript must accept, and reject where `@ts-expect-error` says so.
import {
  Uri, UriRef, Iri, IriRef, Reference, ParseError, UriError, batch, decode, decodeBytes, encode,
} from 'fluent-uri';
import * as URI from 'fluent-uri/uri-js';

const uri: Uri = Uri.parse('http://user@a:80/b?c#d');
const parts: (string | null)[] = [uri.scheme, uri.authority, uri.userinfo, uri.host, uri.port];
const path: string = uri.path;
const normal: Uri = uri.normalize({ schemeRules: true });
const target: Uri = uri.resolve('../x', { basic: true });
const back: UriRef = uri.relativize(target);
const made: IriRef = IriRef.build({ path: 'a', port: null });
const asUri: Uri = Iri.parse('http://é/').toUri({ asciiHost: true });
const order: -1 | 0 | 1 = Uri.compare('a:b', uri);
const sorted: string[] = ['a:c', 'a:b'].sort(Uri.compare);
const kept: string[] = ['a:c', ' '].filter(Uri.canParse);
const maybe: (Uri | null)[] = kept.map(Uri.tryParse);
const pairs: [string, string][] = uri.queryPairs({ plusIsSpace: true });
const query: Map<string, string> = new Map(pairs);
const span: [number, number] | null = uri.span('host');
const results: (string | null)[] = batch.normalize(kept, Iri, { mend: true });
const text: string = decode(encode('a b', 'path'), 'path');
const bytes: Uint8Array = decodeBytes('%FF', 'query');
const component: string | undefined = URI.parse('http://a/').host;

function kindOf(value: Reference | string): string {
  if (value instanceof Uri) return value.origin ?? '';
  return value instanceof Reference ? value.path : value;
}
try {
  Uri.parse('a b');
} catch (error) {
  if (error instanceof ParseError) console.log(error.index + 1, error.code === 'UNEXPECTED_CHAR');
  else if (error instanceof UriError) console.log(error.code, error.input);
}

// @ts-expect-error: values are made by calls alone
new Uri('a:b');
// @ts-expect-error: a reference is no base
UriRef.parse('a').resolve('b');
// @ts-expect-error: values do not change
uri.path = '/x';
// @ts-expect-error: there is no such component
uri.span('hostname');
// @ts-expect-error: a URI reference is no URI
const wrong: Uri = back;
// @ts-expect-error: there is no such option
uri.normalize({ schemerules: true });

export {
  parts, path, normal, made, asUri, order, sorted, maybe, query, span, results, text, bytes,
  component, kindOf, wrong,
};
