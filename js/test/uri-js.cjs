// Random references by uri-js and by `fluent-uri/uri-js`: the results are the same, but for texts
// that js/README.md names, which are not among these. usage: NODE_PATH=.. node uri-js.cjs [PAIRS]
'use strict';
const assert = require('node:assert/strict');
const theirs = require('uri-js'), ours = require('fluent-uri/uri-js');

let seed = 1;
const next = (n) => {
  seed = (Math.imul(seed, 1103515245) + 12345) >>> 0;
  return (seed >>> 9) % n;
};
const of = (...all) => all[next(all.length)];

function reference() {
  const scheme = of('', '', '', 'x:', 'http:', 'HTTPS:', 'urn:', 'ftp:', 'ws:');
  const authority = of('', '', '//a', '//B:', '//u@c:021', '//é.x', '//1.2.3.4', '//[::1]:8');
  let path = '';
  for (let k = next(6); k > 0; k--)
    path += of('a', 'b', '.', '..', '/', '/', '%7e', '%41', 'é', '%C3%A9', ';', '=', '%3c');
  if (authority && path && !path.startsWith('/')) path = `/${path}`;
  return scheme + authority + path + of('', '', '?q r', '?') + of('', '', '#f<', '#');
}

const pairs = Number(process.argv[2] ?? 5000);
const plain = (components) => JSON.parse(JSON.stringify(components));
for (let n = 0; n < pairs; n++) {
  const base = reference(), it = reference();
  for (const make of [
    (all) => plain(all.parse(it)), (all) => plain(all.parse(it, { iri: true })),
    (all) => all.normalize(it), (all) => all.resolve(base, it), (all) => all.equal(base, it),
    (all) => all.equal(it, all.normalize(it)), (all) => all.removeDotSegments(it),
    (all) => all.resolve(base, it, { tolerant: true }), (all) => all.escapeComponent(it),
  ]) assert.deepEqual(make(ours), make(theirs), `${make} of ${base} and ${it}`);
}
console.log(`uri-js: passed: ${pairs} pairs of references`);
