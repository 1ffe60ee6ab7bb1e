// Puts the page together: one file, which reads nothing else. usage: node make.mjs OUT.html
import { readFileSync, writeFileSync } from 'node:fs';
import { gzipSync } from 'node:zlib';
import { commonJs } from '../build/commonjs.mjs';

const read = (name) => readFileSync(new URL(name, import.meta.url), 'utf8');
const MODULES = [
  '../src/errors', '../src/units', '../src/module', '../src/platform', '../src/values',
  '../src/calls', '../src/components', '../src/queries', '../src/building', '../src/batch',
  '../src/api', '../src/browser-platform', './draw', './page',
];

const wasm = readFileSync(new URL('../wasm/fluent_uri_full.wasm', import.meta.url));
const packed = gzipSync(wasm, { level: 9 }).toString('base64');
const functions = MODULES.map((name) => {
  const key = name.replace(/.*\//, '');
  return `${JSON.stringify(key)}(module, require) {\n${commonJs(read(`${name}.mjs`))}}`;
});
const script = `const modules = {}, sources = {\n${functions.join(',\n')}\n};
const require = (name) => {
  const key = name.replace(/.*\\/|\\.cjs$/g, '');
  if (!modules[key]) sources[key](modules[key] = { exports: {} }, require);
  return modules[key].exports;
};
const packed = Uint8Array.from(atob('${packed}'), (it) => it.charCodeAt(0));
const plain = new Blob([packed]).stream().pipeThrough(new DecompressionStream('gzip'));
const compiled = await WebAssembly.compile(await new Response(plain).arrayBuffer());
const { openerOf, reader, shortLength } = require('browser-platform');
const open = openerOf(compiled);
require('platform').setPlatform({ core: open, full: open, reader, shortLength });
globalThis.fluentUri = require('api');
require('page');`;
const html = read('./page.html').replace('/*STYLE*/', () => read('./style.css').trim())
  .replace('/*SCRIPT*/', () => script);
writeFileSync(process.argv[2], html);
console.log(`${process.argv[2]}: ${Buffer.byteLength(html)} bytes`);
