// For Node: modules are read and compiled at the first call that needs them.
'use strict';
const { readFileSync } = require('node:fs');
const { join } = require('node:path');
const { setPlatform } = require('../cjs/platform.cjs');

function opener(name) {
  let compiled;
  return () => {
    compiled ??= new WebAssembly.Module(readFileSync(join(__dirname, '..', 'wasm', name)));
    return new WebAssembly.Instance(compiled).exports;
  };
}

function reader(memory) {
  const bytes = Buffer.from(memory);
  return (at, length, isAscii) =>
    isAscii ? bytes.latin1Slice(at, at + length) : bytes.utf8Slice(at, at + length);
}

setPlatform({
  core: opener('fluent_uri.wasm'), full: opener('fluent_uri_full.wasm'), reader, shortLength: 24,
});
module.exports = require('../cjs/api.cjs');
