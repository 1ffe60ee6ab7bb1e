// Runs the test suite of JSON Schema through Ajv 6: with uri-js, with the package in its place, and
// with the package's kinds as formats too. The package must give the verdicts of uri-js, and the
// formats must give wrong ones nowhere else. usage: node ajv.cjs SUITE
'use strict';
const assert = require('node:assert/strict');
const fs = require('node:fs');
const Module = require('node:module');
const path = require('node:path');

const ours = require('fluent-uri/uri-js');
const { Uri, UriRef, Iri, IriRef } = require('fluent-uri');
const FORMATS = { uri: Uri, 'uri-reference': UriRef, iri: Iri, 'iri-reference': IriRef };
const [suite] = process.argv.slice(2);

/** The files below a folder, by their paths from it. */
function filesOf(folder, at = '') {
  return fs.readdirSync(path.join(folder, at), { withFileTypes: true }).flatMap((it) => {
    const below = path.posix.join(at, it.name);
    return it.isDirectory() ? filesOf(folder, below) : [below];
  }).filter((it) => it.endsWith('.json')).sort();
}
const read = (...at) => JSON.parse(fs.readFileSync(path.join(...at), 'utf8'));

// Ajv asks for uri-js by its name.
let resolver = null, calls = 0;
const find = Module._load;
const counted = Object.fromEntries(Object.entries(ours).map(([name, it]) =>
  [name, typeof it === 'function' ? (...given) => (calls++, it(...given)) : it]));
Module._load = (name, ...more) => (name === 'uri-js' && resolver ? resolver : find(name, ...more));

/** Ajv anew, over a resolver: null is uri-js itself. */
function ajvOver(it) {
  resolver = it;
  for (const file of Object.keys(require.cache))
    if (/[\\/]ajv[\\/]/.test(file)) delete require.cache[file];
  return require('ajv');
}

function compiled(Ajv, draft, schema, formats) {
  const ajv = new Ajv({
    unknownFormats: 'ignore', logger: false, schemaId: draft === 'draft4' ? 'id' : '$id',
    meta: draft === 'draft7',
  });
  for (const [name, Class] of Object.entries(formats)) ajv.addFormat(name, Class.canParse);
  if (draft !== 'draft7')
    ajv.addMetaSchema(require(`ajv/lib/refs/json-schema-draft-0${draft.at(-1)}.json`));
  for (const it of filesOf(path.join(suite, 'remotes')))
    ajv.addSchema(read(suite, 'remotes', it), `http://localhost:1234/${it}`);
  return ajv.compile(schema);
}

/** Whether each test passes, by its name. */
function verdicts(over, formats = {}) {
  const Ajv = ajvOver(over), found = new Map();
  for (const draft of ['draft4', 'draft6', 'draft7'])
    for (const file of filesOf(path.join(suite, 'tests', draft)))
      for (const group of read(suite, 'tests', draft, file)) {
        let validate;
        try {
          validate = compiled(Ajv, draft, group.schema, formats);
        } catch (why) {
          validate = () => why.message;
        }
        for (const it of group.tests) {
          const said = validate(it.data), where = `${draft}/${file}: ${group.description}`;
          const name = `${where}: ${it.description}`;
          found.set(name, said === it.valid ? 'passes' : `${said}, and not ${it.valid}`);
        }
      }
  return found;
}
const passing = (found) => [...found.values()].filter((it) => it === 'passes').length;

const stock = verdicts(null), with_ours = verdicts(counted), formats = verdicts(counted, FORMATS);
assert.ok(stock.size > 1000 && calls > 1000, `${stock.size} tests, ${calls} calls`);
assert.deepEqual(with_ours, stock);
for (const [name, it] of formats)
  if (stock.get(name) === 'passes') assert.equal(it, 'passes', name);
console.log(`ajv: of ${stock.size} tests pass ${passing(stock)} with uri-js, ${passing(with_ours)} `
  + `with ours (${calls} calls), ${passing(formats)} with its formats`);
