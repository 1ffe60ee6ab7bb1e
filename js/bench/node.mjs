// Times in Node, as JSON. usage: node node.mjs URLS [ROUNDS]
import { readFileSync } from 'node:fs';
import { createRequire } from 'node:module';
import * as api from 'fluent-uri';
import { rowsOf, timesOf } from './rows.mjs';

const require = createRequire(import.meta.url);
const [file, rounds = 61] = process.argv.slice(2);
// Each text is a string of its own, and not a part of the file's.
const urls = readFileSync(file, 'utf8').split('\n').filter((it) => /^\w+:/.test(it))
  .map((it) => Buffer.from(it).toString());
let uriJs;
try {
  uriJs = require('uri-js');
} catch {}
const rows = rowsOf(api, uriJs, urls);
const times = timesOf(rows, urls.length, Number(rounds), () => performance.now());
console.log(JSON.stringify(times));
