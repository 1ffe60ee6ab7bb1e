// Writes js/cjs: the modules of js/src as CommonJS, for `require`. usage: node commonjs.mjs
import { mkdirSync, readFileSync, readdirSync, rmSync, writeFileSync } from 'node:fs';
import { pathToFileURL } from 'node:url';

// The entries of `import` and those of browsers have no use for `require`.
const ENTRIES = /^(node|browser)/;

/** Turns the imports and exports of a module into `require` and `module.exports`. */
export function commonJs(text) {
  const several = /^export const \w+ = [^\n(]*, \w+ = .*$/m.exec(text);
  if (several) throw new Error(`more than one name: ${several[0]}`);
  const names = [];
  const required = (file) => `require('${file.replace('.mjs', '.cjs')}')`;
  const made = text
    .replace(/^import (\{[^}]*\}) from '([^']*)';$/gm, (all, given, file) =>
      `const ${given} = ${required(file)};`)
    .replace(/^import '([^']*)';$/gm, (all, file) => `${required(file)};`)
    .replace(/^export (\{[^}]*\}) from '([^']*)';$/gm, (all, given, file) =>
      `Object.assign(module.exports, ((${given}) => (${given}))(${required(file)}));`)
    .replace(/^export (\{[^}]*\});$/gm, (all, given) => `Object.assign(module.exports, ${given});`)
    .replace(/^export ((?:const|class|function|async function) (\w+))/gm, (all, kept, name) => {
      names.push(name);
      return kept;
    });
  const left = /^(import|export) .*$/m.exec(made);
  if (left) throw new Error(`no rule for: ${left[0]}`);
  return `'use strict';\n${made}Object.assign(module.exports, { ${names.join(', ')} });\n`;
}

function main() {
  const from = new URL('../src/', import.meta.url), to = new URL('../cjs/', import.meta.url);
  rmSync(to, { recursive: true, force: true });
  mkdirSync(to);
  for (const name of readdirSync(from).sort()) {
    if (!name.endsWith('.mjs') || ENTRIES.test(name)) continue;
    const text = commonJs(readFileSync(new URL(name, from), 'utf8'));
    writeFileSync(new URL(name.replace('.mjs', '.cjs'), to), text);
  }
}

if (import.meta.url === pathToFileURL(process.argv[1] ?? '').href) main();
