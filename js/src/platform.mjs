// The two modules of the package: `core` has the calls that most programs make, `full` has all.
import { Module } from './module.mjs';

let platform = { core: null, full: null, reader: null, shortLength: 0 };

const open = (name) => () => {
  if (!platform[name]) throw new Error(`load it before this call: import 'fluent-uri/full'`);
  return platform[name]();
};
const reader = (memory) => platform.reader(memory);

/** Says where the modules are: `core` and `full` return the exports of a new instance. `reader`
 * returns what reads a text in a memory: at an address, of so many bytes, which may be ASCII.
 * `shortLength` is up to which length a loop writes a text in less time than a `TextEncoder`. */
export function setPlatform(given) {
  platform = { ...platform, ...given };
  for (const it of [core, full]) it.drop();
}

const shortLength = () => platform.shortLength;

export const core = new Module(open('core'), reader, shortLength);
export const full = new Module(open('full'), reader, shortLength);
