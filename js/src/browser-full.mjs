// For browsers: all calls. The second module is there when the import is done.
import { compiled } from './browser-platform.mjs';
import { setPlatform } from './platform.mjs';
import './browser.mjs';

setPlatform({ full: await compiled(new URL('../wasm/fluent_uri_full.wasm', import.meta.url)) });
export * from './api.mjs';
