// For browsers: an import waits until the module is there.
import { compiled, reader, shortLength } from './browser-platform.mjs';
import { setPlatform } from './platform.mjs';

const core = await compiled(new URL('../wasm/fluent_uri.wasm', import.meta.url));
setPlatform({ core, reader, shortLength });
export * from './api.mjs';
