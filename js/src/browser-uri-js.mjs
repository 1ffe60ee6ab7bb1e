// For browsers: hosts past ASCII need the second module.
import './browser-full.mjs';
export * from './uri-js.mjs';
