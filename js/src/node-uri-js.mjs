// For `import` in Node.
import api from './node-uri-js.cjs';

export const {
  SCHEMES, parse, serialize, resolve, resolveComponents, normalize, equal, removeDotSegments,
  escapeComponent, unescapeComponent, pctEncChar, pctDecChars,
} = api;
