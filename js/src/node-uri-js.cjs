// For Node's `require`.
'use strict';
require('./node.cjs');
module.exports = require('../cjs/uri-js.cjs');
