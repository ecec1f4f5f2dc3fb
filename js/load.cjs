// Written by js/commonjs: load-node.js, for `require`.
"use strict";
// `load` in Node. Its calls without an argument are those that `import` and `require` give.
const { load } = require("./in-node.cjs");

module.exports = { load };
