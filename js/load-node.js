// `load` in Node. Its calls without an argument are those that `import` and `require` give.
import { load } from "./in-node.js";

export { load };
