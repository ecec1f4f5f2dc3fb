// The calls of the package, by `require`: an import takes longer, since Node then looks through all of core.cjs for what it exports.
import { createRequire } from "node:module";

export const { Decoder, Recoder, boundaryBefore, charCount, decode, encodingOfBom, faults, isValid, pieces, recode, sentence, shardEnd, survey } = createRequire(import.meta.url)("../node.cjs");
