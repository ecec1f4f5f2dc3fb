// Written by js/commonjs: node.js, for `require`.
"use strict";
// Under Node `import` and `require` give the same calls, over one instance of the module.
const { calls } = require("./in-node.cjs");

const { Decoder, Ends, FaultError, Recoder, Surveyor, boundaryAfter, boundaryBefore, changedRange, charCount, decode, encodingOf, encodingOfBom, faults, firstFault, guess, guessText, isValid, located, numberOf, offsetOf, pieces, piecesBack, recode, recodedLength, recoderStream, sentence, shardEnd, streamFaults, streamLocated, streamPieces, streamText, survey, textStream, undecidedLength } = calls();

module.exports = { Decoder, Ends, FaultError, Recoder, Surveyor, boundaryAfter, boundaryBefore, changedRange, charCount, decode, encodingOf, encodingOfBom, faults, firstFault, guess, guessText, isValid, located, numberOf, offsetOf, pieces, piecesBack, recode, recodedLength, recoderStream, sentence, shardEnd, streamFaults, streamLocated, streamPieces, streamText, survey, textStream, undecidedLength };
