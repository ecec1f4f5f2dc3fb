// In a browser the module is fetched from beside this file, while it is imported. What must not wait for that takes load.js.
import { load } from "./load.js";

export const { Decoder, Ends, FaultError, Recoder, Surveyor, boundaryAfter, boundaryBefore, changedRange, charCount, decode, encodingOf, encodingOfBom, faults, firstFault, guess, guessText, isValid, located, numberOf, offsetOf, pieces, piecesBack, recode, recodedLength, recoderStream, sentence, shardEnd, streamFaults, streamLocated, streamPieces, streamText, survey, textStream, undecidedLength } = await load();
