// `noddychest list`: a line for each piece.
import { pieces, sentence } from "./calls.js";
import { Input } from "./inputs.js";
import { isHidden, jsonLine } from "./outputs.js";

function lineOf({ offset, length, char, error }, hex) {
    const front = `${offset} ${length} ${hex} `;
    if (error !== null) return `${front}${error}: ${sentence(error)}\n`;
    return `${front}U+${char.codePointAt(0).toString(16).toUpperCase().padStart(4, "0")} ${isHidden(char) ? "" : char}\n`;
}

function jsonOf(name, { offset, length, char, error }, bytes) {
    return jsonLine(name, { offset, length, bytes, ...(error === null ? { scalar: char.codePointAt(0) } : { kind: error, reason: sentence(error) }) });
}

// Lists an input. Returns the status.
export function list(out, name, asked) {
    const input = new Input(name, asked.encoding);
    let status = 0;
    try {
        input.refuseOutput();
        for (const { offset, data, cut } of input.blocks()) {
            for (const piece of pieces(data, input.encoding)) {
                if (piece.offset >= cut) break;
                if (piece.error !== null) status = 1;
                const hex = data.toString("hex", piece.offset, piece.offset + piece.length);
                const here = { ...piece, offset: offset + piece.offset };
                out.write(asked.json ? jsonOf(input.name, here, hex) : lineOf(here, hex));
            }
            out.flush();
        }
    } finally {
        input.close();
    }
    return status;
}
