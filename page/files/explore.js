// Explore: damage a byte, decode from both ends, the names of streaming decoders, and the same text in other encodings.
import { FORMS, MOST, NONE, OK, UTF8, joined } from "./codec.js";
import { $, button, element, saveAs } from "./dom.js";
import { bytesOf, offsetOf } from "./input.js";
import { ENCODINGS, codePoint, counted, glyph, hexByte, hexOf, offsetText } from "./words.js";

const SHOWN = 64;
const TAKEN = 200;
// Pieces that begin further away from a changed byte than this many bytes stay as they are.
const NEAR = 3;
const TOO_LARGE = "A file of this size is not changed here.";

export class Explore {
    // `change` takes bytes in which one was changed; `draw` draws the grid anew.
    constructor(input, change, draw) {
        Object.assign(this, { input, change, draw, undoable: [], redoable: [], left: null });
        const on = (id, event, call) => $(id).addEventListener(event, (it) => {
            it.preventDefault();
            call();
        });
        on("damage", "submit", () => this.damage());
        on("undo", "click", () => this.step(true));
        on("redo", "click", () => this.step(false));
        on("front", "click", () => this.take("F"));
        on("back", "click", () => this.take("B"));
        on("again", "click", () => this.begin(true));
        on("ends", "submit", () => this.walk());
        for (const [form, name] of ENCODINGS.entries()) $("recoded").append(element("li", "", {}, button(`Save as ${name}`, () => this.save(form)), " ", element("code", "", { id: `recoded-${form}` })));
        $("explore").addEventListener("toggle", () => this.show());
    }

    get isSmall() {
        return this.input.source && !this.input.source.isFile && this.input.size <= MOST;
    }

    get bytes() {
        return this.input.source.bytes;
    }

    // Draws what is open. `isNew` says that the bytes are others, which no change of this part made.
    show(isNew = false) {
        if (isNew) [this.undoable, this.redoable] = [[], []];
        if (isNew) this.begin(false);
        if (!$("explore").open || !this.input.source) return;
        for (const it of $("explore").querySelectorAll("button, input")) it.disabled = !this.isSmall;
        $("undo").disabled = !this.undoable.length;
        $("redo").disabled = !this.redoable.length;
        if (!this.isSmall) return void ($("damaged").textContent = TOO_LARGE);
        this.point();
        this.showStreamed();
        this.showLeft();
        const part = this.bytes.subarray(0, SHOWN);
        for (const form of FORMS.keys()) $(`recoded-${form}`).textContent = `${hexOf(joined(this.input.codec.recode(this.input.form, form, part))).slice(0, 3 * SHOWN)}${this.input.size > SHOWN ? " …" : ""}`;
    }

    // The chosen byte is the one that a change begins with.
    point() {
        const { at, size } = this.input;
        if (!$("explore").open || !this.isSmall || document.activeElement?.closest?.("#damage")) return;
        $("place").value = String(at);
        $("byte").value = size ? hexByte(this.bytes[at]) : "";
    }

    pieces(bytes, from, to) {
        const { codec, form } = this.input;
        codec.fill(bytes, form);
        const first = codec.boundary(Math.max(from, 0));
        return codec.pieces(first, Math.min(to, bytes.length));
    }

    damage() {
        const place = offsetOf($("place").value);
        const { bytes } = bytesOf($("byte").value, "hexadecimal");
        if (!(place < this.input.size)) $("damaged").textContent = `Offsets go from 0 to ${offsetText(Math.max(this.input.size - 1, 0))}.`;
        else if (bytes?.length !== 1) $("damaged").textContent = "A byte has two hexadecimal digits.";
        else {
            [this.undoable, this.redoable] = [[...this.undoable, [place, this.bytes[place]]], []];
            this.set(place, bytes[0]);
        }
    }

    step(isUndo) {
        const [from, to] = isUndo ? [this.undoable, this.redoable] : [this.redoable, this.undoable];
        const last = from.pop();
        if (!last) return;
        const [place, byte] = last;
        to.push([place, this.bytes[place]]);
        this.set(place, byte, isUndo ? "Undone: " : "Done again: ");
    }

    set(place, byte, told = "") {
        const window = [place - 2 * NEAR, place + 2 * NEAR + 1];
        const key = (it) => JSON.stringify(it);
        const before = new Set(this.pieces(this.bytes, ...window).map(key));
        const changed = this.bytes.slice();
        changed[place] = byte;
        const now = this.pieces(changed, ...window).filter((it) => !before.has(key(it)));
        this.change(changed, place, new Set(now.map((it) => it.place)));
        $("damaged").textContent = `${told}${counted(now.length, "character or invalid byte", "characters or invalid bytes")} ${now.length === 1 ? "is" : "are"} new, underlined in the grid. Nothing further than ${NEAR} bytes away ever changes.`;
    }

    // Both ends.

    begin(isDrawn) {
        this.left = null;
        $("taken").replaceChildren();
        $("letters").value = "";
        if (isDrawn) {
            this.showLeft();
            this.draw(null);
        }
    }

    showLeft() {
        const { front, back } = this.left ?? { front: 0, back: this.input.size };
        $("left").textContent = front < back ? `Remaining: ${counted(back - front, "byte")}, offset ${offsetText(front)} to ${offsetText(back - 1)}.` : "Remaining: no byte.";
    }

    take(letter, isLast = true) {
        const { codec, form, size } = this.input;
        this.left ??= { front: 0, back: size };
        codec.fill(this.bytes, form);
        const piece = codec.step(letter, this.left);
        const end = letter === "F" ? "Front" : "Back";
        const what = piece.kind === OK ? `${glyph(piece.scalar)} ${codePoint(piece.scalar)}` : `${hexOf(this.bytes.subarray(piece.place, piece.place + piece.len))} ${codec.names[piece.kind]}`;
        const told = piece.kind === NONE ? `${end}: nothing is left.` : `${end}: offset ${offsetText(piece.place)}, ${what}`;
        if ($("taken").children.length < TAKEN) $("taken").append(element("li", "", {}, element("bdi", "", {}, told)));
        if (isLast) {
            this.showLeft();
            this.draw(this.left);
        }
    }

    walk() {
        const letters = $("letters").value.toUpperCase();
        this.begin(false);
        $("letters").value = letters;
        const wrong = letters.match(/[^FB]/u);
        if (wrong) $("taken").append(element("li", "", {}, `“${wrong[0]}” is neither F nor B.`));
        else for (const it of letters) this.take(it, false);
        this.showLeft();
        this.draw(this.left);
    }

    // Names that a decoder gives that gets one byte at a time. They differ in the last three bytes alone.
    showStreamed() {
        const { codec, form, size } = this.input;
        const last = form === UTF8 && size ? this.pieces(this.bytes, size - NEAR, size) : [];
        const differ = last.map((it) => [it, codec.streamedAt(it.place)]).filter(([it, streamed]) => it.kind !== streamed.kind);
        const each = differ.map(([it, streamed]) => ` It names the byte at offset ${offsetText(it.place)} ${codec.names[streamed.kind]}, not ${codec.names[it.kind]}.`);
        $("streamed").textContent = `A decoder that gets one byte at a time splits these bytes in the same way${each.length ? `.${each.join("")}` : ", and names each error the same."}`;
    }

    save(form) {
        const { codec, source } = this.input;
        saveAs(`${source.name || "input"}.${FORMS[form]}.txt`, codec.recode(this.input.form, form, this.bytes), "application/octet-stream");
    }
}
