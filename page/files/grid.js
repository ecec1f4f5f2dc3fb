// The grid of bytes and characters. Only rows in view exist. A character, or a place of some bytes, is drawn whole in the row in which it
// begins; a longer run goes over its rows.
import { UTF8 } from "./codec.js";
import { Rows, element } from "./dom.js";
import { groupsAtHand, groupsIn } from "./groups.js";
import { codePoint, describe, glyph, hexByte, offsetText, shown, told } from "./words.js";

export const ROW = 61;
// A place of more bytes is drawn in each row that it has bytes in.
const WHOLE = 4;

export class Grid {
    constructor(frame, input, choose) {
        Object.assign(this, { frame, input, at: 0, changed: new Set(), taken: null });
        this.rows = new Rows(frame, ROW, (i) => this.row(i));
        new ResizeObserver(() => this.layOut()).observe(frame);
        frame.addEventListener("click", (event) => {
            const offset = event.target.closest("[data-offset]")?.dataset.offset;
            if (offset !== undefined) choose(Number(offset));
        });
    }

    get perRow() {
        return this.frame.clientWidth < 560 ? 8 : 16;
    }

    layOut() {
        if (this.width === this.frame.clientWidth && this.size === this.input.size) return;
        [this.width, this.size] = [this.frame.clientWidth, this.input.size];
        this.draw();
    }

    draw() {
        const { input, perRow } = this;
        this.rows.count = Math.ceil(input.size / perRow);
        const digits = offsetText(Math.max(input.size - 1, 0)).length;
        this.frame.style.setProperty("--gut", `${Math.max(digits * 7.4 + 10, 26)}px`);
        this.frame.style.setProperty("--n", perRow);
        this.rows.draw(true);
        this.point();
    }

    // The groups that begin in a row, or, of long runs, have a byte in it; null if its bytes are not at hand.
    groups(i) {
        const { input, perRow } = this;
        const [from, to] = [i * perRow, Math.min((i + 1) * perRow, input.size)];
        const found = groupsAtHand(input.codec, input.form, input.source, from, to, input.places);
        return found && found.filter((it) => from <= it.offset || it.length > WHOLE);
    }

    row(i) {
        const { input, perRow } = this;
        const from = i * perRow;
        const row = element("div", "gr", { role: "presentation" }, element("i", "", { "aria-hidden": "true" }, offsetText(from)));
        const found = this.groups(i);
        if (!found) {
            row.classList.add("waits");
            this.fetch(from);
            return row;
        }
        const ends = found.map((it) => (it.length > WHOLE ? from : it.offset + it.length));
        row.style.setProperty("--n", Math.max(perRow, ...ends.map((it) => it - from)));
        row.append(...found.map((it) => this.cell(it, from, from + perRow)));
        const text = element("pre", "", { "aria-hidden": "true" });
        text.append(...found.map((it) => (it.isFault ? element("mark", "", {}, "×".repeat(Math.min(it.length, perRow))) : shown(String.fromCodePoint(it.scalar)))));
        row.append(text);
        return row;
    }

    // Reads what is not at hand, and draws it then.
    fetch(from) {
        if (this.isReading) return;
        this.isReading = true;
        const { input } = this;
        groupsIn(input.codec, input.form, input.source, from, Math.min(from + 1024, input.size)).then(() => {
            this.isReading = false;
            this.rows.draw(true);
            this.point();
        }, (error) => {
            this.isReading = false;
            input.fail(error);
        });
    }

    // A group in a row that begins at `from`.
    cell(it, from, until) {
        const isLong = it.length > WHOLE;
        const [first, last] = isLong ? [Math.max(it.offset, from), Math.min(it.offset + it.length, until)] : [it.offset, it.offset + it.length];
        const made = it.isFault ? this.faultCell(it, first, last) : this.textCell(it);
        made.style.cssText = `--k: ${last - first}; grid-column: ${first - from + 2} / span ${last - first}`;
        made.dataset.offset = it.offset;
        if (first > it.offset) made.classList.add("l");
        if (last < it.offset + it.length) made.classList.add("r");
        if (this.changed.has(it.offset)) made.classList.add("changed");
        if (this.taken && (it.offset < this.taken.front || this.taken.back <= it.offset)) made.classList.add("taken");
        return made;
    }

    textCell(it) {
        const { scalar, length, offset } = it;
        const drawn = glyph(scalar);
        const isSmall = drawn.length > 1 && scalar < 0x80;
        const made = element("span", length > 1 ? "p c" : scalar < 0x21 || scalar === 0x7f ? "p w" : "p", { role: "option", id: `p${offset}`, "aria-label": `${scalar < 0x80 ? drawn : `${drawn} ${describe(scalar)}`}, ${codePoint(scalar)}, offset ${offsetText(offset)}` });
        for (const byte of this.input.source.atHand(offset, offset + length) ?? []) made.append(element("u", "", {}, hexByte(byte).toLowerCase()));
        made.append(element("b", isSmall ? "name" : "", {}, drawn), element("small", "", {}, length > 1 && (scalar >= 0x80 || this.input.form === UTF8) ? codePoint(scalar) : ""));
        return made;
    }

    // Each invalid byte is an option, in the group of its place.
    faultCell(it, first, last) {
        const { input } = this;
        const said = told(it, input.codec.names, { form: input.form, size: input.size });
        const made = element("span", "p x hot", { role: "group", id: `g${first}`, title: said.list, "aria-label": `Invalid: ${said.list}` });
        const bytes = input.source.atHand(first, last) ?? [];
        bytes.forEach((byte, i) => made.append(element("u", "", { role: "option", id: `p${first + i}`, "aria-label": `${hexByte(byte)}, invalid: ${said.list}, offset ${offsetText(first + i)}` }, hexByte(byte).toLowerCase())));
        for (let i = first; i < last; i++) made.append(element("b", "", { "aria-hidden": "true" }, "×"));
        made.append(element("small", "", { "aria-hidden": "true" }, first === it.offset || it.length > WHOLE ? said.word : ""));
        return made;
    }

    // Marks what is chosen, and tells it to assistive technology.
    point(isNew = false) {
        const { frame, at } = this;
        let active = null;
        for (const cell of frame.querySelectorAll(".p")) {
            const offset = Number(cell.dataset.offset);
            const isChosen = offset === at;
            cell.classList.toggle("chosen", isChosen);
            cell.classList.toggle("flash", isChosen && isNew);
            for (const option of cell.role === "option" ? [cell] : cell.querySelectorAll("[role=option]")) {
                option.setAttribute("aria-selected", String(isChosen));
                if (isChosen) active ??= option.id;
            }
        }
        if (active) frame.setAttribute("aria-activedescendant", active);
        else frame.removeAttribute("aria-activedescendant");
    }

    // Chooses a group, and scrolls as far as its row asks for.
    choose(group, isNew = true) {
        this.at = group.offset;
        this.rows.show(Math.floor(group.offset / this.perRow));
        this.rows.draw();
        this.point(isNew);
    }
}
