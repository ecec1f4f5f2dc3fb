// The list of places, in rows that are made as they are seen; of all causes, or of one.
import { UTF8 } from "./codec.js";
import { $, Rows, button, element } from "./dom.js";
import { bytesOfValue } from "./repair.js";
import { CAUSES, LISTED } from "./survey.js";
import { CAUSE_NAMES, counted, hexOf, number, offsetText, shown, told } from "./words.js";

const ROW = 48;
const [BEFORE, AFTER] = [36, 36];
const CHARACTERS = 12;
// Causes that have a filter of their own; the rarest share one.
const FILTERS = 4;

const LABELS = ["utf-8", "utf-16le", "utf-16be"];
const decoders = LABELS.map((it) => new TextDecoder(it, { ignoreBOM: true }));

export class List {
    constructor(input, choose) {
        Object.assign(this, { input, choose, frame: $("list"), cause: null, numbers: null, chosen: -1, done: 0 });
        this.rows = new Rows(this.frame, ROW, (i) => this.row(i));
        this.frame.addEventListener("click", (event) => {
            const row = event.target.closest("[data-number]");
            if (row) choose(this.input.places.at(Number(row.dataset.number)));
        });
        this.frame.addEventListener("keydown", (event) => this.press(event));
    }

    // The number of the place in a row.
    at(i) {
        return this.numbers ? this.numbers[i] : i;
    }

    // The row of a place, or the last one before it.
    rowOf(place) {
        if (!this.numbers) return place;
        let [low, high] = [0, this.rows.count - 1];
        while (low < high) {
            const middle = (low + high + 1) >> 1;
            if (this.numbers[middle] <= place) low = middle;
            else high = middle - 1;
        }
        return low;
    }

    // Takes what a survey has told, from the beginning or further.
    show(isNew) {
        if (isNew) Object.assign(this, { cause: null, numbers: null, done: 0, chosen: -1 });
        const { found, places } = this.input;
        $("list-part").hidden = !found?.places;
        if (this.cause !== null) this.filter(this.cause, false);
        else this.rows.count = places.length;
        this.title();
        this.chips();
        const digits = offsetText(places.length ? places.offsets[places.length - 1] : 0).length;
        this.frame.style.setProperty("--lo", `${digits + 0.5}ch`);
        this.rows.draw(isNew || this.cause !== null);
        this.mark();
    }

    title() {
        const { found, places } = this.input;
        const missing = found?.isLast && places.length >= LISTED ? `, ${number(places.length)} listed` : "";
        $("list-title").textContent = `Invalid bytes, ${counted(found?.places ?? 0, "place")}${missing}`;
    }

    chips() {
        const { found } = this.input;
        const there = CAUSES.map((_, cause) => cause).filter((cause) => found?.causes[cause]).sort((one, other) => found.causes[other] - found.causes[one]);
        const chip = (cause, name, count) => button(`${name} ${number(count)}`, () => this.filter(cause), { "aria-pressed": String(this.cause === cause), "data-cause": String(cause) });
        const [own, others] = there.length > FILTERS ? [there.slice(0, FILTERS - 1), there.slice(FILTERS - 1)] : [there, []];
        const chips = there.length < 2 ? [] : [chip(null, "All", found.places), ...own.map((it) => chip(it, CAUSE_NAMES[it], found.causes[it]))];
        if (others.length) chips.push(this.menu(others));
        const before = [...$("chips").children].map((it) => it.textContent + it.ariaPressed).join();
        if (before !== chips.map((it) => it.textContent + it.ariaPressed).join()) {
            const held = document.activeElement?.dataset?.cause;
            $("chips").replaceChildren(...chips);
            if (held !== undefined) $("chips").querySelector(`[data-cause="${held}"]`)?.focus();
        }
    }

    menu(causes) {
        const { found } = this.input;
        const sum = causes.reduce((all, it) => all + found.causes[it], 0);
        const made = element("select", "", { "aria-label": "Show invalid bytes of another cause", "data-cause": "more" }, element("option", "", { value: "" }, `Other ${number(sum)}`),
            ...causes.map((it) => element("option", "", { value: it, ...(this.cause === it ? { selected: "" } : {}) }, `${CAUSE_NAMES[it]} ${number(found.causes[it])}`)));
        made.addEventListener("change", () => this.filter(made.value === "" ? null : Number(made.value)));
        return made;
    }

    // Of one cause alone, or, with null, of all.
    filter(cause, isDrawn = true) {
        const { places } = this.input;
        this.cause = cause;
        this.numbers = cause === null ? null : Uint32Array.from({ length: places.length }, (_, i) => i).filter((i) => places.causes[i] === cause);
        this.rows.count = this.numbers ? this.numbers.length : places.length;
        if (!isDrawn) return;
        this.frame.scrollTop = 0;
        this.chips();
        this.rows.draw(true);
        this.mark();
    }

    row(i) {
        const { input } = this;
        const place = input.places.at(this.at(i));
        const said = told(place, input.codec.names, { form: input.form, size: input.size });
        const row = element("div", "item", { role: "option", id: `l${place.number}`, "data-number": place.number, "aria-selected": "false", "aria-posinset": i + 1, "aria-setsize": this.rows.count });
        const length = place.length > 1 && input.form === UTF8 ? `${number(place.length)} bytes` : "";
        row.append(element("span", "m", {}, offsetText(place.offset)), element("span", "", {}, said.list), element("span", "soft", {}, length), this.context(place, i));
        if (place.number === this.chosen) this.markRow(row, true);
        return row;
    }

    // The text around a place; two bars until the bytes are there.
    context(place, i) {
        const { source } = this.input;
        const [from, to] = [Math.max(place.offset - BEFORE, 0), Math.min(place.offset + Math.min(place.length, 8) + AFTER, source.size)];
        const bytes = source.atHand(from, to);
        const made = element("span", bytes ? "ctx" : "ctx waits");
        if (bytes) made.append(...this.around(place, bytes, from).map((it) => (typeof it === "string" ? it : element("mark", "", {}, it.hex))));
        else this.read(place, i);
        return made;
    }

    // The most characters before and after, in one line, and the bytes between them.
    around(place, bytes, from) {
        const decoder = decoders[this.input.form];
        const start = place.offset - from;
        const end = Math.min(start + place.length, bytes.length);
        // (a character that is cut at the front of the window is left out)
        let first = 0;
        if (this.input.form === UTF8 && from) while (first < 3 && (bytes[first] & 0xc0) === 0x80) first++;
        else first = from & 1;
        const before = Array.from(decoder.decode(bytes.subarray(first, start)).replace(/^\ufffd+/, first || from ? "" : "$&"));
        const after = Array.from(decoder.decode(bytes.subarray(end)));
        const hex = hexOf(bytesOfValue(place.value, Math.min(place.length, 4)));
        return [`${before.length > CHARACTERS ? "…" : ""}${shown(before.slice(-CHARACTERS).join(""))}`, { hex: place.length > 4 ? `${hex} …` : hex }, shown(after.slice(0, CHARACTERS).join(""))];
    }

    async read(place, i) {
        const { source } = this.input;
        try {
            await source.read(Math.max(place.offset - BEFORE, 0), Math.min(place.offset + 8 + AFTER, source.size));
        } catch (error) {
            return this.input.fail(error);
        }
        if (source !== this.input.source) return;
        this.rows.made.delete(i);
        this.rows.later();
    }

    // Marks the row of a place, and brings it into view.
    point(place) {
        this.chosen = place?.number ?? -1;
        if (this.chosen >= 0 && (!this.numbers || this.numbers[this.rowOf(this.chosen)] === this.chosen)) this.rows.show(this.rowOf(this.chosen));
        this.rows.draw();
        this.mark();
    }

    mark() {
        let active = null;
        for (const row of this.frame.querySelectorAll(".item")) {
            const isChosen = Number(row.dataset.number) === this.chosen;
            this.markRow(row, isChosen);
            if (isChosen) active = row.id;
        }
        if (active) this.frame.setAttribute("aria-activedescendant", active);
        else this.frame.removeAttribute("aria-activedescendant");
    }

    markRow(row, isChosen) {
        row.setAttribute("aria-selected", String(isChosen));
        if (isChosen) row.setAttribute("aria-current", "true");
        else row.removeAttribute("aria-current");
    }

    press(event) {
        const page = Math.max(Math.floor(this.frame.clientHeight / ROW) - 1, 1);
        const by = { ArrowDown: 1, ArrowUp: -1, PageDown: page, PageUp: -page, Home: -Infinity, End: Infinity }[event.key];
        if (event.key === "Enter") $("grid").focus();
        else if (by === undefined || event.ctrlKey || event.metaKey || event.altKey || !this.rows.count) return;
        else {
            const now = this.chosen < 0 ? -1 : this.rowOf(this.chosen);
            this.choose(this.input.places.at(this.at(Math.max(Math.min(now + by, this.rows.count - 1), 0))));
        }
        event.preventDefault();
    }
}
