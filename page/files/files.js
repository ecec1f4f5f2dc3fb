// Several files that came together: a line for each, with its counts.
import { UTF8 } from "./codec.js";
import { $, button, element } from "./dom.js";
import { counted, number, shown, sizeText } from "./words.js";

const MOST_FILES = 100;

const found = ({ invalid, guess }, size) => (size === 0 ? "empty" : !invalid ? (guess?.name === "ascii" ? "all ASCII" : /^utf-16/.test(guess?.name) ? guess.name.toUpperCase() : "all UTF-8")
    : `${number(invalid)} of ${counted(size, "byte")} ${invalid === 1 ? "is" : "are"} not UTF-8${/^utf-16/.test(guess?.name) ? `: ${guess.name.toUpperCase()}` : ""}`);

export class Files {
    constructor(helper, open) {
        Object.assign(this, { helper, open, turn: 0 });
    }

    clear() {
        this.turn++;
        $("files").hidden = true;
    }

    // Lists them, and counts one after the other.
    async show(files) {
        const mine = ++this.turn;
        const listed = files.slice(0, MOST_FILES);
        const counts = listed.map(() => element("span", "soft", {}, "…"));
        const rows = listed.map((file, i) => {
            const made = button(shown(file.name), () => {
                for (const it of $("files-rows").querySelectorAll("button")) it.setAttribute("aria-pressed", String(it === made));
                this.open(file);
            }, { "aria-pressed": String(i === 0) });
            return element("li", "row", {}, made, element("span", "soft", {}, sizeText(file.size)), counts[i]);
        });
        $("files-title").textContent = `${counted(files.length, "file")}${files.length > listed.length ? `, the first ${listed.length} listed` : ""}`;
        $("files-rows").replaceChildren(...rows);
        $("files").hidden = false;
        for (const [i, file] of listed.entries()) {
            if (mine !== this.turn) return;
            try {
                const told = await this.helper.ask("count", { form: UTF8, source: file }, () => {});
                if (told) counts[i].textContent = found(told, file.size);
            } catch {
                counts[i].textContent = "cannot be read";
            }
        }
    }
}
