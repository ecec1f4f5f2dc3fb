// The strip: where in a large input the invalid bytes lie, and where in it the grid stands.
import { $, button, element } from "./dom.js";
import { BINS, CAUSE, CAUSES } from "./survey.js";
import { number, offsetText, sizeText } from "./words.js";

// The least number of rows of the grid with which it is shown.
const ROWS = 64;
const [HEIGHT, LEAST] = [46, 5];
// The share of bins with one cause that makes a cluster, and the most clusters that are named.
const [SHARE, NAMED] = [0.8, 3];
const NAMES = ["cut off", "cut off", "Windows-1252", "stray", "never valid", "overlong", "surrogates", "too high", "halves", "halves", "cut off", "equal bytes"];
const SVG = "http://www.w3.org/2000/svg";

const sums = (bins) => Array.from({ length: BINS }, (_, i) => bins.subarray(i * CAUSES.length, (i + 1) * CAUSES.length).reduce((sum, it) => sum + it, 0));

function drawing(heights, read) {
    const made = document.createElementNS(SVG, "svg");
    const add = (x, height, width, name) => {
        const rect = document.createElementNS(SVG, "rect");
        for (const [key, value] of Object.entries({ x, y: HEIGHT - height, width, height, class: name })) rect.setAttribute(key, value);
        made.append(rect);
    };
    made.setAttribute("viewBox", `0 0 ${BINS} ${HEIGHT}`);
    made.setAttribute("preserveAspectRatio", "none");
    made.setAttribute("aria-hidden", "true");
    if (read < 1) add(BINS * read, HEIGHT, BINS * (1 - read), "unread");
    heights.forEach((height, i) => height && add(i, height, 0.82, "bad"));
    return made;
}

// Adjacent bins in which most have one cause, the largest first: { from, to, cause, count }.
function clusters(bins) {
    const found = [];
    for (let i = 0; i < BINS; i++) {
        const own = bins.subarray(i * CAUSES.length, (i + 1) * CAUSES.length);
        const sum = own.reduce((all, it) => all + it, 0);
        const cause = own.findIndex((it) => it > 0 && it >= SHARE * sum);
        const last = found[found.length - 1];
        if (cause < 0) continue;
        if (last && last.cause === cause && last.to >= i - 1) Object.assign(last, { to: i, count: last.count + own[cause] });
        else found.push({ from: i, to: i, cause, count: own[cause] });
    }
    return found.sort((one, other) => other.count - one.count).slice(0, NAMED).filter((it) => it.count > 1).sort((one, other) => one.from - other.from);
}

// Words that would lie on one another are left out.
function apart(named) {
    let end = 12;
    return named.filter((it) => {
        const middle = ((it.from + it.to + 1) / 2 / BINS) * 100;
        if (middle - 8 < end || middle > 84) return false;
        end = middle + 8;
        return true;
    });
}

export class Strip {
    constructor(input, go) {
        Object.assign(this, { input, go, key: "" });
        $("at").addEventListener("input", () => go(Math.min(Number($("at").value), Math.max(this.input.size - 1, 0))));
        $("at").addEventListener("keydown", (event) => this.press(event));
    }

    show(perRow) {
        const { input } = this;
        const { found, size } = input;
        const isShown = size >= ROWS * perRow && found !== null && (found.invalid > 0 || !found.isLast);
        $("strip").hidden = !isShown;
        if (!isShown) return;
        const counts = sums(found.bins);
        const most = Math.max(...counts, 1);
        const heights = counts.map((it) => it && LEAST + Math.sqrt(it / most) * (HEIGHT - LEAST - 3));
        const key = `${size} ${found.read} ${found.isLast} ${counts.join()}`;
        if (key === this.key) return this.point();
        this.key = key;
        $("bars").replaceChildren(drawing(heights, found.isLast ? 1 : found.read / size));
        const words = apart(clusters(found.bins)).map((it) => {
            const name = `${number(it.count)} × ${it.cause === CAUSE.run ? "equal bytes" : NAMES[it.cause]}`;
            return element("span", "mid", { style: `left: ${((it.from + it.to + 1) / 2 / BINS) * 100}%` }, button(name, () => this.toBin(it), {}, "t"));
        });
        $("clusters").replaceChildren(element("span", "", { style: "left: 0" }, "0"), ...words, element("span", "", { style: "left: 100%" }, sizeText(size)));
        $("at").max = size - 1;
        this.point();
    }

    // To the first place of a cluster.
    toBin({ from, cause }) {
        const { places, size } = this.input;
        let i = Math.max(places.before(Math.floor((from * size) / BINS)), 0);
        const start = (from * size) / BINS;
        while (i < places.length && (places.offsets[i] < start || places.causes[i] !== cause)) i++;
        this.go(i < places.length ? places.offsets[i] : start);
    }

    point() {
        const { at, size, found } = this.input;
        if ($("strip").hidden) return;
        const here = sums(found.bins)[Math.min(Math.floor((at * BINS) / size), BINS - 1)];
        $("at").value = at;
        $("at").setAttribute("aria-valuetext", `offset ${offsetText(at)}, ${Math.floor((100 * at) / size)} %, ${number(here)} invalid bytes here`);
    }

    // Arrows move by a row, Page Up and Page Down by a bin.
    press(event) {
        const { size, at } = this.input;
        const by = { ArrowRight: 16, ArrowUp: -16, ArrowLeft: -16, ArrowDown: 16, PageDown: size / BINS, PageUp: -size / BINS, Home: -Infinity, End: Infinity }[event.key];
        if (by === undefined) return;
        event.preventDefault();
        this.go(Math.round(Math.max(Math.min(at + by, size - 1), 0)));
    }
}
