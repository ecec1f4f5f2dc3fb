// Elements, and what a page hands to a person: files and the clipboard.
export const $ = (id) => document.getElementById(id);

export function element(name, classes = "", attributes = {}, ...inside) {
    const made = document.createElement(name);
    if (classes) made.className = classes;
    for (const key in attributes) if (attributes[key] !== null) made.setAttribute(key, attributes[key]);
    made.append(...inside);
    return made;
}

// A text whose names of encodings are not broken over lines.
export const unbroken = (text) => text.split(/((?:UTF|Windows|ISO|CESU|KOI8)-[\w-]+[.,:]?)/).map((it, i) => (i % 2 ? element("span", "nb", {}, it) : it));

export function button(told, call, attributes = {}, classes = "") {
    const made = element("button", classes, { type: "button", ...attributes }, told);
    made.addEventListener("click", call);
    return made;
}

// Puts these in place of what an element has, if it is something else; so nothing is said or drawn twice.
export function put(id, ...inside) {
    const made = element("div", "", {}, ...inside);
    if ($(id).innerHTML !== made.innerHTML) $(id).replaceChildren(...made.childNodes);
}

export function saveAs(name, parts, type) {
    const address = URL.createObjectURL(new Blob(parts, { type }));
    const link = element("a", "", { href: address, download: name });
    document.body.append(link);
    link.click();
    link.remove();
    setTimeout(() => URL.revokeObjectURL(address), 60000);
}

// Whether the clipboard took a text.
export async function copy(text) {
    try {
        await navigator.clipboard.writeText(text);
        return true;
    } catch {
        const [focused, box] = [document.activeElement, element("textarea", "out", { "aria-hidden": "true" })];
        box.value = text;
        document.body.append(box);
        box.select();
        const isCopied = document.execCommand("copy");
        box.remove();
        focused?.focus({ preventScroll: true });
        return isCopied;
    }
}

// Rows of one height, of which those in view exist. `count` rows may be more than an element can be high: then the bar maps to rows.
export class Rows {
    #waiting = 0;

    // `frame` scrolls; `make` returns the row of a number.
    constructor(frame, height, make) {
        Object.assign(this, { frame, height, make, count: 0, made: new Map(), limit: 0 });
        this.inner = element("div", "rows");
        frame.append(this.inner);
        frame.addEventListener("scroll", () => this.later());
        new ResizeObserver(() => this.later()).observe(frame);
    }

    static HIGHEST = 8000000;

    // How far the rows can move below the view, and how far it can be scrolled.
    get spans() {
        const [total, seen] = [this.count * this.height, this.frame.clientHeight];
        return [Math.max(total - seen, 0), Math.max(Math.min(total, Rows.HIGHEST) - seen, 0)];
    }

    get above() {
        const [rows, scrolled] = this.spans;
        return scrolled ? (Math.min(this.frame.scrollTop, scrolled) * rows) / scrolled : 0;
    }

    // The numbers of the rows in view.
    get range() {
        const first = Math.floor(this.above / this.height);
        return [Math.max(first - 1, 0), Math.min(first + Math.ceil((this.frame.clientHeight || 400) / this.height) + 2, this.count)];
    }

    later() {
        this.#waiting ||= requestAnimationFrame(() => this.draw());
    }

    // Makes all rows anew, or those alone that are not there.
    draw(isAnew = false) {
        cancelAnimationFrame(this.#waiting);
        this.#waiting = 0;
        if (isAnew) this.made.clear();
        this.inner.style.height = `${Math.min(this.count * this.height, Rows.HIGHEST)}px`;
        const [[first, last], { above }] = [this.range, this];
        const shift = this.frame.scrollTop - above;
        const rows = [];
        for (let i = first; i < last; i++) {
            const row = this.made.get(i) ?? this.make(i);
            row.style.transform = `translateY(${i * this.height + shift}px)`;
            rows.push([i, row]);
        }
        this.made = new Map(rows);
        const now = rows.map(([, row]) => row);
        if (now.length !== this.inner.children.length || now.some((it, i) => it !== this.inner.children[i])) this.inner.replaceChildren(...now);
    }

    // Scrolls as far as a row asks for, which then has others around it.
    show(i) {
        const [rows, scrolled] = this.spans;
        const factor = scrolled ? rows / scrolled : 1;
        const [y, above, seen] = [i * this.height, this.above, this.frame.clientHeight];
        if (y < above || y + this.height > above + seen) this.frame.scrollTop = Math.max((y - Math.max((seen - this.height) / 3, 0)) / factor, 0);
    }
}
