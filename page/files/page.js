// The page: what a person does, and what it then asks the module.
import { Codec, FORMS, MOST, UTF16LE, UTF8, hasVectors } from "./codec.js";
import { $, button, copy, element, put, saveAs } from "./dom.js";
import { EXAMPLES, FIRST, boxOf } from "./examples.js";
import { Explore } from "./explore.js";
import { Files } from "./files.js";
import { findingOf, metaOf, showFinding, showTrouble } from "./finding.js";
import { Grid } from "./grid.js";
import { around, groupsOf } from "./groups.js";
import { Evidence } from "./guess.js";
import { formOf, guessesOf, likeliest, showGuesses } from "./guesses.js";
import { Helper } from "./helper.js";
import { bytesOf, offsetOf } from "./input.js";
import { IN_LINK, linkOf, linked } from "./link.js";
import { List } from "./list.js";
import { moduleOf } from "./loading.js";
import { WAYS, encoded, reading } from "./reading.js";
import { repairedOf } from "./repair.js";
import { csvOf, jsonOf, reportOf } from "./report.js";
import { Source } from "./source.js";
import { Strip } from "./strip.js";
import { Places, Survey, guessAt } from "./survey.js";
import { ENCODINGS, counted, hexOf, number, offsets, shown, sizeText } from "./words.js";
import { explain } from "./why.js";

// The most bytes that are read without the worker, that are copied, and that fill the field.
const AT_ONCE = 1 << 18;
const HEAD = 1 << 15;
const COPIED = MOST;
const IN_FIELD = 200000;
// Bytes around the first place by which an encoding is chosen.
const SAMPLE = 4096;
// The bytes of UTF-16 that are looked at for a guess.
const SAMPLED = 1 << 18;

// All that is known of the input. `how` is the guess in use, `at` the chosen offset, `number` the state of the history.
const input = { codec: null, source: null, size: 0, form: UTF8, places: new Places(), found: null, guess: null, how: "utf-8", at: 0, isExample: false, likely: "windows-1251", likeness: 0, fail: tellUnread };
let grid, list, strip, helper, explore, files;
let turn = 0;
// What was shown, by number, for Back; the text of the field as it came, with its CRs; what Back shows as one.
const [states, field] = [new Map(), { raw: "", isFile: false }];
let count = 0;

const link = () => linkOf({ bytes: input.source?.bytes, form: input.form, at: input.at === firstOffset() ? 0 : input.at, how: input.how === bestHow() ? "" : input.how });
const firstOffset = () => (input.places.length ? input.places.offsets[0] : 0);
const bestHow = () => guessesOf(input)[0]?.how ?? "utf-8";

// Takes an input. What else is known of it: `form`, `at`, `how`; the text of the field and for what it was `took`; whether it is an
// example; and how it goes into the history: a new state, the one that is there, or as it is.
async function take(source, { form = UTF8, at = null, how = "", text = null, way = "", took = "", isExample = false, keeps = "push", isDoubtful = false, changed = new Set(), note = [] } = {}) {
    const mine = ++turn;
    document.documentElement.dataset.state = "reading";
    helper.stop("survey");
    Object.assign(input, { source, size: source.size, form, places: new Places(), found: null, guess: null, how: how || "utf-8", at: 0, isExample, wantedHow: how, wantedAt: at, hasChosen: false });
    Object.assign(grid, { changed, taken: null });
    // (no row is left of what was listed before)
    list.show(true);
    $("form").value = form;
    field.raw = text ?? "";
    showField({ text, way, took, isDoubtful, note });
    keepState(keeps, { text, way, took, isExample });
    $("trouble-part").hidden = true;
    showParts();
    grid.frame.scrollTop = 0;
    grid.draw();
    await survey(mine);
}

// Whether there is something to show below the field.
function showParts() {
    const hasBytes = input.size > 0;
    for (const id of ["grid-part", "why", "copying"]) $(id).hidden = !hasBytes;
    $("sum").hidden = !hasBytes;
    if (hasBytes) return;
    for (const id of ["guess-part", "list-part", "strip"]) $(id).hidden = true;
}

// Walks over all bytes: at once, or beside the page, and shows what is found as it is found.
async function survey(mine) {
    const { codec, form, source } = input;
    if (!source.isFile && source.size <= AT_ONCE) {
        const made = new Survey(codec, form, { size: source.size, evidence: new Evidence(codec) });
        made.take(source.bytes, true);
        hear(made.news(true), mine);
        return;
    }
    showAll();
    try {
        // (the first places are shown before a worker has begun)
        const head = new Survey(codec, form, { size: source.size });
        head.take(await source.read(0, Math.min(HEAD, source.size)), false);
        hear(head.news(false), mine);
        const last = await helper.ask("survey", { form, source: source.blob }, (news) => hear(news, mine));
        if (last) hear(last, mine);
    } catch {
        if (mine === turn) tellUnread();
    }
}

// Takes what a survey tells; the first places are shown at once.
function hear(news, mine) {
    if (mine !== turn) return;
    const isFirst = !input.places.length;
    input.places.take(news.part);
    input.found = news;
    input.read = news.read;
    if (news.isLast) settle(news);
    else showAll();
    if (isFirst && input.places.length) list.show(true);
    else list.show(isFirst && news.isLast);
    if ((isFirst && input.places.length && input.wantedAt === null) || (news.isLast && !input.hasChosen)) choose(input.wantedAt ?? firstOffset(), { isNew: false });
    else if (news.isLast) choose(input.at, { isNew: false });
    if (news.isLast) document.documentElement.dataset.state = "shown";
}

// Once all is read: the guess, and what it makes of the bytes.
async function settle(news) {
    const { codec, source, form } = input;
    input.guess = news.guess ?? guessAt(codec, source.atHand(0, Math.min(source.size, SAMPLED)) ?? (await source.read(0, SAMPLED)), source.size);
    const first = firstOffset();
    const sample = source.atHand(Math.max(first - SAMPLE / 4, 0), Math.min(first + SAMPLE, source.size));
    if (sample) Object.assign(input, likeliest(sample));
    input.how = input.wantedHow || (form === UTF8 ? bestHow() : FORMS[form]);
    showAll();
}

// The finding, the guesses and the strip.
function showAll() {
    input.isExample = input.isExample && field.isExample;
    showFinding(input);
    put("meta", ...metaOf(input));
    showGuesses(input, use);
    strip.show(grid.perRow);
    showReading();
    showCopying();
    explore.show();
}

function showReading() {
    const { found, size } = input;
    const isReading = size > 0 && !found?.isLast && (input.source.isFile || size > AT_ONCE);
    $("reading").hidden = !isReading;
    if (isReading) $("bar").value = (found?.read ?? 0) / size;
    if (input.source?.isFile || field.isFile) $("file-note").textContent = `${sizeText(size)}${found?.isLast ? ", read to the end" : isReading ? `, ${Math.floor((100 * (found?.read ?? 0)) / size)} % read` : ""}`;
}

function showCopying() {
    const { found, source, size } = input;
    const isRead = Boolean(found?.isLast && size);
    const isLinked = !source?.isFile && size <= IN_LINK;
    const isShort = size <= COPIED;
    for (const [id, isOn] of [["copy-text", isRead && isShort], ["copy-bytes", isShort], ["copy-report", isRead], ["copy-link", isLinked], ["save-text", isRead]]) $(id).disabled = !isOn;
    $("copy-text").textContent = found?.invalid || input.how !== "utf-8" ? "repaired text" : "text";
    $("copy-text").classList.toggle("go", input.guess?.name !== "binary" && !$("guess").querySelector(".go"));
    $("copy-note").textContent = !size || isLinked ? "" : isShort ? "(no link: 48 kB fit)" : "(too large: save it)";
}

// Chooses the character or place that has an offset, in the grid, the explanation and the list.
async function choose(offset, { isNew = true, isKept = true } = {}) {
    const { codec, form, source, size, places } = input;
    if (!size) return;
    const mine = turn;
    const at = Math.max(Math.min(offset, size - 1), 0);
    const end = Math.min(at + 8, size);
    const [from, to] = around(at, end, size);
    let bytes = source.atHand(from, to);
    try {
        bytes ??= await source.read(from, to);
    } catch {
        return tellUnread();
    }
    if (mine !== turn) return;
    const groups = groupsOf(codec, form, bytes, from, at, at + 1, places);
    const group = groups.find((it) => it.offset <= at && at < it.offset + it.length);
    if (!group) return;
    Object.assign(input, { at: group.offset, hasChosen: true });
    grid.choose(group, isNew);
    const [first, last] = around(group.offset, Math.min(group.offset + group.length, group.offset + 16), size);
    explain(input, group, source.atHand(first, last) ?? bytes, source.atHand(first, last) ? first : from, step);
    list.point(group.isFault ? group : null);
    strip.point();
    explore.point();
    showSum(group);
    if (document.activeElement !== $("offset")) $("offset").value = offsets.isHex ? `0x${group.offset.toString(16).toUpperCase()}` : number(group.offset);
    if (isKept && input.found?.isLast) keepPlace();
}

function showSum(group) {
    const total = input.found?.places ?? 0;
    const said = group.isFault ? $("why").querySelector("#why-title") : null;
    const row = group.isFault && group.number >= 0 ? list.frame.querySelector(`[data-number="${group.number}"]`)?.children[1]?.textContent : "";
    put("sum-text", element("b", "", {}, total ? `${group.isFault && group.number >= 0 ? number(group.number + 1) : "–"} of ${number(total)}` : "No invalid byte"), ` · offset ${said ? said.textContent.replace("Offset ", "") : number(group.offset)}`, element("br"), row || (group.isFault ? "invalid" : "valid"));
    for (const id of ["sum-before", "sum-next"]) $(id).disabled = !total;
}

// To the next place, or the one before; at an end it begins again.
function step(by) {
    const { places, at } = input;
    const last = places.length - 1;
    if (last < 0) return void ($("went").textContent = input.found?.isLast ? "There is no invalid byte." : "");
    const here = places.before(at);
    const isOn = here >= 0 && at < places.offsets[here] + places.lengths[here];
    let to = by > 0 ? here + 1 : isOn ? here - 1 : here;
    const isOver = to > last || to < 0;
    if (isOver) to = by > 0 ? 0 : last;
    $("went").textContent = isOver ? (last === 0 ? "There is no other place." : by > 0 ? "The first one again." : "The last one.") : "";
    choose(places.offsets[to]);
}

// Reads the input by a guess; another encoding of the bytes fills the grid again.
function use(how) {
    const form = formOf(how);
    const { source, isExample } = input;
    if (form !== input.form) return take(source, { ...fieldState(), form, how: form === UTF8 ? how : "", isExample });
    input.how = how;
    keepState("push", fieldState());
    showGuesses(input, use);
    $("guess").querySelector("[aria-pressed=true]")?.focus();
}

const fieldState = () => ({ text: field.isFile ? null : field.raw, way: $("as").value, took: $("took").textContent, isExample: field.isExample });

// The history.

function keepState(keeps, { text, way, took, isExample }) {
    if (keeps === "none") return;
    if (keeps === "push") count = Math.max(count, history.state?.number ?? 0) + 1;
    const { source, form, how } = input;
    states.set(count, { source, form, how, text, way, took, isExample, at: null });
    const address = link() || location.pathname + location.search;
    history[keeps === "push" ? "pushState" : "replaceState"]({ number: count }, "", address);
}

function keepPlace() {
    const kept = states.get(history.state?.number);
    if (kept) Object.assign(kept, { at: input.at, how: input.how });
    const address = link();
    if (address && address !== location.hash) history.replaceState(history.state, "", address);
}

function goBack(event) {
    const kept = states.get(event.state?.number);
    count = event.state?.number ?? count;
    if (kept) take(kept.source, { ...kept, keeps: "none" });
    else follow();
}

// Shows what the address says, or the first example.
async function follow() {
    const said = linked(location.hash);
    const keeps = "replace";
    if (said?.bytes) return take(new Source(said.bytes), { form: said.form, at: said.at, how: said.how, text: hexText(said.bytes), way: "hexadecimal", took: "hexadecimal", keeps });
    await showExample(EXAMPLES[0], keeps);
    if (said?.told) showNote(`The link has no good bytes: an example is shown. ${said.told.split(".")[0]}.`);
}

const hexText = (bytes) => (bytes.length * 3 > IN_FIELD ? null : hexOf(bytes).toLowerCase());

// The field.

function showField({ text, way, took, isDoubtful, note }) {
    field.isFile = text === null;
    $("field-part").hidden = field.isFile;
    $("file-line").hidden = !field.isFile;
    $("file-name").textContent = shown(input.source.name || (field.isFile ? "Pasted bytes" : ""));
    if (!field.isFile && $("box").value !== text.replace(/\r\n?/g, "\n")) $("box").value = text;
    $("box").removeAttribute("aria-invalid");
    $("as").value = way in WAYS ? way : "";
    $("took").textContent = took;
    $("as").options[0].textContent = took && took !== "text" && !(way in WAYS) ? took : way in WAYS ? "automatic" : "what it looks like";
    $("doubt").hidden = !isDoubtful;
    put("note", ...note);
}

function showNote(told) {
    put("note", told);
}

// Reads the text of the field, and shows what it is; what cannot be read says so, and nothing old is shown.
function readField(text, { way = "", keeps = "push", isExample = false, at = null } = {}) {
    field.isExample = isExample;
    const made = reading(input.codec, text, way);
    if (!made.bytes) return refuse(text, made, keeps);
    const isChosen = way !== "";
    const notes = [(made.note ?? "").replace("Offsets and the text column are left out.", "").trim(), ...lossOf(text, made)].filter((it) => it);
    const isHuge = text.length > IN_FIELD;
    return take(new Source(made.bytes), { text: isHuge ? null : text, way: isChosen || made.way in WAYS ? made.way : "", took: made.took, isDoubtful: made.isDoubtful, isExample, keeps, at, note: notes });
}

// What a text has that its bytes, or the field, do not show.
function lossOf(text, { way, lost }) {
    if (way !== "text") return [];
    const returns = (text.match(/\r/g) ?? []).length;
    const kept = returns ? `${counted(returns, "carriage return")} (CR) of the text ${returns === 1 ? "is" : "are"} kept. ` : "";
    const asUtf16 = () => take(new Source(encoded(input.codec, text, UTF16LE).bytes), { form: UTF16LE, text, way: "text", took: "text" });
    const gone = lost ? [`${counted(lost, "lone surrogate")}, which UTF-8 cannot have, became U+FFFD. `, button("Take it as UTF-16", asUtf16, {}, "t")] : [];
    return [kept, ...gone, ...(text.includes("\ufffd") ? [`The text has U+FFFD in it: its bytes were lost before it was copied. Open the file itself, or paste its bytes.`] : [])];
}

function refuse(text, { told, way }, keeps) {
    turn++;
    helper.stop("survey");
    Object.assign(input, { source: new Source(new Uint8Array(0)), size: 0, places: new Places(), found: null, guess: null, isExample: false });
    list.show(true);
    field.raw = text;
    showField({ text, way, took: "", isDoubtful: false, note: [] });
    $("box").setAttribute("aria-invalid", "true");
    showParts();
    showTrouble(`${told}.`);
    put("meta", "Choose another reading beside “Taken as”, or mend the text.");
    keepState(keeps, { text, way, took: "", isExample: false });
    document.documentElement.dataset.state = "refused";
}

const showExample = (example, keeps = "push") => {
    field.isExample = true;
    if (!example.bytes) return readField(boxOf(example), { isExample: true, keeps });
    return take(new Source(Uint8Array.from(example.bytes()), example.file), { isExample: true, keeps });
};

function clear() {
    files.clear();
    field.isExample = false;
    const made = take(new Source(new Uint8Array(0)), { text: "", keeps: "push" });
    $("box").focus();
    return made;
}

// Files, and what is pasted or dropped.

// Ends the walk; what was found so far stays.
function stop() {
    helper.stop("survey");
    $("reading").hidden = true;
    $("file-note").textContent = `${sizeText(input.size)}, stopped after ${sizeText(input.found?.read ?? 0)}`;
    document.documentElement.dataset.state = "shown";
}

// Small files are in memory, so that a link can hold them.
async function open(file) {
    field.isExample = false;
    const mine = ++turn;
    try {
        const given = file.size <= AT_ONCE ? new Uint8Array(await file.arrayBuffer()) : file;
        if (mine === turn) return await take(new Source(given, file.name));
    } catch {
        input.source = new Source(new Blob(), file.name);
        tellUnread();
    }
}

function openAll(given) {
    const all = [...given];
    if (!all.length) return;
    if (all.length > 1) files.show(all);
    else files.clear();
    return open(all[0]);
}

function tellUnread() {
    turn++;
    $("trouble-part").hidden = false;
    $("trouble-text").textContent = `${shown(input.source?.name || "The input")} cannot be read: it was changed or removed.`;
    $("reading").hidden = true;
}

// Takes what the clipboard or a drop has. A picture alone gets a sentence.
function takeData(data) {
    const text = data.getData("text/plain");
    const given = [...data.files];
    if (text) return readField(text);
    const isPicture = given.length && given.every((it) => it.type.startsWith("image/")) && given.every((it) => /^image\.\w+$/.test(it.name));
    if (isPicture) return refusePicture();
    if (given.length) return openAll(given);
    if (data.getData("text/html") || [...data.types].length) showNote("The clipboard has no text and no file.");
}

function refusePicture() {
    showNote("A picture was pasted, and this page reads no text in pictures. Copy the text or the dump itself, or open the picture’s file to see its bytes.");
    $("said").textContent = $("note").textContent;
}

const isField = (target) => Boolean(target?.closest?.("input, textarea, select, [contenteditable]"));

function paste(event) {
    if (isField(event.target) && event.target !== $("box")) return;
    const box = $("box");
    const isWhole = box.selectionStart === 0 && box.selectionEnd === box.value.length;
    if (event.target === box && !field.isExample && box.value && !isWhole) return;
    event.preventDefault();
    takeData(event.clipboardData);
}

function drop(event) {
    document.body.classList.remove("dropping");
    if (!event.dataTransfer.files.length && isField(event.target)) return;
    event.preventDefault();
    if (event.dataTransfer.files.length) openAll(event.dataTransfer.files);
    else takeData(event.dataTransfer);
}

// Copies and saves.

async function told(isDone, text) {
    $("copied").textContent = isDone ? text : "The browser did not allow it.";
}

async function repairedText() {
    const parts = [];
    for await (const it of repairedOf(input.codec, input.form, input.source.blob, input.how)) parts.push(it);
    return parts.join("");
}

async function copyText() {
    const text = await repairedText();
    await told(await copy(text), `Copied, ${counted(Array.from(text).length, "character")}`);
}

async function copyBytes() {
    const bytes = await input.source.read(0, input.size);
    await told(await copy(hexOf(bytes).toLowerCase()), `Copied, ${counted(input.size, "byte")} in hexadecimal`);
}

async function copyReport() {
    const address = link() && `${location.origin === "null" ? "" : location.origin}${location.pathname}${link()}`;
    await told(await copy(await reportOf(input, address)), "Copied, as Markdown");
}

async function copyLink() {
    const address = location.href.replace(/#.*$/, "") + linkOf({ bytes: input.source.bytes, form: input.form, at: input.at, how: input.how === bestHow() ? "" : input.how });
    await told(await copy(address), "Copied, with the chosen place");
}

const stem = () => (input.source.name || "input").replace(/(\.[^.]*)?$/, "");
async function saveText() {
    const name = `${stem()}.repaired${input.source.name.match(/\.[^.]*$/)?.[0] ?? ".txt"}`;
    if (!input.source.isFile) return saveAs(name, [await repairedText()], "text/plain");
    const made = await helper.ask("repair", { form: input.form, how: input.how, source: input.source.blob }, ({ part }) => ($("copied").textContent = `Repaired, ${Math.floor(part * 100)} %`));
    if (made) saveAs(name, [made], "text/plain");
    $("copied").textContent = made ? "Saved" : "";
}

// Keys.

function closeExplore() {
    $("explore").open = false;
    $("explore").querySelector("summary").focus();
}

function press(event) {
    const { key, target } = event;
    if (event.ctrlKey || event.metaKey || event.altKey) return;
    if (key === "Escape") {
        if (target.closest?.("#explore") && $("explore").open) closeExplore();
        else if (isField(target)) target.blur();
        document.body.classList.remove("dropping");
        return;
    }
    if (isField(target) || !$("keys").checked) return;
    if (key === "n" || key === "N") step(key === "N" ? -1 : 1);
    else if (key === "g" || key === "G") $("offset").select();
    else return;
    event.preventDefault();
}

// Arrows and the like in the grid.
function move(event) {
    const { at, size } = input;
    const row = grid.perRow;
    const view = Math.max(Math.floor(grid.frame.clientHeight / 61) - 1, 1) * row;
    if (event.key === "Enter") $("why").focus();
    else if (event.altKey || event.metaKey || !size) return;
    else {
        const isFar = event.ctrlKey;
        const end = grid.rows.count ? Number(grid.frame.querySelector(`[data-offset="${at}"]`)?.style.getPropertyValue("--k") || 1) : 1;
        const to = { ArrowRight: at + end, ArrowLeft: at - 1, ArrowDown: at + row, ArrowUp: at - row, PageDown: at + view, PageUp: at - view,
            Home: isFar ? 0 : at - (at % row), End: isFar ? size - 1 : at - (at % row) + row - 1 }[event.key];
        if (to === undefined || (isFar && !/^(?:Home|End)$/.test(event.key))) return;
        if (to >= 0 || at > 0) choose(Math.max(Math.min(to, size - 1), 0));
    }
    event.preventDefault();
}

function goTo() {
    const wanted = offsetOf($("offset").value.replace(/[,_ ]/g, ""));
    const isThere = wanted < input.size;
    $("went").textContent = isThere ? "" : `Offsets go from 0 to ${number(Math.max(input.size - 1, 0))}.`;
    if (!isThere) return;
    choose(wanted);
    grid.frame.focus({ preventScroll: true });
}

// What is made once.

function makeExamples() {
    const made = EXAMPLES.map((it, i) => button(it.name, () => showExample(it), i < FIRST ? {} : { hidden: "" }, "t"));
    const more = button("more", () => {
        for (const it of made) it.hidden = false;
        more.hidden = true;
        made[FIRST].focus();
    }, { "aria-label": "More examples" }, "t");
    $("examples").append(...made, more);
}

function makeWays() {
    for (const [way, name] of Object.entries(WAYS)) $("as").append(element("option", "", { value: way }, name));
    for (const [form, name] of ENCODINGS.entries()) $("form").append(element("option", "", { value: form }, name));
}

function changeHex() {
    offsets.isHex = !offsets.isHex;
    $("hex").setAttribute("aria-pressed", String(offsets.isHex));
    grid.draw();
    list.show(false);
    list.rows.draw(true);
    showAll();
    choose(input.at, { isNew: false });
}

function listen() {
    const on = (id, event, call) => $(id).addEventListener(event, call);
    on("box", "input", () => readField($("box").value, { keeps: field.isTyping ? "replace" : "push" }).then?.(() => (field.isTyping = true)));
    on("box", "focus", () => field.isExample && $("box").select());
    on("box", "blur", () => (field.isTyping = false));
    on("as", "change", () => readField(field.raw || $("box").value, { way: $("as").value, keeps: "replace" }));
    on("form", "change", () => take(input.source, { ...fieldState(), form: Number($("form").value), isExample: input.isExample }));
    for (const id of ["file", "file-again"]) {
        on(id, "change", () => {
            const given = [...$(id).files];
            // (so that the same file can be chosen again)
            $(id).value = "";
            return openAll(given);
        });
    }
    for (const id of ["clear", "close"]) on(id, "click", clear);
    on("stop", "click", stop);
    on("go", "submit", (event) => {
        event.preventDefault();
        goTo();
    });
    on("hex", "click", changeHex);
    on("copy-text", "click", copyText);
    on("copy-bytes", "click", copyBytes);
    on("copy-report", "click", copyReport);
    on("copy-link", "click", copyLink);
    on("save-text", "click", saveText);
    on("save-csv", "click", () => saveAs(`${stem()}.invalid.csv`, csvOf(input), "text/csv"));
    on("save-json", "click", () => saveAs(`${stem()}.invalid.json`, jsonOf(input), "application/json"));
    on("sum-before", "click", () => step(-1));
    on("sum-next", "click", () => step(1));
    on("grid", "keydown", move);
    addEventListener("keydown", press);
    addEventListener("paste", paste);
    addEventListener("popstate", goBack);
    addEventListener("hashchange", () => !states.has(history.state?.number) && follow());
    addEventListener("dragover", (event) => {
        const isFile = event.dataTransfer.types.includes("Files");
        if (isFile || !isField(event.target)) event.preventDefault();
        document.body.classList.toggle("dropping", isFile);
    });
    addEventListener("dragleave", (event) => !event.relatedTarget && document.body.classList.remove("dropping"));
    addEventListener("drop", drop);
    matchMedia("print").addEventListener("change", () => grid.layOut());
}

// What the page in one file has in it, or null.
function inside(name) {
    const part = $(name);
    return part && Uint8Array.from(atob(part.textContent), (it) => it.charCodeAt(0));
}

function makeWorker() {
    const text = inside("worker.js");
    if (!text) return new Worker(new URL("worker.js", import.meta.url), { type: "module" });
    return new Worker(URL.createObjectURL(new Blob([text], { type: "text/javascript" })));
}

function changeBytes(bytes, at, changed) {
    field.isExample = false;
    const name = input.source.name;
    const text = hexText(bytes);
    return take(new Source(bytes, name), { form: input.form, text, way: text === null ? "" : "hexadecimal", took: "hexadecimal", at, changed, keeps: "replace" });
}

// What was pasted or chosen before the module was there, which the script in the page has kept.
async function takeEarly() {
    const early = window.early ?? {};
    early.stop?.();
    if (early.files?.length) return openAll(early.files);
    const text = early.text ?? $("box").value;
    if (text) return readField(text, { keeps: "replace" });
    return follow();
}

async function start() {
    let module;
    try {
        const name = hasVectors() ? "noddychest-simd.wasm" : "noddychest.wasm";
        module = await moduleOf(inside(name) ?? name);
        input.codec = new Codec((await WebAssembly.instantiate(module)).exports);
    } catch (error) {
        $("loading").hidden = true;
        $("trouble-part").hidden = false;
        $("trouble-text").textContent = typeof WebAssembly === "object" ? `The decoder did not load (${error.message}). Load the page again.` : "Your browser lacks WebAssembly: any from 2021 on has it. Without a browser, nody check FILE lists the same.";
        return;
    }
    $("loading").hidden = true;
    helper = new Helper(module, makeWorker);
    grid = new Grid($("grid"), input, (offset) => choose(offset));
    list = new List(input, (place) => choose(place.offset));
    strip = new Strip(input, (offset) => choose(offset));
    explore = new Explore(input, changeBytes, (left) => {
        grid.taken = left;
        grid.draw();
    });
    files = new Files(helper, open);
    makeExamples();
    makeWays();
    listen();
    await takeEarly();
    // (what page/check asks)
    window.noddychest = { Survey, guessAt, repairedOf, input, codec: input.codec, grid, list, helper, choose, reading: (text, way) => reading(input.codec, text, way), bytesOf, guessesOf: () => guessesOf(input), findingOf: () => findingOf(input), repairedText, report: () => reportOf(input, ""), csv: () => csvOf(input).join(""), json: () => jsonOf(input).join("") };
    document.documentElement.dataset.ready = "yes";
}

start();
