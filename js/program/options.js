// The command line of `noddychest`: its commands and options, which are those of nody(1) as far as both have them.
import { readFileSync } from "node:fs";
import * as util from "node:util";
import { Decoder } from "./calls.js";
import { bytesOf } from "./words.js";

export const AUTO = "auto";
const MOST_SHOWN = 20;
const ALL = ["check", "fix", "list"];

// The words of the command line are wrong.
export class WrongWords extends Error {}

export const COMMANDS = {
    check: { usage: "[OPTION..] [FILE..]", help: "say which files are not valid, and where and why", statuses: "0 valid, 1 invalid bytes" },
    fix: { usage: "[OPTION..] FILE..", help: "replace invalid bytes in files, and leave valid files alone", statuses: "0 fixed or valid, 1 invalid bytes (only with --dry-run)" },
    list: { usage: "[OPTION..] [FILE..]", help: "write a line for each character and each invalid byte", statuses: "0 valid, 1 invalid bytes" },
};

// What follows an option is read by one of these; undefined if it does not take that.
const oneOf = (...words) => (word) => (words.includes(word) ? word : undefined);

function encodingOf(label) {
    if (label === AUTO || label === "bom") return AUTO;
    try {
        return new Decoder(label).encoding;
    } catch {
        return undefined;
    }
}

// A number in decimal, or in hexadecimal after 0x.
function numberOf(word) {
    if (!/^(0[xX][0-9a-fA-F]+|[0-9]+)$/.test(word)) return undefined;
    const number = BigInt(word);
    return number < 1n << 64n ? Number(number) : undefined;
}

const suffixOf = (word) => (word === "" || word.includes("/") ? undefined : bytesOf(word));

// What becomes of invalid bytes, by its word in the command line and in the calls.
const ERRORS = new Map([...["replace", "lossy", "drop", "windows-1252"].map((it) => [it, it]), ["latin1", "latin-1"]]);

// Each option: the commands that take it, its letter, what follows it and how that is read, and its default.
const ENCODING = { name: "encoding", takers: ALL, value: "ENCODING", read: encodingOf, otherwise: "utf-8", help: "the encoding of the input, also --from: utf-8 (default), utf-16le, utf-16be, or auto: by its byte order mark" };
const OPTIONS = [
    ENCODING,
    { ...ENCODING, name: "from", help: null, is: "encoding" },
    { name: "errors", takers: ["fix"], value: "HOW", read: (word) => ERRORS.get(word), otherwise: "replace", help: "replace: one U+FFFD for each invalid byte (default); lossy: one for each maximal subpart, as browsers do; drop: nothing; windows-1252, latin1: each invalid byte of UTF-8 is taken for that" },
    { name: "names", short: "l", takers: ["check"], help: "write only the names of invalid files" },
    { name: "null", short: "0", takers: ["check"], help: "end each name with a NUL instead of a line feed" },
    { name: "text", short: "a", takers: ["check"], help: "take a binary file for text" },
    { name: "verbose", short: "v", takers: ["check"], help: "name valid files too" },
    { name: "max", takers: ["check"], value: "N", read: numberOf, help: "show at most N invalid bytes of a file (20 by default; 0 shows all)" },
    { name: "columns", takers: ["check"], value: "UNIT", read: oneOf("characters", "bytes"), otherwise: "characters", help: "count columns in characters (default) or bytes" },
    { name: "backup", takers: ["fix"], value: "SUFFIX", read: suffixOf, help: "keep the old file under its name with SUFFIX" },
    { name: "dry-run", takers: ["fix"], help: "change nothing, and show the lines that would change" },
    { name: "quiet", short: "q", takers: ALL, help: "say less; check only sets its exit status" },
    { name: "json", takers: ["check", "list"], help: "write an object of JSON on each line" },
    { name: "help", short: "h", takers: ALL, help: "show this help" },
    { name: "version", takers: ALL, help: "show the version" },
];

const PARSED = Object.fromEntries(OPTIONS.map(({ name, short, value }) => [name, { type: value ? "string" : "boolean", ...(short && { short }) }]));

// Reads an option of the command line into what is asked. Throws WrongWords.
function take(asked, command, token, words) {
    const option = OPTIONS.find((it) => it.name === token.name);
    if (!option) throw new WrongWords(`there is no option '${token.rawName.startsWith("--") ? words[token.index] : token.rawName}'`);
    const name = option.is ?? option.name;
    if (option.value && token.value === undefined) throw new WrongWords(`--${name} needs a value`);
    if (!option.value && token.value !== undefined) throw new WrongWords(`--${name} takes no value`);
    if (!option.takers.includes(command)) throw new WrongWords(`${command} does not take --${name}`);
    const value = option.value ? option.read(token.value) : true;
    if (value === undefined) throw new WrongWords(`--${name} does not take '${token.value}'`);
    asked[name] = value;
}

// What is wrong with the words together; undefined if nothing is.
function wrongWith({ command, files, names, null: isNull }) {
    if (command === "fix" && (files.length === 0 || files.includes("-"))) return "fix takes files";
    return isNull && !names ? "-0 goes with -l" : undefined;
}

// What the words after a command ask for; `answer` is a text to write instead. Throws WrongWords.
export function askedBy(command, words) {
    const { tokens } = util.parseArgs({ args: words, options: PARSED, strict: false, allowPositionals: true, tokens: true });
    const asked = { command, files: tokens.filter((it) => it.kind === "positional").map((it) => it.value) };
    for (const { name, otherwise } of OPTIONS) if (otherwise !== undefined) asked[name] = otherwise;
    for (const it of tokens) if (it.kind === "option") take(asked, command, it, words);
    if (asked.help || asked.version) return { ...asked, answer: asked.help ? helpOf(command) : version() };
    const wrong = wrongWith(asked);
    if (wrong) throw new WrongWords(wrong);
    return { ...asked, max: asked.max ?? (asked.json ? 0 : MOST_SHOWN) };
}

// Whether this Node reads command lines as it has to.
export const canRead = () => util.parseArgs?.({ args: [], tokens: true }).tokens !== undefined;

export const version = () => `noddychest ${JSON.parse(readFileSync(new URL("../package.json", import.meta.url), "utf8")).version}`;

export const usageOf = (command) => `usage: noddychest ${command} ${COMMANDS[command].usage}`;

export const SHORT_USAGE = `usage: noddychest ${Object.keys(COMMANDS).join("|")} [OPTION..] [FILE..]; noddychest --help says more`;

export function helpOfAll() {
    const lines = Object.entries(COMMANDS).map(([name, { help }]) => `  noddychest ${name.padEnd(8)} ${help}`);
    return ["usage: noddychest COMMAND [OPTION..] [FILE..]", "", ...lines, "", "noddychest COMMAND --help lists the options of a command."].join("\n");
}

function helpOf(command) {
    const { help, statuses } = COMMANDS[command];
    const shown = OPTIONS.filter((it) => it.help && it.takers.includes(command)).map((it) => {
        const words = `${it.short ? `-${it.short}, ` : "    "}--${it.name}${it.value ? ` ${it.value}` : ""}`;
        return `  ${words.padEnd(26)} ${it.help}`;
    });
    return [usageOf(command), `${help}.`, "", ...shown, "", `Exit status: ${statuses}, 2 wrong arguments, 3 a file could not be read or written.`].join("\n");
}
