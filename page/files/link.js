// What an address keeps: the bytes, their encoding, the chosen offset, and the guess in use.
import { FORMS } from "./codec.js";
import { bytesOf } from "./input.js";
import { isLabel } from "./repair.js";

// Up to so many bytes are kept in hexadecimal, which people can read and change, and up to so many in base64.
const IN_HEX = 2048;
export const IN_LINK = 48 * 1024;
const HOWS = ["utf-8", "mixed", "twice", "surrogates", "cut"];

const toBase64 = (bytes) => btoa(Array.from(bytes, (it) => String.fromCharCode(it)).join("")).replace(/\+/g, "-").replace(/\//g, "_").replace(/=+$/, "");

// The part of an address after #; nothing if there are too many bytes.
export function linkOf({ bytes, form, at, how }) {
    if (!bytes || bytes.length > IN_LINK) return "";
    const hex = () => Array.from(bytes, (it) => it.toString(16).padStart(2, "0")).join("");
    const parts = [bytes.length <= IN_HEX ? `hex=${hex()}` : `base64=${toBase64(bytes)}`];
    if (form) parts.push(`from=${FORMS[form]}`);
    if (at) parts.push(`at=${at}`);
    if (how) parts.push(`how=${how}`);
    return `#${parts.join("&")}`;
}

// What an address keeps, or null; `told` if it keeps no good bytes.
export function linked(hash) {
    const said = new URLSearchParams(hash.slice(1));
    const way = ["hex", "base64"].find((it) => said.has(it));
    if (!way) return null;
    const { bytes, told } = bytesOf(said.get(way), way === "hex" ? "hexadecimal" : "base64");
    const [at, how] = [Number(said.get("at")), said.get("how")];
    return { bytes, told, form: Math.max(FORMS.indexOf(said.get("from")), 0), at: Number.isSafeInteger(at) && at >= 0 && said.has("at") ? at : null, how: HOWS.includes(how) || isLabel(how) ? how : "" };
}
