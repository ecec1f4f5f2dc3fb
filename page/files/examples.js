// The examples: what each is called, what stands in the field, and for what it is taken.
const text = (it) => Array.from(new TextEncoder().encode(it));
const units = (it) => Array.from(it, (letter) => [letter.charCodeAt(0) & 255, letter.charCodeAt(0) >> 8]).flat();

const literal = (bytes) => `b'${bytes.map((it) => (it === 39 || it === 92 ? `\\${String.fromCharCode(it)}` : it >= 0x20 && it < 0x7f ? String.fromCharCode(it) : `\\x${it.toString(16).padStart(2, "0")}`)).join("")}'`;

// A log in which a writer used Windows-1252 for a while, and lines were cut by bytes later.
function log() {
    const line = (i, word) => [...text(`2026-11-29 09:${String(Math.floor(i / 60) % 60).padStart(2, "0")}:${String(i % 60).padStart(2, "0")} INFO worker-${i % 8} `), ...word, ...text(` id=${i.toString(16).padStart(8, "0")}\n`)];
    const words = ["GET /naïve/route 200", "温度 sensor 21 °C", "crème order 4 EUR paid", "Zürich: cache hit", "4 € refunded"];
    const latin = Array.from("crème for Müller, café", (it) => it.charCodeAt(0));
    const made = [];
    for (let i = 0; i < 6000; i++) {
        const word = text(words[(i * 7) % words.length]);
        if (i > 1500 && i < 1600 && i % 3 === 0) made.push(...line(i, latin));
        else if (i > 4200 && i < 4400 && i % 5 === 0) made.push(...line(i, [...text("buffer full 温度 sen"), 0xe6, 0xb8]));
        else made.push(...line(i, word));
    }
    return made;
}

export const EXAMPLES = [
    { name: "Latin-1", box: "b'Cr\\xc3\\xa8me br\\xc3\\xbbl\\xe9e 5 \\xe2\\x82\\xac \\xf0\\x9f\\x98\\x80'" },
    { name: "cut emoji", box: `00000000  48 65 6c 6c 6f 20 5a c3  bc 72 69 63 68 20 e2 82  |Hello Z..rich ..|
00000010  20 63 61 66 e9 20 f0 9f  98 20 ed a0 80 c0 af ff  | caf. ... ......|
00000020  20 65 6e 64 0a 21 21 0a                           | end.!!.|` },
    { name: "overlong /", box: "GET /files/..%C0%AF..%C0%AFetc/passwd" },
    { name: "log", bytes: log, file: "service.log" },
    { name: "UTF-16", box: () => literal([0xff, 0xfe, ...units("Grüße, 5 €")]) },
    { name: "encoded twice", box: () => literal(text("CrÃ¨me brÃ»lÃ©e, 5 â‚¬")) },
    { name: "CESU-8", box: () => literal([...text("Hi "), 0xed, 0xa0, 0xbd, 0xed, 0xb8, 0x80]) },
    { name: "cut off at the end", box: () => literal([...text("Грюсс"), 0xd0]) },
    { name: "Windows-1252", box: () => literal(Array.from("Déjà vu à la crème", (it) => it.charCodeAt(0))) },
    { name: "Cyrillic, KOI8-R", box: () => literal([0xf0, 0xd2, 0xc9, 0xd7, 0xc5, 0xd4, 0x2c, 0x20, 0xcd, 0xc9, 0xd2, 0x21]) },
    { name: "four scripts", box: "Grüße, Привет, नमस्ते, 你好" },
    { name: "emoji", box: "👩‍🚀 😀 🇨🇭" },
];
// How many stand in the line before “more”.
export const FIRST = 4;
export const boxOf = ({ box }) => (typeof box === "function" ? box() : box ?? "");
