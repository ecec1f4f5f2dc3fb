// What bundlers make of programs that use the package, for browsers and for Node, as in the README. All run under Node: there
// those for browsers fetch from files.
import assert from "node:assert/strict";
import { copyFileSync, mkdirSync, mkdtempSync, readFileSync, rmSync, writeFileSync } from "node:fs";
import { execFileSync } from "node:child_process";
import { tmpdir } from "node:os";
import { fileURLToPath } from "node:url";
import test from "node:test";
import { needs } from "./help.js";

const at = (path) => fileURLToPath(new URL(path, import.meta.url));
const { files } = JSON.parse(readFileSync(at("../package.json"), "utf8"));
const USED = `const bytes = Uint8Array.of(0x68, 0xc3, 0xa9, 0xe2, 0x82, 0x41);
const decoder = new Decoder("utf-8");
const pieces = [...decoder.feed(bytes), ...decoder.finish()];
console.log(pieces.length, firstFault(bytes).offset, recode(bytes, "utf-8", "utf-16le").length);
`;
const PROGRAM = `import { Decoder, firstFault, recode } from "noddychest";
${USED}`;
// (a script that is no module awaits in a function)
const LOADING = `import { load } from "noddychest/load";
async function main() {
    const { Decoder, firstFault, recode } = await load(globalThis.address);
    ${USED}}
main();
`;
const TOLD = "5 3 10\n";
const FETCHING = `import { readFileSync } from "node:fs";
globalThis.fetch = async (address) => ({ ok: true, arrayBuffer: async () => readFileSync(new URL(address)) });
globalThis.address = process.argv[3] && new URL(process.argv[3], import.meta.url);
await import(process.argv[2]);
`;
const CONFIG = `const made = (name) => ({ filename: name, path: new URL("site", import.meta.url).pathname });
export default [
    { mode: "production", entry: "./app.js", target: ["web", "es2022"], output: { ...made("app.js"), module: true }, experiments: { topLevelAwait: true, outputModule: true } },
    { mode: "production", entry: "./app.js", target: "node16", output: made("node.cjs"), externals: { noddychest: "commonjs noddychest" } },
];
`;

// For a browser, as which `fetching.js` runs a bundle.
const inBrowser = (...words) => ["fetching.js", ...words];

// In a folder with the installed package: makes bundles in site/. Gives what Node is to run.
const WAYS = {
    esbuild: (run) => {
        run("esbuild", "app.js", "loading.js", "--bundle", "--format=esm", "--target=es2022", "--outdir=site");
        run("esbuild", "loading.js", "--bundle", "--format=iife", "--target=es2020", "--outfile=site/classic.cjs");
        run("esbuild", "app.js", "--bundle", "--platform=node", "--external:noddychest", "--outfile=site/node.cjs");
        for (const it of ["app", "loading"]) {
            run("esbuild", `${it}.js`, "--bundle", "--platform=node", "--format=esm", `--outfile=site/${it}-in.mjs`);
            run("esbuild", `${it}.js`, "--bundle", "--platform=node", "--minify", `--outfile=site/${it}-in.cjs`);
        }
        const inNode = ["site/node.cjs", "site/app-in.mjs", "site/loading-in.mjs", "site/app-in.cjs", "site/loading-in.cjs"].map((it) => [it]);
        return [inBrowser("./site/app.js"), inBrowser("./site/loading.js"), inBrowser("./site/classic.cjs", "site/noddychest.wasm"), ...inNode];
    },
    rollup: (run) => {
        run("rollup", "direct.js", "--format", "es", "--file", "site/app.js");
        run("rollup", "direct-loading.js", "--format", "es", "--file", "site/loading.js");
        run("rollup", "app.js", "--format", "cjs", "--external", "noddychest", "--file", "site/node.cjs");
        return [inBrowser("./site/app.js"), inBrowser("./site/loading.js"), ["site/node.cjs"]];
    },
    webpack: (run) => {
        run("webpack", "--config", "webpack.config.mjs");
        return [inBrowser("./site/app.js"), ["site/node.cjs"]];
    },
};

function put(folder) {
    const package_ = `${folder}/node_modules/noddychest`;
    for (const it of [`${package_}/program`, `${folder}/site`]) mkdirSync(it, { recursive: true });
    for (const it of [...files, "package.json"]) copyFileSync(at(`../${it}`), `${package_}/${it}`);
    for (const it of files.filter((name) => name.endsWith(".wasm"))) copyFileSync(at(`../${it}`), `${folder}/site/${it}`);
    // (rollup alone finds no packages: its plugin node-resolve does)
    const direct = { "direct.js": PROGRAM.replace('"noddychest"', '"./node_modules/noddychest/web.js"'), "direct-loading.js": LOADING.replace('"noddychest/load"', '"./node_modules/noddychest/load.js"') };
    const texts = { "package.json": '{ "type": "module" }', "app.js": PROGRAM, "loading.js": LOADING, ...direct, "fetching.js": FETCHING, "webpack.config.mjs": CONFIG };
    for (const [name, text] of Object.entries(texts)) writeFileSync(`${folder}/${name}`, text);
}

for (const [tool, make] of Object.entries(WAYS)) {
    test(`bundles of ${tool} run in Node, and as in a browser`, { skip: needs(tool) }, () => {
        const folder = mkdtempSync(`${tmpdir()}/noddychest-`);
        const run = (...words) => execFileSync(words[0], words.slice(1), { cwd: folder, encoding: "utf8", stdio: ["ignore", "pipe", "pipe"] });
        try {
            put(folder);
            for (const words of make(run)) assert.equal(run(process.execPath, ...words), TOLD, words.join(" "));
        } finally {
            rmSync(folder, { recursive: true });
        }
    });
}
