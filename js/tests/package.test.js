// What is in the package, and the module in it.
import assert from "node:assert/strict";
import { execFileSync, spawnSync } from "node:child_process";
import { mkdtempSync, readFileSync, rmSync, writeFileSync } from "node:fs";
import { tmpdir } from "node:os";
import { fileURLToPath } from "node:url";
import test from "node:test";
import { hasVectors } from "../codec.js";
import { needs } from "./help.js";

const at = (path) => fileURLToPath(new URL(path, import.meta.url));
const MEMORY64 = "process.exit(WebAssembly.validate(new Uint8Array([0, 0x61, 0x73, 0x6d, 1, 0, 0, 0, 5, 3, 1, 4, 1])) ? 0 : 1)";
const words = [[], ["--experimental-wasm-memory64"]].find((it) => spawnSync(process.execPath, [...it, "-e", MEMORY64]).status === 0);

test("the module asks for nothing", () => {
    for (const it of ["../noddychest.wasm", "../noddychest-simd.wasm"]) {
        if (it.includes("simd") && !hasVectors()) continue;
        assert.deepEqual(WebAssembly.Module.imports(new WebAssembly.Module(readFileSync(at(it)))), []);
    }
});

test("the lowered module answers as the one with 64-bit memories does", { skip: words ? false : "no node here with 64-bit memories" }, () => {
    const given = [at("both.js"), "../../generated/noddychest.wasm", "../noddychest.wasm", "6000"];
    assert.equal(execFileSync(process.execPath, [...words, ...given], { encoding: "utf8" }), "0 of 6000 differ\n");
});

test("the module with vectors answers as the one without does", { skip: hasVectors() ? false : "no vectors in this node" }, () => {
    const given = [at("both.js"), "../noddychest.wasm", "../noddychest-simd.wasm", "6000"];
    assert.equal(execFileSync(process.execPath, given, { encoding: "utf8" }), "0 of 6000 differ\n");
});

test("multi3.c multiplies as the compiler does", { skip: needs("cc") }, () => {
    const folder = mkdtempSync(`${tmpdir()}/noddychest-`);
    try {
        writeFileSync(`${folder}/try.c`, `#define __multi3 product\n#include "${at("../../generated/multi3.c")}"
static half seed = 1;
static half next(void) { half it = seed = seed * 6364136223846793005u + 1442695040888963407u; return it % 5 == 0 ? -(it >> 61) : it % 5 == 1 ? it >> 32 : it ^ it >> 29; }
int main(void) {
    for (int i = 0; i < 3000000; i++) {
        half a = next(), b = next(), c = next(), d = next();
        unsigned __int128 want = ((unsigned __int128)b << 64 | a) * ((unsigned __int128)d << 64 | c);
        whole have = product(a, b, c, d);
        if (have.low != (half)want || have.high != (half)(want >> 64)) return 1;
    }
    return 0;
}\n`);
        execFileSync("cc", ["-O1", "-o", `${folder}/try`, `${folder}/try.c`]);
        execFileSync(`${folder}/try`);
    } finally {
        rmSync(folder, { recursive: true });
    }
});

test("licences are those of the repository", () => {
    for (const it of ["LICENSE-MIT", "LICENSE-APACHE"]) assert.equal(readFileSync(at(`../${it}`), "utf8"), readFileSync(at(`../../${it}`), "utf8"));
});

test("the version is that of the header", () => {
    const header = readFileSync(at("../../c/noddychest.h"), "utf8");
    const version = ["MAJOR", "MINOR", "PATCH"].map((it) => header.match(new RegExp(`NODY_VERSION_${it} (\\d+)`))[1]).join(".");
    assert.equal(JSON.parse(readFileSync(at("../package.json"), "utf8")).version, version);
});

test("packed, installed offline and imported", { skip: needs("npm") }, () => {
    const folder = mkdtempSync(`${tmpdir()}/noddychest-`);
    try {
        const npm = (...given) => execFileSync("npm", [...given, "--offline", "--no-audit", "--no-fund", "--loglevel=error", `--cache=${folder}/cache`], { cwd: folder, encoding: "utf8" });
        const [packed] = JSON.parse(npm("pack", at(".."), "--json"));
        const named = JSON.parse(readFileSync(at("../package.json"), "utf8")).files;
        assert.deepEqual(packed.files.map((it) => it.path).sort(), [...named, "README.md", "package.json"].sort());
        writeFileSync(`${folder}/package.json`, "{}");
        npm("install", `./${packed.filename}`);
        writeFileSync(`${folder}/used.mjs`, 'import { firstFault } from "noddychest"; console.log(firstFault(Uint8Array.of(65, 255)).error);');
        writeFileSync(`${folder}/used.cjs`, 'console.log(require("noddychest").firstFault(Uint8Array.of(65, 255)).error);');
        const loads = 'load().then((n) => console.log(n.firstFault(Uint8Array.of(65, 255)).error));';
        writeFileSync(`${folder}/loads.mjs`, `import { load } from "noddychest/load"; ${loads}`);
        writeFileSync(`${folder}/loads.cjs`, `const { load } = require("noddychest/load"); ${loads}`);
        assert.equal(execFileSync(`${folder}/node_modules/.bin/noddychest`, ["--version"], { encoding: "utf8" }), `noddychest ${packed.version}\n`);
        for (const it of ["used.mjs", "used.cjs", "loads.mjs", "loads.cjs"]) assert.equal(execFileSync(process.execPath, [it], { cwd: folder, encoding: "utf8" }), "NonUtf8Byte\n");
    } finally {
        rmSync(folder, { recursive: true });
    }
});

test("the types are those of the calls", { skip: needs("tsc") }, () => {
    const words = ["--noEmit", "--strict", "--exactOptionalPropertyTypes", "--target", "es2022", "--module", "node16", "--moduleResolution", "node16"];
    for (const more of [[at("types.ts")], ["--lib", "es2022", at("without-dom.ts")]]) assert.equal(spawnSync("tsc", [...words, ...more], { encoding: "utf8" }).stdout, "");
});

test("what is exported is what the types declare", async () => {
    const declared = [...readFileSync(at("../index.d.ts"), "utf8").matchAll(/^export (?:function|class|const) (\w+)/gm)].map((it) => it[1]);
    assert.deepEqual(Object.keys(await import("noddychest")).sort(), declared.sort());
    assert.deepEqual(Object.keys(await import("noddychest/load")), [...readFileSync(at("../load.d.ts"), "utf8").matchAll(/^export (?:function|class|const) (\w+)/gm)].map((it) => it[1]));
    const told = (name) => readFileSync(at(`../${name}`), "utf8").match(/^export const \{(.*)\} = .*/m)[1];
    assert.equal(told("web.js"), told("node.js"));
});

test("a module that is not fetched, or not there, is told by its address", async () => {
    const { fetch } = globalThis;
    const told = [[() => Promise.reject(new TypeError("Failed to fetch")), "Failed to fetch"], [async () => ({ ok: false, status: 404 }), "404"]];
    try {
        for (const [given, why] of told) {
            globalThis.fetch = given;
            await assert.rejects(import(`../web.js?${why}`), { message: new RegExp(`^noddychest: file:.*/noddychest(-simd)?\\.wasm did not load \\(${why}\\)$`) });
        }
    } finally {
        globalThis.fetch = fetch;
    }
});

test("the README's examples print what they say", () => {
    const text = readFileSync(at("../README.md"), "utf8");
    for (const [, code] of text.matchAll(/```js[^\n]*\n([^]*?)```/g)) {
        const said = [...code.matchAll(/^\/\/ (.*)$/gm)].map((it) => it[1]).join("\n");
        const ran = execFileSync(process.execPath, ["--input-type=module", "-e", code], { cwd: at(".."), encoding: "utf8" });
        assert.equal(ran.trimEnd(), said);
    }
});
