// `load`: the calls of the package without an await at the top, in Node, in its workers, and as browsers have it.
import assert from "node:assert/strict";
import { execFileSync } from "node:child_process";
import { copyFileSync, mkdtempSync, readFileSync, rmSync } from "node:fs";
import { createRequire } from "node:module";
import { tmpdir } from "node:os";
import { fileURLToPath } from "node:url";
import test from "node:test";
import vm from "node:vm";
import { Worker } from "node:worker_threads";
import * as installed from "noddychest";
import { load } from "noddychest/load";
import { chances, damaged, hexOf, ofHex } from "./help.js";

const address = new URL("../noddychest.wasm", import.meta.url);
const wasm = readFileSync(address);
const shared = new Uint8Array(new SharedArrayBuffer(wasm.length));
shared.set(wasm);
const sure = (n) => assert.deepEqual(n.firstFault(ofHex("41ff")), { offset: 1, length: 1, char: null, error: "NonUtf8Byte" });

test("without an argument it gives the calls that import and require give", async () => {
    const [n, again] = [await load(), await createRequire(import.meta.url)("noddychest/load").load()];
    assert.deepEqual({ ...n }, { ...installed });
    assert.equal(again, n);
});

test("bytes of any kind, a module, addresses, and what was promised", async () => {
    const given = [wasm, new Uint8Array(wasm).buffer, new DataView(new Uint8Array(wasm).buffer), shared, new WebAssembly.Module(wasm), address, address.href, Promise.resolve(wasm), { href: address.href }];
    given.push(vm.runInNewContext("new Uint8Array(given)", { given: [...wasm] }));
    if (typeof Response === "function") given.push(new Response(wasm), Promise.resolve(new Response(wasm)));
    for (const it of given) {
        const n = await load(it);
        sure(n);
        assert.deepEqual(Object.keys(n).sort(), Object.keys(installed).sort());
        assert.equal(n.FaultError, installed.FaultError);
        assert.notEqual(n.pieces, installed.pieces);
    }
});

test("what is no module of the package is told by a sentence", async () => {
    const none = { name: "TypeError", message: "noddychest: its module of WebAssembly is bytes, a WebAssembly.Module, a Response, a Request or a URL" };
    for (const it of [null, 5, true, {}, [], Symbol("wasm"), () => {}, Promise.resolve()]) await assert.rejects(load(it), none);
    await assert.rejects(load(new WebAssembly.Module(Uint8Array.of(0, 0x61, 0x73, 0x6d, 1, 0, 0, 0))), { name: "TypeError", message: "noddychest: this module of WebAssembly is not one of the package's" });
    await assert.rejects(load(new Uint8Array(8)), WebAssembly.CompileError);
    await assert.rejects(load(new URL("none.wasm", address)), { message: /^noddychest: file:.*none\.wasm did not load \(ENOENT/ });
    await assert.rejects(load("none.wasm"), { message: /^noddychest: none\.wasm did not load \(/ });
    await assert.rejects(load(Promise.reject(new Error("no"))), { message: "no" });
    if (typeof Response !== "function") return;
    const used = new Response(wasm);
    await used.arrayBuffer();
    await assert.rejects(load(used), { message: /^noddychest: the response did not load \(/ });
    await assert.rejects(load(new Response("", { status: 404 })), { message: "noddychest: the response did not load (404)" });
});

test("two instances share nothing: iterators, decoders and recoders of both, in turn", async () => {
    const [one, two] = [await load(wasm), await load(wasm)];
    const chance = chances(41);
    const texts = [damaged(chance, 30_000), damaged(chance, 30_000)];
    const all = ([n, bytes]) => [n.pieces(bytes), n.faults(bytes), n.piecesBack(bytes, "utf-16be"), new n.Decoder().feed(bytes), new n.Decoder("utf-16be").feedFaults(bytes)];
    const want = texts.flatMap((bytes) => all([installed, bytes]).map((it) => [...it]));
    const iterators = [[one, texts[0]], [two, texts[1]]].flatMap(all);
    const found = iterators.map(() => []);
    const recoders = [one, two].map((n) => new n.Recoder("utf-8", "utf-16le"));
    for (let isOver = false; !isOver; ) {
        isOver = true;
        for (const [at, it] of iterators.entries()) {
            const { done, value } = it.next();
            if (!done) found[at].push(value);
            isOver &&= done;
        }
    }
    assert.deepEqual(found, want);
    assert.deepEqual(["e2", "82", "ac"].map((it) => recoders.map((recoder) => hexOf(recoder.feed(ofHex(it))))), [["", ""], ["", ""], ["ac20", "ac20"]]);
    assert.throws(() => one.recode(ofHex("ff"), "utf-8", "utf-8", { fatal: true }), two.FaultError);
});

// Runs a worker of Node, which is sent some bytes before it runs, and returns its reply.
async function asked(program, data) {
    const worker = new Worker(program, { eval: typeof program === "string", workerData: data });
    const heard = [];
    try {
        for (let at = 0; at < 5; at++) worker.postMessage(Uint8Array.from({ length: at + 1 }, (_, i) => (i === at ? 0xff : 0x41)));
        await new Promise((done, fail) => {
            worker.on("message", (it) => heard.push(it) === 5 && done());
            worker.on("error", fail);
        });
    } finally {
        await worker.terminate();
    }
    return heard;
}

test("in workers of Node, with a module that was sent there, messages that came before it was loaded are heard", async () => {
    const answer = 'const { parentPort, workerData } = require("node:worker_threads"); const loaded = got.then(({ load }) => load(workerData ?? undefined)); parentPort.on("message", async (data) => parentPort.postMessage((await loaded).firstFault(data).offset));';
    const gets = ["Promise.resolve(require(NAME))", "import(NAME)"].map((it) => it.replace("NAME", JSON.stringify(fileURLToPath(new URL("../load.cjs", import.meta.url)))));
    for (const get of [gets[0], gets[1].replace("load.cjs", "load-node.js")]) {
        for (const data of [undefined, new WebAssembly.Module(wasm), shared]) assert.deepEqual(await asked(`const got = ${get}; ${answer}`, data), [0, 1, 2, 3, 4]);
    }
});

test("the import of load.js asks for nothing; load fetches once, and again where it failed", async () => {
    const { fetch } = globalThis;
    const fetched = [];
    try {
        globalThis.fetch = async (it) => {
            fetched.push(String(it));
            return fetched.length > 1 ? { ok: true, arrayBuffer: async () => readFileSync(new URL(it)) } : { ok: false, status: 503 };
        };
        const web = await import("../load.js");
        assert.deepEqual([fetched.length, Object.keys(web)], [0, ["load"]]);
        const told = await Promise.allSettled([web.load(), web.load()]);
        assert.deepEqual(told.map((it) => it.reason?.message.replace(/file:.*\//, "").replace("-simd", "")), Array(2).fill("noddychest: noddychest.wasm did not load (503)"));
        const [n, again] = await Promise.all([web.load(), web.load()]);
        sure(n);
        assert.deepEqual([again, await web.load(), fetched.length], [n, n, 2]);
        const other = await web.load("https://example.org/it.wasm").catch((it) => it.message);
        assert.deepEqual([fetched[2], other.replace(/\(.*/, "")], ["https://example.org/it.wasm", "noddychest: https://example.org/it.wasm did not load "]);
    } finally {
        globalThis.fetch = fetch;
    }
});

test("no entry but web.js has an await at the top", () => {
    for (const it of ["load.js", "load-node.js", "in-node.js", "node.js", "api.js", "bytes.js", "codec.js", "loading.js"]) assert.doesNotMatch(readFileSync(new URL(`../${it}`, import.meta.url), "utf8"), /^(?:export const .*= )?await /m, it);
});

test("a module that was copied elsewhere, by a path with odd letters", async () => {
    const folder = mkdtempSync(`${tmpdir()}/noddychest #%3f`);
    try {
        for (const it of ["in-node.js", "in-node.cjs", "core.cjs", "load-node.js", "load.cjs", "noddychest.wasm", "noddychest-simd.wasm"]) copyFileSync(new URL(`../${it}`, import.meta.url), `${folder}/${it}`);
        copyFileSync(new URL("../package.json", import.meta.url), `${folder}/package.json`);
        const told = 'load().then((n) => console.log(n.firstFault(Uint8Array.of(65, 255)).offset));';
        for (const get of ['const { load } = require("./load.cjs");', 'const load = async () => (await import("./load-node.js")).load();']) {
            assert.equal(execFileSync(process.execPath, ["-e", `${get} ${told}`], { cwd: folder, encoding: "utf8" }), "1\n");
        }
    } finally {
        rmSync(folder, { recursive: true });
    }
});
