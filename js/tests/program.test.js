// The command `noddychest`: what other processes do meanwhile, and what fails. compare/commands holds its output beside nody(1).
import assert from "node:assert/strict";
import { spawnSync } from "node:child_process";
import { chmodSync, chownSync, closeSync, existsSync, mkdtempSync, openSync, readFileSync, readSync, readdirSync, rmSync, statSync, writeFileSync } from "node:fs";
import { tmpdir } from "node:os";
import { fileURLToPath } from "node:url";
import * as util from "node:util";
import test from "node:test";
import { needs } from "./help.js";

const BIN = fileURLToPath(new URL("../bin.js", import.meta.url));
const canRun = util.parseArgs?.({ args: [], tokens: true }).tokens !== undefined;
const isLinux = process.platform === "linux";
const when = (isThere, why) => ({ skip: canRun ? (isThere ? false : why) : `no command in node ${process.version}` });

// Runs the command, after a line of JavaScript if there is one.
function ran(words, { before = "", ...more } = {}) {
    const it = spawnSync(process.execPath, [...(before ? ["--require", before] : []), BIN, ...words], { encoding: "utf8", input: "", ...more });
    return [it.signal ?? it.status, it.stdout, it.stderr];
}

// A folder with a damaged file, for one test.
function withFile(use) {
    const folder = mkdtempSync(`${tmpdir()}/noddychest-`);
    const path = `${folder}/file`;
    try {
        writeFileSync(path, Buffer.from("a\xffb", "latin1"));
        use(path, folder);
    } finally {
        rmSync(folder, { recursive: true });
    }
}

const filesOf = (folder) => Object.fromEntries(readdirSync(folder).map((it) => [it, readFileSync(`${folder}/${it}`, "latin1")]));

// What `fix` does if JavaScript runs after each call of a function of node:fs.
function fixedWhile(path, call, act, ...words) {
    const folder = mkdtempSync(`${tmpdir()}/noddychest-`);
    const before = `${folder}/before.cjs`;
    try {
        writeFileSync(before, `const fs = require("fs"); const { ${call}: had } = fs; const path = ${JSON.stringify(path)};
            fs.${call} = (...given) => { const made = had(...given); ${act}; return made; }; require("module").syncBuiltinESMExports();`);
        return ran(["fix", ...words, path], { before });
    } finally {
        rmSync(folder, { recursive: true });
    }
}

const CHANGED = "it changed while it was read, and stays as it is\n";

test("what others write while a file is fixed is not lost", when(true), () => {
    const acts = {
        'fs.appendFileSync(path, "more")': "a\xffbmore",
        'fs.writeFileSync(path, "xyz")': "xyz",
        'fs.writeFileSync(`${path}new`, "other"); fs.renameSync(`${path}new`, path)': "other",
    };
    for (const words of [[], ["--backup", ".old"]]) {
        for (const [act, left] of Object.entries(acts)) {
            withFile((path, folder) => {
                assert.deepEqual(fixedWhile(path, "fsyncSync", act, ...words), [3, "", `noddychest: ${path}: ${CHANGED}`], act);
                assert.deepEqual(filesOf(folder), { file: left }, act);
            });
        }
    }
});

test("a file is not fixed by the encoding that it had before another was written", when(true), () => withFile((path, folder) => {
    const other = Buffer.from("n\xc3\xa9n\xc3\xa9\xff\xd8", "latin1");
    const act = `if (made === 0 && !globalThis.wasEnded) { globalThis.wasEnded = true; fs.writeFileSync(path, Buffer.from("${other.toString("hex")}", "hex")); }`;
    for (const words of [[], ["--dry-run"]]) {
        writeFileSync(path, Buffer.from("\ufeffa\ud800b", "utf16le"));
        const told = fixedWhile(path, "readSync", act, "--encoding", "auto", ...words);
        if (!words.length) assert.deepEqual(told, [3, "", `noddychest: ${path}: ${CHANGED}`]);
        assert.deepEqual(readFileSync(path), other);
        assert.deepEqual(Object.keys(filesOf(folder)), ["file"]);
    }
}));

test("of a long line --dry-run shows a part, which begins and ends between characters", when(true), () => withFile((path) => {
    const texts = [["", "é".repeat(5000)], ["a".repeat(9001), "€".repeat(5000)], ["\xff".repeat(9000), ""]];
    for (const [front, back] of texts) {
        writeFileSync(path, Buffer.concat([Buffer.from(`${front}\xff`, "latin1"), Buffer.from(`${back}\n`)]));
        const [status, out] = ran(["fix", "--dry-run", path]);
        const [old, made] = out.split("\n").slice(3);
        assert.deepEqual([status, old.at(-1), made.at(-1)], [1, "…", "…"]);
        assert.equal(old.slice(1).replaceAll("\\xFF", "\ufffd"), made.slice(1));
        assert.ok(!made.includes("\\x"));
    }
}));

test("a file that is removed while it is fixed", when(true), () => withFile((path, folder) => {
    assert.deepEqual(fixedWhile(path, "fsyncSync", "fs.unlinkSync(path)"), [3, "", `noddychest: ${path}: ${CHANGED}`]);
    assert.deepEqual(filesOf(folder), {});
}));

test("a signal leaves the file as it is, and no other", when(isLinux, "signals of Linux"), () => {
    for (const call of ["fchmodSync", "writeSync", "fsyncSync"]) {
        for (const signal of ["SIGTERM", "SIGHUP", "SIGINT"]) {
            withFile((path, folder) => {
                assert.deepEqual(fixedWhile(path, call, `process.kill(process.pid, "${signal}")`, "--backup", ".old"), [signal, "", ""], call);
                assert.deepEqual(filesOf(folder), { file: "a\xffb" }, call);
            });
        }
    }
});

test("a signal once the file is exchanged ends the program too", when(isLinux, "signals of Linux"), () => withFile((path, folder) => {
    assert.deepEqual(fixedWhile(path, "renameSync", 'process.kill(process.pid, "SIGTERM")', "--backup", ".old"), ["SIGTERM", "", ""]);
    assert.deepEqual(filesOf(folder), { file: "a\u00ef\u00bf\u00bdb", "file.old": "a\xffb" });
}));

test("a disk that is full", when(true), () => withFile((path, folder) => {
    const act = 'if (!(given[0] > 2)) return made; throw Object.assign(new Error("ENOSPC: no space left on device, write"), { code: "ENOSPC", errno: -28 })';
    assert.deepEqual(fixedWhile(path, "writeSync", act), [3, "", `noddychest: ${path}: No space left on device\n`]);
    assert.deepEqual(filesOf(folder), { file: "a\xffb" });
}));

test("the owner and the permissions stay", when(process.getuid?.() === 0, "only root may give a file away"), () => withFile((path) => {
    chownSync(path, 1234, 4321);
    chmodSync(path, 0o4640);
    assert.deepEqual(ran(["fix", "-q", path]), [0, "", ""]);
    const { uid, gid, mode } = statSync(path);
    assert.deepEqual([uid, gid, mode & 0o7777], [1234, 4321, 0o4640]);
}));

test("what a group that is lost could do, and others could not, neither may do afterwards", when(process.getuid?.() === 0, "only root may be another user"), () => withFile((path, folder) => {
    chmodSync(folder, 0o777);
    for (const [had, left] of [[0o660, 0o600], [0o606, 0o600], [0o664, 0o644], [0o2754, 0o744]]) {
        writeFileSync(path, "a\xffb", "latin1");
        chownSync(path, 65534, 0);
        chmodSync(path, had);
        assert.deepEqual(ran(["fix", "-q", path], { uid: 65534, gid: 12345 }), [0, "", ""]);
        const { uid, gid, mode } = statSync(path);
        assert.deepEqual([uid, gid, mode & 0o7777], [65534, 12345, left], had.toString(8));
    }
}));

test("output that cannot be written", when(existsSync("/dev/full"), "no /dev/full"), () => withFile((path) => {
    const full = openSync("/dev/full", "w");
    try {
        for (const words of [["check", path], ["list", path], ["--help"], ["check", "--help"]]) {
            const [status, , told] = ran(words, { stdio: ["ignore", full, "pipe"] });
            assert.deepEqual([status, told], [3, "noddychest: cannot write: No space left on device\n"], words.join(" "));
        }
    } finally {
        closeSync(full);
    }
}));

test("nobody reads the output any more: it ends with 3, and says nothing", when(!needs("bash"), "no bash here"), () => withFile((path) => {
    writeFileSync(path, "\xff\n".repeat(200000), "latin1");
    for (const command of ["check --max 0", "list"]) {
        const it = spawnSync("bash", ["-c", `"$0" "$1" ${command} "$2" | head -c 10 >/dev/null; echo "\${PIPESTATUS[0]}"`, process.execPath, BIN, path], { encoding: "utf8" });
        assert.deepEqual([it.stdout, it.stderr], ["3\n", ""], command);
    }
}));

test("standard input that does not wait has not ended", when(isLinux && !needs("python3"), "no python3 here"), () => {
    const program = `
import os, subprocess, sys, time
reader, writer = os.pipe()
os.set_blocking(reader, False)
os.write(writer, b"abc")
it = subprocess.Popen(sys.argv[1:], stdin=reader)
time.sleep(0.7)
os.write(writer, b"abc\\xff")
os.close(writer)
sys.exit(it.wait())
`;
    const it = spawnSync("python3", ["-c", program, process.execPath, BIN, "check"], { encoding: "utf8" });
    assert.deepEqual([it.status, it.stdout.split("\n")[0].slice(0, 16), it.stderr], [1, "-:1:7: offset 6:", ""]);
});

test("standard input whose front another process has read", when(isLinux, "offsets of descriptors, as Linux shows them"), () => withFile((path) => {
    // (NUL at the front makes a file binary, and a mark its encoding)
    for (const front of ["\0\0\xff\n", "\xff\xfea\0"]) {
        writeFileSync(path, Buffer.from(`${front}caf\xe9 \xe9t\xe9\n`, "latin1"));
        for (const words of [["check"], ["check", "--encoding", "auto"]]) {
            const file = openSync(path, "r");
            readSync(file, Buffer.alloc(4), 0, 4, null);
            const [status, out, told] = ran(words, { stdio: [file, "pipe", "pipe"] });
            closeSync(file);
            assert.deepEqual([status, out.match(/offset \d+|not valid.*/g)], [1, ["offset 3", "offset 5", "offset 7", "not valid UTF-8: 3 invalid bytes"]]);
            assert.equal(told, words.length > 1 ? "" : "noddychest: -: looks like Windows-1252: try fix --errors windows-1252\n");
        }
    }
}));

test("a file that is the output too", when(isLinux, "descriptors of Linux"), () => withFile((path) => {
    for (const command of ["check", "list"]) {
        const end = openSync(path, "a");
        const [status, , told] = ran([command, path], { stdio: ["ignore", end, "pipe"] });
        closeSync(end);
        assert.deepEqual([status, told, readFileSync(path, "latin1")], [3, `noddychest: ${path}: it is the output too\n`, "a\xffb"]);
    }
}));

test("help and version", when(true), () => {
    assert.deepEqual(ran(["--version"]), [0, `noddychest ${JSON.parse(readFileSync(new URL("../package.json", import.meta.url))).version}\n`, ""]);
    assert.deepEqual(ran(["list", "--version"])[1], ran(["--version"])[1]);
    for (const words of [[], ["nonsense"], ["toString"]]) assert.equal(ran(words)[0], 2);
    const [status, text] = ran(["-h"]);
    assert.deepEqual([status, text.match(/^  noddychest /gm).length], [0, 3]);
    for (const it of ["check", "list", "fix"]) assert.match(ran([it, "--help"])[1], new RegExp(`^usage: noddychest ${it} [^]*\n  -h, --help [^]*\nExit status: 0 `));
});

test("a Node without what it needs says so", when(true), () => {
    const folder = mkdtempSync(`${tmpdir()}/noddychest-`);
    try {
        writeFileSync(`${folder}/before.cjs`, 'require("util").parseArgs = undefined; require("module").syncBuiltinESMExports();');
        const [status, out, told] = ran(["check"], { before: `${folder}/before.cjs` });
        assert.deepEqual([status, out, told], [3, "", `noddychest: this command needs Node 16.17, or 18.7 or later, and this is ${process.version}\n`]);
    } finally {
        rmSync(folder, { recursive: true });
    }
});

test("the modules of the command are those that the package has", () => {
    const named = JSON.parse(readFileSync(new URL("../package.json", import.meta.url))).files.filter((it) => it.startsWith("program/"));
    assert.deepEqual(named, readdirSync(new URL("../program/", import.meta.url)).sort().map((it) => `program/${it}`));
});
