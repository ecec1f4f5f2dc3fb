// A file that is written anew beside the old one, and gets its name once all is on the disk.
import { randomBytes } from "node:crypto";
import fs from "node:fs";
import { InputError, aboutOf } from "./inputs.js";
import { reasonOf, writeAll } from "./outputs.js";

const CHANGED = "it changed while it was read, and stays as it is";
const SIGNALS = ["SIGINT", "SIGTERM", "SIGHUP", "SIGQUIT", "SIGALRM", "SIGXCPU"];

const stampOf = ({ dev, ino, size, mtimeNs, ctimeNs }) => [dev, ino, size, mtimeNs, ctimeNs].join();
const contentsOf = ({ dev, ino, size, mtimeNs }) => [dev, ino, size, mtimeNs].join();

function ignoring(call) {
    try {
        return call();
    } catch {
        return undefined;
    }
}

// Lets signals be seen, which come between the turns of the event loop.
const turn = () => new Promise((resolve) => setImmediate(resolve));

// Lets signals that end the program remove a file first. Returns what undoes that.
function onSignals(remove) {
    const listeners = SIGNALS.map((name) => [name, () => {
        remove();
        undo();
        process.kill(process.pid, name);
    }]);
    const undo = () => listeners.forEach(([name, it]) => process.removeListener(name, it));
    for (const [name, it] of listeners) ignoring(() => process.on(name, it));
    return undo;
}

// Gives a new file the owner, the group and the permissions of another one, as far as that is allowed. With another owner or group it is never
// set-user-ID or set-group-ID. With another group, that group and others may do what both could: each of the two now has users who belonged
// to the other. (Node sees no access control lists and no extended attributes)
function takePermissions(file, { uid, gid, mode }) {
    [Number(uid), -1].some((owner) => ignoring(() => fs.fchownSync(file, owner, Number(gid)) ?? true));
    const now = fs.fstatSync(file, { bigint: true });
    let left = Number(mode) & 0o7777;
    const both = left & (left >> 3) & 0o7;
    if (now.gid !== gid) left = (left & 0o1700) | (both << 3) | both;
    if (now.gid !== gid || now.uid !== uid) left &= 0o1777;
    fs.fchmodSync(file, left);
}

function folderOf(path) {
    const end = Math.max(path.lastIndexOf("/"), process.platform === "win32" ? path.lastIndexOf("\\") : -1) + 1;
    return path.subarray(0, end);
}

// Sees to it that the new name is there after a failure of power. (not all systems can)
function syncFolder(folder) {
    ignoring(() => {
        const file = fs.openSync(folder.length ? folder : ".", "r");
        ignoring(() => fs.fsyncSync(file));
        fs.closeSync(file);
    });
}

// Gives the old file a second name, which has to be free, and which changes no contents. Returns what the file is then.
function keepOld(input, target, old) {
    try {
        fs.linkSync(target, old);
    } catch (error) {
        throw new InputError(old, reasonOf(error));
    }
    const now = aboutOf(input.file);
    return contentsOf(now) === contentsOf(input.about) ? now : input.about;
}

// Gives the new file its name, unless another process changed or renamed the old one, which is looked at last.
function exchange(input, target, temporary, suffix) {
    const old = suffix && Buffer.concat([target, suffix]);
    let isLinked = false;
    try {
        const about = old ? keepOld(input, target, old) : input.about;
        isLinked = Boolean(old);
        const now = ignoring(() => fs.lstatSync(target, { bigint: true }));
        if (!now || stampOf(now) !== stampOf(about)) throw new InputError(input.name, CHANGED);
        fs.renameSync(temporary, target);
        isLinked = false;
    } finally {
        if (isLinked) ignoring(() => fs.unlinkSync(old));
    }
}

async function write(file, input, parts) {
    takePermissions(file, input.about);
    for (const part of parts) {
        writeAll(file, part);
        await turn();
    }
    fs.fsyncSync(file);
}

// Replaces the file of an input by parts that are made of it. Node has no locks of files: two runs at once are told apart by the last look.
export async function replaceFile(input, parts, suffix) {
    const target = fs.lstatSync(input.name).isSymbolicLink() ? fs.realpathSync.native(input.name, { encoding: "buffer" }) : input.name;
    const folder = folderOf(target);
    const temporary = Buffer.concat([folder, Buffer.from(`.noddychest-${randomBytes(8).toString("hex")}`)]);
    const remove = () => ignoring(() => fs.unlinkSync(temporary));
    const undo = onSignals(remove);
    try {
        const file = fs.openSync(temporary, "wx", 0o600);
        try {
            await write(file, input, parts);
        } finally {
            fs.closeSync(file);
        }
        await turn();
        exchange(input, target, temporary, suffix);
        syncFolder(folder);
        await turn();
    } catch (error) {
        remove();
        throw error instanceof InputError ? error : new InputError(input.name, reasonOf(error));
    } finally {
        undo();
    }
}
