// Runs a command on its inputs, one by one. The status is that of the worst.
import { InputError } from "./inputs.js";
import { COMMANDS, SHORT_USAGE, WrongWords, askedBy, canRead, helpOfAll, usageOf, version } from "./options.js";
import { Output, OutputError, complain, reasonOf, shown, tell } from "./outputs.js";
import { bytesOf, wordsAsBytes } from "./words.js";

const [WRONG, FAILED] = [2, 3];
// (what a command does not need takes time to load)
const RUN = {
    check: async () => (await import("./check.js")).check,
    fix: async () => (await import("./fix.js")).fix,
    list: async () => (await import("./list.js")).list,
};

// The status for one input; one that cannot be read is reported.
async function statusOf(run, out, name, asked) {
    try {
        return await run(out, name, asked);
    } catch (error) {
        if (error instanceof OutputError || !(error instanceof InputError || error.code)) throw error;
        out.flush();
        complain(error.input ?? bytesOf(name), error instanceof InputError ? error.message : reasonOf(error));
        return FAILED;
    }
}

// Writes with a function. (nobody may read the output any more: that is not said)
async function writing(write) {
    const out = new Output();
    try {
        const status = await write(out);
        out.flush();
        return status;
    } catch (error) {
        if (!(error instanceof OutputError)) throw error;
        if (error.cause.code !== "EPIPE") complain(Buffer.from("cannot write"), reasonOf(error.cause));
        return FAILED;
    }
}

async function runAll(out, asked) {
    const run = await RUN[asked.command]();
    let worst = 0;
    for (const name of asked.files.length ? asked.files : ["-"]) worst = Math.max(worst, await statusOf(run, out, name, asked));
    return worst;
}

function answered(text) {
    return writing((out) => {
        out.write(`${text}\n`);
        return 0;
    });
}

function runCommand(command, words) {
    try {
        const asked = askedBy(command, words);
        return asked.answer ? answered(asked.answer) : writing((out) => runAll(out, asked));
    } catch (error) {
        if (!(error instanceof WrongWords)) throw error;
        tell(`noddychest: ${shown(bytesOf(error.message))}\n${usageOf(command)}`);
        return WRONG;
    }
}

export async function main(given) {
    const [command, ...words] = wordsAsBytes(given);
    if (!canRead()) {
        tell(`noddychest: this command needs Node 16.17, or 18.7 or later, and this is ${process.version}`);
        return FAILED;
    }
    if (command === "--help" || command === "-h") return answered(helpOfAll());
    if (command === "--version") return answered(version());
    if (Object.keys(COMMANDS).includes(command)) return runCommand(command, words);
    tell(SHORT_USAGE);
    return WRONG;
}
