// Does what takes long beside the page.
import { codecOf } from "./loading.js";
import { work } from "./work.js";

// A codec for each task, since one waits while another works.
const codecs = {};
let module;
// The last number of each task that was asked for: earlier ones stop.
const last = {};

async function begin({ task, number, ...asked }) {
    try {
        codecs[task] ??= await codecOf(module);
        const result = await work(codecs[task], { task, ...asked }, (news) => postMessage({ number, news }), () => last[task] === number);
        postMessage({ number, result });
    } catch (error) {
        postMessage({ number, error: String(error.message ?? error) });
    }
}

addEventListener("message", ({ data }) => {
    if (data.module) {
        module = data.module;
        return postMessage({ isReady: true });
    }
    last[data.task] = data.number;
    if (!data.isStop) begin(data);
});
