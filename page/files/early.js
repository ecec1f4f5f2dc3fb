// Keeps what is pasted, dropped or chosen before the module is there.
window.early = (() => {
    const early = {};
    const keep = (event) => {
        const data = event.clipboardData ?? event.dataTransfer;
        const text = data?.getData("text/plain");
        if (event.type === "drop" || (text && event.target.tagName !== "TEXTAREA")) event.preventDefault();
        if (text) early.text = document.getElementById("box").value = text;
        else if (data?.files.length) early.files = [...data.files];
    };
    const chosen = (event) => event.target.type === "file" && (early.files = [...event.target.files]);
    const over = (event) => event.preventDefault();
    const all = { paste: keep, drop: keep, change: chosen, dragover: over };
    for (const type in all) addEventListener(type, all[type]);
    early.stop = () => {
        for (const type in all) removeEventListener(type, all[type]);
    };
    return early;
})();
