// The tasks that take long: to walk over a file, to repair it, and to write it in another encoding.
import { recodedBlob, repairedBlob } from "./repair.js";
import { surveyOf } from "./survey.js";

export function work(codec, { task, form, to, how, source }, tell, isWanted) {
    if (task === "survey" || task === "count") return surveyOf(codec, form, source, tell, isWanted);
    if (task === "repair") return repairedBlob(codec, form, source, how, tell, isWanted);
    return recodedBlob(codec, form, to, source, tell, isWanted);
}
