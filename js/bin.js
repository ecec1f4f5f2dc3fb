#!/usr/bin/env node
// The command `noddychest`: checks, lists and fixes files, with the words and the output of nody(1).
import { main } from "./program/main.js";

process.exitCode = await main(process.argv.slice(2));
