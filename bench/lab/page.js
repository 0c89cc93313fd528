"use strict";
// The program of a page, without its view: what its scripts of these names define, for tests.

const fs = require("fs");
const path = require("path");
const vm = require("vm");

// what a program defines under these names
function defined(program, names) {
  const context = vm.createContext({});
  vm.runInContext(`${program}\nthis.program = { ${names.join(", ")} };`, context);
  return context.program;
}

// what the scripts of a page with these ids define, under these names; `change` is a pair of texts, of which the second takes
// the place of the first, which has to stand there once
function programOf(path, ids, names, change = null) {
  const page = fs.readFileSync(path, "utf8");
  let text = ids.map((id) => new RegExp(`<script id="${id}">([^]*?)</script>`).exec(page)[1]).join("\n");
  if (change !== null) {
    if (text.split(change[0]).length !== 2) throw new Error(`it doesn't stand there once: ${change[0]}`);
    text = text.replace(change[0], () => change[1]);
  }
  return defined(text, names);
}

// what the program of a page of `uniplay` defines under these names; that of the pages of docs stands in viewer.js beside them
function playerOf(file, names) {
  const own = /<\/script>\s*<script>([^]*?)<\/script>/.exec(fs.readFileSync(file, "utf8"));
  const [, program] = own ?? /function viewer\(\) \{\n([^]*)\}\n$/.exec(fs.readFileSync(path.join(path.dirname(file), "viewer.js"), "utf8"));
  return defined(program, names);
}

// random numbers from a seed, the same on each run (mulberry32)
function randomFrom(seed) {
  let state = seed;
  return () => {
    state = (state + 0x6d2b79f5) | 0;
    let t = Math.imul(state ^ (state >>> 15), 1 | state);
    t = (t + Math.imul(t ^ (t >>> 7), 61 | t)) ^ t;
    return ((t ^ (t >>> 14)) >>> 0) / 4294967296;
  };
}

// the graph of a page of `uniplay`, which play.js unfolds where it is folded; null where a page has none
function graphOf(file) {
  const found = /<script type="text\/plain" id="data">\n([^]*?)<\/script>/.exec(fs.readFileSync(file, "utf8"));
  if (found === null) return null;
  const stored = JSON.parse(found[1]);
  if (stored.steps === undefined) return stored;
  const [unfolded] = /  function unfolded[^]*?\n  \}\n/.exec(fs.readFileSync(path.join(path.dirname(file), "play.js"), "utf8"));
  return defined(unfolded, ["unfolded"]).unfolded(stored);
}

// the calls of each process, in their order
function callsOf(graph) {
  const plan = Array.from({ length: graph.processes }, () => new Map());
  for (const edge of graph.edges) {
    if (edge === null || edge.call === undefined) continue;
    const [p, k] = edge.call.split(".").map(Number);
    plan[p].set(k, edge.words);
  }
  return plan.map((own) => [...own.keys()].sort().map((k) => own.get(k)).join("; ") || "-").join("\n");
}

module.exports = { callsOf, graphOf, playerOf, programOf, randomFrom };
