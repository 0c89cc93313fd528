"use strict";
// Walks through the graph of each page that `uniplay` made, and through the laboratory's machine beside it, and compares each
// edge: node graphs.js PAGE TOP
//
// The page's edges are events of the construction, which is proved of them. Compared are whose they are, the letter, the call,
// and what a place holds that is written or proposed for.

const fs = require("fs");
const path = require("path");
const { callsOf, graphOf, programOf } = require("./page.js");

const NAMES = ["EXAMPLES", "labOf", "opening", "follow"];

// a state as `uniplay` writes it
function spelled(state) {
  return Array.isArray(state) ? `[${state.join(" ")}]` : String(state);
}

// what an edge has to be, by the worlds before it and after it
function edgeBetween(lab, world, then, p) {
  const stage = world.stages[p];
  const name = (cell) => lab.cells[cell].name;
  if (stage === null) {
    const { name: call, words } = lab.cells[then.stages[p].mine];
    return { call, words: words.join(" ") };
  }
  const { letter, c, d } = stage;
  const state = (cell) => spelled(lab.answers.states[then.settled[cell].state]);
  const places = {
    A: () => [`announce[${p}]`, name(then.announce[p])], G: () => [`head[${p}]`, name(then.head[p])],
    L: () => [`${name(c)}.after`, name(then.after[c])], V: () => [`${name(d)}.state`, state(d), then.settled[d].reply],
    B: () => [`${name(d)}.before`, name(then.before[d])], W: () => [`${name(d)}.number`, String(then.number[d])],
    U: () => [`head[${p}]`, name(then.head[p])], F: () => [`head[${p}]`, name(then.head[p]), then.acts.at(-1).reply],
  };
  const [place, text, beside] = places[letter]?.() ?? [];
  return { kind: letter, place: place?.replace("number", "seq"), text, beside };
}

// whether a graph's edge says what the machine does
function agrees(edge, wanted) {
  return Object.keys(wanted).every((member) => wanted[member] === undefined || edge[member] === wanted[member]);
}

// how many edges there are, and how many differ
function compared(page, graph) {
  const lab = page.labOf({ object: page.EXAMPLES[graph.object].text, calls: callsOf(graph), flaw: "none" });
  const worlds = new Map([[0, page.opening(lab)]]);
  let [edges, differ] = [0, 0];
  for (const [node, world] of worlds) {
    for (let p = 0; p < graph.processes; p++) {
      const edge = graph.edges[node * graph.processes + p];
      const then = p < lab.processes ? page.follow(lab, world, p) : null;
      if (edge === null && then === null) continue;
      edges += 1;
      if (edge === null || then === null || !agrees(edge, edgeBetween(lab, world, then, p))) differ += 1;
      if (edge !== null && then !== null && !worlds.has(edge.to)) worlds.set(edge.to, then);
    }
  }
  return { edges, differ, worlds: worlds.size };
}

function main([file, top]) {
  const page = programOf(file, ["judge", "machine"], NAMES);
  const folder = path.join(top, "docs/pages");
  const total = { pages: 0, edges: 0, worlds: 0, differ: 0 };
  for (const name of fs.readdirSync(folder).filter((one) => one.endsWith(".html"))) {
    const graph = graphOf(path.join(folder, name));
    if (graph === null) continue;
    const { edges, differ, worlds } = compared(page, graph);
    total.pages += 1;
    for (const [what, count] of Object.entries({ edges, worlds, differ })) total[what] += count;
  }
  const told = `graphs of uniplay: ${total.pages} pages, ${total.worlds} worlds, ${total.edges} edges, ${total.differ} differ`;
  console.log(JSON.stringify({ told, differ: total.differ }));
}

main(process.argv.slice(2));
