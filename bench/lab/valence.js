"use strict";
// Counts, on the pages of `uniplay`, from how many worlds logs can still differ, and which worlds are critical: there each next
// step decides which log it will be: node valence.js LABORATORY PAGE..
//
// It walks by the page's own program, and the course quotes what it says. The laboratory has to count the same worlds, and as
// many that are open.

const path = require("path");
const { callsOf, graphOf, playerOf, programOf } = require("./page.js");

const NAMES = ["opening", "orderOf", "edgeOf", "follow", "logOf"];

// how many worlds the laboratory counts of the same calls, and how many that are open
function countedBy(lab, graph) {
  const made = lab.labOf({ object: lab.EXAMPLES[graph.object].text, calls: callsOf(graph), flaw: "none" });
  lab.ended(lab.foresightOf(made, [], 0));
  const outlooks = [...made.foreseen.known.values()];
  return { worlds: outlooks.length, open: outlooks.filter((bits) => (bits & (bits - 1n)) !== 0n).length };
}

// of each node the logs that can still come, by their places in the list of all logs
function outlooks(page, graph, order, nextOf) {
  const [reached, logs, outlook] = [new Map([[0, page.opening(graph)]]), [], new Map()];
  for (const node of order) {
    const here = reached.get(node);
    for (const p of nextOf(node)) {
      const { to } = page.edgeOf(graph, node, p);
      if (!reached.has(to)) reached.set(to, page.follow(graph, here, p));
    }
    if (nextOf(node).length > 0) continue;
    const log = page.logOf(here.memory).join("; ");
    if (!logs.includes(log)) logs.push(log);
    outlook.set(node, new Set([logs.indexOf(log)]));
  }
  for (const node of order.slice().reverse()) {
    const after = nextOf(node).map((p) => outlook.get(page.edgeOf(graph, node, p).to));
    if (after.length > 0) outlook.set(node, new Set(after.flatMap((one) => [...one])));
  }
  return { logs, outlook };
}

function main([laboratory, ...files]) {
  const lab = programOf(laboratory, ["judge", "machine"], ["EXAMPLES", "labOf", "foresightOf", "ended"]);
  for (const file of files) {
    const [graph, page] = [graphOf(file), playerOf(file, NAMES)];
    const order = page.orderOf(graph);
    const processes = Array.from({ length: graph.processes }, (_, p) => p);
    const nextOf = (node) => processes.filter((p) => page.edgeOf(graph, node, p) !== null);
    const { logs, outlook } = outlooks(page, graph, order, nextOf);
    const open = order.filter((node) => outlook.get(node).size > 1);
    const decides = (node, p) => outlook.get(page.edgeOf(graph, node, p).to).size === 1;
    const critical = open.filter((node) => nextOf(node).every((p) => decides(node, p)));
    const kinds = critical.map((node) => nextOf(node).map((p) => {
      const { kind, place } = page.edgeOf(graph, node, p);
      return `${kind} at ${place}`;
    }).join(" against "));
    const { worlds, open: opened } = countedBy(lab, graph);
    const isSame = worlds === order.length && opened === open.length;
    if (!isSame) process.exitCode = 1;
    console.log(`${path.basename(file)}: ${order.length} worlds, ${logs.length} logs; open ${open.length}, ` +
      `critical ${critical.length}: ${kinds.join("; ")}; the laboratory counts ${isSame ? "the same" : `${worlds}, ${opened}`}`);
  }
}

main(process.argv.slice(2));
