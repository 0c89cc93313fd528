"use strict";
// Walks through the graph of a page at random, and compares what the page expects of each walk's script with what
// `unibench replay` answers: node walk.js PAGE UNIBENCH [WALKS]
//
// Between the events of a walk stand commands that change nothing, at random: `log`, and such as are refused. Each third walk
// goes on with a trim and a call, where no call is pending.
//
// The page's own program makes the script and the answers. So a page whose graph differs from the construction, or
// whose program tells it wrongly, fails.

const { execFileSync } = require("child_process");
const { graphOf, playerOf, randomFrom } = require("../lab/page.js");

// a run with commands between its events
function withCommands(page, graph, run, random, trims) {
  const below = (n) => Math.floor(random() * n);
  const commanded = (here) =>
    page.commanded(graph, here, ["log", "trim", "call", "step"][below(4)], below(graph.processes + 1));
  const all = [];
  for (const event of run) {
    all.push(event);
    const one = below(4) === 0 ? commanded(event) : null;
    if (one !== null && one.line !== null && one.node !== null) all.push(one);
  }
  for (const word of trims ? ["trim", "call", "log", "call"] : []) {
    const one = page.commanded(graph, all[all.length - 1], word, below(graph.processes));
    if (one !== null) all.push(one);
  }
  return all;
}

function main(path, unibench, walks) {
  const [graph, page] = [graphOf(path), playerOf(path, ["randomRun", "scriptOf", "commanded"])];
  for (let seed = 1; seed <= walks; seed++) {
    const random = randomFrom(seed);
    const stopped = seed % 2 === 0 ? Math.floor(random() * graph.processes) : null;
    let walk;
    try {
      const run = page.randomRun(graph, random, stopped, Math.floor(random() * 30));
      walk = page.scriptOf(graph, withCommands(page, graph, run, random, seed % 3 === 0));
    } catch (error) {
      console.log(`walk ${seed} is none: ${error.message}`);
      process.exit(1);
    }
    const { lines, answers } = walk;
    const told = execFileSync(unibench, ["replay"], { input: `${lines.join("\n")}\n`, encoding: "utf8" });
    if (told !== `${answers.join("\n")}\n`) {
      console.log(`walk ${seed} differs\n${lines.join("\n")}\nexpected\n${answers.join("\n")}\nanswered\n${told}`);
      process.exit(1);
    }
  }
  const edges = graph.edges.filter((edge) => edge !== null).length;
  console.log(`${walks} walks agree: ${graph.edges.length / graph.processes} worlds, ${edges} edges`);
}

if (process.argv.length < 4) {
  console.log("usage: node walk.js PAGE UNIBENCH [WALKS]");
  process.exit(2);
}
main(process.argv[2], process.argv[3], Number(process.argv[4] || 200));
