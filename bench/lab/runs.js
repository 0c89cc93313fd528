"use strict";
// Plays random runs by the laboratory's own machine, and writes a line of JSON for each: its script, what the page says that
// it is answered, its history, and the page's verdict: node runs.js PAGE RUNS FLAWS [CHANGE]
//
// FLAWS are names with commas between. Of the runs of each, some have one line for each step, some whole ones; each third
// has a process that stops. CHANGE is JSON, a pair of texts: the machine is tried with the second in place of the first.

const { programOf, randomFrom } = require("./page.js");

const NAMES = ["EXAMPLES", "labOf", "randomRun", "scriptOf", "worldsOf", "historyOf", "orderOf", "ended", "isTooLong"];

// calls of each object by chance: few values, so that they meet
const CALLS = {
  queue: (below) => [["enq", below(9)], ["deq"]][below(2)],
  directory: (below) => {
    const name = ["ada", "bob", "7"][below(3)];
    return [["put", name, below(9)], ["put", name, below(9)], ["get", name], ["del", name], ["size"], ["at", below(3)]][below(6)];
  },
  book: (below) => {
    const [one, other, amount] = [below(16), below(16), [below(9), 999999999999][Number(below(9) === 0)]];
    return [["deposit", one, amount], ["withdraw", one, amount], ["move", one, other, amount], ["total"]][below(4)];
  },
  sticky: (below) => [["stick", below(9)], ["read"]][below(2)],
};

// a run by chance, and what the page says of it
function runOf(page, flaw, seed) {
  const random = randomFrom(seed);
  const below = (count) => Math.floor(random() * count);
  const name = Object.keys(CALLS)[below(4)];
  const lines = Array.from({ length: 1 + below(6) }, () =>
    Array.from({ length: below(4) }, () => CALLS[name](below).join(" ")).join("; "));
  if (lines.at(-1) === "") lines[lines.length - 1] = CALLS[name](below).join(" ");
  const object = page.EXAMPLES[name].text;
  const lab = page.labOf({ object, calls: lines.join("\n"), flaw });
  const run = page.randomRun(lab, [], random, seed % 3 === 0);
  const played = run.slice(0, seed % 2 === 0 ? run.length : below(run.length + 1));
  const world = page.worldsOf(lab, played).at(-1);
  const calls = page.historyOf(lab, world);
  return {
    flaw, object: name, ...page.scriptOf(lab, object, played, seed % 4 !== 0),
    history: calls.map(({ words, begin, end, reply }) => ({ words, begin, end: end < Infinity ? end : null, reply })),
    linearizable: page.ended(page.orderOf(lab.answers, calls)) !== null, tooLong: page.isTooLong(lab, world),
  };
}

function main([path, runs, flaws, change = "null"]) {
  const page = programOf(path, ["judge", "machine"], NAMES, JSON.parse(change));
  for (const flaw of flaws.split(",")) {
    for (let seed = 1; seed <= Number(runs); seed++) {
      try {
        console.log(JSON.stringify(runOf(page, flaw, seed)));
      } catch (error) {
        console.log(JSON.stringify({ flaw, failed: `seed ${seed}: ${error.message}` }));
      }
    }
  }
}

main(process.argv.slice(2));
