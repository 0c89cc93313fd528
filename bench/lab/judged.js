"use strict";
// Judges histories by the page's own judge: node judged.js PAGE [CHANGE] < HISTORIES
//
// Each line of the input is JSON with an `object` and a `text`, and is answered by a line of JSON: whether the history is
// linearizable, and where it isn't, the line of the reply that no order explains, and what that reply could have been.

const fs = require("fs");
const { programOf } = require("./page.js");

const NAMES = ["EXAMPLES", "Answers", "eventsOf", "callsOf", "verdictOf", "ended"];

function judged(page, { object, text }) {
  const calls = page.callsOf(page.eventsOf(text).events);
  const answers = new page.Answers(page.EXAMPLES[object].text);
  const { order, contradiction } = page.ended(page.verdictOf(answers, calls));
  if (contradiction === null) return { linearizable: true, order: order.map(({ call, reply }) => [call.line, reply]) };
  return { linearizable: false, line: contradiction.call.last, could: contradiction.could };
}

function main([path, change = "null"]) {
  const page = programOf(path, ["judge", "histories"], NAMES, JSON.parse(change));
  for (const line of fs.readFileSync(0, "utf8").split("\n")) {
    if (line === "") continue;
    let said;
    try {
      said = judged(page, JSON.parse(line));
    } catch (error) {
      said = { fault: error.message };
    }
    console.log(JSON.stringify(said));
  }
}

main(process.argv.slice(2));
