"use strict";
// Plays the stored runs of `flawed` by the laboratory's machine, and compares the answers: node stored.js PAGE TOP
//
// Scripts that end an era are left out, as the page has no eras.

const fs = require("fs");
const path = require("path");
const { programOf } = require("./page.js");

const NAMES = ["EXAMPLES", "labOf", "opening", "follow", "answerTo", "logOf"];

// what the page's machine answers to a script; null where it has a command that the page doesn't have
function answersOf(page, flaw, script) {
  const lines = script.split("\n").filter((line) => line !== "" && !line.startsWith("#"));
  const [, , object, processes] = lines[0].split(" ");
  const plan = Array.from({ length: Number(processes) }, () => []);
  for (const line of lines) {
    const words = line.split(" ");
    if (["trim", "reshape", "heads"].includes(words[0])) return null;
    if (words[0] === "call") plan[words[1]].push(words.slice(2).join(" "));
  }
  const calls = plan.map((own) => own.join("; ")).join("\n");
  const lab = page.labOf({ object: page.EXAMPLES[object].text, calls, flaw });
  const worlds = [page.opening(lab)];
  return lines.slice(1).flatMap((line) => {
    const [word, p, most = word === "finish" ? String(10 * processes + 12) : "1"] = line.split(" ");
    if (word === "log") return page.logOf(lab, worlds.at(-1));
    if (word === "call") worlds.push(page.follow(lab, worlds.at(-1), Number(p)));
    if (word === "call") return [`called ${lab.cells[worlds.at(-1).stages[p].mine].name}`];
    for (let k = 0; k < Number(most) && worlds.at(-1).stages[p] !== null; k++) worlds.push(page.follow(lab, worlds.at(-1), Number(p)));
    return [page.answerTo(lab, worlds, worlds.length - 2, Number(p))];
  });
}

function main([file, top]) {
  const page = programOf(file, ["judge", "machine"], NAMES);
  const folder = path.join(top, "crates/cases/data/flaws");
  const [alike, differ, left] = [[], [], []];
  for (const name of fs.readdirSync(folder).filter((one) => one.endsWith(".flaw")).map((one) => one.slice(0, -5))) {
    const read = (end) => fs.readFileSync(path.join(folder, `${name}.${end}`), "utf8");
    const flaw = read("flaw").trim();
    const answers = flaw === "trims-pending" ? null : answersOf(page, flaw === "nothing" ? "none" : flaw, read("script"));
    const [, ...wanted] = read("flawed").split("\n");
    if (answers === null) left.push(name);
    else (answers.every((answer, k) => answer === wanted[k]) ? alike : differ).push(name);
  }
  const told = `stored runs of flawed: ${alike.length} agree, ${differ.length} differ${differ.map((name) => ` (${name})`)}, ` +
    `${left.length} left out (${left.join(", ")})`;
  console.log(JSON.stringify({ told, differ: differ.length }));
}

main(process.argv.slice(2));
