"use strict";
// What a page of docs/pages adds to the page of `uniplay`, whose style, elements and program stand in viewer.js. No prover reads
// it. It plays over the page's graph, which is proved; bench/play/browser.py plays the pages in Chromium, and bench/play/walk.js
// and bench/lab/valence.js compare what is told here with `unibench replay` and with the laboratory.

function classroom() {
  // ---- the graph as it stands in a page: the events that differ, and for each process in each world which of them comes there,
  // its number in the digits a to z, and how far the world after it is from this one; a point where none does

  function unfolded(stored) {
    const { events, steps, ...graph } = stored;
    graph.edges = [];
    for (const [, word, away] of steps.join("").matchAll(/\.|([a-z]+)(-?\d+)/g)) {
      const node = Math.floor(graph.edges.length / graph.processes);
      const place = [...(word ?? "")].reduce((sum, letter) => 26 * sum + letter.charCodeAt(0) - 97, 0);
      graph.edges.push(word === undefined ? null : { to: node + Number(away), ...events[place] });
    }
    return graph;
  }

  // ---- a run as a script: each click is a line, so that no answer is lost

  scriptOf = (graph, run) => {
    const commandOf = ({ edge, process, line }) =>
      line ?? (edge.call === undefined ? `step ${process}` : `call ${process} ${edge.words}`);
    const lines = [`universal 1 ${graph.object} ${graph.processes} ${graph.row}`, ...run.slice(1).map(commandOf)];
    const answers = run.slice(1).flatMap((event) => event.answers);
    if (lines.at(-1) !== "log") {
      lines.push("log");
      answers.push(...logOf(run.at(-1).memory));
    }
    return { lines, answers: [...answers, "end"] };
  };

  // ---- goals that ask for an order, or for steps

  // an event as `unidraw --steps` tells it, without its number
  function stepTextOf(event) {
    const letter = event.edge.call === undefined ? `${event.edge.kind}  ` : "";
    return `P${event.process}  ${letter}${happened(event)}`;
  }

  function comeInOrder(patterns, lines) {
    let place = 0;
    for (const line of lines) if (place < patterns.length && isLike(patterns[place], line)) place += 1;
    return place === patterns.length;
  }

  const isMetByAnswers = isMet;
  wishesOf = (graph, run) => {
    const { lines, answers } = scriptOf(graph, run);
    const steps = run.filter(({ edge }) => edge !== null).map(stepTextOf);
    const hasStep = (pattern) => steps.some((step) => isLike(pattern, step));
    const isGood = (line) => {
      if (isNote(line)) return true;
      if (line.startsWith("order ")) return comeInOrder(line.slice(6).split("|"), answers);
      if (line.startsWith("P")) return hasStep(line);
      if (line.startsWith("no P")) return !hasStep(line.slice(3));
      return isMetByAnswers(line, [...lines, ""], [...answers, ""]);
    };
    const wishes = graph.goal.split("\n").map((line) => line.replace(/[ \t\f\r]+$/, ""));
    return wishes.map((line) => ({ line, met: isGood(line) }));
  };

  const isOther = (line) => /^(order |no P|P)/.test(line);
  const [isForCheckPlain, askedByPlain] = [isForCheck, askedBy];
  isForCheck = (line) => !isOther(line) && isForCheckPlain(line);
  askedBy = (line) => {
    if (line.startsWith("order ")) return `these answers come in this order: ${line.slice(6).split("|").join(", then ")}`;
    if (line.startsWith("P")) return `a step is: ${line}`;
    return line.startsWith("no P") ? `no step is: ${line.slice(3)}` : askedByPlain(line);
  };

  // the lines of a goal tell much of the answer: they stand here once an answer was said, or the goal is met
  let hasSaid = false;
  const showGoalPlain = showGoal;
  showGoal = (walk) => {
    showGoalPlain(walk);
    const isHidden = !hasSaid && document.getElementById("met").textContent !== "met";
    document.getElementById("answer").hidden = !isHidden;
    document.getElementById("asked").hidden = isHidden;
  };

  function sayAnswer() {
    const said = document.getElementById("own").value.trim();
    if (said === "") {
      put("said", "Write what you expect first.");
      return;
    }
    hasSaid = true;
    put("said", `You said: ${said}`);
    show();
  }

  // ---- valence: which logs can still come

  let [logs, bits] = [[], new Map()];

  // how many schedules end with each log; on the way back, of each world the set of the logs that can come, a bit for each
  endsOf = (graph) => {
    const [ways, reached, ends] = [new Map([[0, 1n]]), new Map([[0, opening(graph)]]), new Map()];
    const order = orderOf(graph);
    for (const node of order) {
      const [here, choices] = [reached.get(node), ready(graph, node)];
      if (choices.length === 0) {
        const log = logOf(here.memory).join("; ");
        ends.set(log, (ends.get(log) || 0n) + ways.get(node));
        bits.set(node, 1n << BigInt([...ends.keys()].indexOf(log)));
      }
      for (const p of choices) {
        const { to } = edgeOf(graph, node, p);
        ways.set(to, (ways.get(to) || 0n) + ways.get(node));
        if (!reached.has(to)) reached.set(to, follow(graph, here, p));
      }
      reached.delete(node);
    }
    for (const node of order.reverse()) {
      const after = ready(graph, node).map((p) => bits.get(edgeOf(graph, node, p).to));
      if (after.length > 0) bits.set(node, after.reduce((some, more) => some | more));
    }
    logs = [...ends.keys()];
    return ends;
  };

  const isOne = (some) => (some & (some - 1n)) === 0n;

  // what is told of the logs that can still come from a place of the run
  function outlookOf(place) {
    const { node } = run[place];
    if (node === null) return { told: "Past the trim the graph ends.", possible: [] };
    const some = bits.get(node);
    const possible = logs.filter((_, k) => (some >> BigInt(k)) & 1n);
    const before = place > 0 ? run[place - 1].node : null;
    if (isOne(some)) {
      const isNow = before !== null && !isOne(bits.get(before));
      const told = logs.length === 1 ? "All schedules end with this log." : isNow ? "This step decided the log." : "The log is decided.";
      return { told, possible };
    }
    const isCritical = ready(graph, node).every((p) => isOne(bits.get(edgeOf(graph, node, p).to)));
    const told = `From here ${possible.length} logs can still come.`;
    return { told: isCritical ? `${told} Each next step decides which: this world is critical.` : told, possible };
  }

  // the calls of a log, in their order, with their replies
  function orderIn(log) {
    const calls = log.split("; ").map((entry) => entry.replace(/^\d+ (\S+) .* -> (.*)$/, "$1 \u2192 $2"));
    return log === "" ? "no call" : calls.join(", ");
  }

  // an exercise doesn't tell which logs there are before an answer is said
  function showOutlook() {
    const { told, possible } = outlookOf(at);
    const most = 4;
    const items = possible.slice(0, most).map((log) => element("li", "mono", orderIn(log)));
    if (possible.length > most) items.push(element("li", "", `and ${possible.length - most} more`));
    const isHidden = graph.goal !== "" && document.getElementById("asked").hidden;
    fill("outlook", element("b", "", told), ...(isHidden ? [] : [element("ul", "", ...items)]));
  }

  showEnds = () => {
    const rows = [element("tr", "", element("th", "", "schedules"), element("th", "", "the log"))];
    for (const [log, ways] of endsOf(graph)) {
      const entries = log.split("; ").map((entry) => element("span", "entry", entry));
      rows.push(element("tr", "", element("td", "count", ways.toLocaleString("en")), element("td", "mono", ...entries)));
    }
    fill("ends", ...rows);
  };

  // ---- nothing is lost: a run that another one takes the place of comes back by Undo, and goes again by Redo

  function takePlace(other) {
    other.undone = { run, at, place: other.length - 1 };
    run = other;
    go(run.length - 1);
  }

  add = (...more) => {
    const other = [...run.slice(0, at + 1), ...more];
    if (at < run.length - 1) return takePlace(other);
    other.undone = run.undone;
    run = other;
    return go(run.length - 1);
  };

  replace = (other, note) => {
    takePlace(other);
    if (note) put("sentence", `${sentenceOf(run[at])} ${note}`);
  };

  function swap({ run: other, at: place }) {
    [run, at] = [other, place];
    show();
  }

  const comesBack = (kept) => kept !== undefined && kept.place === at;

  function undo() {
    const { undone } = run;
    if (!comesBack(undone)) return go(at - 1);
    undone.run.redone = { run, at, place: undone.at };
    return swap(undone);
  }

  function redo() {
    return comesBack(run.redone) ? swap(run.redone) : go(at + 1);
  }

  // ---- the run in the address

  // the run in words: `0x3.1.log` is three steps of process 0, one of process 1, and a log
  function spelled() {
    const words = run.slice(1).map(({ edge, process, line }, k) => {
      if (line !== null) return line.split(" ").slice(0, 2).join("");
      return run[k].node === null ? `call${process}` : String(process);
    });
    const groups = [];
    for (const word of words) {
      if (groups.length > 0 && groups.at(-1).word === word && /^\d+$/.test(word)) groups.at(-1).count += 1;
      else groups.push({ word, count: 1 });
    }
    return groups.map(({ word, count }) => (count === 1 ? word : `${word}x${count}`)).join(".");
  }

  // the run that such words say, up to a word that says nothing here, which is named
  function readRun(text) {
    const other = [opening(graph)];
    const upTo = (word) => ({ other, bad: word });
    for (const word of text.split(".").filter((one) => one !== "")) {
      const [, by, process, count = "1"] = /^(call|step|log|trim|heads)?(\d*)(?:x(\d{1,4}))?$/.exec(word) ?? [];
      if (process === undefined || (by === undefined) !== /^\d+$/.test(process) && !/^(call|step)$/.test(by)) return upTo(word);
      for (let k = 0; k < Number(count); k++) {
        const here = other.at(-1);
        if (by === undefined && Number(process) >= graph.processes) return upTo(word);
        const next = by === undefined ? follow(graph, here, Number(process))
          : by === "heads" ? headsAt(here) : commanded(graph, here, by, Number(process));
        if (next === null) return upTo(word);
        other.push(next);
      }
    }
    return upTo(null);
  }

  let waiting = null;
  const linkOf = () => `#run=${spelled()}&e=${run[at].event}`;
  function keepAddress() {
    clearTimeout(waiting);
    waiting = setTimeout(() => {
      if (location.hash !== linkOf()) history.replaceState(null, "", linkOf());
    }, 100);
  }

  // the run and the place that the address names
  fromAddress = () => {
    const named = new URLSearchParams(location.hash.slice(1));
    let fault = null;
    if (named.has("run") && named.get("run") !== spelled()) {
      const { other, bad } = readRun(named.get("run"));
      fault = bad;
      if (run.length > 1) takePlace(other);
      else [run, at] = [other, other.length - 1];
    }
    const place = named.has("e") ? run.findLastIndex(({ event }) => event === Number(named.get("e"))) : run.length - 1;
    at = place < 0 ? run.length - 1 : place;
    show();
    if (fault !== null) put("sentence", `The address says \u201c${fault}\u201d, which isn't played here.`);
  };

  // ---- a script that is pasted

  class Unplayable extends Error {}

  // the numbers of the cells that the heads name
  function headsAt(here) {
    const said = `heads ${numbersOf(graph).map((p) => here.memory.get(`${here.memory.get(`head[${p}]`)}.seq`)).join(" ")}`;
    return told(here, `${said}.`, "?", "heads", [said]);
  }

  // what is told after a line of a script that is no note
  function playedBy(here, line) {
    const [word, second, ...words] = line.split(" ");
    const p = Number(second);
    const isNumber = /^(0|[1-9]\d{0,11})$/.test(second ?? "");
    if (line === "log" || line === "trim") return [commanded(graph, here, line, 0)];
    if (line === "heads") return [headsAt(here)];
    if (!["call", "step", "finish"].includes(word) || !isNumber) throw new Unplayable(`\u201c${line}\u201d isn't played here`);
    const refusal = refusalOf(graph, here, word === "call" ? "call" : "step", p);
    if (refusal !== null) {
      const command = word === "finish" ? `step ${p}` : line;
      return [told(here, `${command}: ${refusal}.`, "x", command, [refusal])];
    }
    if (word !== "call") return stepsBy(here, p, word === "finish" ? Infinity : Number(words[0] ?? 1));
    const edge = edgeOf(graph, here.node, p);
    if (here.node === null && /^[a-z]+( [a-z0-9]+)*$/.test(words.join(" ")))
      return [after(here, { to: null, call: `${p}.${begunOf(here, p)}`, words: words.join(" ") }, p)];
    if (edge === null) throw new Unplayable(`here P${p} has no call left to make`);
    if (edge.words !== words.join(" ")) throw new Unplayable(`here the next call of P${p} is \u201c${edge.words}\u201d`);
    return [follow(graph, here, p)];
  }

  function stepsBy(here, p, most) {
    if (here.node === null) throw new Unplayable("past the trim the graph ends, and no step is played");
    const more = [here];
    while (more.length <= most && isPending(more.at(-1), p)) more.push(follow(graph, more.at(-1), p));
    return more.slice(1);
  }

  // the run of a script with this page's calls; an Error tells which line isn't played, and why
  function runOfScript(text) {
    const header = `${graph.object} ${graph.processes} ${graph.row}`;
    const other = [opening(graph)];
    let hasHeader = false;
    for (const [k, whole] of text.split("\n").entries()) {
      const line = whole.replace(/\s+$/, "");
      try {
        if (isNote(line)) continue;
        if (!hasHeader && !new RegExp(`^universal [12] ${header}$`).test(line))
          throw new Unplayable(`this page plays scripts that begin with \u201cuniversal 1 ${header}\u201d`);
        if (hasHeader) other.push(...playedBy(other.at(-1), line));
        hasHeader = true;
      } catch (error) {
        if (error instanceof Unplayable) throw Error(`Line ${k + 1}: ${error.message}.`);
        throw error;
      }
    }
    if (!hasHeader) throw Error("The script has no line.");
    return other;
  }

  function pasteScript() {
    try {
      replace(runOfScript(document.getElementById("script").value), "");
      put("pasted", "Played. Undo brings back what was here.");
    } catch (error) {
      put("pasted", error.message);
    }
  }

  // ---- the view

  const callers = () => new Set(graph.edges.flatMap((edge) => (edge?.call === undefined ? [] : [Number(edge.call.split(".")[0])])));
  let callersHere = null;
  const restOfPlain = restOf;
  restOf = (here, p) => {
    callersHere ??= callers();
    return callersHere.has(p) || here.node === null ? restOfPlain(here, p) : "makes no call on this page";
  };

  playStopped = () => {
    const below = (n) => Math.floor(Math.random() * n);
    const p = below(graph.processes);
    const other = randomRun(graph, Math.random, p, below(30));
    const events = other.filter((event) => event.process === p).length;
    replace(other, events === 0 ? `P${p} stopped before its first event.` : `P${p} stopped after ${counted(events, "event")}.`);
  };
  CHOICES.stopped = () => playStopped();

  const [showPlain, showPlacePlain] = [show, showPlace];
  showPlace = (here) => {
    showPlacePlain(here);
    if (here === run[0]) put("place", "before the first event");
    const told = document.getElementById("place").textContent;
    document.getElementById("slider").setAttribute("aria-valuetext", `${told}: ${sentenceOf(here)}`);
    const isLast = at === run.length - 1;
    document.getElementById("undo").setAttribute("aria-disabled", String(at === 0 && !comesBack(run.undone)));
    document.getElementById("redo").setAttribute("aria-disabled", String(isLast && !comesBack(run.redone)));
  };
  show = () => {
    showPlain();
    showOutlook();
    keepAddress();
  };

  // the elements that a page of `uniplay` hasn't
  const more = document.createElement("template");
  more.innerHTML = `
<div id="outlook" aria-live="polite"></div>
<div id="answer" hidden>
<label for="own">First say what you expect, and which schedule you will try. Then the lines of the goal are shown.</label>
<textarea id="own" rows="2"></textarea>
<button id="say" type="button">This is my answer</button>
</div>
<p id="said" role="status"></p>
<p><button id="paste" type="button">Play the script in this field</button> <span id="pasted" role="status"></span></p>
<p><label><input id="letters" type="checkbox" checked> Letters and digits are keys</label></p>
<p>This page's program isn't proved: <code>bench/play/run</code> compares it with the proved <code>unibench replay</code>. The graph
that it walks is proved, and the proved program <code>goal</code> judges a script by the same lines. Its address is the run: a link
to it, a reload or a bookmark brings the run back.</p>
<p><button id="alone" type="button">Save this page as one file</button> It opens alone.</p>`;
  const part = (id) => more.content.querySelector(`#${id}`);

  // the page's elements in two columns: what one clicks and what it does beside each other
  function arrange() {
    const main = document.querySelector("main");
    const all = [...main.children];
    const find = (selector) => main.querySelector(selector);
    const headed = (id) => {
      const inside = all.find((one) => one.id === id || one.querySelector?.(`#${id}`));
      return [all[all.indexOf(inside) - 1], inside];
    };
    const [memoryHead, entries] = headed("entries");
    const facts = element("div", "facts", ...headed("code"), memoryHead, entries, find("#cells"), ...headed("log"));
    const goal = find("#goal");
    const lower = element("div", "lower", goal, ...headed("processes"));
    const below = element("div", "below", ...[...main.children].slice(all.indexOf(goal)));
    const upper = element("div", "upper", ...main.children);
    for (const one of [facts, lower, below]) one.remove();
    main.append(upper, facts, lower, below);
    find("#sentence").after(part("outlook"));
    const asked = element("div", "", find("#wishes"), goal.querySelector("details"));
    asked.id = "asked";
    goal.append(part("answer"), part("said"), asked);
    find("#script").readOnly = false;
    find("#save .row").after(part("paste").parentElement);
    below.append(...more.content.children);
    const names = { lanes: "The run, a row for each process", code: "The algorithm", ends: "How all schedules end" };
    for (const id in names) document.getElementById(id).parentElement.setAttribute("aria-label", names[id]);
  }

  function saveAlone() {
    const download = `${location.pathname.split("/").pop().replace(/\.html$/, "")}-alone.html`;
    const href = URL.createObjectURL(new Blob([pageAlone(document.title, JSON.stringify(graph))], { type: "text/html" }));
    Object.assign(document.createElement("a"), { download, href }).click();
  }

  // ---- what begins

  function begin() {
    const data = document.getElementById("data");
    const [stored, title] = [JSON.parse(data.textContent), document.title];
    if (stored.steps) data.textContent = JSON.stringify(unfolded(stored)).replace(/</g, "\\u003c");
    arrange();
    for (const [id, act] of Object.entries({ say: sayAnswer, paste: pasteScript, alone: saveAlone })) document.getElementById(id).onclick = act;
    Object.assign(WALKS, { undo, redo });
    Object.assign(KEYS, { ArrowLeft: () => go(at - 1), ArrowRight: redo });
    window.addEventListener("keydown", (key) => {
      if (!document.getElementById("letters").checked && key.key.length === 1) key.stopImmediatePropagation();
    }, true);
    start();
    document.title = title;
    document.getElementById("title").hidden = true;
    // an exercise is for its reader to solve
    if (graph.goal !== "") {
      for (const id of ["worst", "random", "stopped"]) document.getElementById(id).hidden = true;
      for (const key of ["w", "r", "s"]) delete KEYS[key];
      const ends = document.getElementById("ends").parentElement;
      ends.hidden = ends.previousElementSibling.hidden = true;
      document.querySelector("p .choice").textContent = "u undoes, f is the rest of the latest call, l asks for the log.";
    }
    window.addEventListener("hashchange", fromAddress);
  }
  begin();
}

// ---- a page is made of its parts, here or in a file that is saved

const LOOK = `
header { margin-bottom: 0.4em; } header nav { display: flex; flex-wrap: wrap; gap: 0.2em 1.2em; }
main { min-width: 0; } main > div { min-width: 0; } .mono, .box, pre { overflow-wrap: anywhere; }
#outlook { min-height: 4.2em; border-left: 0.3em solid var(--line); padding-left: 0.6em; } #outlook ul { margin: 0; padding-left: 1.2em; }
#own { display: block; width: 100%; height: auto; margin: 0.3em 0; } #sentence { min-height: 2.8em; } [hidden] { display: none !important; }
.tools button { padding: 0.2em 0.6em; min-height: 2.2em; } .seat { flex-basis: 8.5em; } header p { margin: 0.3em 0; }
#place { min-width: 0; } .upper h2 { margin-top: 0.4em; } .upper .row { margin: 0.35em 0; } .step { padding: 0.25em 0.5em; }
a:focus-visible { outline: 3px solid var(--touched); }
@media (min-width: 60em) {
  body { max-width: 95em; font-size: 16px; }
  main { display: grid; grid-template-columns: minmax(0, 1fr) minmax(0, 1fr); grid-template-rows: auto 1fr; column-gap: 1.4em; }
  .upper { grid-area: 1 / 1; } .lower { grid-area: 2 / 1; } .below { grid-area: 3 / 1 / 4 / 3; }
  .facts { grid-area: 1 / 2 / 3 / 3; position: sticky; top: 0; align-self: start; max-height: 100vh; overflow-y: auto; }
  .facts h2 { margin-top: 0.3em; } .facts #code { font-size: 0.8em; line-height: 1.3; } .facts .box { font-size: 0.85em; }
}
`;

// the text of a function between its braces
function insideOf(part) {
  const text = part.toString();
  return text.slice(text.indexOf("{") + 1, text.lastIndexOf("}"));
}

// what stands before the page's parts, without its links
let headText = "";

// the page as one file
function pageAlone(title, data) {
  const escaped = (text) => text.replace(/&/g, "&amp;").replace(/</g, "&lt;");
  return `<!doctype html>
<html lang="en">
<head>
<meta charset="utf-8">
<meta name="viewport" content="width=device-width, initial-scale=1">
<meta http-equiv="Content-Security-Policy" content="default-src 'none'; style-src 'unsafe-inline'; script-src 'unsafe-inline'">
<title>${escaped(title)}</title>
<style>${VIEWER_LOOK}${LOOK}</style>
</head>
<body>
${headText}${VIEWER_BODY}</table></div>
<script type="text/plain" id="data">${data.replace(/</g, "\\u003c")}<\/script>
<script>${insideOf(viewer)}<\/script>
<script>
${pageAlone}
${insideOf}
const VIEWER_LOOK = ${JSON.stringify(VIEWER_LOOK).replace(/</g, "\\u003c")}, LOOK = ${JSON.stringify(LOOK)};
const VIEWER_BODY = ${JSON.stringify(VIEWER_BODY).replace(/</g, "\\u003c")}, headText = ${JSON.stringify(headText).replace(/</g, "\\u003c")};
${viewer.toString().replace(/<\/script/g, "<\\/script")}
${classroom.toString().replace(/<\/script/g, "<\\/script")}
classroom();
<\/script>
</body>
</html>
`;
}

// a page beside viewer.js is put together as it is opened
function assemble() {
  headText = document.querySelector("header").outerHTML.replace(/<nav>[^]*?<\/nav>/, "");
  const style = document.createElement("style");
  style.textContent = VIEWER_LOOK + LOOK;
  document.head.append(style);
  const body = document.createElement("template");
  body.innerHTML = `${VIEWER_BODY}</table></div>`;
  const missing = document.querySelector("noscript");
  if (missing !== null) missing.remove();
  document.body.insertBefore(body.content, document.getElementById("data"));
  const program = document.createElement("script");
  program.textContent = insideOf(viewer);
  document.body.append(program);
  classroom();
}

document.addEventListener("DOMContentLoaded", assemble);
