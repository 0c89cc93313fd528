"use strict";
// What all pages of `uniplay` share, as crates/run_tell/src/viewer.rt has it: made by bench/play/pages, not to be changed here.

const VIEWER_LOOK = String.raw`
:root { color-scheme: light dark; --line: #888; --pale: #6668; --mark: #f0e442; --on: #111; --touched: #0072b2; }
* { box-sizing: border-box; }
body { font: 17px/1.4 sans-serif; margin: 0 auto; padding: 0.6em; max-width: 75em; }
h1 { font-size: 1.3em; margin: 0; } h2 { font-size: 1em; margin: 0.9em 0 0.2em; } main p { margin: 0.3em 0; }
button { font: inherit; padding: 0.35em 0.8em; min-height: 2.5em; }
button, .box { border: 2px solid var(--line); border-radius: 0.4em; }
button[aria-disabled=true] { opacity: 0.55; border-style: dashed; }
button:focus-visible, textarea:focus-visible, input:focus-visible { outline: 3px solid var(--touched); }
.row { display: flex; flex-wrap: wrap; gap: 0.5em; align-items: stretch; margin: 0.5em 0; }
#slider { flex: 1 1 10em; min-height: 2.5em; } #place { align-self: center; min-width: 13em; }
.seat { flex: 1 1 11em; display: flex; flex-direction: column; gap: 0.2em; }
.step { flex: 1; text-align: left; } .step b { font-size: 1.2em; }
#sentence { font-size: 1.15em; min-height: 3.6em; margin: 0.5em 0; }
#sentence { border-left: 0.3em solid var(--touched); padding-left: 0.6em; overflow-wrap: anywhere; }
.box { padding: 0.1em 0.5em; overflow-wrap: anywhere; }
.box dl { display: grid; grid-template-columns: auto auto; gap: 0 0.6em; margin: 0; } dd { margin: 0; }
.anchor { border-style: double; border-width: 4px; } .unlinked { border-style: dashed; }
.mono, dl, pre, textarea, .lanes { font-family: monospace; } .linked { align-self: center; }
.changed { background: var(--mark); color: var(--on); font-weight: bold; }
.touched { outline: 3px solid var(--touched); }
.scroll { overflow-x: auto; position: relative; } table { border-collapse: collapse; }
.lanes td { min-width: 1.1em; text-align: center; padding: 0; border-bottom: 1px solid var(--pale); cursor: pointer; }
.lanes th { position: sticky; z-index: 1; left: 0; background: Canvas; padding-right: 0.3em; }
.lanes .point { text-decoration: underline; font-weight: bold; } .lanes .pale { opacity: 0.6; }
.lanes .here, #code .last { background: var(--mark); color: var(--on); opacity: 1; }
#code { margin: 0; font-size: 0.9em; } .count { white-space: nowrap; }
#ends td, #ends th { padding: 0.1em 0.6em; text-align: left; } #ends tr { border-bottom: 1px solid var(--pale); }
textarea { flex: 1 1 20em; height: 9em; } .entry { display: inline-block; margin-right: 1.2em; }
#wishes { list-style: none; margin: 0; padding: 0; } #wishes .note { opacity: 0.8; } #wishes .met { font-weight: bold; }
#commands button, .finish { padding: 0.1em 0.5em; min-height: 2em; }
.rows td, .rows th { border: 1px solid var(--pale); padding: 0 0.4em; text-align: left; vertical-align: top; }
.rows td { white-space: pre-line; } .rows td:nth-child(5) { min-width: 12em; }
.rows tr:only-child, .run .rows, .play .rows, .run .choice { display: none; }
@media (max-width: 30em) { body { font-size: 16px; } .seat { flex-basis: 45%; } #code { font-size: 0.72em; } }
@media print {
  .run main, #steppers, .tools, #save { display: none; } .run .rows { display: table; } .scroll { overflow: visible; }
}
`;

const VIEWER_BODY = String.raw`<h1 id="title">A run, step by step</h1>
<main hidden>
<div id="heading"></div>
<p class="choice">You choose who goes: each click on a process is one step of its call, at a line of the algorithm. Call
1.0 is the first one of P1.</p>
<div id="steppers" class="row"></div>
<p id="sentence" aria-live="polite" aria-atomic="true"></p>
<div class="row tools">
<button id="first" type="button" aria-keyshortcuts="Home">Restart</button>
<button id="undo" type="button" aria-keyshortcuts="ArrowLeft u">Undo</button>
<button id="redo" type="button" aria-keyshortcuts="ArrowRight">Redo</button>
<button id="last" type="button" aria-keyshortcuts="End">To the end</button>
<input id="slider" type="range" min="0" aria-label="The place in the run">
<output id="place"></output>
</div>
<div class="row tools choice">
<button id="random" type="button" aria-keyshortcuts="r">Random run</button>
<button id="stopped" type="button" aria-keyshortcuts="s">Random, one stops</button>
<button id="worst" type="button" aria-keyshortcuts="w">Show the worst</button>
<button id="asklog" type="button" aria-keyshortcuts="l">Ask for the log</button>
</div>
<h2>The run</h2>
<div class="scroll" tabindex="0"><table id="lanes" class="lanes"></table></div>
<section id="goal" hidden>
<h2>The goal: <span id="met" role="status"></span></h2>
<ul id="wishes"></ul>
<details><summary>What do these lines mean?</summary>
<p>They are judged at each click, as the program <code>goal</code> does, over the script below and its answers;
<code>..</code> is any text. A step of call 1.0 is answered <code>going 1.0 steps S turns T</code>, and its last one
<code>returned 1.0 REPLY steps S turns T</code>; a turn is a pass through lines 8 to 14. The log is an answer at the end
of the script, and where you ask for it.</p>
</details>
</section>
<h2>Shared memory</h2>
<div id="entries" class="row"></div>
<div id="cells" class="row"></div>
<h2>What each process knows</h2>
<div id="processes" class="row"></div>
<h2>The log</h2>
<pre id="log"></pre>
<h2>The algorithm</h2>
<div class="scroll" tabindex="0"><pre id="code"></pre></div>
<section class="choice">
<h2>How all schedules end</h2>
<div class="scroll" tabindex="0"><table id="ends"></table></div>
<div id="save">
<h2>The run as a script, and what it is answered</h2>
<div class="row">
<textarea id="script" readonly spellcheck="false" aria-label="The script"></textarea>
<textarea id="answers" readonly spellcheck="false" aria-label="The answers"></textarea>
</div>
<p><a id="file" download="played.script">Save the script as a file</a>: <code>unibench replay</code> takes it.</p>
</div>
<h2>Commands by name, also those that are refused</h2>
<div id="commands" class="row tools"></div>
</section>
<p><b>Keys:</b> ← and → walk, Home and End lead to the first and the last place, j and k to the next and the last event
of the same process, n to the next place where a call takes effect; a digit is a step of that process. <span
class="choice">u undoes, f is the rest of the latest call, l asks for the log, r is a random run, s one with a process
that stops, w the worst.</span></p>
<p><b>Signs:</b> in the run a bracket begins a call, and F ends it. A call takes effect at a letter with a line below
it, or at a dot, where another process did it. A small letter changed nothing; a bar ends an era, # is a note, ? a log,
and x a refused command. In the memory a star is what changed, and a blue line what was touched.</p>
</main>
<noscript><p>This page walks with JavaScript. Where it shows a run, the table has all of it.</p></noscript>
<div class="scroll"><table class="rows">
<tr><th>event<th>process<th>call<th>kind<th>what happened<th>what changed<th>its call
`;

function viewer() {
// ---- a walk: what is told after each event, and after what stands between events and changes nothing. The walk of a
// run is that run; in a graph, it goes from node 0 along the edges.

const WINDOW = 60;

// the place of each letter in the page of pseudo-code, what it says, and what a step of it does with its place
const CODE = [
  [1, "A", "announce[p] = mine", "writes", "its own cell"],
  [2, "", "best = anchor, best_seq = 0"],
  [3, "", "for q from 0 to n - 1:"],
  [4, "H", "    h = head[q]", "reads", "in its scan"],
  [5, "S", "    if h.seq > best_seq: best = h, best_seq = h.seq", "reads", "the number of that head"],
  [6, "G", "head[p] = best,  c = best", "writes", "the greatest of the heads"],
  [7, "T", "while mine.seq == 0:", "reads", "the number of its own cell"],
  [8, "R", "    help = announce[c.seq mod n]", "reads", "whose turn it is"],
  [9, "N", "    prefer = help if help.seq == 0, else mine", "reads", "the number of that cell"],
  [10, "L", "    d = decide c.after with prefer", "proposes"],
  [11, "V", "    decide d.new with (c's state, d.inv applied)", "proposes"],
  [12, "B", "    d.before = c", "writes", "the way back"],
  [13, "W", "    d.seq = c.seq + 1", "writes", "the number of that cell"],
  [14, "U", "    head[p] = d,  c = d", "writes", "and moves on"],
  [15, "F", "if c.seq < mine.seq: head[p] = mine;  return the reply in mine.new", "returns"],
];
const FIELDS = ["inv", "seq", "before", "after", "state", "reply"];

// the line of the pseudo-code that has a letter
function codeOf(letter) {
  return CODE.find((line) => line[1] === letter);
}

// the edge of a process in a node; null where it has no event, as after a trim, which leads out of the graph
function edgeOf(graph, node, process) {
  return node === null ? null : graph.edges[node * graph.processes + process];
}

function numbersOf({ processes }) {
  return Array.from({ length: processes }, (_, p) => p);
}

function counted(count, one, more = `${one}s`) {
  return `${count} ${count === 1 ? one : more}`;
}

// the memory of a world that has just been opened, in which the anchor has this state and number
function opened({ processes, state, number = 1 }) {
  const memory = new Map();
  for (const array of ["announce", "head"]) {
    for (const p of numbersOf({ processes })) memory.set(`${array}[${p}]`, "anchor");
  }
  const anchor = { seq: String(number), before: "?", after: "?", state, reply: "none" };
  for (const field in anchor) memory.set(`anchor.${field}`, anchor[field]);
  return memory;
}

// what is told before the first event, or where a trace begins with a later one, before that
function opening(run) {
  const { events, processes, memory } = run.start ?? { events: 0, processes: run.processes, memory: null };
  const held = memory === null ? opened(run) : new Map(memory.map(({ place, content }) => [place, content]));
  const calls = numbersOf({ processes }).map(() => null);
  const walk = { node: 0, event: events - 1, source: null, processes, memory: held, calls };
  return told(walk, "Before the first event.", "");
}

// what is told after what is no event of a process: its sentence, its mark, the command that asked for it, the answers
function told(here, words, mark, line = null, answers = []) {
  return { ...here, edge: null, process: null, changed: [], words, mark, line, answers };
}

// what is told after the event of a process, whose next step has this letter
function after(here, edge, process, next) {
  const memory = new Map(here.memory);
  const calls = here.calls.slice();
  const walk = { ...here, node: edge.to, event: here.event + 1, memory, calls, edge, process, line: null };
  if (edge.call !== undefined) {
    const made = { inv: edge.words, seq: "0", before: "?", after: "?", state: "?", reply: "?" };
    for (const field in made) memory.set(`${edge.call}.${field}`, made[field]);
    calls[process] = { call: edge.call, steps: 0, turns: 0, reply: null, next: "A", processes: here.processes };
    return { ...walk, changed: [`${edge.call}.inv`], answers: [`called ${edge.call}`] };
  }
  const written = { [edge.place]: edge.text };
  if (edge.kind === "V") written[replyPlace(edge)] = edge.beside;
  const changed = Object.keys(written).filter((place) => memory.get(place) !== written[place]);
  for (const place of changed) memory.set(place, written[place]);
  const call = { ...here.calls[process], next };
  call.steps += 1;
  if (beginsTurn(edge, next)) call.turns += 1;
  if (edge.kind === "F") call.reply = edge.beside;
  calls[process] = call;
  const ending = edge.kind === "F" ? `returned ${call.call} ${call.reply}` : `going ${call.call}`;
  return { ...walk, changed, answers: [`${ending} steps ${call.steps} turns ${call.turns}`] };
}

function replyPlace({ place }) {
  return place.replace(/state$/, "reply");
}

// a turn begins where the test of a number leads to the reading of an announcement
function beginsTurn(edge, next) {
  return edge.kind === "T" && next === "R";
}

// what is told after a process's edge of the graph; null where it has none
function follow(graph, here, process) {
  const edge = edgeOf(graph, here.node, process);
  return edge === null ? null : after(here, edge, process, edgeOf(graph, edge.to, process)?.kind);
}

// the end of an era: the list is replaced by an anchor
function ended(here, words, anew, answers) {
  const calls = numbersOf(anew).map((p) => here.calls[p] ?? null);
  const walk = { ...here, node: null, event: here.event + 1, processes: anew.processes, memory: opened(anew), calls };
  const left = `${words}: the anchor alone is left, with number ${anew.number} and state ${anew.state}.`;
  return told(walk, left, "|", words, answers);
}

// the cells that are linked, the anchor first
function listed(memory) {
  const cells = ["anchor"];
  for (let cell = memory.get("anchor.after"); cell !== "?"; cell = memory.get(`${cell}.after`)) cells.push(cell);
  return cells;
}

function logOf(memory) {
  const first = Number(memory.get("anchor.seq")) + 1;
  return listed(memory).slice(1).map((cell, k) =>
    `${first + k} ${cell} ${memory.get(`${cell}.inv`)} -> ${memory.get(`${cell}.reply`)}`);
}

// ---- a run, from the lines of its trace

// what a line of a trace tells, and a row of the table in words
function toldBy(here, line, words) {
  switch (line.what) {
    case "call": return after(here, line, line.process);
    case "step": return after(pending(here, line), stepOf(here, line), line.process, line.next);
    case "trim": return ended(here, "trim", { ...line, processes: here.processes }, []);
    case "reshape": return ended(here, `reshape to ${counted(line.processes, "process", "processes")}`, line, []);
    default: return told(here, words, line.what === "note" ? "#" : "x");
  }
}

// what was told, where the call of a step began before the events that are told
function pending(here, { process, call, kind, next, steps, turns }) {
  if (here.calls[process] !== null) return here;
  const calls = here.calls.slice();
  const begun = turns - (beginsTurn({ kind }, next) ? 1 : 0);
  calls[process] = { call, steps: steps - 1, turns: begun, reply: null, next: kind, processes: here.processes };
  return { ...here, calls };
}

// the edge of a step; a proposal that lost has proposed the reply that is settled
function stepOf(here, { kind, place, after, proposed, reply, changes }) {
  if (kind !== "V") return { kind, place, text: after, beside: kind === "L" ? proposed : reply };
  const beside = replyPlace({ place });
  const settled = changes.find((change) => change.place === beside);
  return { kind, place, text: after, beside: settled ? settled.after : here.memory.get(beside) };
}

// a trace's run, as a graph with one path: in each node, the edge of a process is its next event in the run
function pathOf([first, ...lines], rows) {
  const run = [told(opening(first), rows[0], "")];
  lines.forEach((line, k) => {
    const here = run.at(-1);
    if (line.what !== "heading") run.push({ ...toldBy(here, line, rows[k + 1]), node: run.length, source: line.line });
  });
  const processes = Math.max(...run.map((here) => here.processes));
  const edges = new Array(run.length * processes).fill(null);
  for (let k = run.length - 2; k >= 0; k--) {
    for (let p = 0; p < processes; p++) edges[k * processes + p] = edges[(k + 1) * processes + p];
    const { edge, process } = run[k + 1];
    if (edge !== null) edges[k * processes + process] = { ...edge, to: k + 1 };
  }
  const headings = lines.filter(({ what }) => what === "heading").map(({ text }) => text);
  return { object: first.object, processes, goal: "", edges, run, headings };
}

// ---- commands by name

function isPending(here, process) {
  return here.calls[process] !== null && here.calls[process].reply === null;
}

// how many calls a process has begun
function begunOf(here, process) {
  return here.calls[process] === null ? 0 : Number(here.calls[process].call.split(".")[1]) + 1;
}

// why a command is refused, as the script language says it; null where it isn't
function refusalOf(graph, here, word, process) {
  if (word === "trim") {
    const pending = numbersOf(graph).find((p) => isPending(here, p));
    return pending === undefined ? null : `refused pending ${pending}`;
  }
  if (process >= graph.processes) return `refused process ${process}`;
  if (word === "step") return isPending(here, process) ? null : `refused idle ${process}`;
  if (isPending(here, process)) return `refused busy ${process}`;
  return here.node !== null && begunOf(here, process) === graph.row ? `refused row ${process}` : null;
}

// what is told after a command: an event of the graph, a command that changes nothing, or what leads out of the graph,
// as a call after a trim; null where there is none
function commanded(graph, here, word, process) {
  const answered = (line, mark, answers) =>
    told(here, `${line}: ${answers.join("; ") || "no call is in the log yet"}.`, mark, line, answers);
  if (word === "log") return answered("log", "?", logOf(here.memory));
  const [{ words } = {}] = graph.edges.filter((edge) => edge !== null && edge.call !== undefined);
  const line = { trim: "trim", call: `call ${process} ${words}`, step: `step ${process}` }[word];
  const refusal = refusalOf(graph, here, word, process);
  if (refusal !== null) return answered(line, "x", [refusal]);
  if (word === "trim") {
    const last = listed(here.memory).pop();
    const [state, number] = ["state", "seq"].map((field) => here.memory.get(`${last}.${field}`));
    return ended(here, "trim", { processes: graph.processes, state, number }, [`trimmed ${number}`]);
  }
  const outside = { to: null, call: `${process}.${begunOf(here, process)}`, words };
  return here.node === null && word === "call" ? after(here, outside, process) : follow(graph, here, process);
}

// the script of a run, and what it is answered
function scriptOf(graph, run) {
  const lines = [`universal 1 ${graph.object} ${graph.processes} ${graph.row}`];
  const answers = [];
  const isStep = (event) => event !== undefined && event.edge !== null && event.edge.call === undefined;
  for (let k = 1; k < run.length; k++) {
    const { edge, process, line } = run[k];
    if (line !== null) {
      lines.push(line);
    } else if (edge.call !== undefined) {
      lines.push(`call ${process} ${edge.words}`);
    } else {
      const first = k;
      while (isStep(run[k + 1]) && run[k + 1].process === process) k += 1;
      lines.push(`step ${process} ${k - first + 1}`);
    }
    answers.push(...run[k].answers);
  }
  if (lines.at(-1) !== "log") {
    lines.push("log");
    answers.push(...logOf(run.at(-1).memory));
  }
  answers.push("end");
  return { lines, answers };
}

// ---- goals, judged as the program goal does

// whether a text has the bytes of a pattern, of which the first `..` stands for any text
function isLike(pattern, text) {
  const gap = pattern.indexOf("..");
  if (gap < 0) return text === pattern;
  const [front, back] = [pattern.slice(0, gap), pattern.slice(gap + 2)];
  return text.length >= front.length + back.length && text.startsWith(front) && text.endsWith(back);
}

function isNote(line) {
  return line === "" || line.startsWith("#");
}

// the place of the first line of a log that names a call; -1 where none does
function placeOf(call, answers) {
  return answers.findIndex((line) => /^[0-9]/.test(line) && line.split(" ")[1] === call);
}

// whether a line of a goal is met by the lines of a script and of its answers
function isMet(line, script, answers) {
  const hasLike = (pattern, lines) => lines.some((one) => isLike(pattern, one));
  if (line.startsWith("script ")) return hasLike(line.slice(7), script);
  if (line === "no refusals") return !hasLike("refused ..", answers);
  const words = line.split(" ");
  if (/^at most [^ ]* lines$/.test(line))
    return /^(0|[1-9][0-9]{0,11})$/.test(words[2]) && script.filter((one) => !isNote(one)).length <= Number(words[2]);
  if (/^log [^ ]* before [^ ]*$/.test(line)) {
    const first = placeOf(words[1], answers);
    return first >= 0 && first < placeOf(words[3], answers);
  }
  return hasLike(line, answers);
}

// the lines of the goal, and whether a run's script meets each; a note is met
function wishesOf(graph, run) {
  const { lines, answers } = scriptOf(graph, run);
  const isGood = (line) => isNote(line) || isMet(line, [...lines, ""], [...answers, ""]);
  const wishes = graph.goal.split("\n").map((line) => line.replace(/[ \t\f\r]+$/, ""));
  return wishes.map((line) => ({ line, met: isGood(line) }));
}

// whether no click makes what a line of a goal asks for, so that only the program goal can tell it
function isForCheck(line) {
  const [text, words] = line.startsWith("script ")
    ? [line.slice(7), /^(universal|call|step|log|trim)$/]
    : [line, /^(called|going|returned|refused|trimmed|end|log|no|at|[0-9]+)$/];
  const first = text.split(" ")[0];
  return (!first.includes("..") && !words.test(first)) || /^refused (history|count|sequence)/.test(line);
}

// what a line of a goal asks for, in words
function askedBy(line) {
  if (line.startsWith("script ")) return `the script has the line: ${line.slice(7)}`;
  if (line === "no refusals") return "no command is refused";
  if (/^at most [^ ]* lines$/.test(line)) return `the script has ${line}`;
  const order = /^log ([^ ]*) before ([^ ]*)$/.exec(line);
  if (order) return `in the log call ${order[1]} comes before ${order[2]}`;
  const kind = line.startsWith("returned") ? "a call ends and is answered"
    : /^[0-9]| -> /.test(line) ? "a log has the line" : "a step or a command is answered";
  return `${kind}: ${line}`;
}

// ---- all schedules

// the processes that have an event in a node
function ready(graph, node) {
  return numbersOf(graph).filter((p) => edgeOf(graph, node, p) !== null);
}

// a run to its end by choices at random, in which one process may stop after so many events
function randomRun(graph, random, stopped, most) {
  const run = [opening(graph)];
  let left = most;
  for (;;) {
    const here = run.at(-1);
    const choices = ready(graph, here.node).filter((p) => p !== stopped || left > 0);
    if (choices.length === 0) return run;
    const p = choices[Math.floor(random() * choices.length)];
    if (p === stopped) left -= 1;
    run.push(follow(graph, here, p));
  }
}

// the nodes in an order in which each comes after those that lead to it
function orderOf(graph) {
  const waiting = new Array(graph.edges.length / graph.processes).fill(0);
  for (const edge of graph.edges) if (edge !== null) waiting[edge.to] += 1;
  const order = [0];
  for (let k = 0; k < order.length; k++)
    for (const p of ready(graph, order[k])) {
      const { to } = edgeOf(graph, order[k], p);
      waiting[to] -= 1;
      if (waiting[to] === 0) order.push(to);
    }
  return order;
}

// for each log at the end, how many schedules have it
function endsOf(graph) {
  const ways = new Map([[0, 1n]]);
  const reached = new Map([[0, opening(graph)]]);
  const ends = new Map();
  for (const node of orderOf(graph)) {
    const here = reached.get(node);
    const choices = ready(graph, node);
    if (choices.length === 0) {
      const log = logOf(here.memory).join("; ");
      ends.set(log, (ends.get(log) || 0n) + ways.get(node));
    }
    for (const p of choices) {
      const { to } = edgeOf(graph, node, p);
      ways.set(to, (ways.get(to) || 0n) + ways.get(node));
      if (!reached.has(to)) reached.set(to, follow(graph, here, p));
    }
    reached.delete(node);
  }
  return ends;
}

// whether a way has more turns than another, or as many after fewer events
function isWorse(way, other) {
  return other === undefined || way.turns > other.turns || (way.turns === other.turns && way.events < other.events);
}

// of all ways to the end of a call of this process after most turns, one that has fewest events
function worstWay(graph, process) {
  const ways = new Map([[0, { turns: 0, events: 0, from: null, by: null }]]);
  let worst = { turns: -1 };
  for (const node of orderOf(graph)) {
    const here = ways.get(node);
    for (const p of ready(graph, node)) {
      const edge = edgeOf(graph, node, p);
      const turns = p !== process ? here.turns
        : edge.call !== undefined ? 0
        : here.turns + (beginsTurn(edge, edgeOf(graph, edge.to, p)?.kind) ? 1 : 0);
      const way = { turns, events: here.events + 1, from: here, by: p };
      if (isWorse(way, ways.get(edge.to))) ways.set(edge.to, way);
      if (p === process && edge.kind === "F" && isWorse(way, worst)) worst = way;
    }
  }
  return worst;
}

// a shortest run to a longest call
function worstRun(graph) {
  const worst = numbersOf(graph).map((p) => worstWay(graph, p)).reduce((a, b) => (isWorse(b, a) ? b : a));
  const path = [];
  for (let way = worst; way.from; way = way.from) path.unshift(way.by);
  const run = [opening(graph)];
  for (const p of path) run.push(follow(graph, run.at(-1), p));
  return run;
}

// ---- sentences

// the process whose call takes effect in an event; null where none does
function linkedBy({ edge, changed }) {
  return edge !== null && edge.kind === "L" && changed.length > 0 ? Number(edge.text.split(".")[0]) : null;
}

// what has happened, in the words of `unidraw --steps`
function happened({ edge, process, changed, calls }) {
  const { kind, place, text, beside } = edge;
  if (edge.call !== undefined) return `calls ${edge.words}: its cell is ${edge.call}.`;
  const { steps, turns } = calls[process];
  const [, , , does, role] = codeOf(kind);
  if (kind === "F")
    return `returns ${beside} after ${counted(steps, "step")} and ${counted(turns, "turn")}; ${place} is ${text}.`;
  if (role !== undefined) return `${does} ${place}: ${text}, ${role}.`;
  const both = kind === "L" ? `${beside} for ${place}` : `${text} for ${place} and ${beside} for ${replyPlace(edge)}`;
  return `proposes ${both}${changed.length > 0 ? ": won." : `; ${text} is there already: lost.`}`;
}

function sentenceOf(here) {
  const { edge, process } = here;
  if (edge === null) return here.words;
  const line = edge.call === undefined ? `, line ${codeOf(edge.kind)[0]}, ${edge.kind}:` : "";
  return `P${process}${line} ${happened(here)}${meaningOf(here)}`;
}

// what an event is to the calls
function meaningOf(here) {
  const { edge, process, calls } = here;
  const linked = linkedBy(here);
  if (linked === null) return beginsTurn(edge, calls[process].next) ? " A turn begins." : "";
  return linked === process ? " Its call takes effect." : ` P${process} does the call of P${linked}.`;
}

// the number of an event, and that of the script's line that stored it
function numberOf({ event, source }) {
  return source === null ? `${event}` : `${event}, line ${source}`;
}

// the variables of a process that its next step needs, read off that step
function variablesOf(edge) {
  if (edge === null || edge.call !== undefined) return [];
  const cell = edge.place.replace(/\.[a-z]+$/, "");
  switch (edge.kind) {
    case "H": return [["q", edge.place.replace(/\D/g, "")]];
    case "S": return [["h", cell]];
    case "G": return [["best", edge.text]];
    case "N": return [["help", cell]];
    case "L": return [["c", cell], ["prefer", edge.beside]];
    case "V": case "W": case "U": return [["d", edge.kind === "U" ? edge.text : cell]];
    case "B": return [["c", edge.text], ["d", cell]];
    default: return [];
  }
}

// ---- the page

let graph = null;
let run = [];
let at = 0;
let isRun = false; // where one is shown, nobody chooses

function element(tag, name, ...inside) {
  const node = document.createElement(tag);
  if (name) node.className = name;
  node.append(...inside);
  return node;
}

function fill(id, ...inside) {
  document.getElementById(id).replaceChildren(...inside);
}

function put(id, text) {
  const node = document.getElementById(id);
  if (node.textContent !== text) node.textContent = text;
}

// the buttons stay, so that the focus does
function button(id, name, text, act) {
  const made = element("button", name, text);
  Object.assign(made, { id, type: "button", onclick: act });
  return made;
}

function seat(p) {
  const step = button(`step${p}`, "step", "", () => give("", p));
  if (p < 10) step.setAttribute("aria-keyshortcuts", String(p));
  return element("div", "seat", step, button(`finish${p}`, "finish choice", "", () => finish(p)));
}

// why a process can't go; null where it can
function restOf(here, p) {
  const none = edgeOf(graph, here.node, p) === null;
  if (!isRun && none) return here.node === null ? "is past the trim: the graph ends there" : "has no call left to make";
  if (!isRun) return null;
  if (none) return "takes no further step in this run";
  const { process } = run.slice(at + 1).find(({ edge }) => edge !== null);
  return process === p ? null : `waits: P${process} goes next in this run`;
}

function showSeat(here, p) {
  const edge = edgeOf(graph, here.node, p);
  const step = document.getElementById(`step${p}`);
  const rest = restOf(here, p);
  const what = edge === null ? rest
    : edge.call !== undefined ? `begins ${edge.call}: ${edge.words}`
    : `line ${codeOf(edge.kind)[0]}, ${edge.kind}: ${edge.place}`;
  step.replaceChildren(element("b", "", `P${p} `), what);
  step.setAttribute("aria-disabled", String(rest !== null));
  put(`finish${p}`, isPending(here, p) ? `Finish P${p}'s call` : `P${p}'s whole call`);
  document.getElementById(`finish${p}`).setAttribute("aria-disabled", String(rest !== null));
}

// what a place holds, marked where an event has changed or touched it
function held(here, tag, name, place, start = "") {
  const mark = here.changed.includes(place) ? "changed" : "";
  const touched = here.edge !== null && here.edge.place === place ? "touched" : "";
  return element(tag, `${name} ${mark} ${touched}`, `${start}${here.memory.get(place)}${mark ? " *" : ""}`);
}

function cellBox(here, cell, kind, entries) {
  const list = element("dl", "");
  for (const field of FIELDS) {
    const place = `${cell}.${field}`;
    if (here.memory.has(place)) list.append(element("dt", "", field), held(here, "dd", "", place));
  }
  const named = entries.filter((place) => here.memory.get(place) === cell);
  return element("div", `box ${kind}`, element("b", "", cell), list,
    ...named.map((place) => element("div", "mono", `\u2191 ${place}`)));
}

function showMemory(here) {
  const entries = ["announce", "head"].flatMap((array) => numbersOf(here).map((p) => `${array}[${p}]`));
  fill("entries", ...entries.map((place) => held(here, "span", "box mono", place, `${place} \u2192 `)));
  const list = listed(here.memory);
  const made = [...here.memory.keys()].filter((place) => place.endsWith(".inv")).map((place) => place.slice(0, -4));
  const linked = list.slice(1).flatMap((cell) =>
    [element("span", "linked", "\u2192"), cellBox(here, cell, "", entries)]);
  const others = made.filter((cell) => !list.includes(cell)).map((cell) => cellBox(here, cell, "unlinked", entries));
  fill("cells", cellBox(here, "anchor", "anchor", entries), ...linked, ...others);
}

function processBox(here, p) {
  const call = here.calls[p];
  const box = element("div", "box", element("b", "", `P${p}`), call === null ? " has made no call yet" : "");
  if (call === null) return box;
  const [steps, turns] = [10 * call.processes + 12, call.processes + 1];
  const returned = call.reply === null ? "" : ` has returned ${call.reply}`;
  box.append(element("div", "mono", `call ${call.call}${returned}`));
  box.append(element("div", "", `steps ${call.steps} of ${steps}, ${steps - call.steps} left`));
  box.append(element("div", "", `turns ${call.turns} of ${turns}, ${turns - call.turns} left`));
  const known = call.reply === null ? [["mine", call.call], ...variablesOf(edgeOf(graph, here.node, p))] : [];
  for (const [name, text] of known) box.append(element("div", "mono", `${name} = ${text}`));
  return box;
}

// the mark of an event in the lane of a process
function laneCell(event, p) {
  const { edge, process, changed, mark } = event;
  const linked = linkedBy(event) === p;
  if (edge === null) return element("td", "pale", mark);
  if (process !== p) return element("td", linked ? "point" : "", linked ? "\u2022" : "");
  if (changed.length === 0) return element("td", "pale", edge.kind.toLowerCase());
  return element("td", linked ? "point" : "", edge.call !== undefined ? "[" : edge.kind);
}

function lane(shown, from, p) {
  const cells = shown.map((event, k) => {
    const cell = laneCell(event, p);
    if (from + k === at) cell.classList.add("here");
    return Object.assign(cell, { title: `${numberOf(event)}: ${sentenceOf(event)}`, onclick: () => go(from + k) });
  });
  return element("tr", "", element("th", "", `P${p}`), ...cells);
}

function showLanes() {
  const from = Math.max(1, Math.min(at - WINDOW / 2, run.length - WINDOW));
  fill("lanes", ...numbersOf(graph).map((p) => lane(run.slice(from, from + WINDOW), from, p)));
  const scroll = document.getElementById("lanes").parentElement;
  const here = document.querySelector("#lanes .here");
  scroll.scrollLeft = here === null ? 0 : here.offsetLeft - scroll.clientWidth / 2;
}

function codeLines(here) {
  const last = here.edge !== null && here.edge.kind;
  return CODE.map(([number, letter, text]) => {
    const who = numbersOf(here).filter((p) => here.calls[p]?.next === letter);
    const names = who.map((p) => `P${p}`).join(" ").padEnd(5);
    const line = `${String(number).padStart(2)} ${letter || " "} ${names} ${text}\n`;
    return element("span", letter !== "" && letter === last ? "last" : "", line);
  });
}

function wish({ line, met }) {
  if (isNote(line)) return element("li", "note", line.replace(/^#\s*/, ""));
  const when = isForCheck(line) ? " (no click does this: only the program goal tells it)" : "";
  return element("li", met ? "met" : "", `${met ? "\u2713 met" : "\u25cb not met"}: ${askedBy(line)}${when}`);
}

function showGoal(walk) {
  const wishes = wishesOf(graph, walk);
  const asked = wishes.filter(({ line }) => !isNote(line));
  const met = asked.filter((one) => one.met).length;
  document.getElementById("goal").hidden = asked.length === 0;
  put("met", met === asked.length ? "met" : `${met} of ${asked.length} lines met`);
  fill("wishes", ...wishes.filter(({ line }) => line !== "").map(wish));
}

function showScript(walk) {
  const { lines, answers } = scriptOf(graph, walk);
  const script = `${lines.join("\n")}\n`;
  document.getElementById("script").value = script;
  document.getElementById("answers").value = `${answers.join("\n")}\n`;
  document.getElementById("file").href = `data:text/plain,${encodeURIComponent(script)}`;
}

function showPlace(here) {
  Object.assign(document.getElementById("slider"), { max: run.length - 1, value: at });
  const last = run.length - 1;
  const isFirst = here === run[0];
  put("place", isFirst ? `before event ${here.event + 1}` : `event ${numberOf(here)} (the last is ${run[last].event})`);
  const rest = { first: at === 0, undo: at === 0, redo: at === last, last: at === last };
  for (const id in rest) document.getElementById(id).setAttribute("aria-disabled", String(rest[id]));
}

function show() {
  const here = run[at];
  const seats = document.getElementById("steppers");
  if (seats.childElementCount !== here.processes) fill("steppers", ...numbersOf(here).map(seat));
  numbersOf(here).forEach((p) => showSeat(here, p));
  put("sentence", sentenceOf(here));
  showPlace(here);
  showLanes();
  showMemory(here);
  fill("processes", ...numbersOf(here).map((p) => processBox(here, p)));
  put("log", logOf(here.memory).join("\n") || "empty");
  fill("code", ...codeLines(here));
  if (isRun) return;
  showGoal(run.slice(0, at + 1));
  showScript(run.slice(0, at + 1));
}

// leads to a place of the run; what was after it stays, until another choice is made
function go(place) {
  at = Math.max(0, Math.min(place, run.length - 1));
  if (isRun) history.replaceState(null, "", `#e=${run[at].event}`);
  show();
}

// leads to the nearest place before or after this one that is wanted, where there is one
function seek(step, isWanted) {
  let place = at + step;
  while (run[place] && !isWanted(run[place])) place += step;
  if (run[place]) go(place);
}

// puts what comes next in the place of what came after this place
function add(...more) {
  run = [...run.slice(0, at + 1), ...more];
  go(run.length - 1);
}

// a command by name, or, without a word, the next event of a process, which in a run has to be the run's
function give(word, p) {
  const rest = restOf(run[at], p);
  const next = isRun ? null : word === "" ? follow(graph, run[at], p) : commanded(graph, run[at], word, p);
  if (isRun && rest === null) go(at + 1);
  else if (next === null) put("sentence", `P${p} ${rest}.`);
  else add(next);
}

// steps of a process until its call returns; where none is pending, the next one begins first
function finish(p) {
  const more = [];
  for (let here = follow(graph, run[at], p); here !== null; here = isPending(here, p) ? follow(graph, here, p) : null)
    more.push(here);
  if (more.length > 0) add(...more);
  else put("sentence", `P${p} ${restOf(run[at], p)}.`);
}

// another run, with a note on it
function replace(other, note) {
  run = other;
  go(run.length - 1);
  if (note) put("sentence", `${sentenceOf(run[at])} ${note}`);
}

function playStopped() {
  const below = (n) => Math.floor(Math.random() * n);
  const p = below(graph.processes);
  const other = randomRun(graph, Math.random, p, below(30));
  replace(other, `P${p} stopped after ${other.filter((event) => event.process === p).length} events.`);
}

function playWorst() {
  const other = worstRun(graph);
  const { edge, calls, process } = other.at(-1);
  if (edge === null) return;
  const { steps, turns } = calls[process];
  replace(other, `No schedule here makes a call longer: ${steps} steps, ${turns} turns.`);
}

function showEnds() {
  const rows = [element("tr", "", element("th", "", "schedules"), element("th", "", "the log"))];
  for (const [log, ways] of endsOf(graph)) {
    const rounded = Number(ways).toExponential(1).replace("e+", " \u00d7 10^");
    const count = element("td", "count", ways < 1000000000n ? String(ways) : rounded);
    count.title = String(ways);
    const entries = log.split("; ").map((entry) => element("span", "entry", entry));
    rows.push(element("tr", "", count, element("td", "mono", ...entries)));
  }
  fill("ends", ...rows);
}

// the buttons and keys that walk, and the names that these have in a run
const WALKS = {
  first: () => go(0), undo: () => go(at - 1), redo: () => go(at + 1), last: () => go(run.length - 1),
};
const NAMES = { first: "First", undo: "Back", redo: "Next", last: "Last" };
const sameProcess = ({ process }) => process !== null && process === run[at].process;
const KEYS = {
  Home: WALKS.first, ArrowLeft: WALKS.undo, ArrowRight: WALKS.redo, End: WALKS.last,
  j: () => seek(1, sameProcess), k: () => seek(-1, sameProcess),
  n: () => seek(1, (event) => linkedBy(event) !== null),
};
const CHOICES = {
  worst: playWorst, stopped: playStopped, asklog: () => give("log", 0),
  random: () => replace(randomRun(graph, Math.random, null, 0)),
};

// what a game has beside a run
function startPlay() {
  const named = (word, p) => button(`${word}-${p}`, "", `${word} ${p}`, () => give(word, p));
  const commands = numbersOf(graph).flatMap((p) => [named("call", p), named("step", p)]);
  fill("commands", ...commands, named("step", graph.processes), button("trim", "", "trim", () => give("trim", 0)));
  for (const id in CHOICES) document.getElementById(id).onclick = CHOICES[id];
  const { worst: w, random: r, stopped: s, asklog: l } = CHOICES;
  const finishLatest = () => finish(run.slice(0, at + 1).findLast(({ process }) => process !== null)?.process ?? 0);
  Object.assign(KEYS, { u: WALKS.undo, f: finishLatest, w, r, s, l });
  showEnds();
}

// the event that the address names, in a run
function fromAddress() {
  const found = /^#e=(\d+)$/.exec(location.hash);
  const place = found ? run.findIndex(({ event }) => event === Number(found[1])) : 0;
  at = place < 0 ? run.length - 1 : place;
  show();
}

function start() {
  const lines = document.getElementById("data").textContent.trim().split("\n").map((line) => JSON.parse(line));
  const rows = [...document.querySelectorAll(".rows td:nth-child(5)")].map((cell) => cell.textContent);
  graph = lines[0].what === "run" ? pathOf(lines, rows) : lines[0];
  isRun = graph.run !== undefined;
  run = graph.run ?? [opening(graph)];
  document.body.className = isRun ? "run" : "play";
  document.querySelector("main").hidden = false;
  const about = `${graph.object}, ${counted(graph.processes, "process", "processes")}`;
  const last = run.at(-1).event;
  const first = run[0].event + 1;
  const events = first === 0 ? counted(last + 1, "event") : `events ${first} to ${last}`;
  document.title = isRun ? `${about}, ${events}` : `You are the scheduler: ${about}`;
  put("title", document.title);
  for (const id in WALKS) document.getElementById(id).onclick = WALKS[id];
  window.addEventListener("resize", showLanes);
  document.getElementById("slider").oninput = ({ target }) => go(Number(target.value));
  document.addEventListener("keydown", (key) => {
    if (key.altKey || key.ctrlKey || key.metaKey || key.target.matches("textarea, .scroll")) return;
    const digit = /^[0-9]$/.test(key.key) && Number(key.key) < run[at].processes;
    if (!digit && !Object.hasOwn(KEYS, key.key)) return;
    key.preventDefault();
    if (digit) give("", Number(key.key));
    else KEYS[key.key]();
  });
  if (isRun) {
    fill("heading", ...graph.headings.map((text) => element("p", "", text)));
    for (const id in NAMES) put(id, NAMES[id]);
    window.addEventListener("hashchange", fromAddress);
  } else {
    startPlay();
  }
  fromAddress();
}

}
