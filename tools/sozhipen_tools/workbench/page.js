"use strict";
// The page of the desk: two editors, and what the server says of their texts. All that is shown is set as text, never as markup.

const $ = id => document.getElementById(id);
const state = $("state"), PAUSE = 700;

function element(tag, attributes = {}, ...inside) {
  const made = document.createElement(tag);
  for (const [name, value] of Object.entries(attributes)) {
    if (name.startsWith("on")) made.addEventListener(name.slice(2), value);
    else made.setAttribute(name, value);
  }
  made.append(...inside);
  return made;
}

async function ask(name, body) {
  const options = body && { method: "POST", headers: { "Content-Type": "application/json" }, body: JSON.stringify(body) };
  const reply = await fetch(name, options);
  const said = await reply.json();
  if (!reply.ok) throw new Error(said.error);
  return said;
}

function tell(text, bad) {
  state.textContent = text;
  state.classList.toggle("bad", Boolean(bad));
}

// ---- editors

class Editor {
  constructor(name) {
    this.name = name;
    const part = selector => $(name).querySelector(selector);
    [this.area, this.gutter, this.behind, this.problems, this.save, this.changed, this.title] =
      ["textarea", ".gutter", ".behind", ".problems", ".save", ".changed", ".name"].map(part);
    this.saved = "";
    this.answers = new Map();
    this.marks = [];
    this.area.addEventListener("input", () => this.edited());
    this.area.addEventListener("scroll", () => this.scrolled());
    this.area.addEventListener("keydown", event => this.key(event));
    this.save.addEventListener("click", () => this.write());
  }

  get text() { return this.area.value; }

  load(file) {
    this.title.textContent = file.name;
    this.area.value = file.text;
    this.saved = this.area.value;
    this.ending = file.text.includes("\r\n") ? "\r\n" : "\n";
    this.draw();
  }

  edited() {
    outdated(true);
    this.marks = [];
    this.answers.clear();
    this.draw();
    changedText();
  }

  // Tab writes two blanks; Escape leaves the editor, so that the keyboard is not caught in it.
  key(event) {
    if (event.key === "Escape") $("run").focus();
    if (event.key !== "Tab" || event.shiftKey || event.ctrlKey || event.altKey) return;
    event.preventDefault();
    document.execCommand("insertText", false, "  ");
  }

  async write() {
    const text = this.text;
    try {
      await ask("save", { file: this.name, text: text.replaceAll("\n", this.ending) });
      this.saved = text;
      tell(`${this.title.textContent} is saved`);
    } catch (error) { tell(error.message, true); }
    this.draw();
  }

  draw() {
    const unsaved = this.text !== this.saved;
    this.changed.hidden = !unsaved;
    this.save.disabled = !unsaved;
    const lines = this.text.split("\n"), marked = new Map(this.marks.map(mark => [mark.line, []]));
    for (const mark of this.marks) marked.get(mark.line).push(mark);
    this.gutter.replaceChildren(...lines.map((line, k) => this.number(k + 1, marked.get(k + 1) || [])));
    this.behind.replaceChildren(...lines.flatMap((line, k) => [...this.line(line, marked.get(k + 1) || []), "\n"]));
    this.scrolled();
  }

  number(line, marked) {
    const answer = this.answers.get(line), row = element("div", marked.some(mark => !mark.advice) ? { class: "at" } : {});
    if (answer) {
      row.append(element("span", { class: answer.kind }, answer.short), " ");
      row.title = answer.long;
    }
    row.append(String(line));
    return row;
  }

  // A line of the sheet behind the text, with what is marked in it.
  line(line, marked) {
    const pieces = [];
    let done = 0;
    for (const mark of [...marked].sort((a, b) => a.column - b.column)) {
      const from = Math.max(done, Math.min(mark.column - 1, line.length)), to = Math.max(from, mark.column - 1 + mark.length);
      pieces.push(line.slice(done, from), element("mark", mark.advice ? { class: "advice" } : {}, line.slice(from, to) || " "));
      done = to;
    }
    return [...pieces, line.slice(done)];
  }

  scrolled() {
    this.gutter.scrollTop = this.area.scrollTop;
    this.behind.style.transform = `translate(${-this.area.scrollLeft}px, ${-this.area.scrollTop}px)`;
  }

  // Chooses a place and brings it into sight.
  goTo(line, column = 1, length = 0) {
    const lines = this.text.split("\n"), before = lines.slice(0, line - 1).join("\n").length + (line > 1 ? 1 : 0);
    const from = before + column - 1, to = length ? from + length : before + (lines[line - 1] || "").length;
    this.area.focus();
    this.area.setSelectionRange(from, Math.min(to, this.text.length));
    this.area.scrollTop = Math.max(0, (line - 6) * 18);
    this.area.scrollLeft = Math.max(0, (column - 40) * 7);
  }

  show(problems) {
    this.marks = problems.filter(problem => problem.column);
    this.problems.replaceChildren(...problems.map(problem => element("li", {}, element("button",
      { type: "button", class: problem.advice ? "advice" : "", title: problem.words || "",
        onclick: () => this.goTo(problem.line, problem.column, problem.length) },
      element("b", {}, `${problem.line}${problem.column ? `:${problem.column}` : ""} ${problem.code}`), ` ${problem.text}`))));
    this.draw();
  }
}

const rules = new Editor("rules"), script = new Editor("script");

// ---- panels

const tabs = [...document.querySelectorAll("nav button")];

function openPanel(name) {
  for (const tab of tabs) {
    tab.setAttribute("aria-selected", tab.dataset.panel === name);
    $(tab.dataset.panel).hidden = tab.dataset.panel !== name;
  }
  history.replaceState(null, "", `#${name}`);
  showTimeline();
}

for (const tab of tabs) tab.addEventListener("click", () => openPanel(tab.dataset.panel));
const tabOf = name => tabs.find(tab => tab.dataset.panel === name);
const count = (name, number) => { tabOf(name).querySelector("b").textContent = number || ""; };

function table(heads, rows) {
  return element("table", {}, element("thead", {}, element("tr", {}, ...heads.map(head => element("th", {}, head)))),
    element("tbody", {}, ...rows));
}

const number = value => element("td", { class: "number" }, String(value));

// What is shown is of an earlier text.
function outdated(yes) {
  for (const panel of document.querySelectorAll(".panel")) panel.classList.toggle("outdated", yes);
}

// ---- what a run says

let dates = false, timeline = null, shownTimeline = null;

const counted = (items, name) => `${items.length} ${name}${items.length === 1 ? "" : "s"}`;

const clockText = t => dates && t !== 0 ? new Date(t).toISOString().replace("T", " ").replace(/(\.000)?Z/, "") : String(t);

function factShown(fact, made) {
  return element("span", { class: made ? "fact made" : "fact" }, element("b", {}, `${made ? "new " : ""}#${fact.id} ${fact.type}`), ` ${fact.text}`);
}

function firingRow(firing) {
  const facts = [...firing.facts.map(fact => factShown(fact)), ...firing.made.map(fact => factShown(fact, true))];
  const values = firing.values ? [element("span", { class: "fact quiet" }, firing.values)] : [];
  const why = firing.waiting ? [element("span", { class: "quiet" }, ` ${firing.waiting}`)] : [];
  return element("tr", { onclick: () => script.goTo(firing.line) }, number(firing.line), number(clockText(firing.clock)),
    element("td", {}, firing.rule, ...why), element("td", {}, ...facts, ...values));
}

function showFirings(run) {
  count("firings", run.firings.length);
  $("firings").replaceChildren(run.firings.length ? table(["line", "clock", "rule", "facts with their values then, facts that it made, results and variables"],
    run.firings.map(firingRow)) : element("p", { class: "quiet" }, "No rule fired. A script fires where it has a line {\"do\":\"fire\"}; the tab Why not? tells of a rule."));
}

function showOutput(run) {
  count("output", run.printed.length);
  $("output").replaceChildren(table(["line", "clock", "printed"], run.printed.map(row => element("tr",
    { class: row.text.startsWith("fault ") ? "fault" : "", onclick: () => script.goTo(row.line) }, number(row.line), number(clockText(row.clock)),
    element("td", { class: "told" }, row.text)))));
}

function showLives(lives) {
  $("lives").replaceChildren(table(["type of events", "life, ms", "where it comes from"], lives.map(life => element("tr", {},
    element("td", {}, life.type), number(life.life), element("td", { class: "lines" }, life.why)))),
  element("p", { class: "quiet" }, "How long an event matters behind its end. An infinite one is kept for ever: docs/LIVES.md, *How long an event matters*."));
}

// What the lines of the script answered, beside their numbers. A promise is shown there too, though it answers nothing.
function answersOf(run) {
  const answers = new Map();
  const told = line => {
    if (!answers.has(line)) answers.set(line, []);
    return answers.get(line);
  };
  for (const row of run.printed) told(row.line).push(row.text);
  const shown = [...answers].map(([line, texts]) => [line, { ...shortOf(texts), long: texts.join("\n") }]);
  return new Map([...run.promises.map(promise => [promise.line, { kind: "", short: "⊳", long: promise.text }]), ...shown]);
}

function shortOf(texts) {
  const fires = texts.filter(text => text.startsWith("fire ")).length, fault = texts.find(text => text.startsWith("fault "));
  if (fault) return { kind: "fault", short: fault.split(" ")[2] };
  if (fires) return { kind: "fire", short: `▲${fires}` };
  const made = texts[0].startsWith("new ");
  return { kind: made ? "new" : "", short: made ? texts[0].split(" ")[1] : texts[0].split(" ")[0] };
}

// Why a line is faulty, where that is told, else what its code means. Faults of actions are told in their order.
function faultsOf(run, told) {
  const reasons = new Map(told.map(message => [message.line, [...message.reasons]]));
  return run.faults.map(fault => ({ line: fault.line, code: fault.code, text: (reasons.get(fault.line) || []).shift() || fault.words }));
}

function showRun(run, told) {
  dates = run.dates;
  script.answers = answersOf(run);
  script.show(faultsOf(run, told));
  showFirings(run);
  showOutput(run);
  const faulty = run.faults.length ? `, ${counted(run.faults, "fault")}` : "", last = run.printed[run.printed.length - 1];
  if (last && last.text.startsWith("limit ")) tell(`ended at line ${last.line}, at the limit of ${run.firings.length} firings: one more was pending`, true);
  else tell(`${run.facts} facts and events, ${counted(run.firings, "firing")}${faulty}; the clock ends at ${clockText(run.end)}. By ${run.by}.`);
}

// The picture is loaded when it is looked at.
function showTimeline() {
  if ($("timeline").hidden || shownTimeline === timeline) return;
  shownTimeline = timeline;
  $("timeline").replaceChildren(...timeline === null ? [] : [element("iframe",
    { src: `timeline/${timeline}`, title: "The time line of the run", sandbox: "allow-scripts" })]);
}

function showRules(names, types) {
  const chosen = $("why-rule").value;
  $("why-rule").replaceChildren(element("option", { value: "" }, "(none: what is pending)"), ...names.map(name => element("option", { value: name }, name)));
  $("why-rule").value = names.includes(chosen) ? chosen : names[0] || "";
  const lines = [...types.map(type => [`insert ${type.type}`, type.line, type.timestamp]), ["at", { do: "at", ms: 0 }, "ms"],
    ["advance", { do: "advance", by: 1000 }], ["promise", { do: "promise", from: 0 }], ["begin", { do: "begin" }],
    ["fire", { do: "fire" }], ["held", { do: "held" }]];
  $("add").replaceChildren(element("option", {}, "add a line .."), ...lines.map(([name]) => element("option", {}, name)));
  $("add").onchange = () => {
    const [, line, moment] = lines[$("add").selectedIndex - 1];
    addLine(line, moment);
    $("add").selectedIndex = 0;
  };
}

// The clock that the lines above the cursor lead to, as far as they can be read.
function clockAbove(lines) {
  let clock = 0;
  for (const line of lines) {
    try {
      const { do: word, ms, by } = JSON.parse(line);
      clock = word === "at" ? ms : word === "advance" ? clock + by : clock;
    } catch { /* a faulty line moves nothing */ }
  }
  return clock;
}

// Adds a line below that of the cursor, with the clock of that place as its moment.
function addLine(line, moment) {
  const cursor = script.area.selectionStart, end = script.text.indexOf("\n", cursor), at = end < 0 ? script.text.length : end;
  const clock = clockAbove(script.text.slice(0, at).split("\n")), fields = line.fields && { ...line.fields };
  if (moment) (fields || line)[moment] = clock;
  const text = JSON.stringify(fields ? { ...line, fields } : line), empty = /(^|\n)\s*$/.test(script.text.slice(0, at));
  script.area.focus();
  script.area.setSelectionRange(at, at);
  document.execCommand("insertText", false, empty ? text : `\n${text}`);
}

function show(said) {
  const of = kind => said.find(message => message.kind === kind), all = kind => said.filter(message => message.kind === kind);
  const [refused, accepted, run, lives, drawn] = ["refused", "accepted", "run", "lives", "timeline"].map(of);
  const advice = all("advice").flatMap(message => message.findings).map(found => ({ ...found, advice: true }));
  rules.show([...(refused ? refused.findings : []), ...advice]);
  if (refused) {
    tell(refused.text, true);
    script.show([]);
    return;
  }
  outdated(false);
  if (accepted) showRules(accepted.rules, accepted.types);
  if (lives) showLives(lives.lives);
  if (run) showRun({ ...run, by: accepted.program }, all("fault"));
  else showCut(all("output").flatMap(message => message.lines));
  timeline = drawn ? drawn.run : null;
  showTimeline();
  for (const note of all("note")) tell(note.text, true);
}

// A run that came to no end: its output so far.
function showCut(lines) {
  count("output", lines.length);
  $("output").replaceChildren(element("pre", {}, lines.join("\n")));
  $("firings").replaceChildren(element("p", { class: "quiet" }, "The run did not finish: what it printed is under Output."));
}

// ---- running

let timer = null, running = false, again = false;

function changedText() {
  clearTimeout(timer);
  if ($("live").checked) timer = setTimeout(run, PAUSE);
}

async function run() {
  clearTimeout(timer);
  again = running;
  if (running) return;
  running = true;
  tell("running ..");
  const texts = { rules: rules.text, script: script.text };
  try {
    const { said } = await ask("run", texts);
    if (texts.rules === rules.text && texts.script === script.text) show(said);
    else again = true;
  } catch (error) { tell(error.message, true); }
  running = false;
  if (again) run();
}

async function why(event) {
  event.preventDefault();
  $("why-answer").textContent = "..";
  try {
    const facts = ($("why-facts").value.match(/\d+/g) || []).map(Number);
    const { said } = await ask("why", { rules: rules.text, script: script.text, rule: $("why-rule").value, line: Number($("why-line").value), facts });
    const found = said.find(message => message.kind === "why");
    $("why-answer").textContent = found ? found.lines.join("\n") : said.map(message => message.text || "").join("\n");
  } catch (error) { $("why-answer").textContent = error.message; }
}

// The line of the script in which the cursor stands is the one that is asked about.
script.area.addEventListener("click", () => {
  $("why-line").value = script.text.slice(0, script.area.selectionStart).split("\n").length;
});

$("run").addEventListener("click", run);
document.querySelector("form").addEventListener("submit", why);
document.addEventListener("keydown", event => {
  if (event.key === "Enter" && (event.ctrlKey || event.metaKey)) run();
});
window.addEventListener("beforeunload", event => {
  if (rules.text !== rules.saved || script.text !== script.saved) event.preventDefault();
});

async function begin() {
  const asked = location.hash.slice(1);
  openPanel(tabOf(asked) ? asked : "firings");
  const texts = await ask("texts");
  document.title = $("title").textContent = texts.title;
  rules.load(texts.rules);
  script.load(texts.script);
  $("why-line").value = script.text.split("\n").length;
  await run();
}

begin().catch(error => tell(error.message, true));
