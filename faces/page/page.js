"use strict";
const by = id => document.getElementById(id);
const files = JSON.parse(by("files").textContent);
const LONGEST_RUN = 20000, MOST_BYTES = 2 ** 30, MOST_SHOWN = 3000;

// ---- the engine, in a worker, so that a long run can be stopped

const WORKER = `
let engine;
const bytesOf = text => {
  const packed = Uint8Array.from(atob(text), it => it.charCodeAt(0));
  return new Response(new Blob([packed]).stream().pipeThrough(new DecompressionStream("gzip"))).arrayBuffer();
};
const put = text => {
  const bytes = new TextEncoder().encode(text), at = engine.room(BigInt(bytes.length));
  new Uint8Array(engine.memory.buffer).set(bytes, Number(at));
  return [at, BigInt(bytes.length)];
};
const load = async module => {
  const begun = performance.now();
  engine = (await WebAssembly.instantiate(await bytesOf(module), {})).instance.exports;
  postMessage({ loaded: performance.now() - begun });
};
const run = ({ rules, script, memory, number }) => {
  const begun = performance.now();
  const status = engine.run(...put(rules), ...put(script), BigInt(memory));
  const bytes = new Uint8Array(engine.memory.buffer, Number(engine.output()), Number(engine.output_length()));
  const output = new TextDecoder().decode(bytes);
  postMessage({ status, output, spent: performance.now() - begun, peak: Number(engine.memory_peak()), left: Number(engine.memory_left()), number });
};
onmessage = async ({ data }) => {
  try { data.module ? await load(data.module) : run(data); } catch (fault) { postMessage({ fault: String(fault) }); }
};`;
let worker, number = 0, timer, isLoaded = false, last;

function begin() {
  if (worker) worker.terminate();
  isLoaded = false;
  worker = new Worker(URL.createObjectURL(new Blob([WORKER], { type: "text/javascript" })));
  worker.onmessage = ({ data }) => told(data);
  worker.onerror = fault => state(`no worker: ${fault.message || fault.type}`, "bad");
  worker.postMessage({ module: by("module").textContent.trim() });
}

function told(data) {
  if (data.loaded) { isLoaded = true; run(); return; }
  clearTimeout(timer);
  if (data.fault) {
    const isOld = /memory64|CompileError|BigInt/.test(data.fault);
    state(isOld ? "this browser has no WebAssembly with 64-bit memory" : data.fault, "bad");
    if (!isOld) begin();
    return;
  }
  if (data.number === number) show(data);
}

function run() {
  if (!isLoaded) return; // it runs as soon as it is
  number++;
  state("running", "");
  worker.postMessage({ rules: by("rules").value, script: by("script").value, memory: MOST_BYTES, number });
  clearTimeout(timer);
  timer = setTimeout(() => { state(`stopped after ${LONGEST_RUN / 1000} s`, "bad"); begin(); }, LONGEST_RUN);
}

function state(text, kind) { by("state").textContent = text; by("state").className = kind; }

// ---- what is shown

const SAID = ["read to its end", "read to its end, with faults", "", "the rules are refused", "", "", "", "memory was refused", "the script is too long"];

// The answers of each line: behind those of a line the program prints `done` and its number.
function answersOf(output) {
  const found = [[]];
  for (const line of output.split("\n").slice(0, -1))
    if (/^done \d+$/.test(line)) found.push([]); else found[found.length - 1].push(line);
  return found;
}

function show(run) {
  last = { ...run, text: run.output.split("\n").filter(line => !/^done \d+$/.test(line)).join("\n") };
  state(`${run.status}: ${SAID[run.status] || ""}`, run.status === 0 ? "good" : "bad");
  by("cost").textContent = `${run.spent.toFixed(1)} ms, ${(run.peak / 1024).toFixed(0)} KiB at most`;
  const answers = answersOf(run.output), refusal = /^refused item (\d+) line (\d+)/.exec(run.output);
  const lines = by("script").value.split("\n"), faulty = new Map(), rows = [];
  if (lines[lines.length - 1] === "") lines.pop();
  const list = document.createDocumentFragment();
  if (run.status === 3) for (const it of answers[0]) list.append(row("", it.split(" ")[0], it));
  else lines.slice(0, MOST_SHOWN).forEach((line, i) => {
    const said = answers[i] || [];
    rows.push({ line, answers: said });
    if (line.trim()) list.append(row(i + 1, "asked", line));
    for (const it of said) {
      list.append(row("", it.split(" ")[0], it));
      if (it.startsWith("fault")) faulty.set(i + 1, it);
    }
  });
  numbers("rules", refusal ? new Map([[+refusal[2], refusal.input.trim()]]) : new Map());
  numbers("script", faulty);
  by("answers").replaceChildren(list);
  draw(rows);
}

function row(n, kind, what) {
  const it = document.createElement("div"), at = document.createElement("span"), text = document.createElement("span");
  at.textContent = n;
  text.textContent = text.title = what;
  text.className = kind;
  it.append(at, text);
  return it;
}

const safe = text => String(text).replace(/[<&"]/g, it => `&#${it.charCodeAt(0)};`);

// The numbers of the lines, those marked of which something is told.
function numbers(name, marked) {
  const count = Math.min(by(name).value.split("\n").length, 5000), out = [];
  for (let i = 1; i <= count; i++) out.push(marked.has(i) ? `<b title="${safe(marked.get(i))}">${i}</b>` : i);
  by(name + "Lines").innerHTML = out.join("\n");
  by(name + "Lines").scrollTop = by(name).scrollTop;
}

// ---- the time line: a lane for each type and each rule

// By the name of a type, the fields of its start and its duration.
function typesOf(rules) {
  const types = new Map();
  for (const it of rules.matchAll(/declare\s+(\w+)([^]*?)\bend\b/g)) {
    const of = name => (new RegExp(`@${name}\\(\\s*(\\w+)\\s*\\)`).exec(it[2]) || [])[1];
    types.set(it[1], { start: of("timestamp"), span: of("duration") });
  }
  return types;
}

// What happened, each with its lane, start and end; and which firing names which fact.
function happened(rows) {
  const types = typesOf(by("rules").value), lanes = [], marks = [], links = [], facts = new Map();
  const lane = (name, kind) => {
    const at = lanes.findIndex(it => it.name === name && it.kind === kind);
    return at >= 0 ? at : lanes.push({ name, kind }) - 1;
  };
  let clock = 0;
  const fired = answer => {
    const name = /^fire "((?:[^"\\]|\\.)*)"/.exec(answer)[1], mark = { lane: lane(name, "rule"), start: clock, end: clock, fire: true, title: answer };
    marks.push(mark);
    for (const id of answer.match(/ #\d+/g) || []) if (facts.has(id.trim())) links.push([facts.get(id.trim()), mark]);
  };
  const inserted = (command, line, answer) => {
    const of = types.get(command.type) || {}, fields = command.fields || {}, isBad = answer.startsWith("fault");
    const start = of.start ? +fields[of.start] || 0 : clock, id = isBad ? "" : answer.split(" ")[1];
    const mark = { lane: lane(String(command.type), "type"), start, end: start + (of.span ? +fields[of.span] || 0 : 0), id, bad: isBad, title: `${id || answer} ${line}` };
    marks.push(mark);
    if (id) facts.set(id, mark);
  };
  const made = answer => {
    const [, id, name] = answer.split(" "), mark = { lane: lane(name, "type"), start: clock, end: clock, id, made: true, title: `${answer}, made by a rule` };
    marks.push(mark);
    facts.set(id, mark);
  };
  for (const { line, answers } of rows) {
    let command;
    try { command = JSON.parse(line); } catch { continue; }
    if (!command || typeof command !== "object") continue;
    const isBad = (answers[0] || "").startsWith("fault");
    if (command.do === "at" && !isBad) clock = command.ms;
    if (command.do === "advance" && !isBad) clock += command.by;
    if (command.do === "insert" && answers.length) inserted(command, line, answers[0]);
    if (command.do === "fire") for (const it of answers) it.startsWith("fire ") ? fired(it) : it.startsWith("new ") && made(it);
  }
  return { lanes, marks, links };
}

const stepOf = span => [1, 2, 5].flatMap(n => [...Array(14).keys()].map(k => n * 10 ** k)).sort((a, b) => a - b).find(it => span / it <= 8) || 1;

function shape(it, x, y, hasNumber) {
  const a = x(it.start), b = x(it.end), title = `<title>${safe(it.title)}</title>`;
  if (it.fire) return `<path class="rule" d="M${a} ${y - 7}l6 12h-12z">${title}</path>`;
  if (it.bad) return `<path class="bad" d="M${a - 4} ${y - 4}l8 8m0 -8l-8 8">${title}</path>`;
  return `<rect class="${it.made ? "made" : "fact"}" x="${a - 4}" y="${y - 4}" width="${b - a + 8}" height="8" rx="4">${title}</rect>`
    + (hasNumber ? `<text class="dim" x="${b + 6}" y="${y + 4}" font-size="9">${safe(it.id)}</text>` : "");
}

function draw(rows) {
  const { lanes, marks, links } = happened(rows), svg = by("time");
  if (!marks.length) {
    svg.setAttribute("height", 40);
    svg.innerHTML = `<text class="dim" x="12" y="24">nothing has happened</text>`;
    return;
  }
  [...lanes].sort((a, b) => (a.kind === "rule") - (b.kind === "rule")).forEach((it, i) => { it.y = 30 + 22 * i; });
  const first = marks.reduce((a, it) => Math.min(a, it.start), Infinity), end = marks.reduce((a, it) => Math.max(a, it.end), first + 1);
  const wide = svg.clientWidth || 1200, left = Math.min(150, wide / 3), right = wide - 30, high = 36 + 22 * lanes.length;
  const x = t => left + (right - left) * (t - first) / (end - first), step = stepOf(end - first);
  let out = "";
  for (let t = Math.ceil(first / step) * step; t <= end; t += step)
    out += `<line class="grid" x1="${x(t)}" y1="16" x2="${x(t)}" y2="${high}"/><text class="dim" x="${x(t)}" y="12" text-anchor="middle">${step % 1000 ? t + " ms" : t / 1000 + " s"}</text>`;
  for (const it of lanes)
    out += `<text class="${it.kind === "rule" ? "rule" : ""}" x="12" y="${it.y + 4}">${safe(it.name)}</text><line class="grid" x1="${left}" y1="${it.y}" x2="${right}" y2="${it.y}"/>`;
  for (const [a, b] of links)
    out += `<line class="link" x1="${x(a.start)}" y1="${lanes[a.lane].y}" x2="${x(b.start)}" y2="${lanes[b.lane].y}"/>`;
  for (const it of marks) out += shape(it, x, lanes[it.lane].y, marks.length < 120 && it.id);
  svg.setAttribute("height", high + 8);
  svg.innerHTML = out;
}

// ---- links: rules and script, packed, in the fragment

const through = async (bytes, stream) => new Uint8Array(await new Response(new Blob([bytes]).stream().pipeThrough(stream)).arrayBuffer());

async function packed(value) {
  const bytes = await through(new TextEncoder().encode(JSON.stringify(value)), new CompressionStream("deflate-raw"));
  return btoa(Array.from(bytes, it => String.fromCharCode(it)).join("")).replace(/\+/g, "-").replace(/\//g, "_").replace(/=+$/, "");
}

async function unpacked(text) {
  const bytes = Uint8Array.from(atob(text.replace(/-/g, "+").replace(/_/g, "/")), it => it.charCodeAt(0));
  return JSON.parse(new TextDecoder().decode(await through(bytes, new DecompressionStream("deflate-raw"))));
}

async function linked() {
  const hash = location.hash.slice(1);
  if (hash.startsWith("run=")) {
    try {
      const { rules, script } = await unpacked(hash.slice(4));
      take({ rules: String(rules), script: String(script) });
      by("examples").selectedIndex = -1;
      return;
    } catch { state("the link is cut off, or of something else", "bad"); }
  }
  const name = decodeURIComponent(hash), found = files.findIndex(it => it.name === name);
  by("examples").selectedIndex = Math.max(found, 0);
  take(files[Math.max(found, 0)]);
}

async function copyLink() {
  const link = location.href.split("#")[0] + "#run=" + await packed({ rules: by("rules").value, script: by("script").value });
  history.replaceState(null, "", link);
  let isCopied = true;
  try { await navigator.clipboard.writeText(link); } catch { isCopied = false; }
  by("note").textContent = isCopied ? "The link is copied." : "The link stands in the address bar.";
}

// ---- editing

function take({ rules, script }) {
  by("rules").value = rules;
  by("script").value = script;
  numbers("rules", new Map());
  numbers("script", new Map());
}

let soon;
for (const name of ["rules", "script"]) {
  by(name).addEventListener("input", () => { numbers(name, new Map()); clearTimeout(soon); soon = setTimeout(run, 200); });
  by(name).addEventListener("scroll", () => { by(name + "Lines").scrollTop = by(name).scrollTop; });
}
for (const it of files) by("examples").append(new Option(it.name));
by("examples").addEventListener("change", () => { const it = files[by("examples").selectedIndex]; history.replaceState(null, "", "#" + encodeURIComponent(it.name)); take(it); run(); });
by("link").addEventListener("click", copyLink);
addEventListener("hashchange", () => linked().then(run));
addEventListener("resize", () => { clearTimeout(soon); soon = setTimeout(run, 200); });
linked().then(begin);
