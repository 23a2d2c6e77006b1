/** The page: it sends what is typed to the worker that has the session, and paints what that replies. */
import { isSupported } from "../../bindings/web/rope-search.js";
import { paint, positionAt } from "./lines.js";
import { Beside } from "./beside.js";

const MODULE = new URL("../../bin/rope_search.wasm", import.meta.url).href;
const LINE = 20; // pixels, as in style.css
/** Lines that are fetched before and after those in sight. */
const MARGIN = 20;
const $ = (id) => document.getElementById(id);
const windowOf = $("window");

if (!isSupported()) {
  $("fault").textContent = "This browser has no 64-bit memories for WebAssembly. Chromium 156 and Firefox 153 have.";
  throw new Error("no memory64");
}

const worker = new Worker(new URL("session.js", import.meta.url), { type: "module" });
const beside = new Beside(worker, $);
let view = null;
let sent = 0;
let answered = 0;
/** What waits until the worker has replied: of each kind the latest alone. */
const waiting = new Map();

function send(command) {
  worker.postMessage({ ...command, number: ++sent });
  noteIdle();
}

/** Sends a command, of which only the latest counts, when the preceding one is done. */
function sendLatest(command) {
  waiting.set(command.do, command);
  flush();
  noteIdle();
}

function flush() {
  if (answered < sent || waiting.size === 0) return;
  const [kind, command] = waiting.entries().next().value;
  waiting.delete(kind);
  send(command);
}

worker.onmessage = ({ data }) => {
  if (data.text !== undefined) {
    beside.search(data, $("pattern").value);
    return;
  }
  if (data.broken !== undefined) {
    $("fault").textContent = `The session can't continue: ${data.broken}. Reload the page.`;
    return;
  }
  // A slice of the report comes without a number.
  answered = data.number ?? answered;
  show(data.view);
  flush();
  noteIdle();
};

/** Whether all that was sent is shown, and no line is left to search: tests wait for it. */
function noteIdle() {
  document.documentElement.dataset.idle = String(answered === sent && waiting.size === 0 && view?.done === null);
}

// ---- painting

const milliseconds = (time) => (time === null ? "–" : time < 0.1 ? "below 0.1 ms" : `${time.toFixed(1)} ms`);
const number = (count) => count.toLocaleString("en");

function show(next) {
  view = next;
  $("all").style.height = `${view.count * LINE}px`;
  $("lines").style.top = `${view.first * LINE}px`;
  paint($("lines"), view);
  $("keys").style.top = `${view.caret.line * LINE}px`;
  if (view.reveal) reveal();
  showPlace();
  showFault();
  $("undo").disabled = !view.canUndo;
  $("redo").disabled = !view.canRedo;
  for (const id of ["previous", "next", "replace", "replaceAll"]) $(id).disabled = view.all === 0 || view.done !== null;
  $("hereWindow").textContent = milliseconds(view.times.window);
  $("hereAll").textContent = view.times.all === null ? "–" : `${milliseconds(view.times.all)}, at most ${milliseconds(view.times.slice)} in one slice`;
  const rows = view.changed.added;
  $("hereEdit").textContent = view.times.edit === null ? "–" : `${milliseconds(view.times.edit)}, ${number(rows)} ${rows === 1 ? "row" : "rows"}`;
  $("hereCount").textContent = view.hasPattern && view.done === null ? number(view.all) : "–";
}

function showPlace() {
  const all = number(view.all);
  const counted = `${all} ${view.all === 1 ? "match" : "matches"}`;
  const text = view.done !== null ? `${counted} in ${number(view.done)} of ${number(view.count)} lines`
    : view.index === null ? counted : `${number(view.index + 1)} of ${all}`;
  $("place").textContent = view.hasPattern ? text : "no pattern";
}

/** Shows why there is no pattern, below the character that can't be there. */
function showFault() {
  const { fault, refused } = view;
  $("pattern").setAttribute("aria-invalid", String(fault !== null));
  $("fault").textContent = fault?.message ?? refused ?? "";
  if (fault === null || fault.at === null) return;
  const pattern = $("pattern").value;
  const sign = document.createElement("u");
  sign.textContent = pattern.slice(fault.at, fault.at + 1) || " ";
  $("fault").replaceChildren(`${pattern.slice(0, fault.at)}`, sign, `${pattern.slice(fault.at + 1)}   column ${fault.at + 1}: ${fault.message}`);
}

function reveal() {
  const top = view.caret.line * LINE;
  const { scrollTop, clientHeight } = windowOf;
  if (top < scrollTop || top + 2 * LINE > scrollTop + clientHeight) windowOf.scrollTop = Math.max(0, top - clientHeight / 2);
  $("lines").querySelector(".caret")?.scrollIntoView({ block: "nearest", inline: "nearest" });
}

function inSight() {
  const first = Math.max(0, Math.floor(windowOf.scrollTop / LINE) - MARGIN);
  return { first, count: Math.ceil(windowOf.clientHeight / LINE) + 2 * MARGIN };
}

const fetchLines = () => sendLatest({ do: "scroll", ...inSight() });
windowOf.addEventListener("scroll", fetchLines);
addEventListener("resize", fetchLines);

// ---- the pattern and the buttons

function setPattern() {
  sendLatest({ do: "pattern", pattern: $("pattern").value });
  beside.later($("pattern").value);
}

/** Sends an edit of the text, and lets RegExp search it again. */
function change(command) {
  send(command);
  beside.later($("pattern").value);
}

$("pattern").addEventListener("input", setPattern);
$("pattern").addEventListener("keydown", (event) => {
  if (event.key === "Enter") send({ do: "go", to: event.shiftKey ? "previous" : "next" });
});
$("template").addEventListener("keydown", (event) => {
  if (event.key === "Enter") change({ do: "replace", template: $("template").value });
});
$("bar").addEventListener("submit", (event) => event.preventDefault());
for (const to of ["next", "previous"]) $(to).addEventListener("click", () => send({ do: "go", to }));
for (const what of ["undo", "redo"]) $(what).addEventListener("click", () => change({ do: what }));
for (const what of ["replace", "replaceAll"]) {
  $(what).addEventListener("click", () => change({ do: what, template: $("template").value }));
}
$("hang").addEventListener("click", () => {
  $("pattern").value = "(a*)*b";
  setPattern();
});
addEventListener("keydown", (event) => {
  const isCommand = event.ctrlKey || event.metaKey;
  const isField = event.target instanceof HTMLInputElement;
  if (event.key === "F3") send({ do: "go", to: event.shiftKey ? "previous" : "next" });
  else if (isCommand && !isField && event.key.toLowerCase() === "z") change({ do: event.shiftKey ? "redo" : "undo" });
  else if (isCommand && !isField && event.key.toLowerCase() === "y") change({ do: "redo" });
  else return;
  event.preventDefault();
});

// ---- the text

const MOVES = {
  ArrowLeft: "left", ArrowRight: "right", ArrowUp: "up", ArrowDown: "down",
  Home: "home", End: "end", PageUp: "pageUp", PageDown: "pageDown",
};
const FAR = { Home: "top", End: "bottom" };

function typed(event) {
  if (event.isComposing) return;
  const isCommand = event.ctrlKey || event.metaKey;
  if (event.key in MOVES) send({ do: "move", to: (isCommand && FAR[event.key]) || MOVES[event.key] });
  else if (event.key === "Backspace" || event.key === "Delete") change({ do: "remove", isForward: event.key === "Delete" });
  else if (event.key === "Enter") change({ do: "insert", text: "\n" });
  else if (event.key === "Escape") $("pattern").focus();
  else return;
  event.preventDefault();
}

function inserted(event) {
  const { value } = $("keys");
  if (event.isComposing || value === "") return;
  $("keys").value = "";
  change({ do: "insert", text: value });
}

$("keys").addEventListener("keydown", typed);
$("keys").addEventListener("input", inserted);
$("keys").addEventListener("compositionend", () => inserted({ isComposing: false }));
windowOf.addEventListener("mousedown", (event) => {
  if (event.offsetX > windowOf.clientWidth) return; // the scroll bar
  const position = positionAt(event.clientX, event.clientY, $("lines"), view);
  if (position !== null) send({ do: "place", position });
  $("keys").focus({ preventScroll: true });
  event.preventDefault();
});

// ---- files

windowOf.addEventListener("dragover", (event) => {
  event.preventDefault();
  windowOf.classList.add("dropping");
});
windowOf.addEventListener("dragleave", () => windowOf.classList.remove("dropping"));
windowOf.addEventListener("drop", async (event) => {
  event.preventDefault();
  windowOf.classList.remove("dropping");
  const [file] = event.dataTransfer.files;
  if (file !== undefined) change({ do: "load", bytes: await file.arrayBuffer() });
});

send({ do: "start", module: MODULE });
fetchLines();
$("pattern").focus();
