/**
 * The worker that has the session: the text with its history, the pattern, the report, and the caret. It is
 * sent what to do, and replies with what the window shows then.
 */
import { Pattern, Refused, load } from "../../bindings/web/rope-search.js";
import { linesOf } from "./sample.js";

/** A longer line is shown up to here. */
const SHOWN = 1000;
/** The number of lines that are searched between two commands. */
const SLICE = 4000;
let session;
let caret = { line: 0, column: 0 };
/** The column that moves up and down aim at. */
let aim = 0;
let shown = { first: 0, count: 60 };
let fault = null;
/** Why the last command was refused, or null. */
let refusal = null;
/** The pattern that is set or pending, or null. */
let pattern = null;
const times = { window: null, all: null, slice: null, edit: null };

const start = async (module) => {
  const library = await load(module);
  session = library.open();
  session.setText(linesOf(100_000));
};

// ---- the caret

const lastColumn = (line) => session.lineLen(line);
const end = () => session.positionOf(session.textLen());

function before({ line, column }) {
  if (column > 0) return session.clamp([line, column - 1]);
  return line > 0 ? { line: line - 1, column: lastColumn(line - 1) } : { line, column };
}

function after({ line, column }) {
  if (column < lastColumn(line)) {
    const next = session.clamp([line, column + 1]);
    return next.column > column ? next : { line, column: column + 2 }; // a surrogate pair
  }
  return line + 1 < session.textLines() ? { line: line + 1, column: 0 } : { line, column };
}

const moves = {
  left: () => before(caret),
  right: () => after(caret),
  home: () => ({ line: caret.line, column: 0 }),
  end: () => ({ line: caret.line, column: lastColumn(caret.line) }),
  top: () => ({ line: 0, column: 0 }),
  bottom: end,
};
const rows = { up: () => -1, down: () => 1, pageUp: () => -shown.count, pageDown: () => shown.count };

function move(to) {
  if (to in rows) {
    const line = Math.max(0, Math.min(session.textLines() - 1, caret.line + rows[to]()));
    caret = session.clamp([line, aim]);
  } else {
    caret = moves[to]();
    aim = caret.column;
  }
}

function place(position) {
  caret = session.clamp(position);
  aim = caret.column;
}

// ---- the matches

/** The listed match at the caret, if one starts there. */
function current() {
  const match = session.listedFrom(caret);
  return match && match.line === caret.line && match.start === caret.column ? match : null;
}

function go(to) {
  const found = to === "next" ? session.listedFrom(after(caret)) ?? session.listedFrom([0, 0])
    : session.listedBefore(caret) ?? session.listedBefore([session.textLines(), 0]);
  // At the text's end there is nothing after the caret, but perhaps an empty match at it.
  if (found !== null) place([found.line, found.start]);
}

/** The expansion of a template for a match: `$` and a digit is the text of a group, `$$` a dollar sign. */
function expanded(template, { line, number }) {
  const groups = session.groupsAt(line, number);
  const text = session.line(line);
  return template.replace(/\$([0-9$])/g, (_, sign) =>
    sign === "$" ? "$" : text.slice(groups[sign].start, groups[sign].stop));
}

// ---- edits

/** Makes an edit, and puts the caret after the inserted text. */
function edit(from, to, text) {
  timed("edit", () => session.edit(from, to, text));
  const changes = session.textChanges();
  place(session.positionOf(changes.at(-1).newEnd));
}

/** Goes to where a command changed the text last. */
function follow() {
  const changes = session.textChanges();
  if (changes.length === 0) return place(caret);
  const byte = Math.min(changes[0].newEnd, session.textLen());
  try {
    place(session.positionOf(byte));
  } catch (error) {
    if (!(error instanceof Refused)) throw error;
    place(caret);
  }
}

function timed(what, call) {
  const began = performance.now();
  call();
  times[what] = performance.now() - began;
}

// ---- the report, in slices

/** Makes the pattern pending, and searches the lines that the window shows. The others follow in slices. */
function begin() {
  session.off();
  session.beginPattern(pattern);
  Object.assign(times, { all: 0, slice: 0 });
  timed("window", () => session.window(shown.first, Math.min(session.textLines(), shown.first + shown.count)));
}

/** Searches further lines of the text for the pending pattern. */
function slice() {
  const began = performance.now();
  session.advance(SLICE);
  const time = performance.now() - began;
  times.all += time;
  times.slice = Math.max(times.slice, time);
}

function drop() {
  session.off();
  pattern = null;
  Object.assign(times, { window: null, all: null, slice: null });
}

const commands = {
  start: ({ module }) => start(module),
  load({ bytes }) {
    // Without a pattern no line is searched before the text is there.
    if (pattern !== null) session.off();
    try {
      session.setText(new Uint8Array(bytes));
      place([0, 0]);
    } finally {
      if (pattern !== null) begin();
    }
  },
  pattern(given) {
    fault = null;
    if (given.pattern === "") return drop();
    try {
      pattern = given.pattern;
      begin();
    } catch (error) {
      drop();
      if (!(error instanceof Refused)) throw error;
      // The place is in bytes; what is shown counts code units.
      const bytes = new TextEncoder().encode(given.pattern);
      const at = error instanceof Pattern ? new TextDecoder().decode(bytes.slice(0, error.place)).length : null;
      fault = { message: error.reason ?? error.message, at };
    }
  },
  insert: ({ text }) => edit(caret, caret, text),
  remove({ isForward }) {
    const [from, to] = isForward ? [caret, after(caret)] : [before(caret), caret];
    if (from.line !== to.line || from.column !== to.column) edit(from, to, "");
  },
  move: ({ to }) => move(to),
  place: ({ position }) => place(position),
  go: ({ to }) => go(to),
  undo() {
    timed("edit", () => session.undo());
    follow();
  },
  redo() {
    timed("edit", () => session.redo());
    follow();
  },
  replace({ template }) {
    const match = current();
    if (match === null) return go("next");
    const { line } = match;
    edit([line, match.start], [line, match.stop], expanded(template, match));
    const next = session.listedFrom(caret) ?? session.listedFrom([0, 0]);
    if (next !== null) place([next.line, next.start]);
  },
  replaceAll({ template }) {
    timed("edit", () => session.replace(template));
    place(caret);
  },
  scroll({ first, count }) {
    shown = { first, count };
  },
};
/** Commands for the listed matches, which are ignored until all lines are searched. */
const OF_MATCHES = ["go", "replace", "replaceAll"];
/** Commands after which the window shows the caret. */
const REVEALING = ["insert", "remove", "move", "go", "undo", "redo", "replace", "load"];

// ---- what is shown

function lineShown(line) {
  const column = session.clamp([line, SHOWN]).column;
  const bytes = session.copyText(session.byteOf([line, 0]), session.byteOf([line, column]));
  return new TextDecoder().decode(bytes);
}

function view(reveal) {
  const count = session.textLines();
  if (reveal && (caret.line < shown.first || caret.line >= shown.first + shown.count)) {
    shown.first = Math.max(0, Math.min(count - 1, caret.line - (shown.count >> 1)));
  }
  const last = Math.min(count, shown.first + shown.count);
  const lines = [];
  for (let line = shown.first; line < last; line++) lines.push({ text: lineShown(line), spans: [] });
  const done = session.pending();
  const spans = done === null ? session.matches(shown.first, last) : session.window(shown.first, last);
  for (const { line, start, stop } of spans) {
    if (start <= SHOWN) lines[line - shown.first].spans.push([start, Math.min(stop, SHOWN)]);
  }
  return {
    first: shown.first, lines, count, caret, done, fault, refused: refusal, reveal, times, ...placeAmong(done),
    hasPattern: pattern !== null, canUndo: session.canUndo(), canRedo: session.canRedo(),
    changed: session.changed(), memory: session.library.memoryBytes,
  };
}

/** The match at the caret, its number, and how many there are: among the lines that are done, if not all are. */
function placeAmong(done) {
  if (done !== null) return { match: null, index: null, all: session.countPending(0, done) };
  const match = current();
  if (match === null) return { match, index: null, all: session.countMatches(0, session.rows()) };
  const { index, count: all } = session.listIndex(match.line, match.number);
  return { match, index, all };
}

/** Carries out a command, and gives the view after it. A refusal is shown; the session is as it was. */
async function answered(data) {
  refusal = null;
  try {
    const isIgnored = OF_MATCHES.includes(data.do) && session.pending() !== null;
    if (!isIgnored) await commands[data.do](data);
  } catch (error) {
    if (!(error instanceof Refused)) throw error;
    refusal = error.message;
  }
  return view(REVEALING.includes(data.do));
}

async function carryOut(data) {
  try {
    if (data.do === "text") {
      const bytes = session.copyText(0, session.textLen());
      postMessage({ text: bytes.buffer, caret }, [bytes.buffer]);
    } else {
      postMessage({ view: await answered(data), number: data.number });
    }
    slices();
  } catch (error) {
    postMessage({ broken: String(error), number: data.number });
  }
}

/** Commands are carried out in their order, also those that come while the library is loaded. */
let last = Promise.resolve();
/** Whether a slice waits for its turn. */
let isSliceDue = false;

/** Makes a slice after the commands that have arrived by then, if lines are left. */
function slices() {
  if (isSliceDue || session.pending() === null) return;
  isSliceDue = true;
  setTimeout(() => {
    last = last.then(sliceInTurn);
  });
}

function sliceInTurn() {
  isSliceDue = false;
  if (session.pending() === null) return;
  try {
    slice();
    postMessage({ view: view(false) });
    slices();
  } catch (error) {
    if (!(error instanceof Refused)) return postMessage({ broken: String(error) });
    drop();
    fault = { message: error.message, at: null };
    postMessage({ view: view(false) });
  }
}

onmessage = ({ data }) => {
  last = last.then(() => carryOut(data));
};
