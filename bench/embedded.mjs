// A letter typed in each of many random lines of a text under a pattern, undone, and the fifty rows of a window:
// embedded.mjs WAY LINES EDITS. WAY is `child`, for bindings/node, which runs the program and has no window, or a
// module of WebAssembly, for bindings/web. It prints the median nanoseconds of each, one a line, as embedded.c does.
import { readFileSync } from "node:fs";

const [way, lines, edits] = [process.argv[2], Number(process.argv[3]), Number(process.argv[4])];

async function opened() {
  if (way === "child") {
    const { Session } = await import("../bindings/node/rope-search.js");
    return new Session();
  }
  const { load } = await import("../bindings/web/rope-search.js");
  return (await load(readFileSync(way))).open();
}

const times = { typed: [], undone: [], shown: [] };

/** Awaits what a call gives, and notes how long that takes. */
async function timed(what, call) {
  const start = process.hrtime.bigint();
  const value = await call();
  times[what].push(Number(process.hrtime.bigint() - start));
  return value;
}

const text = Array.from({ length: lines }, (_, line) => `line ${line} of the text: let x = y(a, b);\n`).join("");
const session = await opened();
await session.setText(text);
await session.setPattern("y\\(\\w+");
for (let edit = 0; edit < edits; edit++) {
  const line = Math.floor(Math.random() * lines);
  await timed("typed", () => session.edit([line, 5], [line, 5], "a"));
  if (way !== "child") {
    const shown = await timed("shown", () => session.matches(line, line + 50));
    if (shown.length === 0) throw new Error("no match");
  }
  await timed("undone", () => session.undo());
}
await session.close();
for (const [what, measured] of Object.entries(times)) {
  if (measured.length > 0) {
    measured.sort((a, b) => a - b);
    console.log(`${what} ${measured[measured.length >> 1]}`);
  }
}
