/**
 * Carries out the commands of `rope-search` by calls of a session: `node examples/commands.js MODULE.wasm`
 * reads them from standard input, and writes their replies to standard output. It stops at a line that is no
 * command. A second argument is the most bytes that a text may have.
 */
import { readFileSync, writeSync } from "node:fs";
import { fileURLToPath } from "node:url";
import { Refused, load } from "../rope-search.js";

/** How many numbers a command has, and the commands that have a payload. */
const NUMBERS = { text: 1, edit: 5, pattern: 1, replace: 1, next: 2, use: 1, undo: 0, redo: 0, print: 0, off: 0, list: 0, fork: 0 };
const PAYLOADS = ["text", "edit", "pattern", "replace"];
const MOST = 2n ** 64n - 1n;
/** How many bytes a command's line may have before its LF. */
const LONGEST = 128;

const ok = () => "ok\n";
const done = (call) => (...given) => ok(call(...given));
/** Each command as a call of a session, and its reply. */
const CALLS = {
  text: done((session, _, payload) => session.setText(payload)),
  edit: done((session, [l1, c1, l2, c2], payload) => session.edit([l1, c1], [l2, c2], payload)),
  undo: done((session) => session.undo()),
  redo: done((session) => session.redo()),
  pattern: done((session, _, payload) => session.setPattern(payload)),
  off: done((session) => session.off()),
  use: done((session, [number]) => session.choose(number)),
  fork: (session) => `ok ${session.fork()}\n`,
  replace: (session, _, payload) => `ok ${session.replace(payload)}\n`,
  next: (session, from) => {
    const match = session.next(from);
    if (match === null) return "no match\n";
    return `m ${match.start.line} ${match.start.column} ${match.stop.line} ${match.stop.column}\n`;
  },
  list: (session) => {
    if (session.rows() === 0) return "error none\n";
    const spans = session.matches();
    return spans.map(({ line, start, stop }) => `m ${line} ${start} ${stop}\n`).join("") + `ok ${spans.length}\n`;
  },
  print: (session) => {
    const text = session.copyText(0, session.textLen());
    return `text ${text.length}\n${Buffer.from(text).toString("latin1")}\n`;
  },
};

/** Whether a line is a command. */
function isCommand(line) {
  const [word, ...numbers] = line.split(" ");
  return line.length <= LONGEST && numbers.length === NUMBERS[word]
    && numbers.every((number) => /^\d{1,20}$/.test(number) && BigInt(number) <= MOST);
}

/** A number of a command. Where it isn't exact it is too large for any text. */
const numberOf = (digits) => Math.min(Number(digits), Number.MAX_SAFE_INTEGER);

/** The commands of an input, each its word, its numbers and its payload. */
function* commandsOf(input) {
  for (let at = 0; ; ) {
    const end = input.indexOf(10, at);
    const line = input.toString("latin1", at, Math.max(at, end));
    if (end < 0 || !isCommand(line)) return;
    const [word, ...digits] = line.split(" ");
    const numbers = digits.map(numberOf);
    const stop = end + 1 + (PAYLOADS.includes(word) ? numbers.at(-1) : 0);
    if (stop > input.length) return;
    yield [word, numbers, input.subarray(end + 1, stop)];
    at = stop;
  }
}

function reply(session, [word, numbers, payload]) {
  try {
    return CALLS[word](session, numbers, payload);
  } catch (error) {
    if (!(error instanceof Refused)) throw error;
    return `error ${error.word}\n`;
  }
}

/** What the commands of an input are replied, as far as they are commands. */
export function replies(session, input) {
  const told = [];
  for (const command of commandsOf(input)) told.push(Buffer.from(reply(session, command), "latin1"));
  return Buffer.concat(told);
}

if (process.argv[1] === fileURLToPath(import.meta.url)) {
  const library = await load(readFileSync(process.argv[2]));
  const session = library.open(process.argv[3] === undefined ? {} : { limit: Number(process.argv[3]) });
  const told = replies(session, readFileSync(0));
  session.close();
  for (let at = 0; at < told.length; ) at += writeSync(1, told, at);
}
