/**
 * Carries out the commands of `rope-search` by calls of a session: reads them from standard input, and writes their
 * replies to standard output. It stops at a line that is no command. A reply is a string here, with a character for
 * each of its bytes.
 */
import { readFileSync } from "node:fs";
import { fileURLToPath } from "node:url";
import { Refused, Session } from "../rope-search.js";

/** How many numbers a command has, and the commands that have a payload. */
const NUMBERS = { text: 1, edit: 5, pattern: 1, replace: 1, next: 2, use: 1, undo: 0, redo: 0, print: 0, off: 0, list: 0, fork: 0 };
const PAYLOADS = ["text", "edit", "pattern", "replace"];
const MOST = 2n ** 64n - 1n;
/** How many bytes a command's line may have before its LF. */
const LONGEST = 128;

const ok = () => "ok\n";
/** Each command as a call of a session, and its reply. */
const CALLS = {
  text: (session, _, payload) => session.setText(payload).then(ok),
  edit: (session, [l1, c1, l2, c2], payload) => session.edit([l1, c1], [l2, c2], payload).then(ok),
  undo: (session) => session.undo().then(ok),
  redo: (session) => session.redo().then(ok),
  pattern: (session, _, payload) => session.setPattern(payload).then(ok),
  off: (session) => session.off().then(ok),
  use: (session, [number]) => session.choose(number).then(ok),
  fork: (session) => session.fork().then((number) => `ok ${number}\n`),
  replace: (session, _, payload) => session.replace(payload).then((count) => `ok ${count}\n`),
  next: (session, from) => session.next(from).then((match) => match === null ? "no match\n"
    : `m ${match.start.line} ${match.start.column} ${match.stop.line} ${match.stop.column}\n`),
  list: (session) => session.matches().then((spans) =>
    spans.map(({ line, start, stop }) => `m ${line} ${start} ${stop}\n`).join("") + `ok ${spans.length}\n`),
  print: (session) => session.textBytes().then((text) => `text ${text.length}\n${text.toString("latin1")}\n`),
};

/** Whether a line is a command. */
function isCommand(line) {
  const [word, ...numbers] = line.split(" ");
  return line.length <= LONGEST && numbers.length === NUMBERS[word]
    && numbers.every((number) => /^\d{1,20}$/.test(number) && BigInt(number) <= MOST);
}

/** A number of a command. Where it isn't exact it is too large for any text. */
const numberOf = (digits) => Math.min(Number(digits), Number.MAX_SAFE_INTEGER);

/** The commands of an input, each its word, its numbers and its payload, and how many bytes they have. */
function commandsOf(input) {
  const commands = [];
  let at = 0;
  for (;;) {
    const end = input.indexOf(10, at);
    const line = input.toString("latin1", at, Math.max(at, end));
    if (end < 0 || !isCommand(line)) return { commands, size: at };
    const [word, ...digits] = line.split(" ");
    const numbers = digits.map(numberOf);
    const stop = end + 1 + (PAYLOADS.includes(word) ? numbers.at(-1) : 0);
    if (stop > input.length) return { commands, size: at };
    commands.push([word, numbers, input.subarray(end + 1, stop)]);
    at = stop;
  }
}

/** What the commands of an input are replied, which are all under way at once, and whether it ends with one. */
export async function replies(session, input) {
  const { commands, size } = commandsOf(input);
  const replies = commands.map(([word, numbers, payload]) =>
    CALLS[word](session, numbers, payload).catch((error) => {
      if (!(error instanceof Refused)) throw error;
      return `error ${error.word}\n`;
    }));
  return { told: (await Promise.all(replies)).join(""), isWhole: size === input.length };
}

if (process.argv[1] === fileURLToPath(import.meta.url)) {
  const session = new Session();
  const { told } = await replies(session, readFileSync(0));
  await session.close();
  process.stdout.write(told, "latin1");
}
