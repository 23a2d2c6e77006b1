import assert from "node:assert/strict";
import { spawnSync } from "node:child_process";
import { chmodSync, existsSync, mkdtempSync, readFileSync, rmSync, writeFileSync } from "node:fs";
import { tmpdir } from "node:os";
import { join } from "node:path";
import { test } from "node:test";
import { fileURLToPath } from "node:url";
import { replies } from "../examples/commands.js";
import { Ended, REASONS, Refused, Session, programPath } from "../rope-search.js";

/** A test with a session, which is ended however the test ends. */
function withSession(name, body, options) {
  test(name, { timeout: 600_000 }, async () => {
    const session = new Session(options);
    try {
      await body(session);
    } finally {
      await session.kill();
    }
  });
}

const refused = (word) => (error) => error instanceof Refused && error.word === word;
const ended = (error) => error instanceof Ended;

withSession("the example of the page", async (session) => {
  await session.setText("one two\none");
  await session.setPattern("one");
  await session.edit([1, 0], { line: 1, column: 0 }, "no ");
  assert.deepEqual(await session.matches(), [
    { line: 0, start: 0, stop: 3 },
    { line: 1, start: 3, stop: 6 },
  ]);
  assert.deepEqual(await session.next([0, 1]), {
    start: { line: 1, column: 3 },
    stop: { line: 1, column: 6 },
  });
  assert.equal(await session.next([1, 4]), null);
  assert.equal(await session.replace("[$0]"), 2);
  assert.equal(await session.text(), "[one] two\nno [one]");
  await session.undo();
  await session.undo();
  await session.redo();
  assert.equal(await session.fork(), 1);
  await session.off();
  await session.choose(1);
  assert.equal(await session.text(), "one two\nno one");
  assert.deepEqual(await session.close(), { status: 0, signal: null });
});

withSession("each refusal has its word", async (session) => {
  await assert.rejects(session.undo(), refused("none"));
  await assert.rejects(session.redo(), refused("none"));
  await assert.rejects(session.matches(), refused("none"));
  await assert.rejects(session.next([0, 0]), refused("none"));
  await assert.rejects(session.replace(""), refused("none"));
  await assert.rejects(session.choose(1), refused("none"));
  await assert.rejects(session.edit([0, 1], [0, 1], ""), refused("range"));
  await assert.rejects(session.setText("a\ud83d"), refused("utf8"));
  await assert.rejects(session.setText("\udc38\ud83da\ud83d\udc38"), refused("utf8"));
  await assert.rejects(session.setText(new Uint8Array([0xff])), refused("utf8"));
  await assert.rejects(session.setPattern("*"), refused("pattern"));
  await assert.rejects(session.setPattern("a".repeat(65_537)), refused("limit"));
  const error = await session.setPattern("(").catch((error) => error);
  assert.deepEqual([error.name, error.command, error.message], ["Refused", "pattern", `pattern: ${REASONS.pattern}`]);
  assert.equal(await session.text(), "");
  await session.setPattern("");
  await assert.rejects(session.next([0, 1]), refused("range"));
});

withSession("numbers and texts that are none are not sent", async (session) => {
  for (const wrong of [-1, 1.5, NaN, Infinity, 2 ** 53, "0", undefined, null]) {
    await assert.rejects(session.edit([0, 0], [0, wrong], ""), RangeError);
    await assert.rejects(session.next({ line: wrong, column: 0 }), RangeError);
    await assert.rejects(session.choose(wrong), RangeError);
  }
  await assert.rejects(session.next(), RangeError);
  for (const wrong of [undefined, null, 1, ["a"], {}]) {
    await assert.rejects(session.setText(wrong), TypeError);
  }
  assert.equal(session.pending, 0);
  assert.equal(await session.text(), "");
});

withSession("columns are indices of strings", async (session) => {
  const text = "é🐸 frog";
  await session.setText(text);
  await session.setPattern("frog|🐸");
  const spans = await session.matches();
  assert.deepEqual(spans.map(({ start, stop }) => text.slice(start, stop)), ["🐸", "frog"]);
  await assert.rejects(session.edit([0, 2], [0, 3], ""), refused("range"));
  await session.edit([0, 1], [0, 3], "\r\n\0");
  assert.equal(await session.text(), "é\r\n\0 frog");
  assert.deepEqual(await session.textBytes(), Buffer.from("é\r\n\0 frog"));
  const part = new Uint8Array([1, 97, 98, 1]).subarray(1, 3);
  await session.setText(part);
  assert.equal(await session.text(), "ab");
  const commands = [session.setText("a".repeat(3_000_000)), session.setText(part), session.text()];
  part[0] = 0xff;
  assert.equal((await Promise.all(commands))[2], "ab");
  await session.setText("");
  assert.equal(await session.text(), "");
});

withSession("commands are carried out in order, awaited or not", async (session) => {
  const replies = [];
  const commands = [session.setText("a"), session.setPattern("a")];
  for (let number = 0; number < 50; number += 1) {
    commands.push(session.edit([0, 0], [0, 0], "a"), session.matches().then((spans) => replies.push(spans.length)));
  }
  const wrong = session.edit([9, 0], [9, 0], "");
  commands.push(session.text().then((text) => replies.push(text.length)));
  await assert.rejects(wrong, refused("range"));
  await Promise.all(commands);
  assert.deepEqual(replies, [...Array.from({ length: 50 }, (_, number) => number + 2), 51]);
});

withSession("who sends much and reads nothing comes to an end", async (session) => {
  const text = "ab\n".repeat(30_000);
  const commands = [session.setText(text), session.setPattern("a")];
  // Replies of some megabytes each, while as many are written.
  for (let number = 0; number < 15; number += 1) {
    commands.push(session.matches(), session.text(), session.edit([0, 0], [0, 0], "x".repeat(1_000_000)));
  }
  for (let number = 0; number < 15; number += 1) commands.push(session.undo());
  assert.ok(session.pending > 50);
  const last = session.text();
  // Nothing reads for a while.
  const until = Date.now() + 500;
  while (Date.now() < until);
  const replies = await Promise.all(commands);
  assert.equal(replies[2].length, 30_000);
  assert.equal(await last, text);
  assert.equal(session.pending, 0);
});

withSession("many short commands", async (session) => {
  await session.setText("a");
  const commands = [];
  for (let number = 0; number < 100_000; number += 1) commands.push(session.choose(0));
  await Promise.all(commands);
  assert.equal(await session.text(), "a");
});

withSession("a large text and a large report", async (session) => {
  const text = "a🐸".repeat(400_000) + "\n" + "🐸".repeat(1_000_000);
  await session.setText(text);
  assert.equal(await session.text(), text);
  await session.setPattern("a");
  const spans = await session.matches();
  assert.equal(spans.length, 400_000);
  assert.deepEqual(spans.at(-1), { line: 0, start: 1_199_997, stop: 1_199_998 });
});

/** Numbers at random, the same in each run. */
function* random(seed) {
  for (let state = seed; ; yield state >>> 8) state = (Math.imul(state, 1_664_525) + 1_013_904_223) >>> 0;
}

/** The matches of each line, by a regular expression of JavaScript. */
function found(text, pattern) {
  return text.split(/\r\n|\r|\n/).flatMap((own, line) =>
    [...own.matchAll(pattern)].map(({ index, 0: { length } }) => ({ line, start: index, stop: index + length })));
}

withSession("random edits agree with a new search", async (session) => {
  const numbers = random(5);
  const below = (bound) => numbers.next().value % bound;
  const pieces = ["a", "b", "🐸", "é", "\n", "\r", "\r\n", "ab🐸", "ba", ""];
  await session.setPattern("b🐸|[aé]+");
  let text = "";
  for (let round = 0; round < 1_000; round += 1) {
    const lines = text.split(/(\r\n|\r|\n)/);
    // A line and a column, and the index of a character, where each has one.
    const places = [];
    let index = 0;
    lines.forEach((part, number) => {
      const isBreak = number % 2 === 1;
      const columns = isBreak ? [] : [0, ...[...part].map((letter, at, letters) => letters.slice(0, at + 1).join("").length)];
      for (const column of columns) places.push({ position: { line: number / 2, column }, index: index + column });
      index += part.length;
    });
    const [one, other] = [below(places.length), below(places.length)].sort((a, b) => a - b);
    const [from, to] = [places[one], places[other]];
    const piece = Array.from({ length: below(4) }, () => pieces[below(pieces.length)]).join("");
    const edited = session.edit(from.position, to.position, piece);
    const [spans, read] = await Promise.all([session.matches(), session.text(), edited]);
    text = text.slice(0, from.index) + piece + text.slice(to.index);
    assert.equal(read, text);
    assert.deepEqual(spans, found(text, /b🐸|[aé]+/gu), JSON.stringify(text));
    if (text.length > 200) {
      await session.setText("");
      text = "";
    }
  }
});

test("a session that is closed carries out what came before, and no more", async () => {
  const session = new Session();
  const text = session.setText("ab").then(() => "set");
  const read = session.text();
  const exit = session.close();
  await assert.rejects(session.text(), ended);
  assert.deepEqual([await text, await read], ["set", "ab"]);
  assert.deepEqual(await exit, { status: 0, signal: null });
  assert.deepEqual(await session.close(), { status: 0, signal: null });
  await assert.rejects(session.setText(""), ended);
});

test("a child that is killed in the middle", async () => {
  const session = new Session();
  await session.setText("a".repeat(2_000_000));
  const commands = [session.setPattern("a*b|a"), session.matches(), session.setText("x".repeat(10_000_000))];
  setTimeout(() => process.kill(session.pid, "SIGKILL"), 20);
  for (const { reason } of await Promise.allSettled(commands)) {
    assert.ok(reason === undefined || (ended(reason) && reason.signal === "SIGKILL"), reason);
  }
  await assert.rejects(session.text(), (error) => ended(error) && /SIGKILL/.test(error.message));
  assert.deepEqual(await session.close(), { status: null, signal: "SIGKILL" });
});

test("a session that is killed", async () => {
  const session = new Session();
  const text = session.text();
  assert.deepEqual(await session.kill(), { status: null, signal: "SIGKILL" });
  await text.catch((error) => assert.ok(ended(error)));
  await assert.rejects(session.text(), /the program was killed/);
  assert.deepEqual(await session.kill(), { status: null, signal: "SIGKILL" });
});

test("a program that does not exist, or can't be run", async () => {
  for (const program of ["/nowhere/rope-search", tmpdir(), fileURLToPath(import.meta.url)]) {
    const session = new Session({ program });
    await assert.rejects(session.setText("a"), (error) => ended(error) && error.message.includes(program));
    await assert.rejects(session.text(), ended);
    assert.deepEqual(await session.close(), { status: null, signal: null });
  }
  assert.throws(() => new Session({ program: "" }), TypeError);
  assert.throws(() => new Session({ program: "a\0b" }), TypeError);
});

/** A session of a script of the shell in the program's place. */
async function withScript(script, body, options = {}) {
  const folder = mkdtempSync(join(tmpdir(), "rope-search-"));
  try {
    const program = join(folder, "program");
    writeFileSync(program, `#!/bin/sh\n${script}\n`);
    chmodSync(program, 0o755);
    const session = new Session({ program, ...options });
    await body(session);
    await session.kill();
  } finally {
    rmSync(folder, { recursive: true });
  }
}

test("programs that are none", async () => {
  await withScript("echo what is it; cat > /dev/null", async (session) => {
    await assert.rejects(session.text(), ended);
  });
  await withScript("head -c 100000 /dev/zero; cat > /dev/null", async (session) => {
    await assert.rejects(session.text(), ended);
  });
  for (const word of ["end", "command", "toString"]) {
    await withScript(`echo error ${word}; cat > /dev/null`, async (session) => {
      const commands = [session.text(), session.undo()];
      for (const { reason } of await Promise.allSettled(commands)) assert.ok(ended(reason), reason);
    });
  }
  await withScript("exit 3", async (session) => {
    await assert.rejects(session.setText("x".repeat(1_000_000)), (error) => ended(error) && error.status === 3);
  });
  await withScript("echo rope-search: out of memory >&2; exit 1", async (session) => {
    await assert.rejects(session.text(), /rope-search: out of memory \(status 1\)/);
  });
});

test("a reply that does not come in time, and an end that does not", async () => {
  await withScript("exec sleep 100", async (session) => {
    await assert.rejects(session.text(), /no whole reply within 200 ms/);
  }, { timeout: 200 });
  await withScript("exec sleep 100", async (session) => {
    assert.equal((await session.close()).signal, "SIGKILL");
  }, { timeout: 200 });
  const session = new Session({ timeout: 60_000 });
  await session.setText("a");
  assert.equal((await session.close()).status, 0);
});

test("replies that are cut after each byte", async () => {
  const { Replies } = await import("../replies.js");
  const data = Buffer.from("ok\nok 7\nm 0 1 2\nm 3 4 5\nok 2\nm 1 2 3 4\nno match\nerror none\ntext 4\nok\n\n\ntext 0\n\nok 0\n");
  const due = [
    {}, { number: 7, spans: [] },
    { number: 2, spans: [{ line: 0, start: 1, stop: 2 }, { line: 3, start: 4, stop: 5 }] },
    { match: [1, 2, 3, 4] }, { match: null }, { error: "none" },
    { text: Buffer.from("ok\n\n") }, { text: Buffer.from("") }, { number: 0, spans: [] },
  ];
  for (let size = 1; size <= data.length; size += 1) {
    const replies = new Replies();
    const read = [];
    for (let at = 0; at < data.length; at += size) read.push(...replies.read(data.subarray(at, at + size)));
    assert.deepEqual(read, due);
  }
});

test("many sessions at a time", async () => {
  const sessions = Array.from({ length: 20 }, () => new Session());
  await Promise.all(sessions.map(async (session, number) => {
    await session.setText("ab ".repeat(number));
    await session.setPattern("b");
    assert.equal((await session.matches()).length, number);
    assert.equal((await session.close()).status, 0);
  }));
});

/** The bytes that a spelling of the page is. */
function bytesOf(spelling) {
  const letters = { n: "\n", r: "\r" };
  const told = spelling.replace(/\\(n|r|x([0-9a-f]{2}))/g, (_, name, digits) =>
    digits ? String.fromCharCode(parseInt(digits, 16)) : letters[name]);
  return Buffer.from(told, "latin1");
}

test("the worked inputs of docs/protocol.md", async (t) => {
  const page = fileURLToPath(new URL("../../../docs/protocol.md", import.meta.url));
  if (!existsSync(page)) return t.skip(`there is no ${page}`);
  const rows = readFileSync(page, "utf8").split("\n## Examples\n")[1].match(/^\| `.*$/gm);
  assert.ok(rows.length >= 10);
  for (const row of rows) {
    const [, input, output, status] = row.match(/^\| `(.+)` \| `(.+)` \| (\d) \|$/);
    const session = new Session();
    const { told, isWhole } = await replies(session, bytesOf(input));
    await session.close();
    assert.equal(isWhole, status === "0");
    // Of an input that is cut short, or has a line that is no command, the last line is the program's alone.
    const due = bytesOf(output).toString("latin1");
    assert.equal(told, status === "0" ? due : due.replace(/error (command|end)\n$/, ""));
  }
});

test("what is declared for TypeScript is there, and nothing else", async () => {
  const module = await import("../rope-search.js");
  const declared = readFileSync(new URL("../rope-search.d.ts", import.meta.url), "utf8");
  const names = [...declared.matchAll(/^export (?:const|class|function) (\w+)/gm)].map((found) => found[1]);
  assert.deepEqual(Object.keys(module).sort(), names.sort());
  const [, body] = declared.split("export class Session {");
  const calls = [...body.matchAll(/^  (?:readonly )?(\w+)[(:]/gm)].map((found) => found[1]);
  assert.deepEqual(Object.getOwnPropertyNames(Session.prototype).sort(), calls.sort());
});

test("the program is where the page says", () => {
  const { ROPE_SEARCH: named } = process.env;
  const code = "import { programPath } from './rope-search.js'; console.log(programPath())";
  const path = (environment) => spawnSync(process.execPath, ["--input-type=module", "-e", code], {
    cwd: fileURLToPath(new URL("..", import.meta.url)), env: { ...process.env, ...environment }, encoding: "utf8",
  }).stdout.trim();
  assert.equal(path({ ROPE_SEARCH: "/some/program" }), "/some/program");
  const built = fileURLToPath(new URL("../../../bin/rope-search", import.meta.url));
  const unnamed = path({ ROPE_SEARCH: "" });
  assert.ok([built, "rope-search"].includes(unnamed) || unnamed.endsWith("bin/rope-search"), unnamed);
  if (named) assert.equal(programPath(), named);
});
