/**
 * A regular expression kept live over a text that is edited, undone and forked: the program `rope-search` as
 * a child process.
 *
 *     import { Session } from "rope-search";
 *
 *     const session = new Session();
 *     await session.setText("one two\none");
 *     await session.setPattern("one");
 *     await session.edit([1, 0], [1, 0], "no ");
 *     console.log(await session.matches());
 *     await session.close();
 *
 * rope-search.d.ts documents each call. Commands are carried out in the order of the calls, whether their
 * promises are awaited or not.
 */
import { spawn } from "node:child_process";
import { existsSync } from "node:fs";
import { fileURLToPath } from "node:url";
import { Queue } from "./queue.js";
import { Replies } from "./replies.js";

/** How many bytes of commands are handed to the pipe's stream before it says that it has room again. */
const ROOM = 1 << 16;
const LONE_SURROGATE = /(\p{Surrogate})/u;
const NO_BYTES = Buffer.alloc(0);

/** A command was refused; the session is as it was before. `word` says why, as in `error range`. */
export class Refused extends Error {
  constructor(word, command) {
    super(`${command}: ${REASONS[word] ?? word}`);
    this.name = "Refused";
    this.word = word;
    this.command = command;
  }
}

/** What each word of a refusal says. */
export const REASONS = Object.freeze({
  none: "there is no such buffer, no pattern, or no text to go back or forward to",
  range: "a position is nowhere in the text, or positions are out of order",
  utf8: "the text is not UTF-8: it has a lone surrogate, or other bytes",
  pattern: "the text is no pattern",
  limit: "the pattern is too long, or weighs too much",
  size: "the text or the template would be too long",
  memory: "out of memory",
});

/** The program has ended, was not found, or was closed: no command is carried out any more. */
export class Ended extends Error {
  constructor(message, { status = null, signal = null, cause } = {}) {
    super(message, cause === undefined ? undefined : { cause });
    this.name = "Ended";
    this.status = status;
    this.signal = signal;
  }
}

/** Where the program is if no other is named. */
export function programPath() {
  if (process.env.ROPE_SEARCH) return process.env.ROPE_SEARCH;
  // bin/ of the repository or release, or that of an installation.
  const around = ["../../bin/rope-search", "../../../bin/rope-search"];
  const paths = around.map((path) => fileURLToPath(new URL(path, import.meta.url)));
  return paths.find((path) => existsSync(path)) ?? "rope-search";
}

/** The UTF-8 of a string. A lone surrogate has none: its bytes are such that the program refuses them. */
function bytesOf(text) {
  // A copy: it is perhaps written later, when the caller has changed its own.
  if (text instanceof Uint8Array) return Buffer.from(text);
  if (typeof text !== "string") throw new TypeError("a text is a string or a Uint8Array");
  if (!LONE_SURROGATE.test(text)) return Buffer.from(text, "utf8");
  const parts = text.split(LONE_SURROGATE).map((part, index) => {
    if (index % 2 === 0) return Buffer.from(part, "utf8");
    const unit = part.charCodeAt(0);
    return Buffer.from([0xe0 | (unit >> 12), 0x80 | ((unit >> 6) & 0x3f), 0x80 | (unit & 0x3f)]);
  });
  return Buffer.concat(parts);
}

/** A number as a command takes it. Any other would end the program. */
function numberOf(number) {
  if (!Number.isSafeInteger(number) || number < 0) {
    throw new RangeError(`lines, columns and buffers are whole numbers from 0: ${number}`);
  }
  return number;
}

/** The line and the column of a position, which is an object or a pair. */
function pairOf(position) {
  const [line, column] = Array.isArray(position) ? position : [position?.line, position?.column];
  return `${numberOf(line)} ${numberOf(column)}`;
}

/** A session, which is a program that runs as a child. All calls are about the chosen buffer. */
export class Session {
  #child;
  #timeout;
  #replies = new Replies();
  /** Commands that are not written yet, and those whose replies are due, each in order. */
  #unwritten = new Queue();
  #waiting = new Queue();
  #hasRoom = true;
  #isClosing = false;
  #message = "";
  #timer = null;
  #why = null;
  #ended = null;
  #exit;

  constructor({ program = programPath(), timeout = 0 } = {}) {
    this.#timeout = timeout;
    this.#child = spawn(program, [], { stdio: ["pipe", "pipe", "pipe"], windowsHide: true });
    this.#exit = new Promise((resolve) => {
      this.#listen(program, resolve);
    });
  }

  #listen(program, resolve) {
    const child = this.#child;
    child.on("error", (cause) => {
      if (child.pid !== undefined) return; // it runs, and a signal could not be sent
      this.#end(new Ended(`${program} was not started: ${cause.message}`, { cause }));
      resolve({ status: null, signal: null });
    });
    child.on("close", (status, signal) => {
      const why = this.#why ?? (this.#message.trim() || "the program ended");
      const how = signal === null ? `status ${status}` : `signal ${signal}`;
      this.#end(new Ended(`${why} (${how})`, { status, signal }));
      resolve({ status, signal });
    });
    // A child that was not started may have no streams.
    child.stdout?.on("data", (data) => this.#receive(data));
    child.stderr?.on("data", (data) => {
      this.#message = (this.#message + data.toString("utf8")).slice(0, 1_000);
    });
    child.stdin?.on("drain", () => {
      this.#hasRoom = true;
      this.#write();
    });
    // A child that has ended takes no more: "close" reports how it ended.
    for (const stream of [child.stdin, child.stdout, child.stderr]) stream?.on("error", () => {});
  }

  /** Nothing more is carried out: all commands without a reply are rejected. */
  #end(error) {
    this.#ended ??= error;
    clearTimeout(this.#timer);
    for (const commands of [this.#waiting, this.#unwritten]) {
      while (commands.length > 0) commands.shift().reject(this.#ended);
    }
  }

  #receive(data) {
    if (this.#why !== null) return; // it is being killed
    try {
      for (const reply of this.#replies.read(data)) {
        const { error } = reply;
        if (this.#waiting.length === 0) throw new Error("the program replied to no command");
        if (error !== undefined && !Object.hasOwn(REASONS, error)) {
          throw new Error(`the program replied: error ${error}`);
        }
        const command = this.#waiting.shift();
        this.#watch();
        if (error === undefined) command.resolve(reply);
        else command.reject(new Refused(error, command.word));
      }
    } catch (error) {
      this.#stop(error.message);
    }
  }

  /** Kills the program. */
  #stop(why) {
    this.#why ??= why;
    this.#child.kill("SIGKILL");
  }

  /** Begins to wait for the next reply, or for the end, if one is due. */
  #watch() {
    clearTimeout(this.#timer);
    const isDue = this.#waiting.length > 0 || this.#isClosing;
    if (this.#timeout > 0 && isDue && !this.#ended) {
      const why = `no whole reply within ${this.#timeout} ms`;
      this.#timer = setTimeout(() => this.#stop(why), this.#timeout);
    }
  }

  /** Writes commands, as long as the pipe takes them. */
  #write() {
    while (this.#hasRoom && this.#unwritten.length > 0) {
      const batch = [];
      let size = 0;
      // Short commands are written at once, a long payload as it is.
      while (this.#unwritten.length > 0 && size < ROOM) {
        const command = this.#unwritten.shift();
        batch.push(command.line, command.payload);
        size += command.line.length + command.payload.length;
        command.line = command.payload = NO_BYTES;
        this.#waiting.push(command);
        if (this.#waiting.length === 1) this.#watch();
      }
      for (const data of size < 2 * ROOM ? [Buffer.concat(batch)] : batch) {
        if (data.length > 0) this.#hasRoom = this.#child.stdin?.write(data) ?? false;
      }
    }
    if (this.#isClosing && this.#unwritten.length === 0) this.#child.stdin?.end();
  }

  /** Sends a command, and promises its reply. */
  #ask(word, numbers = "", payload = NO_BYTES) {
    if (this.#ended) return Promise.reject(this.#ended);
    if (this.#isClosing) return Promise.reject(new Ended("the session is closed"));
    return new Promise((resolve, reject) => {
      const line = Buffer.from(`${word}${numbers}\n`, "latin1");
      this.#unwritten.push({ word, line, payload, resolve, reject });
      this.#write();
    });
  }

  #askWith(word, numbers, text) {
    const payload = bytesOf(text);
    return this.#ask(word, `${numbers} ${payload.length}`, payload);
  }

  /** How many commands have no reply yet. */
  get pending() {
    return this.#waiting.length + this.#unwritten.length;
  }

  /** The child's process number, if it was started. */
  get pid() {
    return this.#child.pid;
  }

  async setText(text) {
    await this.#askWith("text", "", text);
  }

  async edit(start, stop, text) {
    await this.#askWith("edit", ` ${pairOf(start)} ${pairOf(stop)}`, text);
  }

  async undo() {
    await this.#ask("undo");
  }

  async redo() {
    await this.#ask("redo");
  }

  async setPattern(pattern) {
    await this.#askWith("pattern", "", pattern);
  }

  async off() {
    await this.#ask("off");
  }

  async next(from) {
    const { match } = await this.#ask("next", ` ${pairOf(from)}`);
    if (match === null) return null;
    const [startLine, startColumn, stopLine, stopColumn] = match;
    return {
      start: { line: startLine, column: startColumn },
      stop: { line: stopLine, column: stopColumn },
    };
  }

  async replace(template) {
    return (await this.#askWith("replace", "", template)).number;
  }

  async fork() {
    return (await this.#ask("fork")).number;
  }

  async choose(number) {
    await this.#ask("use", ` ${numberOf(number)}`);
  }

  async textBytes() {
    return (await this.#ask("print")).text;
  }

  async text() {
    return (await this.textBytes()).toString("utf8");
  }

  async matches() {
    return (await this.#ask("list")).spans;
  }

  close() {
    if (!this.#isClosing) {
      this.#isClosing = true;
      this.#write();
      this.#watch();
    }
    return this.#exit;
  }

  kill() {
    this.#stop("the program was killed");
    return this.#exit;
  }
}
