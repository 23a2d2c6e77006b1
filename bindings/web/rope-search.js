/**
 * A regular expression kept live over a text that is edited, undone and forked: the library of
 * include/rope_search.h as a module of WebAssembly, in web pages and in Node.
 *
 *     import { load } from "./rope-search.js";
 *
 *     const library = await load();
 *     const session = library.open();
 *     session.setText("one two\none");
 *     session.setPattern("one");
 *     session.edit([1, 0], [1, 0], "no ");
 *     console.log(session.matches());
 *     session.close();
 *
 * rope-search.d.ts documents each call; calls.js has a row for each.
 */
import { CALLS, FREE_CALLS, REASONS, REFUSALS, STRUCTURES } from "./calls.js";

export { REASONS };

/** The default limit on the bytes of a session's texts: 1 GiB. */
const LIMIT = 2 ** 30;
/**
 * The bytes of a module's memory that short arguments and results are in: four values that a call writes, each
 * of at most 64 bytes, then a text, then an array that the call fills.
 */
const CELLS = { size: 8192, result: 64, text: 256, array: 4096 };
const LONE_SURROGATE = /\p{Surrogate}/u;
/** A module that has nothing but a 64-bit memory. */
const MEMORY64 = Uint8Array.of(0, 0x61, 0x73, 0x6d, 1, 0, 0, 0, 5, 3, 1, 4, 1);

// ---- refusals

/** A call was refused; the session is as it was before. `word` says why, as the protocol does. */
export class Refused extends Error {
  constructor(call, message) {
    super(`${call}: ${message}`);
    this.call = call;
  }

  get name() {
    return this.constructor.name;
  }

  get word() {
    return this.name === "Nothing" ? "none" : this.name.toLowerCase();
  }
}

export class Nothing extends Refused {}
export class Range extends Refused {}
export class Utf8 extends Refused {}
/** It has the `place` in the pattern, and the `reason`, one of REASONS. */
export class Pattern extends Refused {}
export class Limit extends Refused {}
export class Size extends Refused {}
export class Memory extends Refused {}
export class Closed extends Refused {}

const BY_STATUS = [null, Nothing, Range, Utf8, Pattern, Limit, Size, Memory, Closed];

function refusal(Reason, call) {
  return new Reason(call, REFUSALS[Reason.name]);
}

/** A call trapped, or ran out of stack. The library and its sessions are not usable any more: load another. */
export class Broken extends Error {
  get name() {
    return "Broken";
  }
}

// ---- structures

/** The size and the alignment of a kind of value in the module's memory, in bytes. */
function measures(kind) {
  if (kind === "byte" || kind === "bool") return { size: 1, align: 1 };
  if (kind === "u32") return { size: 4, align: 4 };
  if (kind === "size") return { size: 8, align: 8 };
  return layout(kind);
}

/** The kind of a value that is written: a size may have a name of its own. */
function kindOf(name) {
  return ["size", "bool", "u32"].includes(name) || Object.hasOwn(STRUCTURES, name) ? name : "size";
}

const layouts = new Map();

/** Where the fields of a structure are, as C lays them out. */
function layout(kind) {
  if (!layouts.has(kind)) {
    const fields = [];
    let [size, align] = [0, 1];
    for (const [name, its] of Object.entries(STRUCTURES[kind])) {
      const field = measures(its);
      const at = Math.ceil(size / field.align) * field.align;
      fields.push({ name: camel(name), kind: its, at });
      [size, align] = [at + field.size, Math.max(align, field.align)];
    }
    layouts.set(kind, { fields, size: Math.ceil(size / align) * align, align });
  }
  return layouts.get(kind);
}

function camel(name) {
  return name.replace(/_(\w)/g, (_, letter) => letter.toUpperCase());
}

// ---- what calls are given

function numberOf(number) {
  if (!Number.isSafeInteger(number) || number < 0) {
    throw new RangeError(`lines, columns, offsets and counts are whole numbers from 0: ${number}`);
  }
  return BigInt(number);
}

function positionOf(position) {
  const [line, column] = Array.isArray(position) ? position : [position?.line, position?.column];
  return [numberOf(line), numberOf(column)];
}

/** The UTF-8 of a text, or null if a string has none. */
function bytesOf(text) {
  if (text instanceof Uint8Array) return text;
  if (typeof text !== "string") throw new TypeError("a text is a string or a Uint8Array");
  const isWhole = text.isWellFormed?.() ?? !LONE_SURROGATE.test(text);
  return isWhole ? new TextEncoder().encode(text) : null;
}

/** A module in an engine, with its memory, which its sessions share. It has a method for each row of FREE_CALLS. */
export class Library {
  #exports;
  #view = null;
  #cells;
  #broken = null;
  /** The addresses that a call under way was given, to be freed after it, and whether its text has the cells. */
  #lent = [];
  #hasText = false;

  constructor(instance) {
    this.#exports = instance.exports;
    const cells = this.#exports.heap_alloc(BigInt(CELLS.size));
    if (!cells) throw refusal(Memory, "load");
    this.#cells = Number(cells);
  }

  /** Opens a session of one buffer, with an empty text and no pattern. */
  open({ limit = LIMIT } = {}) {
    return new Session(this, limit);
  }

  /** How many bytes the module's memory has. It never shrinks. */
  get memoryBytes() {
    return this.#exports.memory.buffer.byteLength;
  }

  /** The module's memory, which is another buffer once it grew. */
  get view() {
    const { buffer } = this.#exports.memory;
    if (this.#view?.buffer !== buffer) this.#view = new DataView(buffer);
    return this.#view;
  }

  bytes(at, size) {
    return new Uint8Array(this.#exports.memory.buffer, at, size);
  }

  /** Calls an export. Nothing of the module is called again after one that didn't return. */
  enter(name, words) {
    if (this.#broken) throw this.#broken;
    try {
      return this.#exports[name](...words);
    } catch (cause) {
      this.#broken = new Broken(`${name} did not return: ${cause.message}`, { cause });
      throw this.#broken;
    }
  }

  /** The address of this number of bytes, until `free`. */
  alloc(call, size) {
    const at = this.enter("heap_alloc", [BigInt(size)]);
    if (!at) throw refusal(Memory, call);
    return Number(at);
  }

  free(at) {
    this.enter("heap_free", [BigInt(at)]);
  }

  /** The address of this number of bytes during a call. */
  #lend(call, size) {
    const at = this.alloc(call, size);
    this.#lent.push(at);
    return at;
  }

  #passBytes(call, bytes) {
    // An address is never null, not even of no bytes.
    const isShort = !this.#hasText && bytes.length <= CELLS.array - CELLS.text;
    const at = isShort ? this.#cells + CELLS.text : this.#lend(call, bytes.length);
    this.#hasText ||= isShort;
    this.bytes(at, bytes.length).set(bytes);
    return [BigInt(at), BigInt(bytes.length)];
  }

  #passText(call, text) {
    const bytes = bytesOf(text);
    if (bytes === null) throw refusal(Utf8, call);
    return this.#passBytes(call, bytes);
  }

  /** Edits, each `start`, `stop` and `text`, or an array of these. */
  #passEdits(call, edits) {
    const rows = Array.from(edits, (edit) => {
      const [start, stop, text] = Array.isArray(edit) ? edit : [edit.start, edit.stop, edit.text];
      return { places: [...positionOf(start), ...positionOf(stop)], bytes: bytesOf(text) };
    });
    if (rows.some(({ bytes }) => bytes === null)) throw refusal(Utf8, call);
    const { size } = layout("text_edit");
    const all = new Uint8Array(rows.reduce((sum, { bytes }) => sum + bytes.length, 0));
    let end = 0;
    for (const { bytes } of rows) {
      all.set(bytes, end);
      end += bytes.length;
    }
    const at = this.#lend(call, size * rows.length);
    const text = this.#passBytes(call, all);
    rows.forEach(({ places, bytes }, index) => {
      const words = [...places, BigInt(bytes.length)];
      words.forEach((word, k) => this.view.setBigUint64(at + index * size + 8 * k, word, true));
    });
    return [BigInt(at), BigInt(rows.length), ...text];
  }

  /** The words that a call of these kinds takes for these arguments. */
  pass(call, kinds, given) {
    const rest = [...given];
    const words = kinds.map((kind) => {
      if (kind === "bits") return null;
      const argument = rest.shift();
      if (kind === "size") return [numberOf(argument)];
      if (kind === "bool") return [argument ? 1 : 0];
      if (kind === "position") return positionOf(argument);
      return kind === "edits" ? this.#passEdits(call, argument) : this.#passText(call, argument);
    });
    return words.flatMap((its) => its ?? [Number(numberOf(rest[0] ?? 16))]);
  }

  /** Reads a value of a kind. */
  read(kind, at) {
    const { view } = this;
    if (kind === "byte") return view.getUint8(at);
    if (kind === "bool") return view.getUint8(at) !== 0;
    if (kind === "u32") return view.getUint32(at, true);
    if (kind === "size") return view.getUint32(at, true) + view.getUint32(at + 4, true) * 2 ** 32;
    const read = {};
    for (const field of layout(kind).fields) read[field.name] = this.read(field.kind, at + field.at);
    return read;
  }

  readAll(kind, at, count) {
    if (kind === "byte") return this.bytes(at, count).slice();
    const { size } = measures(kind);
    return Array.from({ length: count }, (_, index) => this.read(kind, at + index * size));
  }

  #check(call, status) {
    if (status !== 0) throw refusal(BY_STATUS[status], call);
  }

  /** The addresses of what a call writes through its last pointers. */
  #cellsFor(writes) {
    return writes.map((_, index) => BigInt(this.#cells + CELLS.result * index));
  }

  /** What a call has written: one value, or several by their names; null for a match that is not found. */
  #written(writes) {
    const values = writes.map((name, index) => {
      const read = this.read(kindOf(name), this.#cells + CELLS.result * index);
      if (read.found === undefined) return read;
      const { found, ...match } = read;
      return found ? match : null;
    });
    return values.length < 2 ? values[0] : Object.fromEntries(writes.map((name, index) => [name, values[index]]));
  }

  /** Makes a call that copies as much as there is room for: the number of all, which it returns or writes. */
  #copied(call, words, returns, at, room) {
    const passed = [...words, BigInt(at), BigInt(room)];
    if (returns === "count") return Number(this.enter(call, passed));
    this.#check(call, this.enter(call, [...passed, BigInt(this.#cells)]));
    return this.read("size", this.#cells);
  }

  /** The ways in which calls return something. Each is given the words that come first. */
  #forms = {
    value: (call, words, { kind }) => {
      const returned = this.enter(call, words);
      if (kind === "size") return Number(BigInt.asUintN(64, returned));
      if (kind === "bool") return returned !== 0;
      return kind === "u32" ? returned >>> 0 : undefined;
    },
    status: (call, words, { writes }) => {
      this.#check(call, this.enter(call, [...words, ...this.#cellsFor(writes)]));
      return this.#written(writes);
    },
    found: (call, words, { writes }) =>
      (this.enter(call, [...words, ...this.#cellsFor(writes)]) === 0 ? null : this.#written(writes)),
    structure: (call, words, { kind }) => {
      this.enter(call, [BigInt(this.#cells), ...words]);
      return this.read(kind, this.#cells);
    },
    copies: (call, words, { kind, returns }) => {
      const { size } = measures(kind);
      let [at, room] = [this.#cells + CELLS.array, Math.floor((CELLS.size - CELLS.array) / size)];
      let count = this.#copied(call, words, returns, at, room);
      if (count > room) {
        [at, room] = [this.#lend(call, size * count), count];
        count = this.#copied(call, words, returns, at, room);
      }
      return this.readAll(kind, at, count);
    },
    first: (call, words, { kind, returns }, room) => {
      const at = this.#lend(call, measures(kind).size * room);
      return this.readAll(kind, at, this.#copied(call, words, returns, at, room));
    },
    filled: (call, words, { kind, returns }, count) => {
      const at = this.#lend(call, measures(kind).size * count);
      const returned = this.enter(call, [...words, BigInt(at), BigInt(count)]);
      if (returns === "status") this.#check(call, returned);
      else if (returned === 0) throw refusal(Range, call);
      return this.readAll(kind, at, count);
    },
  };

  /** Makes a call of a row of the table: `first` is the session's word, if the call takes one. */
  invoke(name, [takes, returns], first, given, count) {
    const call = `rope_search_${name}`;
    try {
      const words = [...first, ...this.pass(name, takes.split(" ").filter(Boolean), given)];
      return this.#forms[returns.form](call, words, returns, count);
    } finally {
      this.#hasText = false;
      while (this.#lent.length > 0) {
        const at = this.#lent.pop();
        if (!this.#broken) this.free(at);
      }
    }
  }

  /** Makes a call of the table that takes no session. */
  call(name, given) {
    return this.invoke(name, FREE_CALLS[name], [], given);
  }

  /** Where and why a text is no pattern, or null. */
  patternError(pattern) {
    const { reason, place } = this.call("pattern_error", [pattern]);
    return reason === 0 ? null : { place, reason: REASONS[reason - 1] };
  }

  /** A pattern that matches that text only. */
  escape(text) {
    return new TextDecoder().decode(this.call("escape", [text]));
  }
}

/** Buffers, of which one is chosen: all calls are about that one. It has a method for each row of CALLS. */
export class Session {
  #library;
  #handle;

  constructor(library, limit) {
    this.#library = library;
    this.#handle = library.alloc("open", 16);
    library.bytes(this.#handle, 16).fill(0);
    const words = [numberOf(limit), BigInt(this.#handle)];
    const status = library.enter("rope_search_open", words);
    if (status !== 0) {
      library.free(this.#handle);
      throw refusal(BY_STATUS[status], "open");
    }
  }

  get library() {
    return this.#library;
  }

  /** Makes a call of the table. */
  call(name, given) {
    const row = CALLS[name];
    if (this.#handle === null) {
      if (name === "close") return undefined;
      throw refusal(Closed, name);
    }
    const count = row[1].count?.(this, ...given);
    if (count !== undefined && !(count >= 0)) throw refusal(Range, name);
    const returned = this.#library.invoke(name, row, [BigInt(this.#handle)], given, count);
    if (name === "close") {
      this.#library.free(this.#handle);
      this.#handle = null;
    }
    return returned;
  }

  /** The text, or the bytes of it from one offset to another. */
  text(from = 0, to = this.textLen()) {
    return new TextDecoder().decode(this.copyText(from, to));
  }

  /** The text of a line, without its break. */
  line(line) {
    return new TextDecoder().decode(this.copyLine(line));
  }

  /** The matches of some rows of the report, or of all. */
  matches(from = 0, to = this.rows()) {
    return this.copyMatches(from, to);
  }

  /** Sets the pattern. The exception for no pattern has the place and the reason. */
  setPattern(pattern) {
    this.#explained("set_pattern", pattern);
  }

  /** Makes a pattern pending. The exception for no pattern has the place and the reason. */
  beginPattern(pattern) {
    this.#explained("begin_pattern", pattern);
  }

  #explained(name, pattern) {
    try {
      this.call(name, [pattern]);
    } catch (error) {
      if (error instanceof Pattern) Object.assign(error, this.#library.patternError(pattern));
      throw error;
    }
  }
}

/** Gives a class a method for each row of a table that it has no method for. */
function addMethods({ prototype }, table) {
  for (const name of Object.keys(table)) {
    if (Object.hasOwn(prototype, camel(name))) continue;
    const value = function (...given) {
      return this.call(name, given);
    };
    Object.defineProperty(prototype, camel(name), { value, configurable: true, writable: true });
  }
}

addMethods(Session, CALLS);
addMethods(Library, FREE_CALLS);
if (Symbol.dispose) Session.prototype[Symbol.dispose] = Session.prototype.close;

/** Whether this engine has what the module needs: 64-bit memories. */
export function isSupported() {
  return typeof WebAssembly === "object" && WebAssembly.validate(MEMORY64);
}

/** The module of a source: a URL, a response, bytes, or a module that is compiled. */
async function compiled(source) {
  if (source instanceof WebAssembly.Module) return source;
  if (source instanceof ArrayBuffer || ArrayBuffer.isView(source)) return WebAssembly.compile(source);
  if (source instanceof URL && source.protocol === "file:") {
    const { readFile } = await import("node:fs/promises");
    return WebAssembly.compile(await readFile(source));
  }
  const response = source instanceof Response ? source : await fetch(source);
  if (!response.ok) throw new Error(`${response.url}: ${response.status} ${response.statusText}`);
  // By bytes, not streaming, so that a server need not know the type of a .wasm.
  return WebAssembly.compile(await response.arrayBuffer());
}

/** The module beside this file, or that of bin/ of the repository or release. */
async function nearest() {
  const [beside, built] = ["rope_search.wasm", "../../bin/rope_search.wasm"].map((path) => new URL(path, import.meta.url));
  return compiled(beside).catch(() => compiled(built));
}

/** Loads the library into this engine. */
export async function load(source) {
  if (!isSupported()) throw new Error("this engine has no 64-bit memories for WebAssembly");
  const module = await (source === undefined ? nearest() : compiled(source));
  const instance = await WebAssembly.instantiate(module, {});
  return new Library(instance);
}
