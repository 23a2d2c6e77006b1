// Each call of bindings/web, and each refusal: web_calls.mjs MODULE.wasm
import assert from "node:assert/strict";
import { readFileSync } from "node:fs";
import * as web from "../../bindings/web/rope-search.js";

const { load, Refused } = web;
let checks = 0;
const same = (got, due) => (assert.deepEqual(got, due), checks++);
const throws = (call, form) => (assert.throws(call, form), checks++);
const refused = (name, call) => throws(call, (error) =>
  error instanceof Refused && error instanceof web[name] && error.name === name
  && error.word === (name === "Nothing" ? "none" : name.toLowerCase()));

const bytes = readFileSync(process.argv[2]);
const module = await WebAssembly.compile(bytes);
const library = await load(module);
same((await load(bytes)).version(), library.version());
same((await load(new URL(`file://${process.argv[2]}`))).version(), library.version());

// ---- a text, a pattern, edits
const session = library.open();
same([session.textLen(), session.textLines(), session.rows(), session.text()], [0, 1, 0, ""]);
session.setText("A frog 🐸 and a toad.\r\nNo toad here is green.\n");
same([session.textLen(), session.textLines(), session.buffers(), session.chosen()], [48, 3, 1, 0]);
session.setPattern(String.raw`t(\w)+d`);
same(session.matches(), [{ line: 0, start: 16, stop: 20 }, { line: 1, start: 3, stop: 7 }]);
same(session.copyMatchesIn(0, 3, 8), [{ line: 0, start: 18, stop: 22 }, { line: 1, start: 3, stop: 7 }]);
same(session.copyMatchesIn(0, 1, 32), [{ line: 0, start: 15, stop: 19 }]);
same([session.countMatches(0, 9), session.countMatches(1, 1), session.rows()], [2, 0, 3]);
same(session.next({ line: 0, column: 17 }), { start: { line: 1, column: 3 }, stop: { line: 1, column: 7 } });
same(session.next([1, 4]), null);
same(session.nextAll([0, 17]), [{ start: { line: 1, column: 3 }, stop: { line: 1, column: 7 } }]);
same([session.nextAll({ line: 0, column: 0 }).length, session.nextAll([0, 0], 1).length, session.nextAll([2, 0], 0)], [2, 1, []]);
const [whole, letter, absent] = session.groupsAt(1, 0);
same([whole, letter], [{ found: true, line: 1, start: 3, stop: 7 }, { found: true, line: 1, start: 5, stop: 6 }]);
same([absent.found, absent.start, absent.stop], [false, 0, 0]);
same(session.groupsAt(1, 0).length, 10);
same(session.listedFrom([0, 17]), { line: 1, number: 0, start: 3, stop: 7 });
same(session.listedBefore([1, 3]), { line: 0, number: 0, start: 16, stop: 20 });
same([session.listedFrom([2, 0]), session.listedBefore([0, 0])], [null, null]);
same([session.listIndex(1, 0), session.listIndex(1, 1)], [{ index: 1, count: 2 }, null]);
session.edit([0, 7], [0, 9], "toad");
same(session.changed(), { first: 0, removed: 1, added: 1 });
same(session.textChanges(), [{ oldStart: 7, oldEnd: 11, newStart: 7, newEnd: 11 }]);
same([session.line(0), session.lineLen(0), session.lineLen(0, 8)], ["A frog toad and a toad.", 23, 23]);
same([session.canUndo(), session.canRedo(), session.undoSteps(), session.redoSteps()], [true, false, 1, 0]);
session.undo();
same([session.canUndo(), session.canRedo(), session.undoSteps(), session.redoSteps()], [false, true, 0, 1]);
session.redo();
const bang = new Uint8Array([33]);
session.editAll([{ start: [0, 0], stop: [0, 1], text: "The" }, [[0, 2], [0, 6], "🐸"], [[1, 0], [1, 0], bang]]);
same(session.text(), "The 🐸 toad and a toad.\r\n!No toad here is green.\n");
session.editAll([]);
session.editBytes(0, 3, "a");
same([session.text(0, 6), session.undoSteps()], ["a 🐸", 4]);
same([session.replace("[$0]"), session.line(0)], [3, "a 🐸 [toad] and a [toad]."]);
same(session.textChanges().length, 3);
same([session.byteOf([0, 5]), session.positionOf(6)], [7, { line: 0, column: 4 }]);
same([session.columnIn([0, 4], 8), session.columnIn([0, 4], 32), session.columnIn([0, 4])], [6, 3, 4]);
same([session.positionIn([0, 6], 8), session.clamp([0, 3]), session.clamp([9, 9]), session.clamp([0, 99], 8)], [
  { line: 0, column: 4 }, { line: 0, column: 2 }, { line: 2, column: 0 }, { line: 0, column: 25 }]);
same(Buffer.from(session.copyLine(0)).toString(), session.line(0));
same(Buffer.from(session.copyText(2, 6)).toString(), "🐸");
session.keep(1);
same(session.undoSteps(), 1);
session.forget();
same(session.undoSteps(), 0);
same([session.fork(), session.buffers()], [1, 2]);
session.choose(1);
same([session.chosen(), session.rows()], [1, 0]);
session.choose(0);
session.off();
same([session.rows(), session.matches(), Object.keys(session.counted())], [0, [], ["rows", "wholes"]]);

// ---- a text that arrives in parts
const before = session.text();
session.beginText();
session.appendPart("a ");
for (const part of [[0xf0, 0x9f], [], [0x90, 0xb8]]) {
  session.appendPart(new Uint8Array(part));
}
same(session.text(), before);
session.endText();
same(session.text(), "a 🐸");
session.beginText();
refused("Utf8", () => session.appendPart(new Uint8Array([0xff])));
session.cancelText();
refused("Nothing", () => session.appendPart("a"));
refused("Nothing", () => session.endText());
same(session.text(), "a 🐸");

// ---- results and texts that no cell has room for
session.setText("ab ".repeat(50_000));
session.setPattern("a");
same([session.nextAll([0, 3], 60_000).length, session.nextAll([0, 0]).length], [49_999, 1_024]);
same([session.matches().length, session.replace("é")], [50_000, 50_000]);
same([session.textChanges().length, session.text()], [50_000, "éb ".repeat(50_000)]);

// ---- refusals
session.setText("é\r\nb");
for (const call of [() => session.redo(), () => session.undo(), () => session.choose(7)]) refused("Nothing", call);
session.off();
for (const call of [() => session.next([0, 0]), () => session.nextAll([9, 9], 3)]) refused("Nothing", call);
for (const call of [
  () => session.edit([0, 2], [0, 2], ""), () => session.edit([1, 1], [1, 0], ""), () => session.byteOf([2, 0]),
  () => session.positionOf(1), () => session.lineLen(2), () => session.line(2), () => session.copyText(0, 1),
  () => session.copyText(2, 1), () => session.copyText(0, 99), () => session.editBytes(3, 3, ""),
  () => session.clamp([0, 0], 7), () => session.columnIn([0, 0], 9),
  () => session.editAll([[[1, 0], [1, 0], ""], [[0, 0], [0, 0], ""]]),
]) refused("Range", call);
for (const call of [
  () => session.setText("\ud800"), () => session.setText(new Uint8Array([255])),
  () => session.edit([0, 0], [0, 0], "a\udc00"), () => session.editAll([[[0, 0], [0, 0], "\udc00"]]),
]) refused("Utf8", call);
refused("Pattern", () => session.setPattern("é|(b"));
throws(() => session.setPattern("é|(b"), (error) => error.place === 5 && error.reason === "a group isn't closed");
same([library.patternError("a"), library.patternError("a**b{")], [null, library.patternError("a**b{")]);
refused("Limit", () => session.setPattern("a".repeat(65_537)));
same(["f(x)^2", "", "é.🐸", "$".repeat(32_768)].map((text) => library.escape(text)), ["f\\(x\\)\\^2", "", "é\\.🐸", "\\$".repeat(32_768)]);
refused("Limit", () => library.escape("$".repeat(32_769)));
refused("Utf8", () => library.escape("\ud800"));
const small = library.open({ limit: 3 });
refused("Size", () => small.setText("four"));
small.setText("one");
same(small.text(), "one");
for (const call of [
  () => session.choose(-1), () => session.edit([0, 0.5], [0, 0], ""), () => session.edit({}, [0, 0], ""),
  () => session.keep(2 ** 53),
]) throws(call, RangeError);
for (const call of [() => session.setText(5), () => session.setPattern(null)]) throws(call, TypeError);
same([session.text(), small.text()], ["é\r\nb", "one"]);
small.close();
small.close();
for (const call of [() => small.textLen(), () => small.setText(""), () => small.matches()]) refused("Closed", call);
same(session.text(), "é\r\nb");

// ---- memory that is freed is used again
const held = library.memoryBytes;
for (let k = 0; k < 50; k++) {
  const another = library.open();
  another.setText("a b\n".repeat(5_000));
  another.setPattern("b");
  another.replace("cc");
  another.close();
}
same(library.memoryBytes - held < 8 << 20, true);
console.log(`${checks} checks`);
