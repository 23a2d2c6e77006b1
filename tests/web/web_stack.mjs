// The end of the stack: web_stack.mjs MODULE.wasm SHALLOW.wasm, of which the second has a stack of 8 kB.
import assert from "node:assert/strict";
import { readFileSync } from "node:fs";
import { Broken, Limit, Pattern, load } from "../../bindings/web/rope-search.js";

let checks = 0;
const nested = (depth) => "(".repeat(depth) + "a" + ")*".repeat(depth);

// The stack is enough for the deepest patterns: those that are deeper are refused as no patterns.
const session = (await load(readFileSync(process.argv[2]))).open();
session.setText("aab\n".repeat(1_000));
let deepest = 0;
for (let depth = 1; depth <= 400; depth++) {
  try {
    session.setPattern(nested(depth));
    deepest = depth;
  } catch (error) {
    assert.ok(error instanceof Pattern || error instanceof Limit, String(error));
  }
  checks++;
}
assert.ok(deepest > 100, `the deepest pattern has ${deepest} groups`);
assert.equal(session.text(0, 4), "aab\n");

// A short stack is at its end sooner. Then the call traps, and no call of that library is made any more.
const library = await load(readFileSync(process.argv[3]));
let [small, broken] = [null, null];
try {
  small = library.open();
  small.setText("aab\n");
  for (let depth = 1; depth <= deepest; depth++) small.setPattern(nested(depth));
} catch (error) {
  broken = error;
}
assert.ok(broken instanceof Broken && broken.cause instanceof WebAssembly.RuntimeError, String(broken));
const ofSession = small === null ? [] : [() => small.textLen(), () => small.close()];
for (const call of [() => library.open(), () => library.version(), ...ofSession]) {
  assert.throws(call, Broken);
  checks++;
}
// Others go on.
session.setPattern("b");
assert.equal(session.countMatches(0, 1_000), 1_000);
console.log(`${checks} checks`);
