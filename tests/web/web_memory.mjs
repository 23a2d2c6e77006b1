// Memory that is refused leaves the session usable: web_memory.mjs MODULE.wasm, whose memory can grow by 100 pages.
import assert from "node:assert/strict";
import { readFileSync } from "node:fs";
import { Memory, load } from "../../bindings/web/rope-search.js";

let checks = 0;
const is = (what) => (assert.ok(what), checks++);
const library = await load(readFileSync(process.argv[2]));
const session = library.open();
const line = "let some = words => of_code; // TODO\n";
const small = line.repeat(20_000); // 740 kB
session.setText(small);
session.setPattern("TODO");
const matches = session.countMatches(0, session.rows());
is(matches === 20_000);

/** What is refused leaves all as it was; then the same is done to a smaller amount. */
function refused(call) {
  const before = [session.textLen(), session.undoSteps(), session.countMatches(0, session.rows())];
  assert.throws(call, Memory);
  assert.deepEqual([session.textLen(), session.undoSteps(), session.countMatches(0, session.rows())], before);
  session.edit([3, 0], [3, 0], "TODO ");
  assert.equal(session.listedFrom([3, 0]).start, 0);
  session.undo();
  checks++;
}

/** Inserts the text until memory is refused: what was inserted before is there. */
function fill() {
  let times = 1;
  assert.throws(() => {
    for (;; times++) session.edit([0, 0], [0, 0], small);
  }, Memory);
  assert.deepEqual([session.textLen(), session.undoSteps()], [small.length * times, times - 1]);
  checks++;
}

const large = line.repeat(400_000); // 15 MB, more than the memory
for (let round = 0; round < 10; round++) {
  refused(() => session.setText(large));
  refused(() => session.edit([0, 0], [0, 0], large));
  refused(() => session.replace(line.repeat(1_000)));
  fill();
  // What fitted once fits again: the heap joins what is freed.
  session.setText(small);
  is(session.countMatches(0, session.rows()) === matches);
}
session.off();
session.setText("");
session.forget();
// Sessions until none can be opened; when all are closed, as many can be opened again.
const count = () => {
  const sessions = [];
  try {
    for (;;) {
      const one = library.open();
      sessions.push(one);
      one.setText(small);
    }
  } catch (error) {
    assert.ok(error instanceof Memory);
  }
  for (const one of sessions) one.close();
  return sessions.length;
};
const first = count();
is(first > 2);
for (let round = 0; round < 5; round++) is(count() === first);
session.setText(small);
session.setPattern("TODO");
is(session.countMatches(0, session.rows()) === matches);
console.log(`${checks} checks`);
