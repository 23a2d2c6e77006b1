// The replies to the commands of files, by calls of the module: web_commands.mjs MODULE.wasm FILE.. writes each to FILE.out.
// All sessions are in one library, one after the other.
import { readFileSync, writeFileSync } from "node:fs";
import { replies } from "../../bindings/web/examples/commands.js";
import { load } from "../../bindings/web/rope-search.js";

const library = await load(readFileSync(process.argv[2]));
const files = process.argv.slice(3);
for (const file of files) {
  const session = library.open();
  writeFileSync(`${file}.out`, replies(session, readFileSync(file)));
  session.close();
}
console.log(`${files.length} checks`);
