/** What RegExp takes for the same text and pattern, in a worker that is ended when it takes too long. */

const QUIET = 400; // milliseconds without a change before it searches
const LONGEST = 2000; // milliseconds after which it is ended

export class Beside {
  #session;
  #$;
  #worker = null;
  #quiet = null;
  #limit = null;
  #number = 0;

  constructor(session, $) {
    this.#session = session;
    this.#$ = $;
  }

  /** Searches once nothing changes any more. */
  later(pattern) {
    clearTimeout(this.#quiet);
    this.#number += 1;
    if (pattern === "") this.#show("–", "–", "–");
    else this.#quiet = setTimeout(() => this.#session.postMessage({ do: "text" }), QUIET);
  }

  /** Searches a text, which the session has sent. */
  search({ text, caret }, pattern) {
    this.#end();
    this.#worker = new Worker(new URL("regexp.js", import.meta.url));
    this.#worker.onmessage = ({ data }) => this.#answered(data);
    this.#limit = setTimeout(() => {
      this.#end();
      this.#show(`ended after ${LONGEST / 1000} s`, "–", "–");
    }, LONGEST);
    this.#show("..", "..", "..");
    this.#worker.postMessage({ text, pattern, line: caret.line, number: this.#number }, [text]);
  }

  #answered({ number, error, all, one, count }) {
    this.#end();
    if (number !== this.#number) return;
    if (error !== undefined) this.#show("not its syntax", "–", "–");
    else this.#show(`${all.toFixed(1)} ms`, `all again, or the line alone: ${(1000 * one).toFixed(1)} µs`, count.toLocaleString("en"));
  }

  #end() {
    clearTimeout(this.#limit);
    this.#worker?.terminate();
    this.#worker = null;
  }

  #show(all, edit, count) {
    this.#$("thereAll").textContent = all;
    this.#$("thereEdit").textContent = edit;
    this.#$("thereCount").textContent = count;
  }
}
