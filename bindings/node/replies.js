/**
 * Replies of `rope-search`, read from bytes as they come, cut anywhere.
 *
 * A reply is `{}`, `{ number }`, `{ match }`, `{ text }`, `{ spans, number }` or `{ error }`.
 */
const LF = 10;
/** No line of a reply is longer. */
const LONGEST = 128;

export class Replies {
  /** The start of a line, whose end has not come. */
  #line = Buffer.alloc(0);
  /** The pieces of a text that is due, and how many of its bytes, and of the LF after it, have not come. */
  #pieces = [];
  #due = 0;
  #spans = [];

  /** The replies that are whole with these bytes. */
  *read(data) {
    let at = 0;
    while (at < data.length) {
      if (this.#due > 0) {
        const piece = data.subarray(at, at + this.#due);
        this.#pieces.push(piece);
        this.#due -= piece.length;
        at += piece.length;
        if (this.#due === 0) yield this.#text();
        continue;
      }
      const end = data.indexOf(LF, at);
      const part = data.subarray(at, end < 0 ? data.length : end);
      const line = this.#line.length > 0 ? Buffer.concat([this.#line, part]) : part;
      if (line.length > LONGEST) throw new Error("the program replied a line that is no reply");
      if (end < 0) {
        this.#line = Buffer.from(line);
        return;
      }
      this.#line = Buffer.alloc(0);
      at = end + 1;
      const reply = this.#reply(line.toString("latin1"));
      if (reply !== null) yield reply;
    }
  }

  #text() {
    const bytes = Buffer.concat(this.#pieces);
    this.#pieces = [];
    return { text: bytes.subarray(0, bytes.length - 1) };
  }

  /** The reply that a line ends, or null. */
  #reply(line) {
    if (line === "ok") return {};
    if (line === "no match") return { match: null };
    const [word, ...rest] = line.split(" ");
    if (word === "error" && rest.length === 1) return { error: rest[0] };
    const numbers = rest.map(Number);
    if (numbers.every(Number.isSafeInteger)) {
      if (word === "m" && numbers.length === 3) {
        this.#spans.push({ line: numbers[0], start: numbers[1], stop: numbers[2] });
        return null;
      }
      if (word === "m" && numbers.length === 4) return { match: numbers };
      if (word === "ok" && numbers.length === 1) {
        const spans = this.#spans;
        this.#spans = [];
        return { number: numbers[0], spans };
      }
      if (word === "text" && numbers.length === 1) {
        this.#due = numbers[0] + 1;
        return null;
      }
    }
    throw new Error(`the program replied ${JSON.stringify(line)}`);
  }
}
