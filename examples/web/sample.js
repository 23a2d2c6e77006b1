/** The text that the page opens with: lines of words of code, always the same. */
const WORDS = ("let count lines iter filter line len value self match Some None Ok Err return fn pub use struct impl " +
  "for in while if else mut ref => todo TODO Error 0x1f 42 frog toad 🐸").split(" ");

const FIRST = [
  "Type a pattern above: \\w+\\s*=>\\s*\\w+ finds arrows, (?i)todo|error finds work to do.",
  "Edit the text: the matches stay right. Undo and redo bring them back.",
  "Forty letters follow, on which RegExp takes exponential time under (a*)*b:",
  "a".repeat(40),
  "",
];

/** A text of this number of lines. */
export function linesOf(count) {
  let seed = 5;
  const below = (bound) => {
    seed = (Math.imul(seed, 1103515245) + 12345) >>> 0;
    return (seed >>> 8) % bound;
  };
  const lines = FIRST.slice(0, count);
  while (lines.length < count) {
    const words = Array.from({ length: 4 + below(8) }, () => WORDS[below(WORDS.length)]);
    lines.push(words.join(" "));
  }
  return lines.join("\n");
}
