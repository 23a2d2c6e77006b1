/** The worker that searches all lines by RegExp, to be held beside the session. It may take for ever. */

/** A pattern in the syntax of RegExp, with the flags at its start apart. */
function regexpOf(pattern) {
  const [, flags = "", rest] = /^(?:\(\?([ims]+)\))?(.*)$/s.exec(pattern);
  return new RegExp(rest, `gu${flags}`);
}

function countIn(regexp, line) {
  let count = 0;
  regexp.lastIndex = 0;
  for (let match; (match = regexp.exec(line)) !== null; count++) {
    // After an empty match the search goes on one character further.
    if (match[0] === "") regexp.lastIndex += line.codePointAt(match.index) > 0xffff ? 2 : 1;
  }
  return count;
}

onmessage = ({ data: { text, pattern, line, number } }) => {
  let regexp;
  try {
    regexp = regexpOf(pattern);
  } catch (error) {
    postMessage({ number, error: error.message });
    return;
  }
  const lines = new TextDecoder().decode(text).split(/\r\n|[\r\n]/);
  let began = performance.now();
  let count = 0;
  for (const each of lines) count += countIn(regexp, each);
  const all = performance.now() - began;
  began = performance.now();
  for (let k = 0; k < 100; k++) countIn(regexp, lines[line]);
  postMessage({ number, all, one: (performance.now() - began) / 100, count });
};
