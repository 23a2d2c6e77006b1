/** Painting lines with their matches and the caret, and finding the position below a pointer. */

function element(tag, className, text = "") {
  const made = document.createElement(tag);
  if (className !== "") made.className = className;
  made.textContent = text;
  return made;
}

/** A part of a line's text, cut where the caret is. */
function part(into, text, from, to, caret) {
  if (caret !== null && caret >= from && caret < to) {
    into.append(text.slice(from, caret), element("span", "caret"), text.slice(caret, to));
  } else {
    into.append(text.slice(from, to));
  }
}

function lineOf({ text, spans }, line, view) {
  const made = element("div", "line");
  made.dataset.number = String(line + 1);
  const caret = view.caret.line === line ? view.caret.column : null;
  let at = 0;
  for (const [start, stop] of spans) {
    part(made, text, at, start, caret);
    const mark = element("mark", view.match?.line === line && view.match.start === start ? "chosen" : "");
    part(mark, text, start, stop, caret);
    made.append(mark);
    at = stop;
  }
  part(made, text, at, text.length, caret);
  if (caret !== null && !made.querySelector(".caret")) made.append(element("span", "caret"));
  return made;
}

export function paint(into, view) {
  into.replaceChildren(...view.lines.map((line, index) => lineOf(line, view.first + index, view)));
}

/** The position of the text below a point of the window, or null. */
export function positionAt(x, y, lines, view) {
  const row = [...lines.children].find((each) => y < each.getBoundingClientRect().bottom);
  if (row === undefined || view === null) return null;
  const line = Number(row.dataset.number) - 1;
  const at = document.caretPositionFromPoint?.(x, y);
  const [node, offset] = at ? [at.offsetNode, at.offset] : rangeAt(x, y);
  if (node === null || !row.contains(node)) return [line, x < row.getBoundingClientRect().left + 90 ? 0 : 1e9];
  const range = document.createRange();
  range.setStart(row, 0);
  range.setEnd(node, offset);
  return [line, range.toString().length];
}

function rangeAt(x, y) {
  const range = document.caretRangeFromPoint?.(x, y);
  return range ? [range.startContainer, range.startOffset] : [null, 0];
}
