// ---- the source's rows: from, to and line number (0: the line goes on), a long line on several rows
const WRAP = 160; // characters of a source line on one row

const rows = [];
for (let at = 0, line = 1; ; line++) {
  const newline = text.indexOf('\n', at);
  const stop = newline < 0 ? text.length : newline;
  let label = line;
  do {
    const to = stop - at > WRAP ? cut(at) : stop;
    rows.push(at, to, label);
    at = to;
    label = 0;
  } while (at < stop);
  if (newline < 0) break;
  at = newline + 1;
}
const lines = (() => {
  let r = rows.length / 3 - 1;
  while (rows[3 * r + 2] === 0) r--;
  return rows[3 * r + 2];
})();

// Where a row that starts here ends: before the token that would cross its end.
function cut(from) {
  const limit = from + WRAP;
  const t = tokenAt(limit);
  if (t < tokens) {
    const edge = kind[t] === CHAR ? start[t] - 1 : start[t];
    if (edge > from && edge < limit) return edge;
  }
  const code = text.charCodeAt(limit);
  return code >= 0xdc00 && code < 0xe000 ? limit + 1 : limit;
}

const rowAt = (offset) => search(rows.length / 3, (r) => rows[3 * r], offset) - 1;
// The line and column of an offset.
function lineColumn(offset) {
  let r = rowAt(offset);
  while (rows[3 * r + 2] === 0) r--;
  return [rows[3 * r + 2], [...text.slice(rows[3 * r], offset)].length + 1];
}
// The row on which a line starts: the last whose own or earlier line number is not over it.
function rowOfLine(line) {
  let low = 0, high = rows.length / 3;
  const lineOf = (r) => { while (rows[3 * r + 2] === 0) r--; return rows[3 * r + 2]; };
  while (low < high) {
    const middle = (low + high) >> 1;
    if (lineOf(middle) >= line) high = middle; else low = middle + 1;
  }
  return Math.min(low, rows.length / 3 - 1);
}
