// ---- a row of the source as HTML: boxes around tokens, and what is wrong marked

// Marks of the problems: from, to and class. An empty place is marked by the character after it, if there is one.
const marks = [];
const gaps = new Map();
const mark = ([from, to], name) => marks.push([from, from === to && from < text.length ? to + 1 : to, name]);
for (const problem of data.problems) {
  mark(problem.meant, 'bad');
  if (problem.shown) mark(problem.shown, 'after');
  if (problem.gap) gaps.set(problem.gap[0], problem.gap[1]);
}
// The class of the mark that has a part of these characters.
function markOf(from, to) {
  for (const [a, b, name] of marks) if (a < to && b > from) return name;
  return '';
}
// Text between tokens, cut where a mark starts or ends.
function between(from, to) {
  const edges = [from, to];
  for (const [a, b] of marks) for (const edge of [a, b]) if (edge > from && edge < to) edges.push(edge);
  edges.sort((a, b) => a - b);
  let html = '';
  for (let i = 0; i + 1 < edges.length; i++) {
    const part = text.slice(edges[i], edges[i + 1]);
    const marked = markOf(edges[i], edges[i + 1]);
    if (marked) html += `<span class="${marked}">${escape(part)}</span>`;
    else html += /\S/.test(part) ? `<span class="c">${escape(part)}</span>` : part;
  }
  return html;
}
const gapAt = (offset) => gaps.has(offset) ? `<span class="gap" title="missing here">${escape(gaps.get(offset))}</span>` : '';

function drawSource(r) {
  const from = rows[3 * r], to = rows[3 * r + 1];
  let html = `<div class="row" data-r="${r}"><i>${rows[3 * r + 2] || ''}</i>`;
  let at = from, quoted = false;
  for (let t = tokenAt(from); t < tokens && start[t] < to; t++) {
    if (inLiteral(t) && !quoted) {
      const open = Math.max(from, kind[t] === CHAR ? start[t] - 1 : start[t]);
      html += between(at, open) + '<span class="q">' + escape(text.slice(open, Math.max(from, start[t])));
      quoted = true;
    } else if (start[t] > at) {
      html += between(at, start[t]);
    }
    at = Math.min(to, end[t]);
    const shown = escape(text.slice(Math.max(from, start[t]), at));
    const marked = marks.length ? ' ' + markOf(start[t], end[t]) : '';
    html += `<span class="t k${inLiteral(t) ? CHAR : kind[t]}${marked}" role="option" id="t${t}" data-t="${t}">${shown}</span>`;
    if (quoted && kind[t + 1] !== SAME_LITERAL) {
      const close = Math.min(to, end[t] + 1);
      html += escape(text.slice(at, close)) + '</span>';
      at = close;
      quoted = false;
    }
    html += gapAt(at);
  }
  if (quoted) html += '</span>';
  html += at < to ? between(at, to) : '';
  // What is found at the end of the file has no text.
  const ended = to === text.length && marks.find(([a, b]) => a === to && b === to);
  return html + (ended ? `<span class="${ended[2]}"> </span>` : '') + '</div>';
}
