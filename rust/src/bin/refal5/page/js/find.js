// ---- finding: the next occurrence, whatever its case, from the start again at the end
const field = byId('find'), found = byId('found');
function find() {
  field.removeAttribute('aria-invalid');
  found.textContent = '';
  if (!field.value) return;
  const wanted = new RegExp(field.value.replace(/[\\^$.*+?()[\]{}|/]/g, '\\$&'), 'giu');
  wanted.lastIndex = Math.min(searched, text.length);
  const match = wanted.exec(text) ?? wanted.exec(text);
  if (match) {
    goTo(match.index, match.index + match[0].length);
    searched = match.index + 1;
  } else {
    field.setAttribute('aria-invalid', true);
    found.textContent = 'not found';
  }
}
byId('search').addEventListener('submit', (event) => {
  event.preventDefault();
  find();
});
field.addEventListener('input', () => {
  field.removeAttribute('aria-invalid');
  found.textContent = '';
});
document.addEventListener('keydown', (event) => {
  if (event.key === '/' && event.target.tagName !== 'INPUT') {
    event.preventDefault();
    field.focus();
  }
});

// ---- a line by its number
const lineField = byId('line');
lineField.max = lines;
byId('goto').addEventListener('submit', (event) => {
  event.preventDefault();
  const line = Math.max(1, Math.min(lines, Math.floor(+lineField.value)));
  if (!line) return;
  lineField.value = line;
  const r = rowOfLine(line);
  const newline = text.indexOf('\n', rows[3 * r]);
  goTo(rows[3 * r], newline < 0 ? text.length : newline);
  source.show(r);
});
