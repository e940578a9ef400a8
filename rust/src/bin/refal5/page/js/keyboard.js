// ---- the keyboard
const page = (pane) => Math.max(1, Math.floor(pane.element.clientHeight / HEIGHT) - 1);
const within = (value, length) => Math.max(0, Math.min(length - 1, value));

// The token nearest in column, so many rows below; further on where those rows hold none.
function below(t, by) {
  const row = rowAt(start[t]);
  const column = start[t] - rows[3 * row];
  for (let r = row + by; r >= 0 && 3 * r < rows.length; r += Math.sign(by)) {
    const from = rows[3 * r], to = rows[3 * r + 1];
    let best = -1;
    for (let u = tokenAt(from); u < tokens && start[u] < to; u++) {
      if (best < 0 || start[u] - from <= column) best = u;
    }
    if (best >= 0) return best;
  }
  return by < 0 ? 0 : tokens - 1;
}
function sourceKey(key, t) {
  switch (key) {
    case 'ArrowRight': return t + 1;
    case 'ArrowLeft': return t - 1;
    case 'ArrowDown': return below(t, 1);
    case 'ArrowUp': return below(t, -1);
    case 'PageDown': return below(t, page(source));
    case 'PageUp': return below(t, -page(source));
    case 'Home': return 0;
    case 'End': return tokens - 1;
    default: return null;
  }
}
source.element.addEventListener('keydown', (event) => {
  if (event.ctrlKey || event.altKey || event.metaKey || !tokens) return;
  if (event.key === 'Enter') {
    if (chosen.node >= 0) {
      tree.element.focus();
      choose(ofNode(chosen.node), source);
    }
  } else {
    const none = chosen.token < 0;
    const now = none && chosen.node >= 0 ? first[chosen.node] : chosen.token;
    const t = now < 0 ? (sourceKey(event.key, 0) === null ? null : 0) : sourceKey(event.key, now);
    if (t === null) return;
    choose(ofToken(within(t, tokens)), source);
  }
  event.preventDefault();
});

// Opens, closes or moves; gives the row to move to, or null.
function treeKey(key, row) {
  const n = shown[row];
  switch (key) {
    case 'ArrowDown': return row + 1;
    case 'ArrowUp': return row - 1;
    case 'PageDown': return row + page(tree);
    case 'PageUp': return row - page(tree);
    case 'Home': return 0;
    case 'End': return shown.length - 1;
    case 'ArrowRight':
      if (closed.has(n)) toggle(n);
      else if (next[n] > n + 1) return row + 1;
      return row;
    case 'ArrowLeft':
      if (next[n] > n + 1 && !closed.has(n)) toggle(n);
      else if (parent[n] >= 0) return rowOfNode[parent[n]];
      return row;
    default: return null;
  }
}
tree.element.addEventListener('keydown', (event) => {
  if (event.ctrlKey || event.altKey || event.metaKey || !nodes) return;
  if (event.key === 'Enter') {
    if (chosen.node >= 0 && count[chosen.node]) {
      source.element.focus();
      choose(ofToken(first[chosen.node]), tree);
    }
  } else {
    const now = chosen.node < 0 ? -1 : rowOfNode[chosen.node];
    const row = now < 0 ? (treeKey(event.key, 0) === null ? null : 0) : treeKey(event.key, now);
    if (row === null) return;
    choose(ofNode(shown[within(row, shown.length)]), tree);
  }
  event.preventDefault();
});
