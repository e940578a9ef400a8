// ---- the tree's rows: the nodes under no closed one
const closed = new Set();
let shown = new Int32Array(0);
const rowOfNode = new Int32Array(nodes);
function arrange() {
  let length = 0;
  const all = new Int32Array(nodes);
  rowOfNode.fill(-1);
  for (let n = 0; n < nodes; n = closed.has(n) ? next[n] : n + 1) {
    rowOfNode[n] = length;
    all[length++] = n;
  }
  shown = all.subarray(0, length);
}

// The token with a node's text, or -1.
function textToken(n) {
  switch (nodeKind[n]) {
    case FUNCTION: case 2: case 9: case 10: case CHAR_NODE: case 12: return first[n];
    case CALL: case ENTRY: return first[n] + 1;
    default: return -1;
  }
}
function role(n) {
  if (nodeKind[n] !== TERMS) return nodeKind[n] === ENTRY ? 'entry' : '';
  const up = nodeKind[parent[n]];
  const head = number[n] === 0;
  const name = up === SENTENCE ? (head ? 'pattern' : 'result') : up === CONDITION ? (head ? 'tested' : 'pattern')
    : up === ENDING ? 'argument' : '';
  return count[n] === 0 ? name + ', empty' : name;
}
// Where a node starts: at the quote of its literal, if it starts with one and is more than that character.
function nodePlace(n) {
  const t = first[n];
  return lineColumn(kind[t] === CHAR && nodeKind[n] !== CHAR_NODE ? start[t] - 1 : start[t]).join(':');
}
function drawNode(row) {
  const n = shown[row];
  const parted = next[n] > n + 1;
  const t = textToken(n);
  const mark = parted ? (closed.has(n) ? '▸' : '▾') : '';
  const expanded = parted ? ` aria-expanded="${!closed.has(n)}"` : '';
  const words = t < 0 ? '' : ` <code>${escape(spelling(t))}</code>`;
  const where = count[n] ? ` <em>${nodePlace(n)}</em>` : '';
  return `<div class="row n" role="treeitem" id="n${n}" data-n="${n}" aria-level="${depth[n] + 1}"${expanded} ` +
    `style="--depth:${depth[n]}"><b>${mark}</b>${KINDS[nodeKind[n]]}${words} <em>${role(n)}</em>${where}</div>`;
}
