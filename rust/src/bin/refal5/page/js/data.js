// ---- what the page shows: the source, its tokens and nodes, and the problems of a source that is refused
const KINDS = ['', 'Declaration', 'Name', 'Function', 'Sentence', 'Condition', 'Terms', 'Ending block',
  'Condition block', 'Identifier', 'Number', 'Char', 'Variable', 'Bracket', 'Call', 'Function'];
const DECLARATION = 1, FUNCTION = 3, SENTENCE = 4, CONDITION = 5, TERMS = 6, ENDING = 7, CHAR_NODE = 11, CALL = 14, ENTRY = 15;
const CHAR = 6, SAME_LITERAL = 18; // token kinds: a literal's first character, and the others

const byId = (id) => document.getElementById(id);
const data = JSON.parse(byId('data').textContent);
const text = data.source;

// Tokens: kind, start and end in the text, in flat arrays.
const tokens = data.tokens.length / 3;
const kind = new Uint8Array(tokens), start = new Uint32Array(tokens), end = new Uint32Array(tokens);
for (let t = 0, at = 0; t < tokens; t++) {
  kind[t] = data.tokens[3 * t];
  start[t] = at += data.tokens[3 * t + 1];
  end[t] = at += data.tokens[3 * t + 2];
}
const inLiteral = (t) => kind[t] === CHAR || kind[t] === SAME_LITERAL;
const spelling = (t) => text.slice(start[t], end[t]);

// Nodes: kind, first token, number of tokens, row after the subtree, parent, depth, number among its siblings.
const nodes = data.nodes.length / 5;
const nodeKind = new Uint8Array(nodes), first = new Uint32Array(nodes), count = new Uint32Array(nodes);
const next = new Uint32Array(nodes), parent = new Int32Array(nodes), depth = new Uint16Array(nodes);
const number = new Uint32Array(nodes), children = new Uint32Array(nodes);
const owner = new Int32Array(tokens).fill(-1);
for (let n = 0, at = 0; n < nodes; n++) {
  nodeKind[n] = data.nodes[5 * n];
  first[n] = at += data.nodes[5 * n + 1];
  count[n] = data.nodes[5 * n + 2];
  next[n] = n + data.nodes[5 * n + 3];
  const rise = data.nodes[5 * n + 4];
  const up = parent[n] = rise ? n - rise : -1;
  depth[n] = up < 0 ? 0 : depth[up] + 1;
  number[n] = up < 0 ? 0 : children[up]++;
  own(n);
}
data.tokens = data.nodes = null;

// The owner of a token is the smallest node that has it; of those with as many tokens the innermost, which comes last. A
// condition's block starts at the condition's terms, which are no part of it in the tree.
function own(n) {
  for (let t = first[n]; t < first[n] + count[n]; t++) {
    if (owner[t] < 0 || count[n] <= count[owner[t]]) owner[t] = n;
  }
}

// The first of `length` places whose value is over the limit.
function search(length, value, limit) {
  let low = 0, high = length;
  while (low < high) {
    const middle = (low + high) >> 1;
    if (value(middle) > limit) high = middle; else low = middle + 1;
  }
  return low;
}
function tokenAt(offset) { return search(tokens, (t) => end[t], offset); }

const ESCAPES = { '&': '&amp;', '<': '&lt;', '>': '&gt;', '"': '&quot;' };
const escape = (s) => s.replace(/[&<>"]/g, (c) => ESCAPES[c]);
