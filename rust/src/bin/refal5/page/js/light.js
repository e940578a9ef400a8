// ---- what is lit: a token or none, and a node or none; the pointer's or, without it, the chosen one
const NONE = { token: -1, node: -1 };
let chosen = NONE, lit = NONE;
let hit = -1; // the row of the source that was gone to without a token
let searched = 0; // where finding goes on
let source, tree;
const ofToken = (token) => ({ token, node: owner[token] });
const ofNode = (node) => ({ token: -1, node });

function paint() {
  if (!tree) return;
  const { token, node } = lit;
  const from = node < 0 ? 0 : first[node], to = node < 0 ? 0 : from + count[node];
  for (const element of source.part.querySelectorAll('.t')) {
    const t = +element.dataset.t;
    element.classList.toggle('on', (t >= from && t < to) || t === token);
    element.classList.toggle('at', t === token);
    element.setAttribute('aria-selected', t === chosen.token);
  }
  for (const element of source.part.children) element.classList.toggle('hit', +element.dataset.r === hit);
  for (const element of tree.part.children) {
    const n = +element.dataset.n;
    element.classList.toggle('on', n === node);
    element.classList.toggle('at', n === chosen.node);
    element.setAttribute('aria-selected', n === chosen.node);
  }
  climb(node);
  activate(source.element, byId('t' + chosen.token));
  activate(tree.element, byId('n' + chosen.node));
}
function activate(pane, element) {
  if (element) pane.setAttribute('aria-activedescendant', element.id);
  else pane.removeAttribute('aria-activedescendant');
}
function showNode(n) {
  let opened = false;
  for (let up = parent[n]; up >= 0; up = parent[up]) opened = closed.delete(up) || opened;
  if (opened) rearrange();
  tree.show(rowOfNode[n]);
}
function showToken(t) {
  source.show(rowAt(start[t]));
  byId('t' + t)?.scrollIntoView({ block: 'nearest', inline: 'nearest' });
}
function light(what, from) {
  if (what.token === lit.token && what.node === lit.node) return;
  lit = what;
  if (from !== tree && what.node >= 0) showNode(what.node);
  if (from !== source && what.token < 0 && what.node >= 0 && tokens) showToken(Math.min(first[what.node], tokens - 1));
  paint();
}
function choose(what, from) {
  chosen = what;
  lit = NONE;
  hit = -1;
  searched = what.token >= 0 ? start[what.token] + 1 : what.node >= 0 && count[what.node] ? start[first[what.node]] + 1 : 0;
  light(what, from);
  if (from === source && what.token >= 0) showToken(what.token);
  if (from === tree && what.node >= 0) showNode(what.node);
  paint();
}
// Goes to a place of the source: to its token, or to its row where that has none there.
function goTo(offset, limit) {
  const t = tokenAt(offset);
  if (t < tokens && start[t] < limit) choose(ofToken(t), source);
  else {
    choose(NONE, source);
    hit = rowAt(offset);
    source.show(hit);
    paint();
  }
}
function rearrange() {
  arrange();
  tree.resize(shown.length);
}
function toggle(n) {
  if (next[n] === n + 1) return;
  if (!closed.delete(n)) closed.add(n);
  rearrange();
}

source = new Pane(byId('source'), drawSource);
tree = new Pane(byId('tree'), drawNode);
source.resize(rows.length / 3);
rearrange();
