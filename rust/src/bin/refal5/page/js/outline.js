// ---- the rules: name, entry or not, sentences, calls and line; and closing all of the tree

const rules = [];
let sentences = 0;
for (let n = 0; n < nodes; n = next[n]) if (nodeKind[n] !== DECLARATION) rules.push(n);
for (let n = 0; n < nodes; n++) if (nodeKind[n] === SENTENCE) sentences++;

// The names that a rule calls, each once.
function calls(n) {
  const names = new Set();
  for (let m = n + 1; m < next[n]; m++) if (nodeKind[m] === CALL) names.add(spelling(first[m] + 1));
  return [...names];
}
const named = (value, one, many) => value.toLocaleString('en') + ' ' + (value === 1 ? one : many);
function drawRule(row) {
  const n = rules[row];
  const called = calls(n);
  const all = called.length ? ', calls ' + called.join(', ') : '';
  const entry = nodeKind[n] === ENTRY ? 'entry, ' : '';
  const words = `line ${lineColumn(start[first[n]])[0]}, ${entry}${named(children[n], 'sentence', 'sentences')}${all}`;
  return `<div class="row o" role="option" id="o${n}" data-o="${n}" title="${escape(words)}"><code>${escape(spelling(textToken(n)))}</code> <em>${escape(words)}</em></div>`;
}
const outline = new Pane(byId('outline'), drawRule);
const rulesButton = byId('rules');
function showRules(on) {
  byId('outline').hidden = !on;
  rulesButton.setAttribute('aria-pressed', on);
  if (on) outline.resize(rules.length);
}
rulesButton.textContent = named(rules.length, 'rule', 'rules');
rulesButton.addEventListener('click', () => showRules(byId('outline').hidden));
showRules(rules.length > 1 && innerWidth >= 1400);

let rule = -1;
function goToRule(row) {
  rule = Math.max(0, Math.min(rules.length - 1, row));
  choose(ofNode(rules[rule]), null);
  outline.show(rule);
  for (const element of outline.part.children) element.setAttribute('aria-selected', +element.dataset.o === rules[rule]);
  outline.element.setAttribute('aria-activedescendant', 'o' + rules[rule]);
}
outline.element.addEventListener('click', (event) => {
  const n = pointed(event, 'o');
  if (n >= 0) goToRule(rules.indexOf(n));
});
outline.element.addEventListener('keydown', (event) => {
  const by = { ArrowDown: 1, ArrowUp: -1, PageDown: page(outline), PageUp: -page(outline), Home: -rules.length, End: rules.length }[event.key];
  if (!by || !rules.length || event.ctrlKey || event.altKey || event.metaKey) return;
  goToRule(rule + by);
  event.preventDefault();
});

byId('close').addEventListener('click', () => {
  for (let n = 0; n < nodes; n = next[n]) if (next[n] > n + 1) closed.add(n);
  choose(NONE, null);
  rearrange();
});
byId('open').addEventListener('click', () => {
  closed.clear();
  rearrange();
});

byId('counts').textContent = [named(tokens, 'token', 'tokens'), named(nodes, 'node', 'nodes'),
  named(sentences, 'sentence', 'sentences')].join(', ');
