// ---- where the lit node stands: its rule or declaration, and down from there to the node itself
const path = byId('path');
let climbed = -1;

function step(n) {
  const t = textToken(n);
  const words = t < 0 ? '' : ` <code>${escape(spelling(t))}</code>`;
  // An Ending block's first child is its argument.
  const sentence = number[n] + (parent[n] >= 0 && nodeKind[parent[n]] === ENDING ? 0 : 1);
  const which = nodeKind[n] === SENTENCE ? ` ${sentence}` : nodeKind[n] === TERMS ? ` ${role(n)}` : '';
  return `<button type="button" data-n="${n}">${KINDS[nodeKind[n]]}${words}${which}</button>`;
}
function climb(n) {
  if (n === climbed) return;
  climbed = n;
  const steps = [];
  for (let up = n; up >= 0; up = parent[up]) steps.push(step(up));
  path.innerHTML = steps.reverse().join(' › ');
}
path.addEventListener('click', (event) => {
  const n = pointed(event, 'n');
  if (n >= 0) choose(ofNode(n), null);
});
