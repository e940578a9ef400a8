// ---- the pointer: only its own movement counts, not what scrolls under it
let pointerX = NaN, pointerY = NaN;
const rests = (event) => event.screenX === pointerX && event.screenY === pointerY;
function moved(event) {
  if (rests(event)) return false;
  pointerX = event.screenX;
  pointerY = event.screenY;
  return true;
}
function pointed(event, key) {
  const element = event.target.closest(`[data-${key}]`);
  return element ? +element.dataset[key] : -1;
}
source.element.addEventListener('mousemove', (event) => {
  if (!moved(event)) return;
  const t = pointed(event, 't');
  light(t < 0 ? chosen : ofToken(t), source);
});
tree.element.addEventListener('mousemove', (event) => {
  if (!moved(event)) return;
  const n = pointed(event, 'n');
  light(n < 0 ? chosen : ofNode(n), tree);
});
for (const pane of [source, tree]) {
  pane.element.addEventListener('mouseleave', (event) => { if (!rests(event)) light(chosen, pane); });
}
source.element.addEventListener('click', (event) => {
  const t = pointed(event, 't');
  if (t >= 0) choose(ofToken(t), source);
});
tree.element.addEventListener('click', (event) => {
  const n = pointed(event, 'n');
  if (n < 0) return;
  if (event.target.tagName === 'B') toggle(n);
  choose(ofNode(n), tree);
});
