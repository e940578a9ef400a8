// ---- what is wrong with a source that is refused
const list = byId('problems');
data.problems.forEach((problem, index) => {
  const item = document.createElement('li');
  const button = item.appendChild(document.createElement('button'));
  button.type = 'button';
  const kindOf = problem.possibly ? 'possibly an error' : 'error';
  button.textContent = `${problem.place}: ${kindOf} [${problem.number}]: ${problem.message}`;
  const advice = item.appendChild(document.createElement('p'));
  advice.textContent = problem.advice;
  button.addEventListener('click', () => goToProblem(index));
  list.append(item);
});
function goToProblem(index) {
  const [from, to] = data.problems[index].meant;
  goTo(from, Math.max(to, from + 1));
}
if (data.problems.length) {
  byId('refused').hidden = false;
  if (data.stopped) list.append(Object.assign(document.createElement('li'), { textContent: 'There may be more.' }));
  goToProblem(0);
}
