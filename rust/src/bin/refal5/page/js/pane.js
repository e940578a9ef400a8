// ---- a pane draws the rows in view and a few around them
const HEIGHT = 22; // of a row, as in the style sheet
const AROUND = 20; // rows drawn beyond those in view
const LIMIT = 8e6; // pixels: browsers cut what is higher than some 17 to 33 millions
const REST = 150; // milliseconds after which scrolling has come to rest

// Where all rows are higher than the limit, positions of the scroll bar stand for places further apart: a long way on the bar
// is taken in proportion, a short one as it is, and when it rests the bar is set to the place shown.
class Pane {
  constructor(element, draw) {
    this.element = element;
    this.all = element.firstElementChild;
    this.part = this.all.appendChild(document.createElement('div'));
    this.part.className = 'part';
    this.draw = draw;
    this.from = this.to = this.length = 0;
    this.top = this.bar = 0; // the first pixel in view, and the bar's position for it
    element.addEventListener('scroll', () => this.scrolled());
    new ResizeObserver(() => this.render()).observe(element);
  }
  get height() { return this.length * HEIGHT; }
  get scaled() { return this.height > LIMIT; }
  // The last position that can be in view on top, of all and of the bar.
  get last() { return Math.max(0, this.height - this.element.clientHeight); }
  get lastBar() { return Math.max(0, Math.min(this.height, LIMIT) - this.element.clientHeight); }
  resize(length) {
    this.length = length;
    this.all.style.height = Math.min(this.height, LIMIT) + 'px';
    this.go(this.top, true);
  }
  scrolled() {
    const { scrollTop, clientHeight } = this.element;
    const by = scrollTop - this.bar;
    if (!this.scaled) this.top = scrollTop;
    else if (by !== 0) {
      const far = Math.abs(by) > 3 * clientHeight;
      this.top = far ? scrollTop / this.lastBar * this.last : this.top + by;
      this.top = Math.max(0, Math.min(this.last, this.top));
      clearTimeout(this.rest);
      this.rest = setTimeout(() => this.go(this.top), REST);
    }
    this.bar = scrollTop;
    this.render();
  }
  // Brings a pixel to the top.
  go(top, anew) {
    this.top = Math.max(0, Math.min(this.last, top));
    this.element.scrollTop = this.scaled ? this.top / this.last * this.lastBar : this.top;
    this.bar = this.element.scrollTop;
    if (!this.scaled) this.top = this.bar;
    this.render(anew);
  }
  render(anew) {
    const { clientHeight } = this.element;
    const top = Math.floor(this.top / HEIGHT), bottom = Math.ceil((this.top + clientHeight) / HEIGHT);
    if (anew || top < this.from || Math.min(bottom, this.length) > this.to) {
      this.from = Math.max(0, Math.min(this.length, top) - AROUND);
      this.to = Math.min(this.length, bottom + AROUND);
      let html = '';
      for (let row = this.from; row < this.to; row++) html += this.draw(row);
      this.part.innerHTML = html;
      paint();
    }
    this.part.style.transform = `translateY(${this.bar - this.top + this.from * HEIGHT}px)`;
  }
  // Brings a row into view, in the middle if it was out of it.
  show(row) {
    const { clientHeight } = this.element;
    const top = row * HEIGHT;
    if (top < this.top || top + HEIGHT > this.top + clientHeight) this.go(top - (clientHeight - HEIGHT) / 2);
  }
}
