// A box of very many rows, of which only those are made that one sees.
const ROW = 17, TALLEST = 4000000;

class Rows {
  // told(at) gives a row's text and the remark behind it; chosen(at) is called where one is clicked.
  constructor(box, total, told, chosen) {
    Object.assign(this, {box, total, told, chosen, top: 0, marked: -1, set: 0});
    this.view = box.appendChild(document.createElement('div'));
    this.view.className = 'view';
    box.appendChild(document.createElement('div')).style.height = `${Math.min(total * ROW, TALLEST)}px`;
    box.onscroll = () => this.scrolled();
    box.onwheel = event => {
      event.preventDefault();
      this.go(this.top + Math.sign(event.deltaY) * Math.max(1, Math.round(Math.abs(event.deltaY) / ROW)));
    };
    box.onkeydown = event => this.pressed(event);
    this.view.onclick = event => this.clicked(event);
    this.go(0);
  }

  fit() {
    return Math.max(1, Math.floor(this.box.clientHeight / ROW));
  }

  // Makes this the first row that one sees.
  go(top) {
    const most = Math.max(0, this.total - this.fit()), range = this.box.scrollHeight - this.box.clientHeight;
    this.top = Math.min(most, Math.max(0, top));
    this.box.scrollTop = most ? this.top / most * range : 0;
    this.set = this.box.scrollTop;
    this.draw();
  }

  scrolled() {
    if (Math.abs(this.box.scrollTop - this.set) < 1) return;
    const most = Math.max(0, this.total - this.fit()), range = this.box.scrollHeight - this.box.clientHeight;
    this.set = this.box.scrollTop;
    this.top = Math.round(this.set / range * most);
    this.draw();
  }

  pressed(event) {
    const steps = {ArrowDown: 1, ArrowUp: -1, PageDown: this.fit(), PageUp: -this.fit(), Home: -this.total,
      End: this.total};
    if (!(event.key in steps)) return;
    event.preventDefault();
    this.go(this.top + steps[event.key]);
  }

  clicked(event) {
    const row = event.target.closest('.view > div');
    if (row) this.chosen(Number(row.dataset.at));
  }

  // Marks a row, and brings it into sight.
  mark(at) {
    this.marked = at;
    if (at >= this.top && at < this.top + this.fit()) this.draw(); else this.go(at - (this.fit() >> 1));
  }

  draw() {
    const rows = [];
    for (let at = this.top; at < Math.min(this.total, this.top + this.fit()); at++) {
      const row = document.createElement('div'), behind = document.createElement('span');
      const [told, remark] = this.told(at);
      behind.className = 'remark';
      behind.textContent = remark;
      row.dataset.at = at;
      row.title = remark ? `${told}\n${remark}` : told;
      row.append(told, '  ', behind);
      row.classList.toggle('marked', at === this.marked);
      rows.push(row);
    }
    this.view.replaceChildren(...rows);
  }
}
