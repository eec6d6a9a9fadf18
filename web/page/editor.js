// The text with its line numbers, and a mark on the line that was refused.

export class Editor {
  #area;
  #numbers;
  #mark;
  #marked = 0;
  #lines = 0;

  constructor({ area, numbers, mark, changed }) {
    this.#area = area;
    this.#numbers = numbers;
    this.#mark = mark;
    area.addEventListener('input', () => {
      this.#layOut();
      changed();
    });
    area.addEventListener('scroll', () => this.#follow());
    new ResizeObserver(() => this.#follow()).observe(area);
  }

  get text() {
    return this.#area.value;
  }

  // A text from elsewhere. The place of the cursor stays where it was.
  set text(text) {
    if (text === this.#area.value) return;
    const { selectionStart, selectionEnd, scrollTop } = this.#area;
    this.#area.value = text;
    this.#area.setSelectionRange(selectionStart, selectionEnd);
    this.#area.scrollTop = scrollTop;
    this.#layOut();
  }

  // Marks a line, counted from 1, or none with 0.
  mark(line) {
    this.#marked = line;
    this.#area.setAttribute('aria-invalid', String(line > 0));
    this.#follow();
  }

  // Puts the cursor at the start of a line, and shows it.
  goTo(line) {
    const before = this.text.split('\n').slice(0, line - 1);
    const start = before.reduce((sum, it) => sum + it.length + 1, 0);
    const end = this.text.indexOf('\n', start);
    this.#area.focus();
    this.#area.setSelectionRange(start, end < 0 ? this.text.length : end);
    this.#area.scrollTop = (line - 1) * this.#height() - this.#area.clientHeight / 3;
  }

  #layOut() {
    const lines = this.text.split('\n').length;
    if (lines !== this.#lines) {
      this.#lines = lines;
      this.#numbers.textContent = Array.from({ length: lines }, (_, index) => index + 1).join('\n');
    }
    this.#follow();
  }

  #height() {
    return parseFloat(getComputedStyle(this.#area).lineHeight);
  }

  #follow() {
    const top = this.#area.scrollTop;
    this.#numbers.style.transform = `translateY(${-top}px)`;
    this.#mark.hidden = this.#marked === 0;
    const padding = parseFloat(getComputedStyle(this.#area).paddingTop);
    this.#mark.style.transform = `translateY(${padding + (this.#marked - 1) * this.#height() - top}px)`;
  }
}
