// The numbers of the text as sliders. A slider writes the number into the text; the text says what it is now.

import { numeralOf } from './texts.js';

const MOST_SHOWN = 60; // more would be a wall; the others are found by name
const STEPS = 200;

export class Sliders {
  #list;
  #find;
  #none;
  #moved;
  #settled;
  #numbers = [];
  #rows = [];
  #key = '';
  #held = false;

  // `moved` is called with the number's index and its numeral, and `settled` when a slider is let go.
  constructor({ list, find, none, moved, settled }) {
    this.#list = list;
    this.#find = find;
    this.#none = none;
    this.#moved = moved;
    this.#settled = settled;
    find.addEventListener('input', () => this.#build());
  }

  // Takes the numbers of the text as it stands. The sliders stay where the same numbers stand in it, as after a move of
  // one of them, so that what is dragged is not taken from under the hand.
  show(numbers, kind) {
    const key = [kind, ...numbers.map((it) => it.name)].join('\n');
    this.#numbers = numbers;
    if (key !== this.#key) {
      this.#key = key;
      this.#find.value = '';
      this.#build();
    } else {
      for (const row of this.#rows) this.#refresh(row);
    }
  }

  #build() {
    const wanted = this.#find.value.trim().toLowerCase();
    const all = this.#numbers.map((number, index) => ({ number, index }));
    const found = all.filter(({ number }) => number.name.toLowerCase().includes(wanted));
    this.#rows = found.slice(0, MOST_SHOWN).map(({ index }) => this.#row(index));
    this.#list.replaceChildren(...this.#rows.map((it) => it.element));
    this.#find.hidden = this.#numbers.length <= 12;
    const more = found.length - this.#rows.length;
    if (this.#numbers.length === 0) this.#none.textContent = 'The text has no sizes. In a model, a line as “wall const 2” makes one.';
    else this.#none.textContent = more > 0 ? `${more} more are found by their names.` : '';
  }

  #row(index) {
    const element = document.createElement('div');
    element.className = 'slider';
    const line = document.createElement('span');
    const name = document.createElement('label');
    line.className = 'line';
    line.ariaHidden = 'true'; // the slider has it in its own name
    const range = document.createElement('input');
    const field = document.createElement('input');
    Object.assign(range, { type: 'range', id: `slider-${index}` });
    Object.assign(field, { inputMode: 'decimal', autocomplete: 'off' });
    name.htmlFor = range.id;
    const row = { element, line, name, range, field, index, value: null };
    range.addEventListener('input', () => this.#move(row, numeralOf(Number(range.value), row.decimals), true));
    range.addEventListener('change', () => this.#settle(row));
    field.addEventListener('change', () => {
      this.#move(row, field.value.trim(), false);
      this.#settle(row);
    });
    element.append(line, name, range, field);
    this.#refresh(row);
    return row;
  }

  #move(row, numeral, brief) {
    this.#held = brief;
    this.#moved(row.index, numeral, brief);
  }

  #settle(row) {
    this.#held = false;
    this.#settled();
    row.value = null; // its range is made anew about where it stands now
    this.#refresh(row);
  }

  #refresh(row) {
    const number = this.#numbers[row.index];
    if (!number) return;
    row.line.textContent = number.line;
    row.name.textContent = number.name;
    row.name.title = `${number.name}, line ${number.line}`;
    const aside = `${number.name}, line ${number.line}`;
    row.range.setAttribute('aria-label', aside);
    row.field.setAttribute('aria-label', `${aside}, as a number`);
    if (document.activeElement !== row.field) row.field.value = number.text;
    if (this.#held || row.value === number.text) return;
    row.value = number.text;
    const value = Number(number.text);
    if (!within(row, value)) Object.assign(row, rangeAbout(value, number.size));
    Object.assign(row.range, { min: row.low, max: row.high, step: row.step, value });
  }
}

function within(row, value) {
  return row.low !== undefined && value > row.low && value < row.high;
}

// From nothing, or a little, to twice the number; about 0, from -1 to 1. Each step is one of few digits.
function rangeAbout(value, size) {
  const reach = value === 0 ? 1 : 2 * Math.abs(value);
  const exponent = Math.floor(Math.log10(reach / STEPS));
  const step = 10 ** exponent * ([1, 2, 5].find((it) => it * 10 ** exponent >= reach / STEPS) ?? 10);
  const decimals = Math.max(0, -Math.floor(Math.log10(step) + 1e-9));
  const least = size ? step : value > 0 ? 0 : -reach;
  const low = Number((Math.round(least / step) * step).toFixed(10));
  const high = value < 0 ? 0 : Number((Math.ceil(reach / step) * step).toFixed(10));
  return { low, high, step: Number(step.toFixed(10)), decimals };
}
