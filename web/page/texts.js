// What the page reads of a text itself: which kind it is, and where its numbers stand. Whether the text is right, only
// the program says.

const OPERATIONS = new Set(['var-x', 'var-y', 'var-z', 'const', 'neg', 'abs', 'floor', 'square', 'sqrt', 'add', 'sub', 'mul',
  'div', 'min', 'max']);

// The numbers of each form of a solid, and how many solids follow them.
const FORMS = {
  ball: { numbers: ['R'], solids: 0 },
  box: { numbers: ['A', 'B', 'C'], solids: 0 },
  cylinder: { numbers: ['R', 'H'], solids: 0 },
  move: { numbers: ['X', 'Y', 'Z'], solids: 1 },
  scale: { numbers: ['K'], solids: 1 },
  union: { numbers: [], solids: 2 },
  intersect: { numbers: [], solids: 2 },
  difference: { numbers: [], solids: 2 },
};

const NUMERAL = /^[+-]?(\d+\.?\d*|\.\d+)(e[+-]?\d{1,3})?$/i;
const WORD = /[^ \t\r\n]+/g;

// 'mesh', 'formulas', 'solid' or 'model'. A text that is none of them is taken for a model, which the program refuses.
export function kindOf(text) {
  const line = text.split('\n').find((it) => it.trim() !== '' && !it.trimStart().startsWith('#')) ?? '';
  const words = line.match(WORD) ?? [];
  if (words[0] === 'ply') return 'mesh';
  if (OPERATIONS.has(words[1])) return 'model';
  if (words[1] === '=') return 'formulas';
  return words[0] in FORMS ? 'solid' : 'model';
}

// The numbers that a slider may move: each has a name, its place in the text, its line from 1, and whether it is a size,
// which stays above 0.
export function numbersOf(text, kind) {
  if (kind === 'model') return constantsOf(text);
  return kind === 'solid' ? sizesOf(text) : [];
}

// Constants whose name is their number are left out: moved, they would have the name of another one.
function constantsOf(text) {
  const found = [];
  for (const { words, line } of linesOf(text)) {
    if (words.length !== 3 || words[1].text !== 'const' || !NUMERAL.test(words[2].text)) continue;
    const name = words[0].text;
    if (!NUMERAL.test(name)) found.push({ name, ...words[2], line, size: false });
  }
  return found;
}

// The solid is read as far as it is one. A number has the name of its form and its letter, as `box A`.
function sizesOf(text) {
  const found = [];
  let wanted = [];
  let form = '';
  for (const { words, line } of linesOf(text)) {
    for (const word of words) {
      if (wanted.length > 0) {
        if (!NUMERAL.test(word.text)) return found;
        found.push({ name: `${form} ${wanted[0]}`, ...word, line, size: form !== 'move' });
        wanted = wanted.slice(1);
      } else {
        if (!(word.text in FORMS)) return found;
        form = word.text;
        wanted = FORMS[form].numbers;
      }
    }
  }
  return found;
}

function* linesOf(text) {
  let start = 0;
  let line = 0;
  for (const content of text.split('\n')) {
    line += 1;
    const words = [...content.matchAll(WORD)].map((it) => ({ text: it[0], start: start + it.index, end: start + it.index + it[0].length }));
    if (words.length > 0 && !words[0].text.startsWith('#')) yield { words, line };
    start += content.length + 1;
  }
}

// The text with another number at the place of one of its numbers.
export function withNumber(text, number, written) {
  return text.slice(0, number.start) + written + text.slice(number.end);
}

// A number in plain decimals, at most ten behind the point, as the program reads it.
export function numeralOf(value, decimals = 10) {
  const written = value.toFixed(Math.min(10, Math.max(0, decimals)));
  const short = written.includes('.') ? written.replace(/\.?0+$/, '') : written;
  return short === '-0' ? '0' : short;
}
