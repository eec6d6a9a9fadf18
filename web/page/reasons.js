// What the notes of the program mean, in the plain words of docs/REFUSALS.md, which web/build puts into the page.

// A note in parts: what it speaks of ('word', 'line' or 'script line'), the number, and the reason.
export function noteOf(note) {
  const found = /^modeller: (word|line|script line) (\d+): (\w+)\s*$/.exec(note);
  return found ? { of: found[1], number: Number(found[2]), reason: found[3] } : { of: '', number: 0, reason: note.replace(/^modeller: /, '').trim() };
}

// What is said of a reason: sentences, each with the text that it is an example of, or without one.
export function sentencesOf(reasons, kind, reason) {
  return reasons[kind]?.[reason] ?? reasons.fault?.[reason] ?? [];
}

// The nodes of a sentence, in which what stands between backquotes is code.
export function nodesOf(sentence) {
  return sentence.split('`').map((part, index) => {
    if (index % 2 === 0) return document.createTextNode(part);
    const code = document.createElement('code');
    code.textContent = part;
    return code;
  });
}
