// Files that are opened, dropped in and saved.

export const MOST_BYTES = 8_388_608; // what the program reads

// Hands a file to the browser, as a download.
export function save(name, content, type) {
  const address = URL.createObjectURL(new Blob([content], { type }));
  const link = document.createElement('a');
  link.href = address;
  link.download = name;
  link.click();
  setTimeout(() => URL.revokeObjectURL(address), 10_000);
}

// Calls `opened` with each file that is chosen or dropped.
export function onFiles({ button, input, veil, opened }) {
  button.addEventListener('click', () => input.click());
  input.addEventListener('change', () => {
    if (input.files[0]) opened(input.files[0]);
    input.value = ''; // so that the same file can be opened again
  });
  const carriesFile = (event) => event.dataTransfer?.types.includes('Files');
  addEventListener('dragover', (event) => {
    if (!carriesFile(event)) return;
    event.preventDefault();
    veil.hidden = false;
  });
  addEventListener('dragleave', (event) => {
    if (!event.relatedTarget) veil.hidden = true;
  });
  addEventListener('drop', (event) => {
    veil.hidden = true;
    if (!carriesFile(event)) return;
    event.preventDefault();
    if (event.dataTransfer.files[0]) opened(event.dataTransfer.files[0]);
  });
}

// A name without its last ending.
export function stemOf(name) {
  return name.replace(/\.[^.]*$/, '') || 'part';
}
