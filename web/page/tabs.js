// The views as tabs: one of them can be reached by the key Tab, and the arrows go on from it.

export class Tabs {
  #tabs;
  #chosen;

  constructor(list, chosen) {
    this.#tabs = [...list.querySelectorAll('[role=tab]')];
    this.#chosen = chosen;
    list.addEventListener('click', (event) => {
      const tab = event.target.closest('[role=tab]');
      if (tab) this.choose(tab.dataset.view);
    });
    list.addEventListener('keydown', (event) => {
      const at = this.#tabs.indexOf(document.activeElement);
      const last = this.#tabs.length - 1;
      const to = { ArrowRight: at === last ? 0 : at + 1, ArrowLeft: at === 0 ? last : at - 1, Home: 0, End: last }[event.key];
      if (at < 0 || to === undefined) return;
      event.preventDefault();
      this.#tabs[to].focus();
      this.choose(this.#tabs[to].dataset.view);
    });
  }

  choose(view) {
    this.mark(view);
    this.#chosen(view);
  }

  mark(view) {
    for (const tab of this.#tabs) {
      const here = tab.dataset.view === view;
      tab.setAttribute('aria-selected', String(here));
      tab.tabIndex = here ? 0 : -1;
      if (here) document.getElementById(tab.getAttribute('aria-controls')).setAttribute('aria-labelledby', tab.id);
    }
  }
}
