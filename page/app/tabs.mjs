// Tabs: one of several panels is shown. The arrow keys go from tab to tab.
import {byId} from './dom.mjs';

export class Tabs {
  /** @param {HTMLElement} list  @param {(id: string) => void} [shown] Is called with the id of the tab. */
  constructor(list, shown = () => {}) {
    this.tabs = [...list.querySelectorAll('[role=tab]')];
    this.shown = shown;
    for (const it of this.tabs) it.onclick = () => this.show(it.id);
    list.onkeydown = event => this.#key(event);
    this.show(this.tabs[0].id);
  }

  show(id) {
    for (const it of this.tabs) {
      const isShown = it.id === id;
      it.setAttribute('aria-selected', String(isShown));
      it.tabIndex = isShown ? 0 : -1;
      byId(it.getAttribute('aria-controls')).hidden = !isShown;
    }
    this.shown(id);
  }

  #key(event) {
    const count = this.tabs.length, at = this.tabs.indexOf(document.activeElement);
    const to = {ArrowRight: at + 1, ArrowLeft: at - 1, Home: 0, End: count - 1}[event.key];
    if (to === undefined || at < 0) return;
    event.preventDefault();
    const tab = this.tabs[(to + count) % count];
    this.show(tab.id);
    tab.focus();
  }
}
