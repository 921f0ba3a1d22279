/** Keys of one character, which can be turned off, since who speaks to the browser presses them by chance (WCAG 2.2, 2.1.4). */
import { byId } from './dom.js';

const KEPT_AS = 'nbt.single-keys';
const OFF = 'off';

export class SingleKeys {
    box = byId('single-keys', HTMLInputElement);

    constructor() {
        this.box.checked = keep() !== OFF;
        this.box.addEventListener('change', () => this.change());
        this.show();
    }

    get areOn() {
        return this.box.checked;
    }

    change() {
        keep(this.areOn ? '' : OFF);
        this.show();
    }

    /** What the footer says of keys. */
    show() {
        for (const each of document.querySelectorAll('.keys')) (each as HTMLElement).hidden = !this.areOn;
    }
}

/** Keeps a value for the next time, if one is given, and answers what is kept; null where the browser keeps nothing of this page. */
function keep(value?: string) {
    try {
        if (value !== undefined) localStorage.setItem(KEPT_AS, value);
        return localStorage.getItem(KEPT_AS);
    } catch {
        return null;
    }
}
