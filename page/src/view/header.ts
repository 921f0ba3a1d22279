/** The head of the page: the files that are open, each with a button that closes it, what is counted, and which of two is looked at. */
import type { App } from './app.js';
import { byId, counted, element, number, say } from './dom.js';

export class Header {
    title = byId('title', HTMLElement);
    select = byId('tap', HTMLSelectElement);

    constructor(public app: App) {
        this.title.addEventListener('click', (event) => {
            const closer = event.target instanceof Element ? event.target.closest('button') : null;
            if (closer) app.close(Number(closer.dataset.tap));
        });
        this.select.addEventListener('change', () => app.move({ tap: Number(this.select.value), frame: 0, packet: 1 }));
    }

    show() {
        this.files();
        this.counts();
        const { incomplete = 0, counts: { refusals } = { refusals: 0 } } = this.app.tap ?? {};
        badge('names', 'Names', refusals, counted(refusals, 'refusal'));
        badge('reassembly', 'Reassembly', incomplete, `${counted(incomplete, 'key')} incomplete`);
        this.choice();
    }

    /** The names of the files, each with the button that closes it. */
    files() {
        const open = this.app.taps.flatMap((tap, at) => (tap ? [{ name: tap.name, at }] : []));
        const signature = JSON.stringify(open);
        if (this.title.dataset.files === signature) return;
        this.title.dataset.files = signature;
        const names = open.map(({ name }) => name).join(' and ');
        document.title = open.length ? `${names} · nbt` : 'nbt';
        const parts = open.flatMap(({ name, at }) => [...(at && open.length > 1 ? [' and '] : []), fileOf(name, at)]);
        this.title.replaceChildren(...(parts.length ? parts : ['nbt']));
    }

    /** What is counted of the file that is looked at. */
    counts() {
        const counts = byId('counts', HTMLElement);
        const { tap } = this.app;
        const parts = tap && tap.kind !== 'table' ? [[tap.counts.packets, tap.counts.packets === 1 ? 'packet' : 'packets'],
            [tap.counts.names, tap.counts.names === 1 ? 'name' : 'names'], [tap.counts.refused, 'malformed'], [tap.counts.leftOut, 'left out'],
            ...(tap.counts.unread.frames ? [[tap.counts.unread.frames, 'not read here']] : [])] : [];
        const text = parts.map(([count, word]) => `${number(Number(count))} ${word}`).join(' · ');
        if (counts.textContent === text) return;
        counts.replaceChildren(...parts.flatMap(([count, word], at) => [at ? ' · ' : '',
            element('b', { class: count && at > 1 ? 'bad' : null }, number(Number(count))), ` ${word}`]));
    }

    /** Which of two files is looked at. */
    choice() {
        const { taps, tap: shown, place } = this.app;
        this.select.hidden = !taps.every((tap) => tap !== null);
        byId('opener', HTMLElement).textContent = shown ? 'Open another file' : 'Open a file';
        for (const [at, tap] of taps.entries()) say(this.select.options[at], `Tap ${at + 1}: ${tap?.name ?? ''}`);
        this.select.value = String(place.tap);
    }
}

function fileOf(name: string, at: number) {
    const words = `Close ${name}`;
    return element('span', { class: 'file' }, name, element('button', { type: 'button', class: 'close', 'data-tap': at, 'aria-label': words, title: words }));
}

/** What is counted, beside the name of a view. */
function badge(view: string, name: string, count: number, title: string) {
    const link = byId(`to-${view}`, HTMLAnchorElement);
    if (link.textContent === (count ? `${name} ${number(count)}` : name)) return;
    link.replaceChildren(name, ...(count ? [' ', element('b', { title }, number(count))] : []));
}
