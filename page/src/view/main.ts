/** The page begins here. */
import { KINDS } from '../made/vocabulary.js';
import { App } from './app.js';
import { VIEWS } from './address.js';
import { byId } from './dom.js';
import { openAll, takeFiles } from './files.js';
import { SingleKeys } from './singles.js';

/** The bytes of a block of the page in base64. */
function bytesIn(id: string) {
    const text = atob((document.getElementById(id)?.textContent ?? '').trim());
    const bytes = new Uint8Array(text.length);
    for (let at = 0; at < text.length; at++) bytes[at] = text.charCodeAt(at);
    return bytes;
}

function textIn(id: string) {
    return document.getElementById(id)?.textContent ?? '';
}

const app = new App(textIn('worker'), bytesIn('module'), JSON.parse(textIn('advice')));
const help = byId('help', HTMLDialogElement);
const singles = new SingleKeys();

/** @param id of a block with a capture */
function openWithin(id: string) {
    const name = document.getElementById(id)?.dataset.name ?? id;
    return openAll(app, [new File([bytesIn(id)], name)]);
}

byId('kinds', HTMLElement).textContent = KINDS.join(', ');
takeFiles(app);
byId('try', HTMLButtonElement).addEventListener('click', () => openWithin('sample'));
byId('to-help', HTMLButtonElement).addEventListener('click', () => help.showModal());
byId('close-help', HTMLButtonElement).addEventListener('click', () => help.close());
byId('dismiss', HTMLButtonElement).addEventListener('click', () => {
    byId('message', HTMLElement).hidden = true;
});

addEventListener('keydown', (event) => {
    const target = event.target as HTMLElement;
    if (event.ctrlKey || event.altKey || event.metaKey || document.querySelector('dialog[open]') || target.closest('input, textarea, select')) return;
    if (event.key.length === 1 && !singles.areOn) return;
    const isPackets = app.place.view === 'packets' && app.tap !== null;
    if (event.key === '/' && app.tap) {
        event.preventDefault();
        if (!isPackets) app.move({ view: 'packets' });
        setTimeout(() => byId('words', HTMLInputElement).focus(), 0);
    } else if (event.key === '?') {
        help.showModal();
    } else if (event.key === 'Escape') {
        byId('message', HTMLElement).hidden = true;
    } else if (event.key >= '1' && event.key <= '5' && app.tap) {
        app.move({ view: VIEWS[Number(event.key) - 1] });
    } else if (isPackets && target === document.body) {
        app.packets.grid.key(event);
    }
});

app.show();
if (textIn('given').trim()) openWithin('given');
