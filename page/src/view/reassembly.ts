/** The reassembly's view: each key as a bar, and what a station with chosen names is handed, and when. */
import { keyOf, type Key } from '../model/keys.js';
import { MOST_NAMES } from '../made/vocabulary.js';
import type { Handed } from '../worker/tables.js';
import type { App } from './app.js';
import { bar, folded, preview } from './bars.js';
import { byId, counted, element, number, table } from './dom.js';
import { known } from './keys.js';

export class ReassemblyView {
    keys = byId('keys', HTMLElement);
    handed = byId('handed', HTMLElement);
    names = byId('station', HTMLInputElement);

    constructor(public app: App) {
        byId('station-form', HTMLFormElement).addEventListener('submit', (event) => {
            event.preventDefault();
            this.hand();
        });
    }

    async show() {
        const { app } = this;
        const { tap } = app;
        const answer = await app.ask('listed');
        if (!answer || tap !== app.tap) return;
        const keys: Key[] = answer.lines.map(keyOf);
        this.keys.replaceChildren(...tableOf(keys, ({ key }) => (answer.firsts.has(key) ? app.link(key, { frame: answer.firsts.get(key) }) : key)));
        this.handed.replaceChildren();
        const names = Array.from(new Set(keys.flatMap((key) => key.destination || [])));
        byId('station-names', HTMLDataListElement).replaceChildren(...names.slice(0, MOST_NAMES).map((value) => element('option', { value })));
        this.names.value = names.slice(0, MOST_NAMES).join(', ');
        byId('station-form', HTMLFormElement).hidden = tap?.kind === 'table';
        if (tap?.kind !== 'table' && names.length) await this.hand();
    }

    /** Shows what the station is handed. */
    async hand() {
        const names = this.names.value.split(',').map((each) => each.trim()).filter((each) => each !== '');
        const { rows } = this.app.tap ?? {};
        const answer = await this.app.ask('handed', { names });
        if (!answer) this.handed.replaceChildren();
        if (!answer || !rows) return;
        const { handed, more } = answer;
        const cells = (each: Handed) => [
            each.row === null ? '-' : String(rows.frame.at(each.row)), each.moment, each.key, each.source, each.destination,
            `${each.data.length / 2}`, preview(each.data),
        ];
        this.handed.replaceChildren(
            element('p', {}, `A station with ${names.join(', ') || 'no name'} is handed ${counted(handed.length + more, 'datagram')}.`),
            ...(handed.length ? [table('handed over', ['frame', 'moment, ms', 'key', 'from', 'to', 'bytes', 'text'], handed, cells)] : []));
    }
}

/** @param named what stands for a key */
function tableOf(keys: Key[], named: (key: Key) => Node | string) {
    if (!keys.length) return [element('p', { class: 'quiet' }, 'There are no datagrams of which a station holds anything.')];
    const counts = ['whole', 'partial', 'spoilt'].map((state) => `${number(keys.filter((key) => key.state === state).length)} ${state}`);
    const cells = (key: Key) => [named(key), key.state, bar(key), key.source || '-', key.destination || '-', key.state === 'whole' ? folded(key.data) : known(key)];
    return [element('p', { class: 'lead' }, `${counted(keys.length, 'key')}: ${counts.join(', ')}.`),
        table('keys', ['key', 'state', 'places', 'from', 'to', 'what is known'], keys, cells, (key) => key.state)];
}
