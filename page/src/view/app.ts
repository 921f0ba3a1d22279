/** The page as a whole: the files that are open, the view, and what is said of all that. */
import { hashOf, placeOf, type Place } from './address.js';
import { Advice } from './advice.js';
import { Desk, type Counts, type News } from './desk.js';
import { byId, counted, element, number, say } from './dom.js';
import { Header } from './header.js';
import { NamesView } from './names.js';
import { ExportView } from './export.js';
import { PacketPanel } from './packet.js';
import { PacketsView } from './packets.js';
import { Placing } from './placing.js';
import { ReassemblyView } from './reassembly.js';
import { Rows } from './rows.js';
import { TapsView } from './taps.js';

/** How long a worker may take to stop before it is ended, in milliseconds. */
const PATIENCE = 2_000;

/** A file that is open. */
export interface Tap {
    name: string; size: number; kind: 'frames' | 'lines' | 'table';
    isPacked: boolean; // whether gzip packed it
    rows: Rows; first: bigint | null; counts: Counts;
    isRead: boolean; fault: string | null;
    incomplete: number; // how many keys lack a piece
    closes: number | null; // the tap that is closed once this one can be read
}

export class App {
    desk;
    taps: (Tap | null)[] = [null, null];
    /** The files that are being read. */
    coming = new Map<number, Tap>();
    opened = 0;
    place = placeOf();
    header = new Header(this);
    placing = new Placing();
    panel;
    packets = new PacketsView(this);
    views = {
        packets: this.packets, names: new NamesView(this), reassembly: new ReassemblyView(this), taps: new TapsView(this), export: new ExportView(this),
    };

    /** @param code the worker's */
    constructor(code: string, module: Uint8Array, advice: string[]) {
        this.desk = new Desk(code, module, (news) => this.hear(news), (words) => this.complain(words));
        this.panel = new PacketPanel(new Advice(advice));
        addEventListener('hashchange', () => this.go());
        byId('stop', HTMLButtonElement).addEventListener('click', () => this.stop());
        byId('to-packets', HTMLAnchorElement).addEventListener('click', () => this.place.view === 'packets' && this.focus());
    }

    /** The file that is looked at. */
    get tap() {
        return this.taps[this.place.tap];
    }

    /** What the packets of that file are numbered by. */
    get unit() {
        return this.tap?.kind === 'lines' && this.tap.rows.isOfLines ? 'line' : 'frame';
    }

    /** Asks the worker about the file that is looked at; null where it has no answer, which is then said. */
    async ask(what: string, asked: object = {}) {
        const { tap } = this.place;
        try {
            await this.desk.loaded;
            return await this.desk.ask(what, { tap, ...asked });
        } catch (error) {
            this.complain(error instanceof Error ? error.message : String(error));
            return null;
        }
    }

    /** Opens a file.
     * @param number of the tap */
    async open(file: Blob, name: string, number: number, closes: number | null) {
        const counts = { frames: 0, packets: 0, refused: 0, leftOut: 0, names: 0, refusals: 0, unread: { frames: 0, whys: [] } };
        const tap: Tap = {
            name, size: file.size, kind: 'frames', isPacked: false, rows: new Rows(), first: null, counts, isRead: false, fault: null, incomplete: 0, closes,
        };
        const earlier = { tap: this.taps[number], place: this.place };
        this.taps[number] = tap;
        this.opened += 1;
        const { opened } = this;
        this.coming.set(opened, tap);
        const frame = this.place.tap === number ? this.place : { frame: 0, packet: 1 };
        this.keep({ tap: number, frame: frame.frame, packet: frame.packet });
        byId('message', HTMLElement).hidden = true;
        const asked = this.desk.loaded?.then(() => this.desk.ask('open', { tap: number, opened, file, name }));
        // What the view asks about the file comes after that.
        this.show();
        try {
            const end = await asked;
            Object.assign(tap, { fault: end.fault, kind: end.kind, isPacked: end.isPacked, counts: end.counts, first: end.first });
        } catch (error) {
            tap.fault = error instanceof Error ? error.message : String(error);
        }
        tap.isRead = true;
        this.coming.delete(opened);
        if (this.taps[number] !== tap) return;
        if (tap.fault) this.complain(`${tap.name}: ${tap.fault}`);
        if (tap.fault && !tap.rows.count) {
            await this.putBack(earlier, number);
            return;
        }
        this.settle(tap);
        this.countKeys(tap, number);
        await this.read(tap);
    }

    /** Closes what a file stands in the place of, once it is known that it can be read. */
    settle(tap: Tap) {
        if (tap.closes !== null && this.taps[tap.closes]) this.close(tap.closes);
        tap.closes = null;
    }

    /** Closes a file: the other one is looked at then, if there is one.
     * @param number of the tap */
    close(number: number) {
        const tap = this.taps[number];
        if (!tap) return;
        this.taps[number] = null;
        this.desk.ask('close', { tap: number }).catch((error) => this.complain(error.message));
        const other = this.taps[1 - number] ? 1 - number : 0;
        const isShown = this.place.tap === number;
        if (isShown) this.keep({ tap: other, frame: 0, packet: 1, filter: '' });
        if (!this.tap) this.keep({ view: 'packets' });
        this.show(isShown);
        this.tell(`${tap.name} is closed`);
        if (isShown) this.focus();
    }

    /** Counts the keys that lack a piece; where that can't be done the view of reassembly says why. */
    async countKeys(tap: Tap, number: number) {
        tap.incomplete = await this.desk.ask('incomplete', { tap: number }).catch(() => 0);
        this.header.show();
    }

    /** A file can't be read at all: what was open before it stays. */
    async putBack({ tap, place }: { tap: Tap | null, place: Place }, number: number) {
        this.taps[number] = tap;
        if (this.place.tap === number && this.taps[place.tap]) this.keep({ tap: place.tap, frame: place.frame, packet: place.packet });
        else if (this.place.tap === number) this.keep({ tap: this.taps[0] ? 0 : this.taps[1] ? 1 : 0, frame: 0 });
        this.show();
        if (!this.tap) return;
        this.tellOf(this.tap);
        if (this.place.frame) await this.packets.select(this.place.frame, this.place.packet);
    }

    /** A file is read to its end, or to where it can't be read. */
    async read(tap: Tap) {
        this.progress(null);
        if (tap === this.tap) {
            await this.packets.refilter();
            if (this.place.frame) await this.packets.select(this.place.frame, this.place.packet);
        }
        this.tellOf(tap);
        if (tap.kind === 'table' && this.place.view === 'packets') this.move({ view: 'reassembly' });
        else this.show(false);
    }

    hear(news: News) {
        const tap = this.coming.get(news.opened);
        if (!tap) return;
        if (tap.first === null && news.rows.time.length) tap.first = news.rows.time[0];
        tap.rows.add(news.rows);
        Object.assign(tap, { counts: news.counts, kind: news.kind });
        if (tap.rows.count) this.settle(tap);
        this.progress(news);
        this.header.show();
        if (tap === this.tap) this.packets.more();
    }

    /** @param news null where nothing is read */
    progress(news: News | null) {
        const bar = byId('progress', HTMLProgressElement);
        const isReading = this.taps.some((tap) => tap && !tap.isRead);
        bar.value = news && news.size ? news.done / news.size : 1;
        byId('reading', HTMLElement).classList.toggle('idle', !isReading);
        byId('stop', HTMLButtonElement).disabled = !isReading;
    }

    /** Ends what is read, with what is there by then. */
    async stop() {
        for (const [number, tap] of this.taps.entries()) {
            if (!tap || tap.isRead) continue;
            const isAnswered = await Promise.race([
                this.desk.ask('stop', { tap: number }).then(() => true, () => true),
                new Promise((done) => setTimeout(() => done(false), PATIENCE)),
            ]);
            if (isAnswered) continue;
            this.taps = [null, null];
            this.desk.restart('it was ended');
            this.complain(`${tap.name}: it was ended, since the reading did not stop by itself`);
            this.show();
        }
    }

    /** Goes to another place. */
    move(change: Partial<Place>) {
        location.hash = hashOf({ ...this.place, ...change });
    }

    /** A link to the packets. */
    link(text: string, change: Partial<Place>) {
        return element('a', { href: hashOf({ ...this.place, view: 'packets', frame: 0, packet: 1, filter: '', ...change }) }, text);
    }

    /** Keeps in the address what was chosen. */
    keep(change: Partial<Place>) {
        this.place = { ...this.place, ...change };
        const hash = hashOf(this.place);
        if (hash !== location.hash && !(hash === `#${this.place.view}` && location.hash === '')) history.replaceState(null, '', hash);
    }

    /** The address is another one. */
    go() {
        const { view, tap, frame, packet, filter } = this.place;
        this.place = placeOf();
        if (!this.tap && this.taps[1 - this.place.tap]) this.keep({ tap: 1 - this.place.tap, frame: 0, packet: 1 });
        const isOther = this.place.tap !== tap;
        this.show(isOther || (this.place.filter !== filter));
        if (this.place.frame && (isOther || this.place.frame !== frame || this.place.packet !== packet)) {
            this.packets.select(this.place.frame, this.place.packet);
        }
        if (view !== this.place.view) this.focus();
    }

    /** What the keys are for: the list of packets, or else the view. */
    focus() {
        if (!this.tap) return byId('choose', HTMLElement).focus();
        byId(this.place.view === 'packets' ? 'grid' : `view-${this.place.view}`, HTMLElement).focus({ preventScroll: true });
    }

    /** @param isOther whether the packets are of another file */
    show(isOther = true) {
        const isOpen = this.taps.some((tap) => tap !== null);
        byId('start', HTMLElement).hidden = isOpen;
        byId('views', HTMLElement).hidden = !isOpen;
        for (const [name, view] of Object.entries(this.views)) {
            const isShown = name === this.place.view;
            byId(`view-${name}`, HTMLElement).hidden = !isShown;
            const link = byId(`to-${name}`, HTMLAnchorElement);
            link.href = hashOf({ ...this.place, view: name });
            if (isShown) link.setAttribute('aria-current', 'page');
            else link.removeAttribute('aria-current');
            if (isShown && isOpen && (name !== 'packets' || isOther)) view.show();
        }
        if (isOther && this.place.view !== 'packets') this.packets.show();
        this.header.show();
        this.progress(null);
    }

    /** @param words of one line */
    complain(words: string) {
        const message = byId('message', HTMLElement);
        message.hidden = false;
        say(byId('words-of-message', HTMLElement), words.replace(/\s+/g, ' '));
        byId('reading', HTMLElement).classList.toggle('idle', true);
    }

    tellOf({ name, kind, counts: { packets, refused, leftOut, unread } }: Tap) {
        const notRead = unread.frames ? `, ${number(unread.frames)} not read here` : '';
        this.tell(kind === 'table' ? `${name} is a saved table` : `${name}: ${counted(packets, 'packet')}, ${refused} malformed, ${leftOut} left out${notRead}`);
    }

    /** @param words what is heard, where the page is read aloud */
    tell(words: string) {
        say(byId('live', HTMLElement), words);
    }
}
