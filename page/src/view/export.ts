/** The view of what is given out, as files: each is byte for byte what the program prints, but for comments on what is left out. */
import { MOST_KEYS } from '../made/vocabulary.js';
import type { App, Tap } from './app.js';
import { byId, element, number } from './dom.js';
import { quoted } from './shell.js';

/** Of each form the end of a file's name, its title, the words of its button, what it is, and the commands that print the same: one that reads frames, and
 * one that reads its lines. */
const FORMS = [
    ['json', 'jsonl', 'JSON lines', 'Save JSON lines', 'an object for each packet', 'nbt-look --lines --quiet', 'nbt show --json'],
    ['capture', 'capture.txt', 'Capture', 'Save the capture', 'the packets as text, with their frames', 'nbt-look --lines --quiet', ''],
    ['table', 'table.txt', 'Saved table', 'Save the table', 'what a station knows of all datagrams',
        'nbt-look --lines --quiet --no-ticks', `nbt save --keys ${MOST_KEYS}`],
] as const;

export class ExportView {
    root = byId('view-export', HTMLElement);

    constructor(public app: App) {}

    show() {
        const { tap } = this.app;
        if (!tap) return;
        const forms = FORMS.filter(([form]) => tap.kind !== 'table' || form === 'table');
        this.root.replaceChildren(
            element('p', { class: 'lead' }, 'What is saved here is byte for byte what the program prints, but for comments on what is left out. Nothing leaves this page but what you save.'),
            ...forms.map(([form, end, title, save, what, command, ofText]) => {
                const button = element('button', { type: 'button', id: `save-${form}` }, save);
                const size = element('span', { class: 'quiet', role: 'status' });
                button.addEventListener('click', () => this.save(form, end, size, button));
                const words = tap.kind === 'frames' ? frameCommand(command, ofText, tap) : textCommand(form === 'table' ? `grep -v ^tick | ${ofText}` : ofText, tap);
                return element('section', { class: 'card', 'aria-label': title }, element('h2', {}, title), element('p', {}, what),
                    ...(tap.kind === 'table' ? [] : [element('p', {}, 'The same as ', element('code', {}, words))]), button, ' ', size);
            }));
    }

    async save(form: string, end: string, size: HTMLElement, button: HTMLButtonElement) {
        const { tap } = this.app;
        button.disabled = true;
        const answer = await this.app.ask('export', { form });
        button.disabled = false;
        if (!answer || !tap) return;
        const place = URL.createObjectURL(answer.blob);
        element('a', { href: place, download: `${tap.name.replace(/\.gz$/i, '').replace(/\.\w+$/, '')}.${end}` }).click();
        setTimeout(() => URL.revokeObjectURL(place), 60_000);
        size.textContent = `${number(answer.blob.size)} bytes`;
    }
}

/** The command that prints the same of a file that is text.
 * @param command an empty text where that is the file itself */
function textCommand(command: string, { name, isPacked }: Tap) {
    const given = `${isPacked ? 'gzip -dc' : 'cat'} ${quoted(name)}`;
    return command ? `${given} | ${command}` : given;
}

/** The command that prints the same of a file of frames.
 * @param ofLines an empty text where that is the capture itself */
function frameCommand(command: string, ofLines: string, { name, isPacked }: Tap) {
    const read = isPacked ? `gzip -dc ${quoted(name)} | ${command} -` : `${command} ${quoted(name)}`;
    return ofLines ? `${read} | ${ofLines}` : read;
}
