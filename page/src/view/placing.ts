/** Where files go that are opened while others are open: a question, with a button for each answer. */
import { byId, element, say } from './dom.js';

/** An answer: what its button says, the taps that the files become, and the tap that is closed then. */
export type Answer = { words: string, taps: number[], closes: number | null };

/** What may become of as many files.
 * @param open the names of the files that are open, by tap
 * @returns one where nothing is asked */
export function answersTo(open: (string | null)[], count: number): Answer[] {
    const [one, other] = open;
    if (one === null && other === null) return [{ words: '', taps: [0, 1], closes: null }];
    if (count > 1) return [{ words: `Instead of ${open.filter((each) => each !== null).join(' and ')}`, taps: [0, 1], closes: null }];
    if (one !== null && other !== null) {
        return [{ words: `Instead of tap 1, ${one}`, taps: [0], closes: null }, { words: `Instead of tap 2, ${other}`, taps: [1], closes: null },
            { words: 'Alone, instead of both', taps: [0], closes: 1 }];
    }
    const at = one === null ? 1 : 0;
    return [{ words: `As a second tap, beside ${open[at]}`, taps: [1 - at], closes: null },
        { words: `Instead of ${open[at]}`, taps: [at], closes: null }];
}

export class Placing {
    dialog = byId('placing', HTMLDialogElement);
    list = byId('placing-answers', HTMLElement);

    constructor() {
        byId('placing-cancel', HTMLButtonElement).addEventListener('click', () => this.dialog.close());
    }

    /** Whether a question is open. */
    get isAsking() {
        return this.dialog.open;
    }

    /** Asks what becomes of files, unless nothing is open.
     * @returns null where they aren't to be opened */
    ask(names: string[], open: (string | null)[]): Promise<Answer | null> {
        const answers = answersTo(open, names.length);
        if (open.every((each) => each === null)) return Promise.resolve(answers[0]);
        say(byId('placing-title', HTMLElement), `Open ${names.join(' and ')}`);
        let chosen: Answer | null = null;
        this.list.replaceChildren(...answers.map((answer) => {
            const button = element('button', { type: 'button' }, answer.words);
            button.addEventListener('click', () => {
                chosen = answer;
                this.dialog.close();
            });
            return element('li', {}, button);
        }));
        return new Promise((done) => {
            this.dialog.addEventListener('close', () => done(chosen), { once: true });
            this.dialog.showModal();
        });
    }
}
