/** How files come into the page: dropped, chosen, or pasted. */
import { FORM } from '../containers/line_faults.js';
import type { App } from './app.js';
import { byId, counted } from './dom.js';

export function takeFiles(app: App) {
    const input = byId('file', HTMLInputElement);
    for (const id of ['opener', 'choose']) byId(id, HTMLButtonElement).addEventListener('click', () => input.click());
    input.addEventListener('change', () => {
        openAll(app, Array.from(input.files ?? []));
        input.value = '';
    });
    addEventListener('dragover', (event) => {
        event.preventDefault();
        document.body.classList.add('over');
    });
    addEventListener('dragleave', (event) => {
        if (!event.relatedTarget) document.body.classList.remove('over');
    });
    addEventListener('drop', (event) => {
        event.preventDefault();
        document.body.classList.remove('over');
        openAll(app, Array.from(event.dataTransfer?.files ?? []));
    });
    document.addEventListener('paste', (event) => {
        if (event.target instanceof HTMLTextAreaElement || event.target instanceof HTMLInputElement) return;
        const files = Array.from(event.clipboardData?.files ?? []);
        const text = event.clipboardData?.getData('text/plain') ?? '';
        if (files.length) openAll(app, files);
        else if (text) openText(app, text);
    });
    const pasted = byId('pasted', HTMLTextAreaElement);
    byId('read', HTMLButtonElement).addEventListener('click', async () => {
        if (!pasted.value.trim()) {
            app.complain(`There is no text to read. ${FORM}`);
            pasted.focus();
            return;
        }
        await openText(app, pasted.value);
        if (app.tap) pasted.value = '';
    });
}

/** Opens one file, or two as two taps. Where some are open already it is asked what becomes of them. */
export async function openAll(app: App, files: File[]) {
    const [one, two, ...others] = files;
    if (!one || app.placing.isAsking) return;
    const answer = await app.placing.ask(files.slice(0, 2).map(({ name }) => name), app.taps.map((tap) => tap?.name ?? null));
    if (!answer) return;
    const [first, second] = answer.taps;
    await app.open(one, one.name, first, answer.closes);
    if (two) await app.open(two, two.name, app.taps[first] === null ? first : second, null);
    if (others.length) app.complain(`${counted(others.length, 'file')} more than two: ${others[0].name} and what follows isn't opened`);
}

function openText(app: App, text: string) {
    return openAll(app, [new File([text.replaceAll('\r\n', '\n')], 'pasted text')]);
}
