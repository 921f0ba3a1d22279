/** The address of the page: the view, the tap, the selected frame and the filter, after its `#`. */

export const VIEWS = ['packets', 'names', 'reassembly', 'taps', 'export'];

export interface Place {
    view: string;
    tap: number; // 0 or 1
    frame: number; // 0 where none is selected
    packet: number; // which of the frame's
    filter: string;
}

export function placeOf(hash = location.hash): Place {
    const [view, words] = hash.replace(/^#/, '').split('?');
    const given = new URLSearchParams(words);
    return {
        view: VIEWS.includes(view) ? view : VIEWS[0], tap: given.get('tap') === '2' ? 1 : 0, frame: whole(given.get('frame'), 0),
        packet: whole(given.get('packet'), 1), filter: given.get('filter') ?? '',
    };
}

export function hashOf({ view, tap, frame, packet, filter }: Place) {
    const given = new URLSearchParams();
    if (tap) given.set('tap', '2');
    if (frame) given.set('frame', String(frame));
    if (frame && packet > 1) given.set('packet', String(packet));
    if (filter) given.set('filter', filter);
    const words = given.toString();
    return `#${view}${words ? `?${words}` : ''}`;
}

function whole(text: string | null, without: number) {
    return text !== null && /^\d{1,10}$/.test(text) ? Number(text) : without;
}
