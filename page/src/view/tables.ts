/** The tables of the names' view: their titles and columns, and how a value is shown. */
import { TEXTS, cell } from '../made/shown.js';
import { HEADS, TABLES as ALIKE } from '../made/vocabulary.js';

/** What stands before a row that is marked. */
export const MARK = '! ';
const UNREAD = ['not read here', ['link_type', 'why', 'frames', 'frame']];
/** Each table by its key, with its title and columns: those of nbt-look-tshark, in their order, then what that alone reads. */
export const TABLES = Object.entries({ ...ALIKE, unread: UNREAD }).map(([key, [title, columns]]) => ({ key, title: String(title), columns: [...columns] }));

/** What stands above a column. */
export const headOf = (column: string): string => Reflect.get(HEADS, column) ?? column.replace('_', ' ');

/** A value as nbt-look-tshark's tables have it.
 * @param title of the table */
export function shownAs(title: string, row: any, column: string): string {
    return (Reflect.get(TEXTS, title)?.[column] ?? cell)(row[column], row);
}
