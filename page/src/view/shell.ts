/** Words of a shell. */

const PLAIN = /^[\w@%+=:,./-]+$/;

/** A file's name as a shell takes it for one word, and a command for a file. */
export function quoted(name: string) {
    const path = name.startsWith('-') ? `./${name}` : name;
    return PLAIN.test(path) ? path : `'${path.replaceAll("'", "'\\''")}'`;
}
