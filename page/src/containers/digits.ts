/** Bytes as hexadecimal digits. */

/** The digits of each byte. */
export const DIGITS = Array.from({ length: 256 }, (_, each) => each.toString(16).padStart(2, '0'));

export function digitsOf(bytes: Uint8Array) {
    let text = '';
    for (const each of bytes) text += DIGITS[each];
    return text;
}

/** Bytes as a text, in which a point stands for each that isn't printable. */
export function printable(bytes: Uint8Array) {
    return Array.from(bytes, (each) => (each >= 0x20 && each < 0x7f ? String.fromCharCode(each) : '.')).join('');
}

/** The bytes that digits stand for: pairs of them, and nothing else. */
export function bytesOf(digits: string) {
    const bytes = new Uint8Array(digits.length / 2);
    for (let at = 0; at < bytes.length; at++) bytes[at] = parseInt(digits.slice(2 * at, 2 * at + 2), 16);
    return bytes;
}
