/** The times of frames as nbt-look writes them. */

const SECOND = 1_000_000_000n;
const MILLISECOND = 1_000_000n;

/** A time in UTC with six places, or `-` where there is none.
 * @param time nanoseconds since 1970 */
export function utc(time: bigint | null) {
    if (time === null) return '-';
    const rest = ((time % SECOND) + SECOND) % SECOND;
    const second = new Date(Number((time - rest) / MILLISECOND)).toISOString().slice(0, 19);
    return `${second}.${String(rest / 1000n).padStart(6, '0')}Z`;
}

/** The moment of a time: milliseconds since the first one, and 0 before it. */
export function momentOf(time: bigint, first: bigint) {
    return time > first ? Number((time - first) / MILLISECOND) : 0;
}

/** A span in seconds, as nbt-look-tshark writes it; before the first frame it is negative. */
export function since(time: bigint | null, first: bigint | null) {
    if (time === null) return '-';
    const span = time - (first ?? 0n);
    const whole = span < 0n ? -span : span;
    return `${span < 0n ? '-' : ''}${whole / SECOND}.${String((whole % SECOND) / 1000n).padStart(6, '0')}`;
}
