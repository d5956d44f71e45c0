// Finding places in what is in order.

// The first place from `low` to `high` that holds, where all after one that holds hold too.
/** @type {(low: number, high: number, holds: (place: number) => boolean) => number} */
export function firstPlace(low, high, holds) {
    while (low < high) {
        const middle = (low + high) >>> 1;
        if (holds(middle)) high = middle;
        else low = middle + 1;
    }
    return low;
}

// The same, looked for near `low` first.
/** @type {(low: number, high: number, holds: (place: number) => boolean) => number} */
export function nextPlace(low, high, holds) {
    let step = 1;
    while (low + step < high && !holds(low + step)) {
        low += step;
        step *= 2;
    }
    return firstPlace(low, Math.min(low + step, high), holds);
}
