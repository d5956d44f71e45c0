// The rows of boxes: those of one depth.

export const ROW_HEIGHT = 18;

/**
 * Boxes by their depth, in their order: those of a row are order[first[row]] to order[first[row + 1] - 1].
 * @typedef {{ first: Int32Array, order: Int32Array }} Rows
 */

/** @type {(depths: Int32Array, rowCount: number, boxes: ArrayLike<number> & Iterable<number>) => Rows} */
export function rowsOf(depths, rowCount, boxes) {
    const first = new Int32Array(rowCount + 1);
    for (const box of boxes) first[depths[box] + 1]++;
    for (let row = 0; row < rowCount; row++) first[row + 1] += first[row];
    const next = first.slice();
    const order = new Int32Array(boxes.length);
    for (const box of boxes) order[next[depths[box]]++] = box;
    return { first, order };
}

// How far a row's top is from the top of all rows.
/** @type {(rowCount: number, row: number, below: boolean) => number} */
export function rowTop(rowCount, row, below) {
    return (below ? rowCount - 1 - row : row) * ROW_HEIGHT;
}

/** @type {(rowCount: number, top: number, below: boolean) => number} */
export function rowAt(rowCount, top, below) {
    const place = Math.floor(top / ROW_HEIGHT);
    return below ? rowCount - 1 - place : place;
}
