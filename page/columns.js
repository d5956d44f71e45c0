// The boxes of which the columns of a drawing tell, as docs/PAGE-DATA.md describes them.

/**
 * Where boxes are and what they weigh, each as a column.
 * @typedef {{ depth: Int32Array, start: Float64Array, weight: Float64Array, own: Float64Array }} Boxes
 */

// Above 2^53 a difference is rounded, and less than nothing is nothing.
/** @type {(weight: number, part: number) => number} */
function without(weight, part) {
    return Math.max(0, weight - part);
}

// Each box is told by the one before it, and its own weight by whether the next one stands on it.
/** @type {(told: { gap: number[], rest: number[], tail: number[], up: number[] }) => Boxes} */
export function boxesTold({ gap, rest, tail, up }) {
    const count = up.length;
    const depth = new Int32Array(count);
    const start = new Float64Array(count);
    const weight = new Float64Array(count);
    const own = new Float64Array(count);
    let [depthBefore, startBefore, weightBefore] = [0, 0, 0];
    for (let box = 0; box < count; box++) {
        const isOn = up[box] === 0;
        depth[box] = depthBefore + 1 - up[box];
        start[box] = startBefore + (isOn ? 0 : weightBefore) + gap[box];
        weight[box] = isOn ? without(weightBefore, gap[box] + tail[box]) : tail[box];
        own[box] = up[box + 1] === 0 ? rest[box] : without(weight[box], rest[box]);
        [depthBefore, startBefore, weightBefore] = [depth[box], start[box], weight[box]];
    }
    return { depth, start, weight, own };
}
