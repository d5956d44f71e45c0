// Weights in their unit, percents and changes.

import { visible } from './names.js';

/** @type {Record<string, number>} */
const SECONDS = { nanoseconds: 1e-9, microseconds: 1e-6, milliseconds: 1e-3, seconds: 1 };
/** @type {Record<string, number>} */
const BYTES = { bytes: 1, kilobytes: 1024, megabytes: 1024 ** 2, gigabytes: 1024 ** 3 };
/** @type {[size: number, sign: string][]} */
const TIME_STEPS = [[1, 's'], [1e-3, 'ms'], [1e-6, 'µs'], [1e-9, 'ns']];
/** @type {[size: number, sign: string][]} */
const BYTE_STEPS = [[1024 ** 4, 'TiB'], [1024 ** 3, 'GiB'], [1024 ** 2, 'MiB'], [1024, 'KiB'], [1, 'B']];

// Formats take long to make, and saved pictures have many texts.
const WHOLE = new Intl.NumberFormat('en', { maximumFractionDigits: 0 });
const THREE_DIGITS = new Intl.NumberFormat('en', { maximumSignificantDigits: 3 });
const TWO_DIGITS = new Intl.NumberFormat('en', { maximumSignificantDigits: 2 });

// Three digits, and of larger numbers all before the point.
/** @type {(number: number) => string} */
function threeDigits(number) {
    return (number < 999.5 ? THREE_DIGITS : WHOLE).format(number);
}

/** @type {(number: number) => string} */
export function separated(number) {
    return WHOLE.format(number);
}

/** @type {(value: number, steps: [size: number, sign: string][]) => [size: number, sign: string]} */
function stepFor(value, steps) {
    return steps.find(([step]) => value >= step * 0.9995) || steps[steps.length - 1];
}

// A weight of so large units in the step that it reaches. Whole numbers are divided, since no part of a second is one exactly.
/** @type {(weight: number, unit: number, steps: [size: number, sign: string][]) => string} */
function inSteps(weight, unit, steps) {
    const [size, sign] = stepFor(weight * unit, steps);
    const value = size >= unit ? weight / Math.round(size / unit) : weight * Math.round(unit / size);
    return `${threeDigits(value)} ${sign}`;
}

// The sources that have weight: an empty one has no unit, and changes nothing.
/**
 * @template {{ weight: number }} T
 * @type {(sources: T[]) => T[]}
 */
export function weighty(sources) {
    return sources.filter((source) => source.weight > 0);
}

// The one unit of all sources, empty where a weight is a plain number, or null where they have different ones.
/** @type {(sources: { unit: string, weight: number }[]) => string | null} */
export function commonUnit(sources) {
    const units = new Set(weighty(sources).map((source) => source.unit));
    return units.size > 1 ? null : [...units].join('');
}

// The step of the unit in which a weight is read at a glance: what weighs as much, and its sign.
/** @type {(weight: number, unit: string | null) => { size: number, sign: string }} */
export function unitStep(weight, unit) {
    const sizes = [SECONDS, BYTES].find((each) => unit && Object.hasOwn(each, unit));
    if (unit && sizes) {
        const [size, sign] = stepFor(Math.max(1, weight) * sizes[unit], sizes === SECONDS ? TIME_STEPS : BYTE_STEPS);
        return { size: Math.round(size / sizes[unit]), sign };
    }
    return { size: 1, sign: unit && unit !== 'count' ? visible(unit) : '' };
}

// A weight as it is read at a glance: 1.23 ms, 4.5 MiB, 1,234.
/** @type {(weight: number, unit: string | null) => string} */
export function weightText(weight, unit) {
    if (unit && Object.hasOwn(SECONDS, unit)) return inSteps(weight, SECONDS[unit], TIME_STEPS);
    if (unit && Object.hasOwn(BYTES, unit)) return inSteps(weight, BYTES[unit], BYTE_STEPS);
    const about = weight > Number.MAX_SAFE_INTEGER ? 'about ' : '';
    return about + separated(weight) + (unit && unit !== 'count' ? ` ${visible(unit)}` : '');
}

// The same, and where that is in larger steps than the unit also the whole number.
/** @type {(weight: number, unit: string | null) => string} */
export function exactText(weight, unit) {
    const short = weightText(weight, unit);
    const whole = weightText(weight, '');
    return unit && !short.startsWith(whole) ? `${short} (${whole} ${unit})` : short;
}

/** @type {(part: number, whole: number) => string} */
export function percentText(part, whole) {
    if (!(whole > 0)) return '0%';
    const percent = (100 * part) / whole;
    return `${(percent < 1 ? TWO_DIGITS : THREE_DIGITS).format(percent)}%`;
}

// How much more there is after than before.
/** @type {(before: number, after: number) => string} */
export function changeText(before, after) {
    if (before === after) return '±0%';
    if (before === 0) return 'new';
    if (after === 0) return 'gone';
    const percent = (100 * (after - before)) / before;
    return `${percent > 0 ? '+' : '−'}${threeDigits(Math.abs(percent))}%`;
}

// How much more there is after than before, as a weight.
/** @type {(before: number, after: number, unit: string | null) => string} */
export function differenceText(before, after, unit) {
    const sign = after > before ? '+' : after < before ? '−' : '';
    return sign + weightText(Math.abs(after - before), unit);
}
