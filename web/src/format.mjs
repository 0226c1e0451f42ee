// Numbers, lists and texts as the page shows them.

/** A whole number, thousands parted. */
export function num(value) {
    const digits = String(Math.abs(value));
    return (value < 0 ? '\u2212' : '') + (digits.length < 4 ? digits : digits.replace(/\B(?=(\d{3})+$)/g, ','));
}

export function signed(value) {
    return (value > 0 ? '+' : '') + num(value);
}

export function nth(k) {
    const teen = k % 100 > 10 && k % 100 < 14;
    return k + ((!teen && ['th', 'st', 'nd', 'rd'][k % 10]) || 'th');
}

export function listed(all) {
    return all.length < 2 ? all.join('') : `${all.slice(0, -1).join(', ')} and ${all[all.length - 1]}`;
}

export function count(k, one, many = `${one}s`) {
    return `${num(k)} ${k === 1 ? one : many}`;
}

/** A text that may stand in HTML and SVG, in attributes too. */
export function safe(text) {
    return String(text).replace(/[&<>"']/g, (c) => `&#${c.charCodeAt(0)};`);
}

/** A round number that is at least the value: the end of an axis. */
export function roundUp(value) {
    const power = 10 ** Math.floor(Math.log10(Math.max(value, 1)));
    const step = [1, 1.2, 1.5, 2, 2.5, 3, 4, 5, 6, 8, 10].find((k) => k * power >= value);
    return Math.max(Math.round(step * power), 4);
}
