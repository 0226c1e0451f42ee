// Shapes and words of the still picture, as SVG. No font is asked for the width of a text: it is estimated, so that
// numbers stand at the end of their room.
import { safe } from './format.mjs';

export const WIDTH = 1120;
export const LEFT = 24;
export const RIGHT = WIDTH - 24;
/** The colours of page.css, in its light scheme. */
export const INK = '#17191b';
export const SOFT = '#55595e';
export const DIM = '#6b6862';
export const RULE = '#dedad1';
export const LINE = '#a9a59b';
export const PAPER = '#fcfbf8';
export const WHITE = '#ffffff';
export const SEAT = '#0d5a52';
export const KEEP = '#c6dfda';
export const FLOOR = '#a83a08';
export const LOST = '#c8c4ba';
export const EDGE = '#8f8a7e';
export const LOW = '#e4e0d6';
export const PICK = '#ffe692';

const fixed = (v) => v.toFixed(1);

/** The width of a text, about. */
export function wide(text, size) {
    return size * [...text].reduce((sum, c) => sum + (" .,:;'|ijlI()".includes(c) ? 0.33 : 0.64), 0);
}

export function words(x, y, text, { size = 12, fill = INK, bold = false, anchor = 'start' } = {}) {
    const weight = bold ? ' font-weight="700"' : '', side = anchor === 'start' ? '' : ` text-anchor="${anchor}"`;
    return `<text x="${fixed(x)}" y="${fixed(y)}" font-size="${size}" fill="${fill}"${weight}${side}>`
        + `${safe(text)}</text>`;
}

export function rect(x, y, w, h, fill, { stroke = '', width = 1, dash = '', title = '' } = {}) {
    const half = stroke ? width / 2 : 0, size = (v) => fixed(Math.max(0.1, v - 2 * half));
    const edge = stroke ? ` stroke="${stroke}" stroke-width="${width}"${dash && ` stroke-dasharray="${dash}"`}` : '';
    return `<rect x="${fixed(x + half)}" y="${fixed(y + half)}" width="${size(w)}" height="${size(h)}" fill="${fill}"`
        + `${edge}>${title && `<title>${safe(title)}</title>`}</rect>`;
}

export function line(x1, y1, x2, y2, stroke = INK, width = 1, dash = '') {
    return `<line x1="${fixed(x1)}" y1="${fixed(y1)}" x2="${fixed(x2)}" y2="${fixed(y2)}" stroke="${stroke}" `
        + `stroke-width="${width}"${dash && ` stroke-dasharray="${dash}"`}/>`;
}

export function disc(x, y, r, text, full) {
    return `<circle cx="${fixed(x)}" cy="${fixed(y)}" r="${r}" fill="${full ? SEAT : PAPER}" `
        + `stroke="${full ? SEAT : DIM}" stroke-width="1.5"/>`
        + words(x, y + r * 0.36, text, { size: r + 0.2, fill: full ? WHITE : SOFT, bold: full, anchor: 'middle' });
}

/** The dotted mark of cut × kWh in a seated bar. */
export function cutMark(x, y, height) {
    return line(x, y + 1.5, x, y + height - 1, WHITE, 1.6, '1.6 1.6');
}

/** Parts of a line, which goes on below where they do not fit; each is { need, draw(x, y) }. */
export function flow(parts, y, step) {
    let x = LEFT, out = '';
    for (const { need, draw } of parts) {
        if (x + need > RIGHT + 20 && x > LEFT) [x, y] = [LEFT, y + step];
        out += draw(x, y);
        x += need;
    }
    return { out, y };
}
