// The width of the picture. It is asked once for each width of the window or the paper: asking makes a browser lay out
// what was just drawn. page.css keeps room for a scroll bar, so that nothing else moves it.
import { $ } from './state.mjs';

const known = { of: '', width: 0 };

export function pictureWidth() {
    const { className, style } = document.documentElement;
    const of = `${innerWidth} ${className} ${style.getPropertyValue('--zoom')}`;
    if (known.of === of && known.width > 0) return known.width;
    Object.assign(known, { of, width: $('pic').parentElement.clientWidth });
    return known.width;
}
