// Printing on one page: the view is drawn at the width of the paper, and so small that its height fits.

const WIDTH = 1040, HEIGHT = 700; // of A4 across, in CSS pixels, within the margins of page.css
const LEAST = 0.35; // a table that would be smaller goes on

const root = document.documentElement;

function tall(zoom, draw) {
    const page = document.querySelector('.page');
    root.style.setProperty('--zoom', zoom);
    page.style.width = `${WIDTH / zoom}px`;
    draw();
    return page.getBoundingClientRect().height;
}

/** Before the page is printed. */
export function fitPrint(draw) {
    root.classList.add('printing');
    let zoom = Math.min(1, Math.sqrt(HEIGHT / tall(1, draw)) + 0.1);
    while (zoom > LEAST && tall(zoom.toFixed(2), draw) > HEIGHT) zoom -= 0.05;
}

/** After it was. */
export function endPrint(draw) {
    root.classList.remove('printing');
    document.querySelector('.page').style.width = '';
    draw();
}
