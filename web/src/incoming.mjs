// What comes in from outside the page: files that are chosen or dropped, cells that are pasted.
import { isEditing } from './editing.mjs';
import { openFiles } from './files.mjs';
import { paste } from './pasting.mjs';
import { $, state } from './state.mjs';

let joining = false;

export function chooseFiles(isJoin) {
    joining = isJoin;
    $('file').multiple = !isJoin;
    $('file').click();
}

export function filesChosen(field) {
    const files = [...field.files];
    field.value = ''; // the same file may be chosen again
    return openFiles(files, joining);
}

let over = 0; // elements under what is dragged

function moved(count) {
    over = Math.max(0, count);
    $('drop').hidden = over === 0;
}

export const dragging = {
    dragenter: (event) => { moved(over + 1); event.preventDefault(); },
    dragleave: () => moved(over - 1),
    dragover: (event) => event.preventDefault(),
    drop: (event) => {
        event.preventDefault();
        moved(0);
        if (event.dataTransfer.files.length > 0) openFiles([...event.dataTransfer.files]);
    },
};

export function pasteCells(event) {
    if (state.view !== 'table' || isEditing() || !event.target.closest?.('#grid')) return;
    event.preventDefault();
    paste(event.clipboardData.getData('text/plain'), state.cell);
}
