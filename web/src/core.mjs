// What the page and its worker share. In the worker it waits for a search, and what fails there is an error of it.
import { load } from '../../js/bay_market.mjs';
import { Search, run } from './search.mjs';

async function searchFor({ data: { compiled, wish } }) {
    try {
        run(new Search(await load(compiled), wish), (report) => postMessage(report));
    } catch (error) {
        reportError(error);
    }
}

if (typeof document === 'undefined') globalThis.onmessage = searchFor;
