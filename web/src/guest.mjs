// The chosen guest: the board of guests, its outcome, and what decided at each station.
import { listed, num } from './format.mjs';
import { $, state } from './state.mjs';
import { decided, outcome } from './words.mjs';

const ORDER = { seated: 0, else: 1, first: 2, outbid: 3, low: 4 };

function board(seen, chosen) {
    const dense = seen.market.guests > 60;
    const square = (_, i) => {
        const isChosen = i === chosen, [name, words] = seen.seats[i] ? ['on', 'seated'] : ['', 'no seat'];
        return `<button role="radio" data-g="${i}" aria-checked="${isChosen}" tabindex="${isChosen ? 0 : -1}" `
            + `class="${name}" aria-label="Guest ${i + 1}, ${words}" title="Guest ${i + 1}">`
            + `${dense ? '' : i + 1}</button>`;
    };
    return `<div class="strip${dense ? ' dense' : ''}" id="strip" role="radiogroup" aria-label="Choose a guest">`
        + `${Array.from({ length: seen.market.guests }, square).join('')}</div>`;
}

function reason(station, { state: kind, head, more }) {
    const key = ORDER[kind] < 4 ? `<i class="key ${kind}"></i>` : '';
    return `<li><span class="st">${station.j + 1}${key}</span><div><b>${head}</b>`
        + `${more ? `<p>${more}</p>` : ''}</div></li>`;
}

function several(stations, head, more = '') {
    if (stations.length === 0) return '';
    return `<li class="several"><div><b>${head}</b><p>`
        + `${stations.length > 1 ? 'Stations' : 'Station'} ${listed(stations)}${more}</p></div></li>`;
}

// At many stations the reasons stand by what they are, and those below the cut in one line.
function reasons(seen, guest) {
    const many = seen.market.stations > 10, lines = [], groups = { none: [], shut: [], low: [] };
    for (const station of seen.stations) {
        const said = decided(seen, guest, station), bid = seen.market.bids[guest * seen.market.stations + station.j];
        if (said.state === 'shut') groups.shut.push(`${station.j + 1}&nbsp;(${num(bid)})`);
        else if (said.state === 'none' || (many && said.state === 'low')) groups[said.state].push(station.j + 1);
        else lines.push({ rank: many ? ORDER[said.state] : 0, html: reason(station, said) });
    }
    lines.sort((a, b) => a.rank - b.rank);
    const shut = groups.shut.length > 1 ? '. The bids, in brackets, count for nothing.'
        : '. The bid, in brackets, counts for nothing.';
    return lines.map(({ html }) => html).join('') + several(groups.low, `Bid below the cut of ${num(seen.cut)}`)
        + several(groups.shut, 'Station not open', shut) + several(groups.none, 'No bid');
}

export function drawGuest() {
    const { seen, guest } = state, panel = $('guest');
    if (seen.market.guests === 0) {
        panel.innerHTML = '<p class="muted">This market has no guests.</p>';
        $('peek').innerHTML = '';
        return;
    }
    const onBoard = document.activeElement?.closest?.('#strip');
    const { amounts, tickets } = seen.market;
    panel.innerHTML = `<h2 class="cap2">Guests <span>filled: seated</span></h2>${board(seen, guest)}`
        + `<h2 id="gname" tabindex="-1">Guest ${guest + 1}</h2>`
        + `<p class="muted">${num(amounts[guest])} kWh, ticket ${tickets[guest]}</p>`
        + `<p class="say"><b>${outcome(seen, guest)}</b></p><ul class="why">${reasons(seen, guest)}</ul>`
        + `<div class="acts"><button class="btn" data-go="lie">Try a lie for guest ${guest + 1}</button></div>`;
    if (onBoard) panel.querySelector('[aria-checked="true"]').focus({ preventScroll: true });
    $('peek').innerHTML = `<span><b>Guest ${guest + 1}</b> ${outcome(seen, guest)}</span>`
        + '<button class="btn" id="why">Why</button>';
    $('picked').textContent = `:is(.row, .chips button)[data-g="${guest}"] { background: var(--pick) }`;
}
