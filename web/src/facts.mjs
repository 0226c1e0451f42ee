// The line of facts with the switches for round and rule, and the line that says what was refused.
import { count, num, safe } from './format.mjs';
import { $, state } from './state.mjs';

const ROUNDS = [['0', 'Truthful', 'No false bid pays'], ['1', 'Quiet', 'More seats, but a false bid may pay']];
const RULES = [['1', 'Rule 1', 'Of m asks in rising order the cut is number (m + 1) / 2, rounded up'],
    ['2', 'Rule 2', 'It is number 2 m / 3, rounded down, plus 1: more stations may open']];

function switchOf(name, title, options, current) {
    const option = ([value, text, tip]) => `<label title="${tip}"><input type="radio" name="${name}" value="${value}"`
        + `${value === current ? ' checked' : ''}><span>${text}</span></label>`;
    return `<span class="seg" role="radiogroup" aria-label="${title}">${options.map(option).join('')}</span>`;
}

const fact = (name, value) => `<div><dt>${name}</dt><dd>${value}</dd></div>`;

/** Both rounds stand side by side where a lie is tried or searched. */
const bothRounds = () => state.view === 'lie' || state.view === 'search';

export function drawFacts() {
    const { seen } = state, { market } = seen;
    const one = fact('seated', `${seen.seated} of ${count(market.guests, 'guest')}`)
        + fact('charged', num(seen.charged))
        + fact('paid out', num(seen.paid)) + fact('margin', num(seen.margin));
    const round = bothRounds() ? '' : `${state.quiet ? 'quiet' : 'truthful'} round, `;
    const paper = `<div class="onpaper"><dt>market</dt><dd>${safe(state.title)}, ${round}rule ${state.rule}</dd></div>`;
    $('facts').innerHTML = paper + fact('cut', `${num(seen.cut)} <span class="unit">per kWh</span>`)
        + fact('open', `${seen.open.length} of ${count(market.stations, 'station')}`) + (bothRounds() ? '' : one);
    const focused = document.activeElement?.name;
    $('switches').innerHTML = (bothRounds() ? '' : switchOf('round', 'Round', ROUNDS, state.quiet ? '1' : '0'))
        + switchOf('rule', 'Rule for the cut', RULES, String(state.rule));
    if (focused) $('switches').querySelector(`input[name="${focused}"]:checked`)?.focus();
}

export function drawRefused() {
    const { refused } = state, alarm = $('alarm');
    alarm.hidden = !refused;
    if (!refused) alarm.textContent = '';
    else {
        const number = refused.number ? `<b>Refused ${refused.number}</b> ` : '';
        const back = refused.number && !refused.file ? ' <button class="btn" id="back">Take it back</button>' : '';
        alarm.innerHTML = `${number}${safe(refused.words)}. The last accepted market is still shown.${back}`;
    }
}
