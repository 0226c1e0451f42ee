// What the pointer does: a glance, a mark that is chosen, a bid that is dragged; and the size of the window.
import { same, starts } from './same.mjs';

const tip = (browser) => browser.run('document.querySelector("#tip:not([hidden])")?.textContent ?? ""');

export const cases = {
    async 'the pointer: a glance at a guest, a mark that is chosen, a bid that is dragged'({ browser, page }) {
        await browser.size(1280, 900);
        await browser.open(`${page}#market=evening&guest=10`);
        await browser.mouse('mouseMoved', ...await browser.placeIn('#pic .row[data-g="23"][data-st="0"]'));
        const said = await tip(browser);
        starts(said, 'Guest 24 at station 1Outbid, first without a place335 × 30 kWh = 10,050, 4th of 8 for 3 bays.');
        await browser.mouse('mouseMoved', 5, 5);
        same(await tip(browser), '', 'away from it');
        await browser.open(`${page}#market=full&guest=86`);
        const [first] = await browser.run('document.querySelector(".held .marks").dataset.rows.split(" ")');
        const [guest, top] = first.split(':').map(Number), box = await browser.placeIn('.held .marks', 0.3, 0);
        for (const type of ['mousePressed', 'mouseReleased']) await browser.mouse(type, box[0], box[1] + top + 2);
        same(await browser.run('bay["state.mjs"].state.guest'), guest, 'the guest of the mark');
        await browser.open(`${page}#market=evening&guest=10&view=lie`);
        const told = () => browser.run('bay["state.mjs"].state.lie.row[bay["state.mjs"].state.lie.station]'), bids = [];
        await browser.mouse('mousePressed', ...await browser.placeIn('#lie0 .plot', 0.4));
        bids.push(await told());
        await browser.mouse('mouseMoved', ...await browser.placeIn('#lie0 .plot', 0.8));
        bids.push(await told());
        await browser.mouse('mouseReleased', ...await browser.placeIn('#lie0 .plot', 0.8));
        await browser.mouse('mouseMoved', ...await browser.placeIn('#lie0 .plot', 0.5));
        same(await told(), bids[1], 'a pointer that is not pressed');
        const most = Number(await browser.run('document.querySelector("#lie0 .plot").dataset.most'));
        if (!(bids[0] > 0.2 * most && bids[0] < bids[1] && bids[1] < 0.9 * most)) throw new Error(`${bids} of ${most}`);
    },

    async 'another width of the window: the picture is drawn for it'({ browser, page }) {
        await browser.size(1280, 900);
        await browser.open(`${page}#market=evening`);
        const size = () => browser.run('document.getElementById("pic").className');
        same(await size(), 'pic lean', 'at a desk');
        await browser.size(500, 900);
        await browser.until('document.getElementById("pic").className === "pic mid"', 3);
        await browser.size(1400, 900);
        await browser.until('document.getElementById("pic").className !== "pic mid"', 3);
    },
};
