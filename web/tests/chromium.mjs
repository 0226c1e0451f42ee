// Debian's Chromium, headless, over a pipe (the DevTools protocol); no package is needed.
import { writeFileSync } from 'node:fs';
import { Browser } from './process.mjs';

const FLAGS = ['--headless', '--disable-gpu', '--hide-scrollbars', '--no-first-run', '--disable-dev-shm-usage',
    '--disable-background-networking', '--disable-component-update', '--disable-features=WebAssemblyTrapHandler',
    '--remote-debugging-pipe'];
const CODES = { Backspace: 8, Tab: 9, Enter: 13, Escape: 27, ' ': 32, PageUp: 33, PageDown: 34, End: 35, Home: 36,
    ArrowLeft: 37, ArrowUp: 38, ArrowRight: 39, ArrowDown: 40, Delete: 46, F2: 113 };
const MODIFIERS = { Control: 2, Shift: 8 };

export class Chromium extends Browser {
    #events = [];

    static async start() {
        const command = Browser.command('chromium-headless-shell', 'chromium');
        if (!command) return undefined;
        const browser = new Chromium(), root = process.getuid() === 0 ? ['--no-sandbox'] : [];
        browser.spawn(command, [...FLAGS, ...root, `--user-data-dir=${browser.profile}`, 'about:blank'],
            ['ignore', 'ignore', 'ignore', 'pipe', 'pipe']);
        browser.#listen();
        const { targetId } = await browser.send('Target.createTarget', { url: 'about:blank' });
        const attached = await browser.send('Target.attachToTarget', { targetId, flatten: true });
        browser.session = attached.sessionId;
        for (const domain of ['Page', 'Runtime', 'Network']) await browser.send(`${domain}.enable`);
        return browser;
    }

    #listen() {
        let held = '';
        this.child.stdio[4].setEncoding('utf8').on('data', (part) => {
            const texts = (held + part).split('\0');
            held = texts.pop();
            for (const { id, error, result, ...event } of texts.map((text) => JSON.parse(text))) {
                if (id === undefined) this.#events.push(event);
                else this.answered(id, error, result);
            }
        });
    }

    send(method, params = {}) {
        const { session: sessionId } = this;
        return this.ask((id) => this.child.stdio[3].write(`${JSON.stringify({ id, method, params, sessionId })}\0`));
    }

    /** What the page threw or logged as an error since the last call, and what it asked of the network. */
    errors() {
        const said = {
            'Runtime.exceptionThrown': ({ exceptionDetails: { exception, text } }) => exception?.description ?? text,
            'Runtime.consoleAPICalled': ({ type, args }) => type === 'error' && args.map(({ value }) => value).join(),
            'Network.requestWillBeSent': ({ request: { url } }) => !/^(file|blob|data|about):/.test(url) && url,
        };
        return this.#events.splice(0).map(({ method, params }) => said[method]?.(params)).filter(Boolean);
    }

    async size(width, height, more = {}) {
        const metrics = { width, height, deviceScaleFactor: 1, mobile: false, ...more };
        await this.send('Emulation.setDeviceMetricsOverride', metrics);
    }

    async scheme(value) {
        await this.send('Emulation.setEmulatedMedia', { features: [{ name: 'prefers-color-scheme', value }] });
    }

    async goTo(url) {
        await this.send('Page.navigate', { url });
    }

    async run(expression) {
        const asked = { expression, awaitPromise: true, returnByValue: true };
        const { result, exceptionDetails } = await this.send('Runtime.evaluate', asked);
        if (exceptionDetails) throw new Error(exceptionDetails.exception?.description ?? exceptionDetails.text);
        return result.value;
    }

    /** Keys one after the other; 'Control+z' is one of them. */
    async keys(...keys) {
        for (const name of keys) {
            const [, modifier, key] = name.match(/^(?:(Control|Shift)\+)?(.*)$/s);
            const modifiers = MODIFIERS[modifier] ?? 0, isText = modifier !== 'Control' && key.length === 1;
            const text = isText ? key : key === 'Enter' ? '\r' : undefined;
            const number = CODES[key] ?? key.toUpperCase().charCodeAt(0);
            const code = { key, code: key, modifiers, windowsVirtualKeyCode: number };
            await this.send('Input.dispatchKeyEvent', { type: text ? 'keyDown' : 'rawKeyDown', ...code, text });
            await this.send('Input.dispatchKeyEvent', { type: 'keyUp', ...code });
        }
    }

    /** The pointer moves, is pressed or released at a place of the window. */
    async mouse(type, x, y) {
        const button = type === 'mouseMoved' ? 'none' : 'left';
        await this.send('Input.dispatchMouseEvent', { type, x, y, button, clickCount: 1 });
    }

    /** A place in an element, by parts of its width and height. */
    async placeIn(selector, across = 0.5, down = 0.5) {
        const [x, y] = await this.run(`(() => {
            const element = document.querySelector(${JSON.stringify(selector)});
            element.scrollIntoView({ block: 'nearest' });
            const { left, top, width, height } = element.getBoundingClientRect();
            return [left + width * ${across}, top + height * ${down}];
        })()`);
        return [x, y];
    }

    async click(selector) {
        const at = await this.placeIn(selector);
        for (const type of ['mousePressed', 'mouseReleased']) await this.mouse(type, ...at);
    }

    /** The pages of the view on paper, as a PDF. */
    async print() {
        const { data } = await this.send('Page.printToPDF', { preferCSSPageSize: true, printBackground: true });
        return Buffer.from(data, 'base64');
    }

    async shot(path, whole = false) {
        const { data } = await this.send('Page.captureScreenshot', { format: 'png', captureBeyondViewport: whole });
        writeFileSync(path, Buffer.from(data, 'base64'));
    }
}
