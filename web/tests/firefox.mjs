// Debian's Firefox, headless, over a socket (Marionette); no package is needed.
import { readFileSync, writeFileSync } from 'node:fs';
import { connect } from 'node:net';
import { join } from 'node:path';
import { Browser, pause } from './process.mjs';

const OFF = ['browser.sessionstore.resume_from_crash', 'datareporting.policy.dataSubmissionEnabled',
    'app.update.enabled', 'print.always_print_silent'];
const COLON = 58;

export class Firefox extends Browser {
    static async start() {
        const command = Browser.command('firefox-esr', 'firefox');
        if (!command) return undefined;
        const browser = new Firefox(), wishes = [['marionette.port', 0], ...OFF.map((name) => [name, false])];
        writeFileSync(join(browser.profile, 'user.js'),
            wishes.map(([name, value]) => `user_pref("${name}", ${value});\n`).join(''));
        const flags = ['--headless', '--marionette', '--no-remote', '--profile', browser.profile, 'about:blank'];
        browser.spawn(command, flags, 'ignore');
        await browser.#connect();
        await browser.send('WebDriver:NewSession', { capabilities: { alwaysMatch: { acceptInsecureCerts: false } } });
        return browser;
    }

    // The port stands in the profile after a while.
    async #port() {
        for (let k = 0; k < 600; k++) {
            await pause(100);
            try {
                return Number(readFileSync(join(this.profile, 'MarionetteActivePort'), 'utf8'));
            } catch {
                // not there yet
            }
        }
        throw new Error('Firefox has not started in 60 s');
    }

    async #connect() {
        this.socket = connect(await this.#port(), '127.0.0.1');
        let held = Buffer.alloc(0);
        this.socket.on('data', (part) => {
            held = Buffer.concat([held, part]);
            for (let colon = held.indexOf(COLON); colon > 0; colon = held.indexOf(COLON)) {
                const end = colon + 1 + Number(held.subarray(0, colon));
                if (held.length < end) return;
                this.#take(JSON.parse(held.subarray(colon + 1, end)));
                held = held.subarray(end);
            }
        });
        await new Promise((done) => { this.socket.once('connect', done); });
    }

    #take(message) {
        if (!Array.isArray(message)) return; // its greeting
        const [, id, error, result] = message;
        this.answered(id, error, result);
    }

    send(command, parameters = {}) {
        return this.ask((id) => {
            const text = JSON.stringify([0, id, command, parameters]);
            this.socket.write(`${Buffer.byteLength(text)}:${text}`);
        });
    }

    async size(width, height) {
        await this.send('WebDriver:SetWindowRect', { width, height });
    }

    async goTo(url) {
        await this.send('WebDriver:Navigate', { url });
    }

    async run(script) {
        const wrapped = `const done = arguments[arguments.length - 1];
            (async () => (${script}))().then((value) => done({ value }), (error) => done({ error: String(error) }));`;
        const { value } = await this.send('WebDriver:ExecuteAsyncScript',
            { script: wrapped, args: [], sandbox: null, newSandbox: false, scriptTimeout: 60000 });
        if (value.error) throw new Error(value.error);
        return value.value;
    }

    async print() {
        const { value } = await this.send('WebDriver:Print',
            { orientation: 'landscape', background: true, page: { width: 21, height: 29.7 }, shrinkToFit: false,
                margin: { top: 1, bottom: 1, left: 1, right: 1 } });
        return Buffer.from(value, 'base64');
    }

    errors() {
        return [];
    }

    async close() {
        this.socket.destroy();
        await super.close();
    }
}
