// What a browser of the tests has in common with another: its process, its profile, waiting.
import { spawn, spawnSync } from 'node:child_process';
import { mkdtempSync, rmSync } from 'node:fs';
import { tmpdir } from 'node:os';
import { join } from 'node:path';

export const pause = (ms) => new Promise((done) => { setTimeout(done, ms); });

// Whether a process of the group is left; a signal of 0 only asks.
function sent(child, signal) {
    try {
        return process.kill(-child.pid, signal);
    } catch {
        return false;
    }
}

// A test that is ended takes its browsers along.
const started = [];
process.on('exit', () => started.forEach((child) => sent(child, 'SIGKILL')));
for (const signal of ['SIGTERM', 'SIGINT', 'SIGHUP']) process.on(signal, () => process.exit(1));

export class Browser {
    #next = 0;
    #waiting = new Map();

    /** The first of some commands that is installed. */
    static command(...names) {
        return names.find((name) => spawnSync('sh', ['-c', `command -v ${name}`]).status === 0);
    }

    constructor() {
        this.profile = mkdtempSync(join(tmpdir(), 'bay-page-'));
    }

    spawn(command, flags, stdio) {
        this.child = spawn(command, flags, { stdio, detached: true, env: { ...process.env, HOME: this.profile } });
        started.push(this.child);
    }

    /** Asks for an answer, which `answered` brings; `write` gets the number of the question. */
    ask(write) {
        const id = ++this.#next;
        write(id);
        return new Promise((done, fail) => { this.#waiting.set(id, { done, fail }); });
    }

    answered(id, error, result) {
        const { done, fail } = this.#waiting.get(id);
        this.#waiting.delete(id);
        if (error) fail(new Error(error.message));
        else done(result);
    }

    /** What a function gives in the page, where `bay` has its modules; it sees nothing but its arguments. */
    call(action, ...given) {
        return this.run(`(${action})(${given.map((one) => JSON.stringify(one)).join(', ')})`);
    }

    /** Waits until a script of the page holds. */
    async until(script, seconds = 20) {
        for (let k = 0; k < seconds * 50; k++) {
            if (await this.run(`(() => { try { return Boolean(${script}) } catch { return false } })()`)) return;
            await pause(20);
        }
        throw new Error(`not in ${seconds} s: ${script}`);
    }

    /** Opens the page, and waits until it is ready or says that it cannot be. */
    async open(address) {
        await this.goTo('about:blank');
        await this.goTo(address);
        await this.until('document.documentElement.dataset.ready || !document.getElementById("alarm").hidden');
    }

    // Debian's command is a shell that starts the browser: what is ended is their group, which is of this test alone.
    async close() {
        for (const signal of ['SIGTERM', 'SIGKILL']) {
            sent(this.child, signal);
            for (let k = 0; k < 50 && sent(this.child, 0); k++) await pause(100);
        }
        rmSync(this.profile, { recursive: true, force: true, maxRetries: 5, retryDelay: 100 });
    }
}
