// The line, field and byte at which a comma-separated text is refused: a walk over its bytes, as docs/FORMAT.md has
// them.
import { limits } from '../../js/bay_market.mjs';
import { nth } from './format.mjs';

const CR = 13, LF = 10, COMMA = 44;

function described(byte) {
    if (byte === undefined) return 'the text ends here';
    if (byte === LF) return 'a line feed without a carriage return before it';
    if (byte === CR) return 'a carriage return';
    return byte > 32 && byte < 127 ? `'${String.fromCharCode(byte)}' stands there` : `byte ${byte} stands there`;
}

// The place in a text to which the reader has come.
class TextWalk {
    line = 0;
    field = 0;
    digits = 0;
    value = 0;
    stations = 0;
    returned = false; // after a carriage return

    get fields() {
        return this.line === 0 ? Infinity : this.line === 1 ? this.stations : this.stations + 2;
    }

    get isBid() {
        return this.line > 1 && this.field > 1;
    }

    get atStart() {
        return this.field === 0 && this.digits === 0 && !this.returned;
    }

    tooLarge() {
        const narrow = this.line === 1 || (this.line > 1 && this.field === 1);
        if (this.digits > 10) return `${this.digits} digits`;
        if (this.value <= (narrow ? 0xFFFF : 0xFFFFFFFF)) return '';
        return `${this.value} is above ${narrow ? '65,535' : '4,294,967,295'}`;
    }

    // The fault of the next byte, as [number, detail], or undefined where the walk goes on; no byte is the end.
    step(byte) {
        if (byte !== undefined && this.atStart && this.line === limits.guests + 2) return [2, 'guest 201 begins here'];
        if (byte >= 48 && byte <= 57 && !this.returned) return this.digit(byte);
        if (this.returned) return byte === LF ? this.nextLine() : [22, `${described(byte)}, after a carriage return`];
        if (byte === undefined && this.atStart && this.line > 1) return undefined;
        const large = this.tooLarge();
        if (large) return [23, large];
        if (byte === COMMA) return this.comma();
        return byte === CR ? this.lineEnd() : [22, described(byte)];
    }

    digit(byte) {
        this.digits++;
        this.value = this.value * 10 + byte - 48;
    }

    empty() {
        return this.digits === 0 && !this.isBid ? [22, 'the field is empty'] : undefined;
    }

    comma() {
        if (this.line === 0 && this.field === limits.stations - 1) return [2, 'a 41st ask begins here'];
        if (this.empty()) return this.empty();
        if (this.field + 1 >= this.fields) return [22, `a comma too many: the line has ${this.fields} fields`];
        this.field++;
        this.digits = this.value = 0;
    }

    lineEnd() {
        if (this.empty()) return this.empty();
        const count = this.field + 1;
        if (this.line === 0) this.stations = count;
        else if (count < this.fields) return [22, `the line ends after its ${nth(count)} of ${this.fields} fields`];
        this.returned = true;
    }

    nextLine() {
        this.line++;
        this.field = this.digits = this.value = 0;
        this.returned = false;
    }
}

/** The place at which a comma-separated text is refused with this number. */
export function inText(bytes, number) {
    const walk = new TextWalk();
    for (let at = 0; at <= bytes.length; at++) {
        const fault = walk.step(bytes[at]);
        if (!fault) continue;
        const guest = walk.line > 1 ? { guest: walk.line - 1 } : {};
        return fault[0] === number
            ? { byte: at, line: walk.line + 1, field: walk.field + 1, ...guest, detail: fault[1] } : {};
    }
    return {};
}
