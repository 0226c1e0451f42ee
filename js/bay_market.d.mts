/** The bay market for Node and browsers; include/bay_market.h says what each call does. */

/** A list of whole numbers: a typed array or an array. A value that the engine's type cannot hold is a RangeError. */
export type Numbers = ArrayLike<number>;
/** Rows of bids: one list, row after row, or a list of rows. */
export type Rows = Numbers | ArrayLike<Numbers>;
export type Rule = 1 | 2;

export interface RuleOption {
    rule?: Rule;
}

/** Prices in mills per kWh, amounts in kWh; of bids 0 is no bid. */
export interface Lists {
    readonly asks: Numbers;
    readonly bays: Numbers;
    readonly amounts: Numbers;
    readonly tickets: Numbers;
    readonly bids: Rows;
}

/** Mills throughout; every number is exact. */
export interface Clearing {
    cut: number;
    margin: number;
    /** for each guest its station, from 1, or 0 */
    stations: Uint16Array;
    charges: Uint32Array;
    /** for each station kWh */
    sold: Uint32Array;
    paid: Float64Array;
}

export interface MarkedClearing extends Clearing {
    /** guest by guest, 1 for a place held at a station */
    places: Uint8Array;
    /** of each station the total of its first candidate without a place */
    floors: Uint32Array;
}

/** What is handed in to be marked. */
export type Submission = {
    readonly [name in keyof MarkedClearing]: MarkedClearing[name] extends number ? number : Numbers;
};

export interface Explanation {
    /** guest by guest, a code for each station: an index of `codes` */
    codes: Uint8Array;
    stations: Uint16Array;
    charges: Uint32Array;
    /** 0 for a win, else the highest code of the guest's row */
    reasons: Uint8Array;
}

export interface Tried {
    firstGain: number;
    secondGain: number;
    /** for each guest an index of `changes` */
    changes: Uint8Array;
}

export interface Menu {
    /** of each station the least total that holds a place, or 4294967295 where it is not open */
    bars: Uint32Array;
    prices: Uint32Array;
}

export interface Places {
    readonly prices: Numbers;
    readonly falls: Numbers;
    readonly guestFirst: Numbers;
    readonly guestSecond: Numbers;
    readonly stationFirst: Numbers;
    readonly stationSecond: Numbers;
}

/** sold and paid are the stations' accounts; last has a round for each of eight desks. */
export interface Accounts {
    readonly guests: Numbers;
    readonly sold: Numbers;
    readonly paid: Numbers;
    readonly house: number;
    readonly last: Numbers;
}

/** What the engine refuses: the number, the name and the text of refusals.txt. */
export declare class Refusal extends Error {
    constructor(number: number);
    readonly number: number;
    readonly text: string;
}

export declare class Engine {
    constructor(instance: WebAssembly.Instance);
    /** A market of its own lists. */
    market(lists: Lists): Market;
    /** The market that a sheet states. */
    fromSheet(sheet: Numbers | ArrayBuffer): Market;
    /** The market of a comma-separated text. */
    fromCsv(text: string | Numbers | ArrayBuffer): Market;
    /** Bids from prices, falls and cells, row after row. */
    placeBids(places: Places): Uint32Array;
    /** An empty ledger, of 200 guests and 40 stations where nothing else is said. */
    ledger(guests?: number, stations?: number): Ledger;
    ledger(accounts: Accounts): Ledger;
    /** An exported function by its name without bay_market_: what it writes, numbers and lists. */
    call(
        name: string,
        given: object,
        market?: object,
        lengths?: (numbers: Record<string, number>) => Record<string, number>,
    ): Record<string, any>;
}

export declare class Market {
    constructor(engine: Engine, lists: Lists);
    readonly asks: Uint32Array;
    readonly bays: Uint16Array;
    readonly amounts: Uint16Array;
    readonly tickets: Uint32Array;
    readonly bids: Uint32Array;
    get guests(): number;
    get stations(): number;
    get width(): number;
    /** A truthful round: no guest and no station gains by a false report. */
    clear(options?: RuleOption): Clearing;
    /** An efficient round, for quiet days: a guest may gain by a false bid. */
    clearEfficient(options?: RuleOption): Clearing;
    /** A truthful round with its places and floors. */
    clearMarked(options?: RuleOption): MarkedClearing;
    /** Whether what is handed in is what clearMarked gives. */
    mark(submission: Submission, options?: RuleOption): boolean;
    /** What decided the truthful round. */
    explain(options?: RuleOption): Explanation;
    /** What another row of bids would have done; the guest by its number. */
    tryRow(guest: number, worths: Numbers, row: Numbers, options?: RuleOption): Tried;
    /** A guest's price list. */
    menu(guest: number, options?: RuleOption): Menu;
    /** The gain of each of many rows. */
    gains(guest: number, worths: Numbers, rows: Rows, options?: RuleOption): Float64Array;
    /** The market of two gates, this one's guests in front. */
    join(other: Market): Market;
    toSheet(): Uint8Array;
    toCsv(): string;
    /** A guest's bids, by its number. */
    row(guest: number): Uint32Array;
    /** The market with another row of bids for a guest. */
    withRow(guest: number, row: Numbers): Market;
}

export declare class Ledger {
    constructor(engine: Engine, accounts: Accounts);
    readonly guests: Float64Array;
    readonly sold: Float64Array;
    readonly paid: Float64Array;
    readonly house: number;
    readonly last: Uint32Array;
    /** Posts the market's truthful round as the given round of a desk, 0 to 7; what is refused changes nothing. */
    post(market: Market, options: RuleOption & { desk: number; round: number }): void;
}

export declare const limits: {
    readonly guests: number;
    readonly stations: number;
    readonly desks: number;
    readonly bids: number;
    readonly price: number;
    readonly amount: number;
    readonly bays: number;
    readonly cell: number;
    readonly sheet: number;
    readonly text: number;
    readonly account: number;
    readonly round: number;
};
export declare const rules: { readonly median: 1; readonly twoThirds: 2 };
/** What a code of an explanation says. */
export declare const codes: readonly string[];
/** What a change of another row says. */
export declare const changes: readonly string[];
export declare const version: string;

/** The engine of bay_market.wasm beside the module, or from a URL, a Response, the bytes or a compiled module. */
export declare function load(source?: string | URL | Response | BufferSource | WebAssembly.Module): Promise<Engine>;
