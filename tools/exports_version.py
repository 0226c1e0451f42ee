"""The version, for scripts/exports. It is said once, in the contract of bay_market_version, and put wherever else it
stands. Its three numbers are also one, as 1.2.3 is 1002003, and a name, as bay_market_1_2_3: an exported function of
that name is what callers of the version refer to."""
import json
import re

SOURCE = 'crates/bay_market/src/version.rt'
NAME = r'bay_market_\d+_\d+_\d+'
CARGO, LOCK, NPM = 'rust/Cargo.toml', 'rust/Cargo.lock', 'js/package.json'
ALONE = (CARGO, LOCK, NPM)      # files of which nothing else is written


class NoVersion(Exception):
    pass


def read():
    """The three numbers, and the names that the source exports."""
    text = open(SOURCE, encoding='utf8').read()
    contract = r'ensures \{ result ≡ numbered (\d+) (\d+) (\d+) \}'
    told = re.search(rf'fn bay_market_version\(\) -> u32\s+{contract}', text)
    if not told:
        raise NoVersion(f'{SOURCE}: the contract of bay_market_version names no version')
    names = re.findall(r'pub extern "C" fn (\w+)\(\) -> u32', text)
    if 'bay_market_' + '_'.join(told.groups()) not in names:
        raise NoVersion(f'{SOURCE}: no function has the name of version {".".join(told.groups())}')
    return told.groups(), sorted(names)


def put(path, text):
    """The text of a file with the version in each of its places."""
    numbers, _ = read()
    dotted, name = '.'.join(numbers), 'bay_market_' + '_'.join(numbers)
    one = int(''.join(f'{int(number):03}' for number in numbers))
    crates = '|'.join(re.findall(r'"(\w+)"', re.search(r'^members = .*', open(CARGO, encoding='utf8').read(), re.M)[0]))
    places = {
        'include/bay_market.h': [(r'^(#define BAY_MARKET_VERSION) ".*"', rf'\1 "{dotted}"'),
                                 (r'^(#define BAY_MARKET_VERSION_NUMBER) \d+', rf'\1 {one}'), (NAME, name)],
        'rust/bay_market/src/c.rs': [(NAME, name)],
        CARGO: [(r'^version = ".*"', f'version = "{dotted}"')],
        LOCK: [(rf'^name = "({crates})"\nversion = ".*"', rf'name = "\1"\nversion = "{dotted}"')],
        NPM: [(r'^    "version": ".*"', f'    "version": {json.dumps(dotted)}')],
    }
    for pattern, written in places.get(path, []):
        text, found = re.subn(pattern, written, text, flags=re.M)
        if not found:
            raise NoVersion(f'{path}: no place for the version: {pattern}')
    return text
