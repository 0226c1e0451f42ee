//! The C header agrees with the Rust crate: the account's fields, codes, changes, limits, version. scripts/exports writes the functions of
//! both.

use std::collections::BTreeMap;

const HEADER: &str = include_str!("../../../include/bay_market.h");

/// Text without comments.
fn bare(text: &str) -> String {
    let mut rest = text;
    let mut bare = String::new();
    while let Some(start) = rest.find("/*") {
        bare.push_str(&rest[..start]);
        let end = rest[start..].find("*/").expect("the end of a comment");
        rest = &rest[start + end + 2..];
    }
    bare.push_str(rest);
    bare.lines().map(|line| line.split("//").next().unwrap_or("")).collect::<Vec<_>>().join("\n")
}

#[test]
fn the_account_agrees() {
    let header = bare(HEADER);
    let (_, rest) = header.split_once("struct bay_market_station_account {").expect("the account");
    let (fields, _) = rest.split_once('}').expect("its end");
    let fields: Vec<&str> = fields.split(';').map(str::trim).filter(|field| !field.is_empty()).collect();
    assert_eq!(fields, ["uint64_t sold", "uint64_t paid"]);
    assert_eq!(std::mem::offset_of!(bay_market::StationAccount, sold), 0);
    assert_eq!(std::mem::offset_of!(bay_market::StationAccount, paid), 8);
    assert_eq!(size_of::<bay_market::StationAccount>(), 16);
}

/// The names and numbers of an enum of the header.
fn numbers(named: &str) -> Vec<(String, u8)> {
    let (_, rest) = HEADER.split_once(&format!("enum {named} {{")).expect("the enum");
    let (numbers, _) = rest.split_once('}').expect("its end");
    bare(numbers)
        .split(',')
        .filter_map(|number| number.trim().strip_prefix("BAY_MARKET_")?.split_once(" = "))
        .map(|(name, number)| (name.to_string(), number.parse().expect("a number")))
        .collect()
}

#[test]
fn the_changes_agree() {
    use bay_market::Change;
    let named = [
        ("UNCHANGED", Change::Unchanged),
        ("BECOMES_SEATED", Change::BecomesSeated),
        ("BECOMES_UNSEATED", Change::BecomesUnseated),
    ];
    let expected = named.map(|(name, change)| (name.to_string(), change.number()));
    assert_eq!(numbers("bay_market_change"), expected);
}

#[test]
fn the_codes_agree() {
    let codes = numbers("bay_market_code");
    use bay_market::{Code, Reason};
    let reasons =
        [("NO_BID", Reason::NoBid), ("NOT_OPEN", Reason::NotOpen), ("BELOW_CUT", Reason::BelowCut), ("OUTBID", Reason::Outbid)];
    let named = |(name, reason): (&str, Reason)| (name.to_string(), Code::NotHeld(reason).number());
    let held = [("HELD".to_string(), Code::Held.number())];
    let expected: Vec<(String, u8)> = held.into_iter().chain(reasons.map(named)).collect();
    assert_eq!(codes, expected);
    for (name, reason) in reasons {
        let text = format!("case BAY_MARKET_{name}: return \"{}\";", reason.text());
        assert!(HEADER.contains(&text), "{text}");
    }
}

#[test]
fn limits_and_version_agree() {
    let header = bare(HEADER);
    let defined: BTreeMap<&str, &str> = header
        .lines()
        .filter_map(|line| line.strip_prefix("#define BAY_MARKET_")?.split_once(' '))
        .map(|(name, value)| (name, value.trim()))
        .collect();
    let number = |value: &str| {
        let digits = value.trim_start_matches("UINT64_C(").trim_start_matches("UINT32_C(").trim_end_matches(')');
        digits.parse::<u64>().unwrap_or_else(|_| panic!("not a number: {value}"))
    };
    let limits: BTreeMap<&str, u64> =
        defined.iter().filter(|(name, _)| name.starts_with("MAX_")).map(|(&name, value)| (name, number(value))).collect();
    let expected = BTreeMap::from([
        ("MAX_GUESTS", bay_market::MAX_GUESTS as u64),
        ("MAX_STATIONS", bay_market::MAX_STATIONS as u64),
        ("MAX_DESKS", bay_market::MAX_DESKS as u64),
        ("MAX_BIDS", bay_market::MAX_BIDS as u64),
        ("MAX_PRICE", bay_market::MAX_PRICE.into()),
        ("MAX_AMOUNT", bay_market::MAX_AMOUNT.into()),
        ("MAX_BAYS", bay_market::MAX_BAYS.into()),
        ("MAX_CELL", bay_market::MAX_CELL.into()),
        ("MAX_SHEET", bay_market::MAX_SHEET as u64),
        ("MAX_TEXT", bay_market::MAX_TEXT as u64),
        ("MAX_ACCOUNT", bay_market::MAX_ACCOUNT),
        ("MAX_ROUND", bay_market::MAX_ROUND.into()),
        ("MAX_STACK", bay_market::MAX_STACK as u64),
        ("MAX_STACK_READ_CSV", bay_market::MAX_STACK_READ_CSV as u64),
        ("MAX_STACK_TRY", bay_market::MAX_STACK_TRY as u64),
    ]);
    assert_eq!(limits, expected);
    let rules = [defined["RULE_MEDIAN"], defined["RULE_TWO_THIRDS"]].map(number);
    assert_eq!(rules, [bay_market::Rule::Median, bay_market::Rule::TwoThirds].map(|rule| u64::from(rule.number())));
    assert_eq!(defined["VERSION"], format!("{:?}", env!("CARGO_PKG_VERSION")));
    assert_eq!(number(defined["VERSION_NUMBER"]), u64::from(bay_market::c::bay_market_version()));
    let parts = env!("CARGO_PKG_VERSION").split('.').map(|part| part.parse::<u32>().expect("a number"));
    assert_eq!(parts.fold(0, |all, part| 1000 * all + part), bay_market::c::bay_market_version());
}

#[test]
fn the_limits_are_the_references() {
    use reference::{faults, ledger};
    assert_eq!((bay_market::MAX_GUESTS, bay_market::MAX_STATIONS), (faults::MAX_GUESTS, faults::MAX_STATIONS));
    assert_eq!(bay_market::MAX_DESKS, faults::MAX_DESKS);
    assert_eq!((bay_market::MAX_PRICE, bay_market::MAX_AMOUNT), (faults::MAX_PRICE, faults::MAX_AMOUNT));
    assert_eq!((bay_market::MAX_BAYS, bay_market::MAX_CELL), (faults::MAX_BAYS, faults::MAX_CELL));
    assert_eq!(u128::from(bay_market::MAX_ACCOUNT), ledger::MAX_ACCOUNT);
    assert_eq!(u128::from(bay_market::MAX_ROUND), ledger::MAX_ROUND);
}
