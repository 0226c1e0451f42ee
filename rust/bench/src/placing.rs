//! Placing bids.

use crate::baseline::placing::place_bids;
use crate::loaded;
use crate::timing::{Bench, Contender};
use bay_market::{Refusal, lent};
use reference::places::{self, Places};
use reference::random::{Random, Spread};
use std::hint::black_box;

pub fn lend(places: &Places) -> lent::Places<'_> {
    lent::Places {
        prices: &places.prices,
        falls: &places.falls,
        guest_first: &places.guest_first,
        guest_second: &places.guest_second,
        station_first: &places.station_first,
        station_second: &places.station_second,
    }
}

type PlaceBids = fn(&lent::Places, &mut [u32]) -> Result<(), Refusal>;

fn engine(bids: &mut [u32], places: &Places, place_bids: PlaceBids) {
    black_box(place_bids(&lend(places), bids)).expect("accepted places");
}

fn table(places: &Places) -> Vec<u32> {
    vec![0; places.guest_first.len() * places.station_first.len()]
}

pub fn placings(bench: &Bench) {
    let plain = |bids: &mut Vec<u32>, places: &Places| black_box(place_bids(&lend(places), bids)).expect("accepted places");
    let contenders = bench.contenders(
        |bids: &mut Vec<u32>, places| engine(bids, places, lent::place_bids),
        vec![Contender::new("distances first", plain)],
        |bids, places| engine(bids, places, loaded::place_bids),
    );
    bench.head("placing bids", &contenders);
    let mut random = Random::new(11);
    for (name, guests, stations) in [("200 by 40", 200, 40), ("100 by 10", 100, 10), ("20 by 6", 20, 6), ("5 by 5", 5, 5)] {
        let (prices, falls, coordinates) = (0..=1_000_000, 0..=3_000, 0..=31);
        let spread = Spread { guests: guests..=guests, stations: stations..=stations, prices, falls, coordinates };
        let inputs: Vec<Places> = (0..bench.count(guests * stations)).map(|_| spread.places(&mut random)).collect();
        let expected = |places: &Places| places::place_bids(places, table(places).len()).expect("accepted places");
        bench.row(name, &inputs, &contenders, table, expected, |bids| bids.clone());
    }
}
