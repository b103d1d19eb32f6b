//! The comparison notices every wrong model within a bounded number of seeds.

use refile_model::faults::{self, Fault};
use refile_model::images::image;
use refile_model::model::Model;
use refile_model::scenario::{dump, scenario};

/// So many scenarios, and ten times as many images and dumps, must be enough for each.
const SEEDS: u64 = 400;

/// The first seed that gives the fault away, and whether it was a scenario, a dump or an image.
fn noticed(fault: &Fault) -> Option<(&'static str, u64)> {
    for seed in 0..SEEDS {
        if (fault.run_scenario)(&scenario(seed)).is_err() {
            return Some(("scenario", seed));
        }
        for seed in 10 * seed..10 * (seed + 1) {
            if (fault.run_scenario)(&dump(seed)).is_err() {
                return Some(("dump", seed));
            }
            if (fault.check_image)(&image(seed)).is_err() {
                return Some(("image", seed));
            }
        }
    }
    None
}

#[test]
fn every_wrong_model_is_noticed() {
    let mut unnoticed = Vec::new();
    for fault in faults::all::<Model>() {
        match noticed(&fault) {
            Some((kind, seed)) => println!("{}: noticed by {kind} {seed}", fault.name),
            None => unnoticed.push(fault.name),
        }
    }
    assert!(unnoticed.is_empty(), "not noticed: {unnoticed:?}");
}
