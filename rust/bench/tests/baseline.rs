//! Runs the baseline beside the independent model, so that the benchmark compares like with like.

use refile_bench::baseline::Baseline;
use refile_model::trials;

#[test]
fn scenarios() {
    trials::scenarios::<Baseline>(0..1_000);
}

#[test]
fn images_sound_and_damaged() {
    trials::images::<Baseline>(0..10_000);
}

#[test]
fn traps() {
    trials::traps::<Baseline>();
}

#[test]
fn texts_by_production() {
    trials::values::<Baseline>();
    trials::lines_by_name::<Baseline>();
}

#[test]
fn dumps() {
    trials::dumps::<Baseline>(0..1_000);
}
