//! Runs the linked library beside the independent model: every answer, refusal, place and byte of
//! every lent buffer must be the same.
//!
//! `REFILE_LONG=50 cargo test --release -p refile --test differential` runs fifty times as many
//! cases. A difference prints its scenario; `REFILE_SCENARIO=FILE`, with the scenario in the file,
//! replays it here, and the model's `replay` prints what the model makes of it.

mod linked;

use std::env;
use std::fs;
use std::ops::Range;

use linked::Linked;
use refile::{Replica, DOCUMENTS, REPLICA_BYTES, REVISIONS};
use refile_model::harness::{self, Answer};
use refile_model::images;
use refile_model::layout::{ENTRY_BYTES, HEAD_BYTES, ROW_BYTES};
use refile_model::model::Model;
use refile_model::random::Random;
use refile_model::scenario::scenario;
use refile_model::steps::REPLICAS;
use refile_model::trials;
use refile_model::Replica as _;

const SCENARIOS: u64 = 2_000;
const IMAGES: u64 = 20_000;

/// The seeds of a run of so many cases.
fn seeds(cases: u64) -> Range<u64> {
    let times = env::var("REFILE_LONG").map_or(1, |times| {
        times.parse().expect("REFILE_LONG is a number of times")
    });
    0..cases * times
}

/// Both have one room, and find the same sizes in it.
#[test]
fn sizes() {
    use refile_model::{layout, model, sizes};
    let room = [DOCUMENTS, REVISIONS, refile::PATH_HASHES];
    assert_eq!(
        room,
        [sizes::DOCUMENTS, sizes::REVISIONS, sizes::PATH_HASHES]
    );
    let most = [refile::IMAGE_MOST, refile::REPORT_MOST];
    assert_eq!(most, [layout::IMAGE_MOST, model::REPORT_MOST]);
}

#[test]
fn scenarios() {
    trials::scenarios::<Linked>(seeds(SCENARIOS));
}

#[test]
fn images_sound_and_damaged() {
    trials::images::<Linked>(seeds(IMAGES));
}

#[test]
fn traps() {
    trials::traps::<Linked>();
}

/// Replays the scenario in the file that `REFILE_SCENARIO` names, if it is set.
#[test]
fn stored_scenario() {
    if let Ok(file) = env::var("REFILE_SCENARIO") {
        let text = fs::read_to_string(&file).expect("REFILE_SCENARIO names a file");
        let scenario = text.parse().expect("the file holds a scenario");
        trials::same(&file, harness::run_scenario::<Linked, Model>(&scenario));
    }
}

/// What the harness can't see: the storage that no answer shows. Equal replicas have equal bytes,
/// however they came about, and a call that changes nothing leaves every byte.
#[test]
fn storage() {
    for seed in seeds(SCENARIOS / 8) {
        let mut replicas: [Linked; REPLICAS] = std::array::from_fn(|_| Linked::fresh());
        for (index, step) in scenario(seed).steps.iter().enumerate() {
            let case = format!("scenario {seed}, step {index}");
            let before = replicas.clone();
            let outcome = harness::apply(&mut replicas, step);
            if let Answer::Refused(_) | Answer::Changed(false) = outcome.answer {
                assert!(replicas == before, "{case} altered a byte");
            }
            for Linked(replica) in &replicas {
                let again = Replica::from_image(&replica.image());
                assert!(again.as_ref() == Ok(replica), "{case} left other bytes");
                let copied = Replica::from_storage(replica.storage());
                assert!(copied.as_ref() == Some(replica), "{case} left no replica");
            }
        }
    }
}

/// Where the rows begin in storage.
const ROWS: usize = HEAD_BYTES + ENTRY_BYTES * DOCUMENTS;

/// The storage that shows what an image shows: its head without edition and total, its entries
/// without places, its rows, each in their room, and zeros. None if the image is too short for its
/// own counts, or the room is.
fn stored(image: &[u8]) -> Option<Vec<u8>> {
    let count =
        |at: usize| Some(usize::from(*image.get(at)?) << 8 | usize::from(*image.get(at + 1)?));
    let (documents, revisions) = (count(2)?, count(4)?);
    let rows = HEAD_BYTES + ENTRY_BYTES * documents;
    if documents > DOCUMENTS || revisions > REVISIONS || image.len() < rows + ROW_BYTES * revisions
    {
        return None;
    }
    let mut bytes = vec![0; REPLICA_BYTES];
    bytes[2..12].copy_from_slice(&image[2..12]);
    bytes[HEAD_BYTES..rows].copy_from_slice(&image[HEAD_BYTES..rows]);
    for entry in bytes[HEAD_BYTES..rows].chunks_exact_mut(ENTRY_BYTES) {
        entry[40..].fill(0);
    }
    bytes[ROWS..][..ROW_BYTES * revisions].copy_from_slice(&image[rows..][..ROW_BYTES * revisions]);
    Some(bytes)
}

/// The image that storage shows, with edition, total and places worked out anew. None if the counts
/// exceed the room.
fn shown(bytes: &[u8]) -> Option<Vec<u8>> {
    let count = |at: usize| usize::from(bytes[at]) << 8 | usize::from(bytes[at + 1]);
    let (documents, revisions) = (count(2), count(4));
    if documents > DOCUMENTS || revisions > REVISIONS {
        return None;
    }
    let rows = HEAD_BYTES + ENTRY_BYTES * documents;
    let total = rows + ROW_BYTES * revisions;
    let mut image = [&bytes[..rows], &bytes[ROWS..][..ROW_BYTES * revisions]].concat();
    image[..2].copy_from_slice(&[0, 1]);
    image[12..16].copy_from_slice(&(total as u32).to_be_bytes());
    let mut place = rows;
    for entry in image[HEAD_BYTES..rows].chunks_exact_mut(ENTRY_BYTES) {
        entry[40..].copy_from_slice(&(place as u32).to_be_bytes());
        place += ROW_BYTES * (usize::from(entry[34]) << 8 | usize::from(entry[35]));
    }
    Some(image)
}

/// Whether the model takes the bytes for a replica's: they show an image that loads, and nothing
/// else stands in them.
fn is_stored(bytes: &[u8]) -> bool {
    let Some(image) = shown(bytes) else {
        return false;
    };
    Model::fresh().load(&image).is_ok() && stored(&image).as_deref() == Some(bytes)
}

/// Storage laid out from sound and damaged images, and damaged once more itself.
#[test]
fn storage_sound_and_damaged() {
    let (mut yes, mut no) = (0, 0);
    for seed in seeds(IMAGES) {
        let Some(mut bytes) = stored(&images::image(seed)) else {
            continue;
        };
        let mut random = Random::new(seed);
        for _ in 0..random.below(3) {
            // Often where something stands, and sometimes in what must be zero.
            let within = *random.pick(&[HEAD_BYTES, 60, 148, ROWS, REPLICA_BYTES]);
            let at = match random.percent(50) {
                true => random.below(within),
                false => ROWS + random.below(within.min(ROW_BYTES * REVISIONS)),
            };
            bytes[at] = *random.pick(&[0, 1, 2, 0xff, bytes[at] ^ 1, bytes[at] ^ 0x80]);
        }
        let expected = is_stored(&bytes);
        let found = Replica::from_storage(&bytes);
        assert_eq!(found.is_some(), expected, "storage {seed}");
        if let Some(replica) = found {
            assert!(*replica.storage() == bytes[..], "storage {seed}");
            yes += 1;
        } else {
            no += 1;
        }
    }
    assert!(
        yes > 1_000 && no > 1_000,
        "{yes} replicas and {no} that are none"
    );
}
