//! What the works are done on, made from fixed seeds. It lives as long as the program, so that all
//! works share it.

use refile_bench::baseline::Baseline;
use refile_model::layout::IMAGE_MOST;
use refile_model::random::Random;
use refile_model::sizes::{DOCUMENTS, HASH_BYTES, REVISIONS};
use refile_model::{Content, Replica};

/// Revisions of each document, where all have the same share of the room.
pub const SHARE: usize = REVISIONS / DOCUMENTS;
/// Half of the room, for one document that is half a trunk and half its leaves.
pub const HALF: usize = REVISIONS / 2;

/// A path write.
#[derive(Clone, Copy)]
pub struct Write {
    pub id: &'static [u8],
    pub number: u32,
    pub path: &'static [u8],
    pub content: Content,
}

impl Write {
    pub fn make<R: Replica>(&self, replica: &mut R) -> bool {
        replica
            .write(self.id, self.number, self.path, self.content)
            .expect("no write of the benchmark is refused")
    }
}

pub fn written<R: Replica>(writes: &[Write]) -> R {
    let mut replica = R::fresh();
    for write in writes {
        write.make(&mut replica);
    }
    replica
}

pub fn image<R: Replica>(replica: &R) -> Vec<u8> {
    let mut image = vec![0; IMAGE_MOST];
    let length = replica.save(&mut image).expect("no image is longer");
    image.truncate(length as usize);
    image
}

pub fn loaded<R: Replica>(image: &[u8]) -> R {
    let mut replica = R::fresh();
    replica.load(image).expect("the image is sound");
    replica
}

/// The line of a write, as it is put out.
pub fn line(write: &Write) -> &'static [u8] {
    let replica: Baseline = written(&[*write]);
    lines(&replica, write.id)
}

/// A document's lines, as they are put out.
pub fn lines<R: Replica>(replica: &R, id: &[u8]) -> &'static [u8] {
    let size = replica.put_out_size(id).expect("the id can be written");
    let mut lines = vec![0; size as usize];
    replica.put_out(id, &mut lines).expect("the lines fit");
    lines.leak()
}

/// The ids of the documents, in their order.
pub fn ids() -> Vec<&'static [u8]> {
    let id = |document| format!("ledger/{document:02}").into_bytes();
    (0..DOCUMENTS).map(|i| &*id(i).leak()).collect()
}

fn content(random: &mut Random) -> Content {
    if random.percent(25) {
        Content::Deleted
    } else {
        Content::Live(random.below(1_000_000) as u64)
    }
}

/// A new hash before the hashes of a path.
fn on_top(random: &mut Random, path: &[u8]) -> &'static [u8] {
    [&random.bytes(HASH_BYTES), path].concat().leak()
}

/// Writes that make one history and take all the room, each of the newest revision and at most so many
/// hashes.
pub fn history(hashes: usize) -> Vec<Write> {
    let id = ids()[0];
    let mut random = Random::new(512);
    let newest_first: &'static [u8] = random.bytes(HASH_BYTES * REVISIONS).leak();
    let write = |number: usize| {
        let path = &newest_first[HASH_BYTES * (REVISIONS - number)..];
        Write {
            id,
            number: number as u32,
            path: &path[..path.len().min(HASH_BYTES * hashes)],
            content: Content::Live(number as u64),
        }
    };
    (1..=REVISIONS).map(write).collect()
}

/// The image of a full replica whose documents have as many revisions each: lines, branches, deletions
/// and revisions whose parent isn't known, written in an order that mixes the documents.
pub fn mixed() -> Vec<u8> {
    let ids = ids();
    let mut random = Random::new(32);
    let mut turns: Vec<usize> = (0..REVISIONS).map(|turn| turn % DOCUMENTS).collect();
    random.shuffle(&mut turns);
    let mut known: Vec<Vec<Write>> = vec![Vec::new(); DOCUMENTS];
    let mut replica = Baseline::fresh();
    for document in turns {
        let known = &mut known[document];
        let parent = match random.below(100) {
            0..50 => known.last(),
            50..85 if !known.is_empty() => Some(random.pick(known)),
            _ => None,
        };
        let write = Write {
            id: ids[document],
            number: parent.map_or(1 + random.below(9) as u32, |parent| parent.number + 1),
            path: on_top(&mut random, parent.map_or(&[], |parent| parent.path)),
            content: content(&mut random),
        };
        write.make(&mut replica);
        known.push(write);
    }
    image(&replica)
}

/// The image of one document with a trunk of half the room and as many leaves on top of it.
pub fn trunk() -> Vec<u8> {
    let id = ids()[0];
    let mut random = Random::new(256);
    let stem = random.bytes(HASH_BYTES * HALF);
    let mut replica = Baseline::fresh();
    for _ in 0..HALF {
        let write = Write {
            id,
            number: HALF as u32 + 1,
            path: on_top(&mut random, &stem),
            content: content(&mut random),
        };
        write.make(&mut replica);
    }
    image(&replica)
}

/// Leaves on the first revisions of all documents.
pub struct Bushes {
    /// Writes of the first revisions alone.
    pub roots: Vec<Write>,
    /// Layers of writes, each of a leaf and its parent, one for each document in random order.
    pub layers: Vec<Vec<Write>>,
}

pub fn bushes(leaves: usize) -> Bushes {
    let mut random = Random::new(15);
    let root = |(i, id)| Write {
        id,
        number: 1,
        path: on_top(&mut Random::new(i as u64), &[]),
        content: Content::Live(i as u64),
    };
    let roots: Vec<Write> = ids().into_iter().enumerate().map(root).collect();
    let mut layer = || {
        let leaf = |root: &Write| Write {
            number: 2,
            path: on_top(&mut random, root.path),
            content: content(&mut random),
            ..*root
        };
        let mut layer: Vec<Write> = roots.iter().map(leaf).collect();
        random.shuffle(&mut layer);
        layer
    };
    let layers = (0..leaves).map(|_| layer()).collect();
    Bushes { roots, layers }
}
