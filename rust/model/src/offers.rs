//! What scenarios and images are made of: ids, hashes and paths from small alphabets, so that the
//! same revisions meet again and again, fit, cross and join.

use crate::held::{Document, Hash};
use crate::model::Model;
use crate::random::Random;
use crate::sizes::{HASH_BYTES, ID_BYTES};
use crate::Content;

/// A path write in parts.
#[derive(Clone, Debug)]
pub struct Offer {
    pub id: Vec<u8>,
    pub number: u32,
    pub hashes: Vec<Hash>,
    pub content: Content,
}

/// The ids, the hashes and the numbers that one scenario uses.
#[derive(Clone, Debug)]
pub struct Alphabet {
    pub ids: Vec<Vec<u8>>,
    pub hashes: Vec<Hash>,
    /// Invented revisions have one of the next few numbers.
    pub base: u32,
}

/// A hash of that first byte, the rest zeros.
pub fn hash(first: u8) -> Hash {
    let mut hash = [0; HASH_BYTES];
    hash[0] = first;
    hash
}

/// The bytes of a path whose hashes are given by their first bytes.
pub fn path(first_bytes: &[u8]) -> Vec<u8> {
    first_bytes.iter().copied().flat_map(hash).collect()
}

/// A hash of zeros but for its last byte.
fn low_hash(last: u8) -> Hash {
    let mut hash = [0; HASH_BYTES];
    hash[15] = last;
    hash
}

/// Ids that are prefixes of each other, that only their length tells apart, and the longest ones; some
/// of them no line can have.
fn all_ids() -> Vec<Vec<u8>> {
    vec![
        b"lot".to_vec(),
        b"a".to_vec(),
        b"a\0".to_vec(),
        b"a\0\0".to_vec(),
        b"ab".to_vec(),
        b"b".to_vec(),
        b"\0".to_vec(),
        vec![0; ID_BYTES],
        vec![0xff],
        b"a b~".to_vec(),
        b"a\"b".to_vec(),
        b"a\\".to_vec(),
        b"a\x7f".to_vec(),
        vec![b'z'; ID_BYTES - 1],
        vec![b'z'; ID_BYTES],
    ]
}

/// Hashes that share their first bytes, or all but the last, the lowest and the highest.
fn all_hashes() -> Vec<Hash> {
    let mut near = [0x20; 16];
    near[15] = 0x21;
    let mut last = hash(0x20);
    last[15] = 1;
    vec![
        [0; 16],
        low_hash(1),
        low_hash(0xff),
        hash(0x01),
        hash(0x20),
        last,
        [0x20; 16],
        near,
        hash(0x4c),
        hash(0x91),
        [0xff; 16],
    ]
}

/// Numbers after which the count of digits or of bytes grows, or the numbers end.
const BASES: [u32; 10] = [0, 0, 0, 1, 7, 97, 253, 65_533, 16_777_213, 4_294_967_291];

const LABELS: [u64; 7] = [0, 1, 7, 8, 1 << 32, (1 << 53) + 1, u64::MAX];

impl Alphabet {
    pub fn new(random: &mut Random) -> Self {
        let (ids, hashes) = (2 + random.below(3), 3 + random.below(4));
        Alphabet {
            ids: some(random, all_ids(), ids),
            hashes: some(random, all_hashes(), hashes),
            base: *random.pick(&BASES),
        }
    }

    pub fn id(&self, random: &mut Random) -> Vec<u8> {
        random.pick(&self.ids).clone()
    }

    pub fn hash(&self, random: &mut Random) -> Hash {
        *random.pick(&self.hashes)
    }

    /// One of the few numbers from 1 up.
    pub fn number(&self, random: &mut Random) -> u32 {
        self.base + 1 + random.below(4) as u32
    }

    /// A path for one of the replicas: about what one of them holds, or invented.
    pub fn offer(&self, random: &mut Random, replicas: &[Model]) -> Offer {
        if random.percent(60) {
            if let Some((id, document)) = some_document(random, replicas) {
                return self.offer_about(random, id, document);
            }
        }
        self.invented(random)
    }

    fn invented(&self, random: &mut Random) -> Offer {
        let number = self.number(random);
        let count = 1 + random.below(4.min(number as usize));
        Offer {
            id: self.id(random),
            number,
            hashes: (0..count).map(|_| self.hash(random)).collect(),
            content: content(random),
        }
    }

    /// A path that the document holds, whole, cut short, longer at either end, or with one hash
    /// exchanged.
    fn offer_about(&self, random: &mut Random, id: &[u8], document: &Document) -> Offer {
        let revisions: Vec<_> = document.revisions.iter().copied().collect();
        let newest = *random.pick(&revisions);
        let mut number = newest.number;
        let mut hashes = document.path(newest);
        let mut content = content(random);
        if let Some(leaf) = document.leaf(newest) {
            if random.percent(75) {
                content = leaf.content;
            }
        }
        let unknown = number - hashes.len() as u32;
        match random.below(4) {
            0 => hashes.truncate(1 + random.below(hashes.len())),
            1 => {
                let count = random.below(4).min(unknown as usize);
                hashes.extend((0..count).map(|_| self.hash(random)));
            }
            // A parent may be known as a revision that stands apart.
            2 => {
                let apart = revisions.iter().filter(|apart| apart.number == unknown);
                let apart: Vec<_> = apart.collect();
                if !apart.is_empty() {
                    hashes.push(random.pick(&apart).hash);
                }
            }
            _ => {}
        }
        while random.percent(40) && number < u32::MAX {
            hashes.insert(0, self.hash(random));
            number += 1;
        }
        if random.percent(15) {
            let altered = random.below(hashes.len());
            hashes[altered] = self.hash(random);
        }
        let id = if random.percent(90) {
            id.to_vec()
        } else {
            self.id(random)
        };
        Offer {
            id,
            number,
            hashes,
            content,
        }
    }
}

pub fn content(random: &mut Random) -> Content {
    if random.percent(35) {
        Content::Deleted
    } else {
        Content::Live(*random.pick(&LABELS))
    }
}

/// A document that one of the replicas holds.
pub fn some_document<'a>(
    random: &mut Random,
    replicas: &'a [Model],
) -> Option<(&'a [u8], &'a Document)> {
    let documents: Vec<_> = random
        .pick(replicas)
        .held()
        .documents
        .iter()
        .map(|(id, document)| (id.as_slice(), document))
        .collect();
    if documents.is_empty() {
        None
    } else {
        Some(*random.pick(&documents))
    }
}

/// So many different ones of the items.
fn some<T>(random: &mut Random, mut items: Vec<T>, count: usize) -> Vec<T> {
    let mut chosen = Vec::new();
    while chosen.len() < count && !items.is_empty() {
        chosen.push(items.swap_remove(random.below(items.len())));
    }
    chosen
}
