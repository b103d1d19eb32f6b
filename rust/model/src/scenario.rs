//! The scenarios of seeds: steps over three replicas, hostile ones among them.

use crate::harness::apply;
use crate::held::Revision;
use crate::images;
use crate::lines;
use crate::model::Model;
use crate::offers::{content, some_document, Alphabet};
use crate::random::Random;
use crate::sizes::{
    ASKED_BYTES, DOCUMENTS, HASH_BYTES, ID_BYTES, LEAF_BYTES, PATH_HASHES, REVISIONS,
};
use crate::steps::{Scenario, Step, REPLICAS};
use crate::{Content, Replica};

/// The scenario of a seed.
pub fn scenario(seed: u64) -> Scenario {
    let mut writer = Writer::new(seed);
    match seed % 8 {
        0..=3 => writer.steps(60),
        4 => {
            writer.hostile = 30;
            writer.steps(60);
        }
        5 => {
            writer.open_at_the_last_sequence();
            writer.steps(50);
        }
        6 => {
            writer.open_full();
            writer.steps(30);
        }
        _ => {
            writer.open_with_long_paths();
            writer.steps(12);
        }
    }
    Scenario {
        steps: writer.steps,
    }
}

/// The lines of a dump of a seed, sound, spoiled and damaged: so many, each taken into a replica, and
/// what is put out in between.
pub fn dump(seed: u64) -> Scenario {
    let mut writer = Writer::new(seed);
    writer.hostile = 45;
    for _ in 0..DUMP_LINES {
        let at = writer.replica();
        let step = writer.take_in(at);
        writer.push(step);
        if writer.random.percent(10) {
            let step = writer.put_out(at);
            writer.push(step);
        }
    }
    Scenario {
        steps: writer.steps,
    }
}

/// The document that has the most to put out, half of the room as leaves on a trunk of the other half,
/// put out into buffers about its size, and taken into another replica line by line.
pub fn widest() -> Scenario {
    let id = b"lot".to_vec();
    let number = (REVISIONS / 2) as u32;
    let trunk = |of: u32| [&of.to_be_bytes()[..], &[0; HASH_BYTES - 4]].concat();
    let trunk: Vec<u8> = (1..=number).rev().flat_map(trunk).collect();
    let mut wide = Model::fresh();
    for leaf in 0..number {
        let hash = [&[0xff; HASH_BYTES - 4][..], &leaf.to_be_bytes()].concat();
        let path = [&hash[..], &trunk].concat();
        let written = wide.write(
            &id,
            number + 1,
            &path,
            Content::Live(u64::MAX - u64::from(leaf)),
        );
        written.expect("there is room");
    }
    let mut steps = vec![
        Step::Load {
            at: 0,
            image: images::save(&wide),
        },
        Step::PutOutSize {
            at: 0,
            id: id.clone(),
        },
    ];
    let lines = put_out(&wide, &id);
    for room in [lines.len() - 1, lines.len(), lines.len() + 1] {
        let id = id.clone();
        steps.push(Step::PutOut { at: 0, id, room });
    }
    for line in lines.split_inclusive(|&byte| byte == b'\n') {
        let line = line.to_vec();
        steps.push(Step::TakeIn { at: 1, line });
    }
    Scenario { steps }
}

/// How many lines each dump has.
pub const DUMP_LINES: usize = 10;

/// Writes a scenario, and runs it on the model while it does, so that the next step can be about
/// what the replicas hold.
struct Writer {
    random: Random,
    alphabet: Alphabet,
    /// How many steps in a hundred are spoiled.
    hostile: usize,
    replicas: [Model; REPLICAS],
    steps: Vec<Step>,
}

impl Writer {
    fn new(seed: u64) -> Self {
        let mut random = Random::new(seed);
        let alphabet = Alphabet::new(&mut random);
        Writer {
            random,
            alphabet,
            hostile: 3,
            replicas: std::array::from_fn(|_| Model::fresh()),
            steps: Vec::new(),
        }
    }

    fn push(&mut self, step: Step) {
        apply(&mut self.replicas, &step);
        self.steps.push(step);
    }

    fn steps(&mut self, count: usize) {
        for _ in 0..count {
            let step = self.step();
            self.push(step);
        }
    }

    /// Replicas of small images whose sequences end.
    fn open_at_the_last_sequence(&mut self) {
        for at in 0..REPLICAS {
            for _ in 0..3 {
                let step = self.write(at);
                self.push(step);
            }
            let image = images::save(&self.replicas[at]);
            let image = images::end_sequences(&mut self.random, &image);
            self.push(Step::Load { at, image });
        }
    }

    /// Two replicas without room, one of them perhaps without sequences as well.
    fn open_full(&mut self) {
        for at in 0..2 {
            let mut image = images::save(&images::full(&mut self.random));
            if self.random.percent(30) {
                image = images::end_sequences(&mut self.random, &image);
            }
            self.push(Step::Load { at, image });
        }
    }

    /// Paths about the most hashes, written and read back, and documents about the most documents.
    fn open_with_long_paths(&mut self) {
        let id = self.alphabet.id(&mut self.random);
        for (at, count) in (PATH_HASHES - 1..=PATH_HASHES + 1).enumerate() {
            let path = (0..count).flat_map(|_| self.alphabet.hash(&mut self.random));
            let path = path.collect();
            let number = count as u32 + self.random.below(2) as u32;
            let content = content(&mut self.random);
            self.push(Step::Write {
                at,
                id: id.clone(),
                number,
                path,
                content,
            });
        }
        for at in 0..2 {
            let held = self.replicas[at].held();
            let newest = held.documents[&id].leaves()[0].revision;
            let room = HASH_BYTES * held.revisions() - self.random.below(2);
            self.push(Step::Path {
                at,
                id: id.clone(),
                number: newest.number,
                hash: newest.hash,
                room,
            });
        }
        for document in 0..=DOCUMENTS as u8 {
            let hash = self.alphabet.hash(&mut self.random);
            self.push(Step::Write {
                at: 2,
                id: vec![document],
                number: 1,
                path: hash.to_vec(),
                content: Content::Live(document.into()),
            });
        }
    }

    fn step(&mut self) -> Step {
        let at = self.replica();
        match self.random.below(100) {
            0..=23 => self.write(at),
            24..=33 => self.take_in(at),
            34..=46 => self.edit(at),
            47..=57 => self.pull(at),
            58..=62 => self.winner(at),
            63..=68 => self.leaves(at),
            69..=72 => self.path(at),
            73..=76 => self.put_out(at),
            77..=80 => self.missing(at),
            81..=86 => self.changes(at),
            87..=89 => self.save(at),
            90..=92 => Step::Reload {
                at,
                from: self.replica(),
            },
            93..=94 => Step::Load {
                at,
                image: self.image(at),
            },
            95..=96 => self.report(at),
            97 => Step::UpdateSequence { at },
            98 => Step::Counts { at },
            _ => Step::Fresh { at },
        }
    }

    fn replica(&mut self) -> usize {
        self.random.below(REPLICAS)
    }

    /// An id that the replica holds, or one of the others does, or that may be new, or is refused.
    fn id(&mut self, at: usize) -> Vec<u8> {
        if self.random.percent(self.hostile) {
            let length = *self
                .random
                .pick(&[0, ID_BYTES + 1, ID_BYTES + 1, 2 * ID_BYTES]);
            return self.random.bytes(length);
        }
        let holders = match self.random.below(10) {
            0..=5 => &self.replicas[at..=at],
            6 | 7 => &self.replicas[..],
            _ => &[],
        };
        if !holders.is_empty() {
            if let Some((id, _)) = some_document(&mut self.random, holders) {
                return id.to_vec();
            }
        }
        self.alphabet.id(&mut self.random)
    }

    /// A revision of the document that a replica holds, or one that may be known to none.
    fn revision(&mut self, id: &[u8]) -> Revision {
        let holder = self.replica();
        if self.random.percent(75) {
            if let Some(document) = self.replicas[holder].held().documents.get(id) {
                let revisions: Vec<_> = document.revisions.iter().copied().collect();
                return *self.random.pick(&revisions);
            }
        }
        let number = match self.random.below(8) {
            0 => *self.random.pick(&[0, 1, u32::MAX]),
            _ => self.alphabet.number(&mut self.random),
        };
        Revision {
            number,
            hash: self.alphabet.hash(&mut self.random),
        }
    }

    /// A sequence about those that the replica gave.
    fn sequence(&mut self, at: usize) -> u32 {
        let held = self.replicas[at].held();
        let mut sequences = vec![0, 0, 0, held.sequence, u32::MAX];
        for document in held.documents.values() {
            sequences.extend([document.sequence, document.sequence - 1]);
        }
        *self.random.pick(&sequences)
    }

    /// The length of a buffer for an answer of so many bytes: exact, a byte short, with bytes to
    /// spare, or none.
    fn room(&mut self, answer: usize) -> usize {
        match self.random.below(10) {
            0..=3 => answer,
            4 | 5 => answer.saturating_sub(1),
            6 => self.random.below(answer + 1),
            7 => 0,
            _ => answer + 1 + self.random.below(40),
        }
    }

    fn write(&mut self, at: usize) -> Step {
        let offer = self.alphabet.offer(&mut self.random, &self.replicas);
        let mut id = offer.id;
        let mut number = offer.number;
        let mut path = offer.hashes.concat();
        if self.random.percent(self.hostile) {
            id = self.id(at);
        }
        if self.random.percent(self.hostile) {
            let hash = self.alphabet.hash(&mut self.random);
            match self.random.below(6) {
                0 => path.clear(),
                1 => path.push(0),
                2 => drop(path.pop()),
                3 => path = hash.repeat(PATH_HASHES),
                4 => path = hash.repeat(PATH_HASHES + 1),
                _ => path = hash.repeat(number.min(40) as usize + 1),
            }
        }
        if self.random.percent(self.hostile) {
            let short = ((path.len() / HASH_BYTES) as u32).saturating_sub(1);
            number = *self.random.pick(&[0, short, u32::MAX]);
        }
        Step::Write {
            at,
            id,
            number,
            path,
            content: offer.content,
        }
    }

    /// A line that says a path, or that one of the replicas puts out, and perhaps is spoiled or damaged.
    fn take_in(&mut self, at: usize) -> Step {
        let line = match self.random.below(5) {
            0 => self.line_put_out().unwrap_or_default(),
            _ => {
                let mut offer = self.alphabet.offer(&mut self.random, &self.replicas);
                if self.random.percent(70) {
                    offer.id = lines::plain(&offer.id);
                }
                match self.random.percent(self.hostile) {
                    true => lines::spoiled(&mut self.random, &offer),
                    false => lines::sound(&mut self.random, &offer),
                }
            }
        };
        let line = match self.random.percent(self.hostile / 2) {
            true => lines::damaged(&mut self.random, &line),
            false => line,
        };
        Step::TakeIn { at, line }
    }

    /// One of the lines of a document that some replica puts out.
    fn line_put_out(&mut self) -> Option<Vec<u8>> {
        let (id, _) = some_document(&mut self.random, &self.replicas)?;
        let replicas = self.replicas.iter();
        let lines: Vec<u8> = replicas.flat_map(|replica| put_out(replica, id)).collect();
        let lines: Vec<&[u8]> = lines.split_inclusive(|&byte| byte == b'\n').collect();
        match lines.is_empty() {
            true => None,
            false => Some(self.random.pick(&lines).to_vec()),
        }
    }

    fn put_out(&mut self, at: usize) -> Step {
        let id = self.id(at);
        if self.random.percent(30) {
            return Step::PutOutSize { at, id };
        }
        let size = put_out(&self.replicas[at], &id).len();
        Step::PutOut {
            at,
            id,
            room: self.room(size),
        }
    }

    fn edit(&mut self, at: usize) -> Step {
        let id = self.id(at);
        let mut hash = self.alphabet.hash(&mut self.random);
        let mut parent = None;
        if self.random.percent(75) {
            let document = self.replicas[at].held().documents.get(&id);
            let leaves = document.map(|document| document.leaves());
            let revision = match leaves {
                Some(leaves) if self.random.percent(70) => self.random.pick(&leaves).revision,
                _ => self.revision(&id),
            };
            if self.random.percent(20) {
                hash = revision.hash;
            }
            parent = Some((revision.number, revision.hash));
        }
        Step::Edit {
            at,
            id,
            hash,
            content: content(&mut self.random),
            parent,
        }
    }

    fn pull(&mut self, at: usize) -> Step {
        let from = self.replica();
        Step::Pull {
            at,
            from,
            after: self.sequence(from),
        }
    }

    fn winner(&mut self, at: usize) -> Step {
        Step::Winner {
            at,
            id: self.id(at),
            room: self.room(LEAF_BYTES),
        }
    }

    fn leaves(&mut self, at: usize) -> Step {
        let id = self.id(at);
        let document = self.replicas[at].held().documents.get(&id);
        let count = document.map_or(1, |document| document.leaves().len());
        Step::Leaves {
            at,
            id,
            room: self.room(LEAF_BYTES * count),
        }
    }

    fn path(&mut self, at: usize) -> Step {
        let id = self.id(at);
        let revision = self.revision(&id);
        let document = self.replicas[at].held().documents.get(&id);
        let count = document.map_or(1, |document| document.path(revision).len());
        Step::Path {
            at,
            id,
            number: revision.number,
            hash: revision.hash,
            room: self.room(HASH_BYTES * count),
        }
    }

    fn missing(&mut self, at: usize) -> Step {
        let id = self.id(at);
        let mut asked = Vec::new();
        let most = *self.random.pick(&[7, 7, 7, 60]);
        for _ in 0..self.random.below(most) {
            let revision = self.revision(&id);
            asked.extend(revision.number.to_be_bytes());
            asked.extend(revision.hash);
        }
        let room = self.room(asked.len() / ASKED_BYTES);
        if self.random.percent(self.hostile) {
            let bytes = 1 + self.random.below(ASKED_BYTES - 1);
            asked.extend(self.random.bytes(bytes));
        }
        Step::Missing {
            at,
            id,
            asked,
            room,
        }
    }

    fn changes(&mut self, at: usize) -> Step {
        let after = self.sequence(at);
        let mut id = [0; ID_BYTES];
        let change = self.replicas[at].changes(after, &mut id);
        let length = change.ok().flatten().map(|change| change.id_len as usize);
        Step::Changes {
            at,
            after,
            room: self.room(length.unwrap_or(ID_BYTES)),
        }
    }

    fn save(&mut self, at: usize) -> Step {
        let length = images::save(&self.replicas[at]).len();
        Step::Save {
            at,
            room: self.room(length),
        }
    }

    /// The image of a replica, or of none of them, sound or damaged.
    fn image(&mut self, at: usize) -> Vec<u8> {
        let image = if self.random.percent(60) {
            images::save(&self.replicas[at])
        } else {
            images::sound(&mut self.random)
        };
        if self.random.percent(50) {
            images::damage(&mut self.random, &image)
        } else {
            image
        }
    }

    fn report(&mut self, at: usize) -> Step {
        let image = self.image(at);
        let length = images::report(&image).len();
        Step::Report {
            image,
            room: self.room(length),
        }
    }
}

/// A document's lines; none where they are refused.
fn put_out(replica: &Model, id: &[u8]) -> Vec<u8> {
    let size = replica.put_out_size(id).unwrap_or_default();
    let mut out = vec![0; size as usize];
    match replica.put_out(id, &mut out) {
        Ok(_) => out,
        Err(_) => Vec::new(),
    }
}
