//! The linked library as the model's harness sees it. The benchmark uses this file too.

use refile::{Replica, Revision, RevisionNumber, Sequence, Written};
use refile_model::{Change, Content, Counts, Refusal};

#[derive(PartialEq, Eq, Debug)]
pub struct Linked(pub Replica);

impl Clone for Linked {
    fn clone(&self) -> Self {
        Linked(self.0.clone())
    }

    fn clone_from(&mut self, source: &Self) {
        self.0.clone_from(&source.0);
    }
}

fn content(content: Content) -> refile::Content {
    match content {
        Content::Live(label) => refile::Content::Live(label),
        Content::Deleted => refile::Content::Deleted,
    }
}

fn refusal(refusal: refile::Refusal) -> Refusal {
    Refusal {
        number: refusal.number(),
        place: refusal.place(),
    }
}

fn count(answer: Result<usize, refile::Refusal>) -> Result<u32, Refusal> {
    answer.map(|count| count as u32).map_err(refusal)
}

impl refile_model::Replica for Linked {
    fn fresh() -> Self {
        Linked(Replica::fresh())
    }

    fn load(&mut self, image: &[u8]) -> Result<(), Refusal> {
        self.0.load(image).map_err(refusal)
    }

    fn save(&self, out: &mut [u8]) -> Result<u32, Refusal> {
        count(self.0.save(out))
    }

    fn write(
        &mut self,
        id: &[u8],
        number: u32,
        path: &[u8],
        given: Content,
    ) -> Result<bool, Refusal> {
        let number = RevisionNumber(number);
        match self.0.write_path_bytes(id, number, path, content(given)) {
            Ok(written) => Ok(written == Written::Changed),
            Err(refused) => Err(refusal(refused)),
        }
    }

    fn take_in(&mut self, line: &[u8]) -> Result<bool, Refusal> {
        match self.0.take_in(line) {
            Ok(written) => Ok(written == Written::Changed),
            Err(refused) => Err(refusal(refused)),
        }
    }

    fn edit(
        &mut self,
        id: &[u8],
        hash: [u8; 16],
        given: Content,
        parent: Option<(u32, [u8; 16])>,
    ) -> Result<u32, Refusal> {
        let parent = parent.map(|(number, hash)| Revision::new(number, hash));
        match self.0.edit(id, hash, content(given), parent) {
            Ok(number) => Ok(number.0),
            Err(refused) => Err(refusal(refused)),
        }
    }

    fn winner(&self, id: &[u8], out: &mut [u8]) -> Result<u32, Refusal> {
        count(self.0.winner_into(id, out))
    }

    fn leaves(&self, id: &[u8], out: &mut [u8]) -> Result<u32, Refusal> {
        count(self.0.leaves_into(id, out))
    }

    fn path(&self, id: &[u8], number: u32, hash: [u8; 16], out: &mut [u8]) -> Result<u32, Refusal> {
        count(self.0.path_into(id, Revision::new(number, hash), out))
    }

    fn put_out(&self, id: &[u8], out: &mut [u8]) -> Result<u32, Refusal> {
        count(self.0.put_out_into(id, out))
    }

    fn put_out_size(&self, id: &[u8]) -> Result<u32, Refusal> {
        count(self.0.put_out_size(id))
    }

    fn missing(&self, id: &[u8], asked: &[u8], out: &mut [u8]) -> Result<u32, Refusal> {
        count(self.0.missing_into(id, asked, out))
    }

    fn changes(&self, after: u32, out: &mut [u8]) -> Result<Option<Change>, Refusal> {
        let change = self.0.next_change(Sequence(after), out).map_err(refusal)?;
        Ok(change.map(|change| Change {
            id_len: change.id_len as u32,
            seq: change.sequence.0,
            leaves: change.leaves,
            deleted: change.deleted,
        }))
    }

    fn pull(&mut self, source: &Self, after: u32) -> Counts {
        let counts = self.0.pull(&source.0, Sequence(after));
        Counts {
            changed: counts.changed,
            unchanged: counts.unchanged,
            refused: counts.refused,
        }
    }

    fn update_sequence(&self) -> u32 {
        self.0.update_sequence().0
    }

    fn counts(&self) -> (u32, u32) {
        let held = self.0.counts();
        (held.documents, held.revisions)
    }

    fn report(image: &[u8], out: &mut [u8]) -> Result<u32, Refusal> {
        count(refile::report_into(image, out))
    }
}
