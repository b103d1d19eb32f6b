//! Trials of another kind of replica beside the model, over many seeds. A difference ends the trial
//! with the scenario that shows it.

use crate::harness::{check_image, run_scenario, Difference};
use crate::images::{self, image};
use crate::model::Model;
use crate::scenario::{dump, scenario, widest};
use crate::sizes::ID_BYTES;
use crate::texts::{holding, lines, Outcome, VALUES};
use crate::{Refusal, Replica};
use std::fmt::Display;
use std::ops::Range;

/// Holds the outcome of a comparison with the model to no difference.
pub fn same(case: impl Display, result: Result<(), Difference>) {
    if let Err(difference) = result {
        panic!("{case}, what is tried on the left and the model on the right:\n{difference}");
    }
}

pub fn scenarios<R: Replica>(seeds: Range<u64>) {
    for seed in seeds {
        let result = run_scenario::<R, Model>(&scenario(seed));
        same(format_args!("scenario {seed}"), result);
    }
}

/// Images sound and damaged.
pub fn images<R: Replica>(seeds: Range<u64>) {
    for seed in seeds {
        let result = check_image::<R, Model>(&image(seed));
        same(format_args!("image {seed}"), result);
    }
}

pub fn traps<R: Replica>() {
    for (name, image) in images::traps() {
        same(name, check_image::<R, Model>(&image));
    }
}

/// Dumps of [`DUMP_LINES`](crate::scenario::DUMP_LINES) lines each.
pub fn dumps<R: Replica>(seeds: Range<u64>) {
    for seed in seeds {
        let result = run_scenario::<R, Model>(&dump(seed));
        same(format_args!("dump {seed}"), result);
    }
}

/// See [`widest`](crate::scenario::widest).
pub fn most_put_out<R: Replica>() {
    same("the most put out", run_scenario::<R, Model>(&widest()));
}

/// Takes a line into a fresh replica: what is put out of its documents after it, or the refusal.
fn taken<R: Replica>(line: &[u8]) -> Result<Vec<u8>, u32> {
    let mut replica = R::fresh();
    let taken = replica.take_in(line);
    let (documents, _) = replica.counts();
    if let Err(Refusal { number, place }) = taken {
        assert_eq!((documents, place), (0, 0), "a refused line leaves nothing");
        return Err(number);
    }
    assert_eq!((taken, documents), (Ok(true), 1));
    let mut id = [0; ID_BYTES];
    let change = replica.changes(0, &mut id).ok().flatten();
    let id = &id[..change.expect("one document").id_len as usize];
    let size = replica.put_out_size(id).expect("an id that was taken in");
    let mut out = vec![0; size as usize];
    assert_eq!(replica.put_out(id, &mut out), Ok(size));
    Ok(out)
}

/// Holds a kind of replica to the table of values, each as an unknown member of a line that is sound
/// without it.
pub fn values<R: Replica>() {
    for group in VALUES {
        let yes = group.yes.iter().map(|value| (value, true));
        let no = group.no.iter().map(|value| (value, false));
        for (value, is_value) in yes.chain(no) {
            for line in holding(value) {
                let shown = String::from_utf8_lossy(&line).into_owned();
                let refused = taken::<R>(&line).err();
                let expected = (!is_value).then_some(40);
                assert_eq!(refused, expected, "{shown}\n{}", group.says);
            }
        }
    }
}

/// Holds a kind of replica to the table of lines.
pub fn lines_by_name<R: Replica>() {
    for line in lines() {
        let shown = String::from_utf8_lossy(&line.text).into_owned();
        let expected = match line.outcome {
            Outcome::Put(put) => Ok(put),
            Outcome::Refused(number) => Err(number),
        };
        assert_eq!(taken::<R>(&line.text), expected, "{shown}\n{}", line.says);
    }
}
