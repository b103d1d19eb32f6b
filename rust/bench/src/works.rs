//! The works, each for any kind of replica.

use std::fs::File;
use std::hint::black_box;
use std::path::Path;
use std::process::{Command, Stdio};

use refile_model::layout::IMAGE_MOST;
use refile_model::sizes::{ASKED_BYTES, LEAF_BYTES};
use refile_model::{Counts, Replica};

use crate::data::{image, loaded, written, Write};
use crate::measure::{timed, Side};

/// How often a quick call is made in a round.
const TIMES: usize = 16;

pub fn load<'a, R: Replica + 'a>(bytes: &'a [u8]) -> Side<'a> {
    let mut replica: R = loaded(bytes);
    Side {
        outcome: image(&replica),
        round: Box::new(move || {
            timed(TIMES, || {
                for _ in 0..TIMES {
                    black_box(replica.load(black_box(bytes))).expect("the image is sound");
                }
            })
        }),
    }
}

pub fn save<'a, R: Replica + 'a>(bytes: &[u8]) -> Side<'a> {
    let replica: R = loaded(bytes);
    let mut out = vec![0; IMAGE_MOST];
    Side {
        outcome: image(&replica),
        round: Box::new(move || {
            timed(TIMES, || {
                for _ in 0..TIMES {
                    black_box(replica.save(black_box(&mut out))).expect("the image fits");
                }
            })
        }),
    }
}

/// A read of each of the documents in turn, into one buffer.
fn read<'a, R: Replica + 'a>(
    bytes: &[u8],
    ids: &'a [&[u8]],
    room: usize,
    call: impl Fn(&R, usize, &mut [u8]) -> u32 + 'a,
) -> Side<'a> {
    let replica: R = loaded(bytes);
    let mut out = vec![0; room];
    let mut outcome = Vec::new();
    for i in 0..ids.len() {
        outcome.extend(call(&replica, i, &mut out).to_be_bytes());
        outcome.extend(&out);
    }
    Side {
        outcome,
        round: Box::new(move || {
            timed(TIMES * ids.len(), || {
                for i in (0..ids.len()).cycle().take(TIMES * ids.len()) {
                    black_box(call(&replica, i, black_box(&mut out)));
                }
            })
        }),
    }
}

pub fn winner<'a, R: Replica + 'a>(bytes: &[u8], ids: &'a [&[u8]]) -> Side<'a> {
    read(bytes, ids, LEAF_BYTES, |replica: &R, i, out| {
        replica.winner(ids[i], out).expect("the winner is there")
    })
}

pub fn leaves<'a, R: Replica + 'a>(bytes: &[u8], ids: &'a [&[u8]], most: usize) -> Side<'a> {
    read(bytes, ids, LEAF_BYTES * most, |replica: &R, i, out| {
        replica.leaves(ids[i], out).expect("the leaves fit")
    })
}

/// Asks each document for its list.
pub fn missing<'a, R: Replica + 'a>(
    bytes: &[u8],
    ids: &'a [&[u8]],
    asked: &'a [Vec<u8>],
) -> Side<'a> {
    let room = asked[0].len() / ASKED_BYTES;
    read(bytes, ids, room, move |replica: &R, i, out| {
        replica
            .missing(ids[i], &asked[i], out)
            .expect("the list is whole")
    })
}

/// Makes the writes in turn, each so many times over, on a replica that others came before.
pub fn writes<'a, R: Replica + 'a>(before: &[Write], writes: &'a [Write], over: usize) -> Side<'a> {
    let former: R = written(before);
    let make = move |replica: &mut R| {
        for write in writes {
            for _ in 0..over {
                black_box(write.make(black_box(replica)));
            }
        }
    };
    let mut after = former.clone();
    make(&mut after);
    let mut replica = former.clone();
    Side {
        outcome: image(&after),
        round: Box::new(move || {
            replica.clone_from(&former);
            timed(over * writes.len(), || make(&mut replica))
        }),
    }
}

/// Takes in the lines in turn, on a replica that others came before.
pub fn take_in<'a, R: Replica + 'a>(before: &[&[u8]], lines: &'a [&[u8]]) -> Side<'a> {
    let make = |replica: &mut R, lines: &[&[u8]]| {
        for line in lines {
            black_box(replica.take_in(black_box(line)))
                .expect("no line of the benchmark is refused");
        }
    };
    let mut former = R::fresh();
    make(&mut former, before);
    let mut after = former.clone();
    make(&mut after, lines);
    let mut replica = former.clone();
    Side {
        outcome: image(&after),
        round: Box::new(move || {
            replica.clone_from(&former);
            timed(lines.len(), || make(&mut replica, lines))
        }),
    }
}

/// The lines of each of the documents in turn, into one buffer.
pub fn put_out<'a, R: Replica + 'a>(bytes: &[u8], ids: &'a [&[u8]], room: usize) -> Side<'a> {
    read(bytes, ids, room, |replica: &R, i, out| {
        replica.put_out(ids[i], out).expect("the lines fit")
    })
}

/// Pulls everything into a replica that is set back before each time.
pub fn pull<'a, R: Replica + 'a>(source: &[u8], target: &[u8]) -> Side<'a> {
    let source: R = loaded(source);
    let former: R = loaded(target);
    let mut target = former.clone();
    let Counts {
        changed,
        unchanged,
        refused,
    } = target.pull(&source, 0);
    let mut outcome = [changed, unchanged, refused].map(u32::to_be_bytes).concat();
    outcome.extend(image(&target));
    Side {
        outcome,
        round: Box::new(move || {
            target.clone_from(&former);
            timed(1, || {
                black_box(target.pull(black_box(&source), 0));
            })
        }),
    }
}

/// A whole process that reads an image from standard input.
pub fn process<'a>(program: &'a Path, image: &'a Path) -> std::io::Result<Side<'a>> {
    let command = move || -> std::io::Result<Command> {
        let mut command = Command::new(program);
        command.stdin(File::open(image)?);
        Ok(command)
    };
    Ok(Side {
        outcome: command()?.output()?.stdout,
        round: Box::new(move || {
            timed(1, || {
                let status = command().and_then(|mut command| {
                    command.stdout(Stdio::null()).stderr(Stdio::null()).status()
                });
                status.expect("the program ran before");
            })
        }),
    })
}

/// Copies so many bytes.
pub fn memcpy<'a>(bytes: usize) -> Side<'a> {
    let from = vec![0x5a_u8; bytes];
    let mut to = vec![0; bytes];
    Side {
        outcome: Vec::new(),
        round: Box::new(move || {
            timed(TIMES, || {
                for _ in 0..TIMES {
                    black_box(&mut to).copy_from_slice(black_box(&from));
                }
            })
        }),
    }
}

/// Adds up so many bytes.
pub fn byte_sum<'a>(bytes: usize) -> Side<'a> {
    let from = vec![0x5a_u8; bytes];
    Side {
        outcome: Vec::new(),
        round: Box::new(move || {
            timed(TIMES, || {
                for _ in 0..TIMES {
                    let sum: u64 = black_box(&from).iter().map(|&byte| u64::from(byte)).sum();
                    black_box(sum);
                }
            })
        }),
    }
}
