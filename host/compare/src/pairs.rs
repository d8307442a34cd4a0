//! The two lists of demand 3, played by the proved machine.

use crate::compare_with;
use crate::coverage::{number, value};
use crate::difference::Difference;
use crate::played::Lengths;
use gazhuppin::REPLY_BYTES;
use model::{call_line, Call, Reply};
use rolls::{without_report_values, List, Pair};

/// What a pair whose answers are alike showed.
#[derive(Clone, Copy, Default, Debug)]
pub struct PairSeen {
    /// The calls after the rewind that were compared, and how many were accepted.
    pub compared: usize,
    pub accepted: usize,
    /// How many of these were compares, whose value is told without exception.
    pub compares: usize,
    /// How many of them were rewinds that put pages back, told without exception too.
    pub rewinds: usize,
    /// Whether the sandbox differed before the rewind.
    pub secret: bool,
    /// Whether the value of that rewind differed, which may depend on what came before it.
    pub rewind_differs: bool,
    /// Whether the value of a report differed after it.
    pub report_differs: bool,
}

/// Play both lists on the proved machine, and compare what it answers to the sandbox
/// after the rewind. Both lists are compared with the plain machine as well.
pub fn compare_pair(pair: &Pair) -> Result<PairSeen, String> {
    let (mut answers, mut put_back) = (Vec::new(), Vec::new());
    for list in &pair.lists {
        let replies = replies(pair, list).map_err(|difference| difference.to_string())?;
        put_back.push(replies[list.rewind]);
        let compared = pair.compared_of(list, &replies);
        answers.push(compared.ok_or("the snapshot or the rewind was refused")?);
    }
    let [first, second] = answers.try_into().expect("two lists");
    let [public, other_public] = [&first, &second].map(|list| without_report_values(list));
    if public != other_public {
        let differing = public.iter().zip(&other_public).find(|(one, other)| one != other);
        return Err(format!("the answers after the rewind differ: {differing:?}"));
    }
    let [before, other_before] = [0, 1].map(|which| pair.before_rewind(which));
    Ok(PairSeen {
        compared: first.len(),
        accepted: first.iter().filter(|(_, (number, _))| *number == 0).count(),
        compares: first.iter().filter(|(call, reply)| call.code == 10 && reply.0 == 0).count(),
        rewinds: first.iter().filter(|(call, reply)| call.code == 8 && reply.1 > 0).count(),
        secret: before != other_before,
        rewind_differs: put_back[0] != put_back[1],
        report_differs: first != second,
    })
}

fn replies(pair: &Pair, list: &List) -> Result<Vec<Reply>, Difference> {
    let roll = list.calls.iter().flat_map(|call: &Call| call_line(call)).collect();
    let case = rolls::Case { roll, image: pair.image.clone(), frames: pair.frames };
    let played = compare_with(&case, Lengths::of(&case))?;
    let reply = |line: &[u8]| (number(line), value(line));
    Ok(played.replies.chunks(REPLY_BYTES).map(reply).collect())
}
