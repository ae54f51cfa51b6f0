// Which two can meet, by consequence: what an implementation answers is held against its own commands, each tried on a copy of the store.

use crate::calls::{verdict_in, Reply};
use crate::implementations::Calls;
use crate::layout::{has_hub, is_full};
use crate::model::{code, refusal, Verdict, CONSOLES, HUB};

/// The answer for this sound store, where the commands bear it out; else the difference in words.
pub fn check(calls: &Calls, store: &[u8]) -> Result<Verdict, String> {
    let reply = (calls.mergeable)(store);
    let due = by_commands(calls, store)?;
    if has_hub(store) && !is_through_hub(due) {
        Err(format!("{due:?} by the commands, though there is a hub"))
    } else if verdict_in(reply) == Some(due) {
        Ok(due)
    } else {
        Err(format!("{due:?} by the commands, {reply:?} answered"))
    }
}

/// Whether this can be where there is a hub: nothing is stuck there, and of two that meet one is console 0.
fn is_through_hub(verdict: Verdict) -> bool {
    match verdict {
        Verdict::AllAgree => true,
        Verdict::Stuck => false,
        Verdict::Merge { receiver, giver } | Verdict::FastForward { receiver, giver } => {
            receiver == HUB || giver == HUB
        }
    }
}

/// The first pair of present consoles that can meet by the commands, receivers rising and for each the givers; where there is none,
/// whether every head is one version.
fn by_commands(calls: &Calls, store: &[u8]) -> Result<Verdict, String> {
    let heads: Vec<(usize, Reply)> = (0..CONSOLES)
        .map(|console| {
            (
                console,
                (calls.common)(store, console as u32, console as u32),
            )
        })
        .filter(|(_, head)| head.answer == 0)
        .collect();
    for &(receiver, _) in &heads {
        for &(giver, _) in heads.iter().filter(|&&(giver, _)| giver != receiver) {
            if let Some(verdict) = verdict_of(calls, store, receiver, giver)? {
                return Ok(verdict);
            }
        }
    }
    let all_agree = heads.iter().all(|&(_, head)| head == heads[0].1);
    Ok(if all_agree {
        Verdict::AllAgree
    } else {
        Verdict::Stuck
    })
}

/// What this pair can do: a merge that is accepted, or in a full room refused for the version alone, or a fast-forward that is accepted.
fn verdict_of(
    calls: &Calls,
    store: &[u8],
    receiver: usize,
    giver: usize,
) -> Result<Option<Verdict>, String> {
    let answer = |code: u8| {
        let command = [code, receiver as u8, giver as u8];
        (calls.command)(&mut store.to_vec(), &command).answer
    };
    // The answer to a merge against which nothing but a missing version can stand.
    let due = if is_full(store) {
        refusal::NO_VERSION_LEFT
    } else {
        0
    };
    let merges = answer(code::MERGE) == due;
    let forwards = answer(code::FAST_FORWARD) == 0;
    match (merges, forwards) {
        (true, true) => Err(format!("{receiver} both merges {giver} and follows it")),
        (true, false) => Ok(Some(Verdict::Merge { receiver, giver })),
        (false, true) => Ok(Some(Verdict::FastForward { receiver, giver })),
        (false, false) => Ok(None),
    }
}
