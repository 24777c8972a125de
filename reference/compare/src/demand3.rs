//! Demand 3: a list of calls on one opened account against what stands from the list alone.

use crate::checks::{Account, LentAccount, LentOutputs};
use crate::library::Library;
use model::history::{Call, Part, Standing};
use model::DONE;
use std::collections::BTreeMap;

/// Two adjacent readings (boundary and count of each) and a marked boundary between them, both ends included.
type Shared = ((usize, u64), (usize, u64), usize);

/// One statement: its parts as written, zeros past them, the sum, the exact shares, the boundaries shared with others.
fn statement(
    standing: &Standing,
    outputs: &LentOutputs,
    count: usize,
    shared: &mut BTreeMap<Shared, u64>,
) -> Result<(), String> {
    let (from, to, wh) = (outputs.from.get(), outputs.to.get(), outputs.wh.get());
    let parts = standing.parts();
    if count != parts.len() {
        return Err(format!("{count} parts, where what stands gives {}", parts.len()));
    }
    let mut energy = 0;
    for (i, part) in parts.iter().enumerate() {
        let Part { enclosing: (p, q), .. } = *part;
        if (from[i] as usize, to[i] as usize, wh[i]) != (part.from, part.to, part.wh) {
            return Err(format!("part {i} is {} {} {}, by the rule {part:?}", from[i], to[i], wh[i]));
        }
        if !standing.close(part, wh[i]) {
            return Err(format!("part {i} is 1 Wh or more from its exact share: {part:?}"));
        }
        if part.from == p {
            energy = 0;
        }
        energy += wh[i];
        let counts = standing.readings();
        let key = ((p, counts[&p]), (q, counts[&q]), part.to);
        if *shared.entry(key).or_insert(energy) != energy {
            return Err(format!("the energy up to a shared boundary differs between statements: {key:?}"));
        }
    }
    if wh[..count].iter().map(|wh| *wh as u128).sum::<u128>() != standing.total() as u128 {
        return Err(format!("the parts do not add up to {}", standing.total()));
    }
    if from[count..].iter().chain(&to[count..]).any(|k| *k != 0) || wh[count..].iter().any(|wh| *wh != 0) {
        return Err("something is left past the parts".to_string());
    }
    Ok(())
}

/// Whether the answers and statements of a library on a list are those of what stands; else what is wrong.
pub fn check(library: &dyn Library, account: &Account, calls: &[Call]) -> Result<(), String> {
    let mut lent = LentAccount::new(account);
    if library.open(lent.weights.get(), lent.marks.get_mut(), lent.counts.get_mut()) != DONE {
        return Err("open declines".to_string());
    }
    let mut standing = Standing::opened(&account.weights);
    let mut shared = BTreeMap::new();
    for (i, call) in calls.iter().enumerate() {
        let at = |what: String| format!("call {i} ({call:?}): {what}");
        let mut outputs = LentOutputs::for_call(call);
        let before = outputs.wide();
        let (answer, count) = lent.call(library, call, &mut outputs);
        let expected = standing.step(call);
        if answer.number != expected || answer.place != 0 {
            return Err(at(format!("answered {answer:?}, by the table {expected}")));
        }
        if let Call::Statement(_) = call {
            match expected {
                0 => statement(&standing, &outputs, count, &mut shared).map_err(at)?,
                11 if outputs.from.get().iter().chain(outputs.to.get()).any(|k| *k != 0) => {
                    return Err(at("outputs not zero after 11".to_string()))
                }
                11 if outputs.wh.get().iter().any(|wh| *wh != 0) => {
                    return Err(at("outputs not zero after 11".to_string()))
                }
                3 if outputs.wide() != before => return Err(at("outputs touched after 3".to_string())),
                _ => {}
            }
            if expected != 0 && count != 0 {
                return Err(at(format!("{count} parts returned beside a refusal")));
            }
        }
    }
    Ok(())
}
