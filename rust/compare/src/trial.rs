//! One text tried: calls at the sizes that tell, each held to the answer that document 01 gives.

use crate::guarded::{Left, Memory};
use crate::judge::{Answer, Loss, Operation, Sizes, Step};
use crate::model;
use crate::pieces::Draws;
use carve::{Converter, Record, Refusal, MAX_OUT};

/// A text that is also tried with the longest output there may be, and with one byte more, which is refused.
pub const WITH_LONGEST_OUTPUT: &str = "[list][*]the longest output[/list]";

/// What the calls have met so far.
#[derive(Default, Clone)]
pub struct Tally {
    /// Texts, each once for every operation that it is tried on.
    pub trials: u64,
    pub calls: u64,
    /// By document 01's number; 0 is done.
    pub numbers: [u64; 10],
    pub losses: u64,
    pub marks: u64,
    /// Trials with an attribution that is not empty.
    pub attributed: u64,
    /// Those of them, and their calls, in which the model stands in for the original on one attribution or more.
    pub stood_in: u64,
    pub stood_in_calls: u64,
}

impl Tally {
    pub fn add(&mut self, other: &Tally) {
        self.trials += other.trials;
        self.calls += other.calls;
        self.losses += other.losses;
        self.marks += other.marks;
        self.attributed += other.attributed;
        self.stood_in += other.stood_in;
        self.stood_in_calls += other.stood_in_calls;
        self.numbers.iter_mut().zip(other.numbers).for_each(|(mine, more)| *mine += more);
    }
}

/// The first place where two slices differ, `found` being as long as it was lent and `expected` going on with zeros.
fn compare<T: Copy + Default + PartialEq + std::fmt::Debug>(name: &str, expected: &[T], found: &[T]) -> Result<(), String> {
    let expected = |i: usize| expected.get(i).copied().unwrap_or_default();
    match found.iter().enumerate().find(|&(i, x)| *x != expected(i)) {
        None => Ok(()),
        Some((i, x)) => Err(format!("{name}[{i}] is {x:?} and not {:?}", expected(i))),
    }
}

fn hold(answer: &Answer, number: u32, left: &Left) -> Result<(), String> {
    if left.number != number {
        return Err(format!("the number is {} and not {number}", left.number));
    }
    let nothing = Answer::refused(vec![]);
    let answer = if number == 0 { answer } else { &nothing };
    let (mut records, mut loss_bytes) = (Vec::new(), Vec::new());
    for (quote, line, unnamed, field) in &answer.losses {
        let (start, length) = (loss_bytes.len() as u32, field.len() as u32);
        records.push(Record { quote: *quote, line: *line, unnamed: u32::from(*unnamed), start, length });
        loss_bytes.extend(field.bytes());
    }
    let second = if answer.spans.is_empty() { records.len() } else { answer.spans.len() / 2 };
    compare("counts", &[answer.text.len() as u32, second as u32, loss_bytes.len() as u32], &left.counts)?;
    compare("out", &answer.text, left.out)?;
    compare("origins", &answer.origins, left.origins)?;
    compare("spans", &answer.spans, left.spans)?;
    compare("records", &records, left.records)?;
    compare("loss_bytes", &loss_bytes, left.loss_bytes)
}

/// Sizes that tell: all exact; all roomy; each need and each lent size one short; several short at once, for the order of the refusals.
fn sizes(operation: Operation, text: &str, answer: &Answer, draws: &mut Draws) -> Vec<Sizes> {
    let n = text.len();
    let (losses, loss_bytes) = (answer.losses.len(), answer.loss_bytes());
    let least = |m: usize, losses: usize, loss_bytes: usize| Sizes::least(operation, n, m, losses, loss_bytes);
    if operation == Operation::Day {
        return [0, 9, 10, 11 + draws.below(30)].map(|m| least(m, 0, 0)).to_vec();
    }
    let need = answer.need();
    let exact = least(need, losses, loss_bytes);
    let mut all = vec![exact];
    let roomy = least(need + draws.below(40), losses, loss_bytes);
    let mut more = |lent: bool, size: usize| if lent { size + draws.below(9) } else { 0 };
    all.push(Sizes {
        out: roomy.out,
        origins: more(true, roomy.origins),
        spans: more(operation.lent_spans(), roomy.spans),
        records: more(operation.lent_records(), losses),
        loss_bytes: more(operation.lent_records(), loss_bytes),
        work: more(true, roomy.work),
        numbers: more(true, roomy.numbers),
    });
    let mut needs: Vec<usize> = answer.steps.iter().filter_map(|step| if let Step::Need(need) = step { Some(*need) } else { None }).collect();
    needs.sort_unstable();
    needs.dedup();
    for m in needs {
        if let Some(short) = m.checked_sub(1) {
            all.push(least(short, losses, loss_bytes));
            if losses > 0 {
                all.push(least(short, losses - 1, loss_bytes));
            }
        }
        if m != need {
            all.push(least(m, losses, loss_bytes));
        }
    }
    all.push(least(0, 0, 0));
    if operation.lent_records() && losses > 0 {
        all.push(least(need, losses - 1, loss_bytes));
        if loss_bytes > 0 {
            all.push(least(need, losses, loss_bytes - 1));
            all.push(least(need, losses - 1, loss_bytes - 1));
            all.push(least(0, losses, loss_bytes - 1));
        }
    }
    // Each lent size one short, and any of them with what is refused behind it.
    let shorter = |sizes: &mut Sizes, which: usize| {
        let size = match which {
            0 => &mut sizes.origins,
            1 => &mut sizes.work,
            2 => &mut sizes.numbers,
            _ => &mut sizes.spans,
        };
        *size = size.saturating_sub(1);
    };
    for which in 0..4 {
        let mut one = exact;
        shorter(&mut one, which);
        if one != exact {
            all.push(one);
        }
    }
    let mut several = least(draws.below(need + 1), losses.saturating_sub(draws.below(2)), loss_bytes.saturating_sub(draws.below(2)));
    shorter(&mut several, draws.below(4));
    all.push(several);
    if text == WITH_LONGEST_OUTPUT {
        all.extend([MAX_OUT, MAX_OUT + 1].map(|m| least(m, losses, loss_bytes)));
    }
    all
}

/// The text with a byte that no text may have, or with two: what comes back is 3, or 4, or 2 before them.
fn spoilt(text: &str, draws: &mut Draws) -> Vec<Vec<u8>> {
    let mut with = |bad: &[&[u8]]| {
        let mut bytes = text.as_bytes().to_vec();
        for bad in bad {
            let at = draws.below(bytes.len() + 1);
            bytes.splice(at..at, bad.iter().copied());
        }
        bytes
    };
    vec![with(&[b"\0"]), with(&[b"\r"]), with(&[b"\xFF"]), with(&[b"\xED\xA0\x80"]), with(&[b"\r", b"\xC3"])]
}

/// The wrapper, which finds the sizes itself, held to the same answer.
fn hold_wrapped(operation: Operation, text: &str, answer: &Answer, converter: &mut Converter) -> Result<(), String> {
    let Operation::OnText(on_text) = operation else {
        let day = if answer.steps.is_empty() { Ok(String::from_utf8_lossy(&answer.text).into_owned()) } else { Err(Refusal::NotSeconds) };
        return if carve::day(text.as_bytes()) == day { Ok(()) } else { Err("the wrapper's day is another".to_string()) };
    };
    let most = Sizes::least(operation, text.len(), MAX_OUT, answer.losses.len(), answer.loss_bytes());
    let refusal = Refusal::from_number(answer.number(operation, text.as_bytes(), &most));
    let bytes = text.as_bytes();
    let converted = match on_text {
        carve::Operation::Post => converter.convert(bytes),
        carve::Operation::Quotes => converter.quotes(bytes),
        carve::Operation::Lists => converter.lists(bytes),
        carve::Operation::Attribution => converter.attribution(bytes),
        carve::Operation::Marks => match converter.marks(bytes) {
            Ok(marked) if !marked.spans.iter().flat_map(|&(start, end)| [start as u32, end as u32]).eq(answer.spans.iter().copied()) => {
                return Err(format!("the wrapper's spans are {:?}", marked.spans))
            }
            Ok(marked) => Ok(carve::Converted { text: marked.text, origins: marked.origins, losses: vec![] }),
            Err(refusal) => Err(refusal),
        },
    };
    match (converted, refusal) {
        (Err(found), Some(refusal)) if found == refusal => Ok(()),
        (Ok(found), None) => {
            compare("the wrapper's text", &answer.text, found.text.as_bytes())?;
            compare("the wrapper's origins", &answer.origins, &found.origins)?;
            let losses: Vec<Loss> = found.losses.into_iter().map(|loss| (loss.quote, loss.line, loss.unnamed, loss.field)).collect();
            if found.text.len() != answer.text.len() || found.origins.len() != answer.origins.len() || losses != answer.losses {
                return Err(format!("the wrapper's losses are {losses:?}, or its text is too short"));
            }
            Ok(())
        }
        (found, refusal) => Err(format!("the wrapper answers {:?} and not {refusal:?}", found.err())),
    }
}

/// Tries one text. An error says what differs, at which sizes.
pub fn check(operation: Operation, text: &str, memory: &mut Memory, seed: u64, tally: &mut Tally) -> Result<(), String> {
    let mut draws = Draws::of(seed, text.as_bytes());
    let answer = Answer::of(operation, text)?;
    hold_wrapped(operation, text, &answer, &mut memory.converter)?;
    tally.trials += 1;
    tally.losses += answer.losses.len() as u64;
    tally.marks += answer.spans.len() as u64 / 2;
    let before = tally.calls;
    let mut call = |bytes: &[u8], answer: &Answer, sizes: &Sizes, draws: &mut Draws| {
        let number = answer.number(operation, bytes, sizes);
        tally.calls += 1;
        tally.numbers[number as usize] += 1;
        let left = memory.call(operation, bytes, sizes, draws).map_err(|wrong| format!("{wrong}, lent {sizes:?}"))?;
        hold(answer, number, &left).map_err(|wrong| format!("{wrong}, lent {sizes:?}"))?;
        if let (0, Some(taken)) = (number, &answer.taken) {
            let length = left.counts[0] as usize;
            model::demand3(text, &left.out[..length], &left.origins[..length], taken)?;
        }
        Ok::<(), String>(())
    };
    for sizes in sizes(operation, text, &answer, &mut draws) {
        call(text.as_bytes(), &answer, &sizes, &mut draws)?;
    }
    if operation != Operation::Day {
        let spoilt = spoilt(text, &mut draws);
        // Long texts are spoilt once, since each call costs.
        let (from, many) = if text.len() < 4096 { (0, spoilt.len()) } else { (draws.below(spoilt.len()), 1) };
        for bytes in &spoilt[from..from + many] {
            let refused = Answer::refused(vec![]);
            let mut sizes = Sizes::least(operation, bytes.len(), draws.below(9), 1, 1);
            if draws.below(4) == 0 {
                sizes.numbers -= 1;
            }
            call(bytes, &refused, &sizes, &mut draws)?;
        }
    }
    tally.attributed += u64::from(answer.attributions.met > 0);
    if answer.attributions.stood_in > 0 {
        tally.stood_in += 1;
        tally.stood_in_calls += tally.calls - before;
    }
    Ok(())
}

#[cfg(test)]
mod tests {
    use super::*;

    const POST: &str = "[quote=Ann;7 rank=3]Seed [b]late[/b][/quote]";

    /// A call with room, held to an answer that was changed: is it told from the right one?
    fn told(operation: Operation, text: &str, change: impl FnOnce(&mut Answer)) -> bool {
        let mut answer = Answer::of(operation, text).expect("one answer");
        let sizes = Sizes::least(operation, text.len(), answer.need() + 9, answer.losses.len() + 2, answer.loss_bytes() + 3);
        let mut memory = Memory::default();
        let left = memory.call(operation, text.as_bytes(), &sizes, &mut Draws::at(1, 1)).expect("guards stay whole");
        assert_eq!(hold(&answer, 0, &left), Ok(()));
        assert!(hold(&answer, 6, &left).is_err());
        change(&mut answer);
        hold(&answer, 0, &left).is_err()
    }

    #[test]
    fn wrong_answers_are_told() {
        assert!(told(Operation::POST, POST, |answer| answer.text[3] ^= 1));
        assert!(told(Operation::POST, POST, |answer| answer.text.push(b'x')));
        assert!(told(Operation::POST, POST, |answer| _ = answer.text.pop()));
        assert!(told(Operation::POST, POST, |answer| answer.origins[5] += 1));
        assert!(told(Operation::POST, POST, |answer| answer.losses[0].0 = 2));
        assert!(told(Operation::POST, POST, |answer| answer.losses[0].1 = 2));
        assert!(told(Operation::POST, POST, |answer| answer.losses[0].2 = true));
        assert!(told(Operation::POST, POST, |answer| answer.losses[0].3 = "ränk".into()));
        assert!(told(Operation::POST, POST, |answer| drop(answer.losses.pop())));
        assert!(told(Operation::MARKS, "[b]x[/b]", |answer| answer.spans[1] = 2));
    }

    /// An answer that splits `;digits` off after all, as the original does.
    #[test]
    fn answers_that_split_are_told() {
        let split = |answer: &mut Answer, source: &str| {
            let (caption, losses) = oracle::attribution(source);
            answer.text = caption.into_bytes();
            answer.losses = losses.into_iter().map(|(field, unnamed)| (0, 0, unnamed, field)).collect();
        };
        for source in ["Ann;7", "Ann;7;8", "x ;7", "id=x a;7", "name=N x ;7", "name=N \"x\" ;7"] {
            assert!(told(Operation::ATTRIBUTION, source, |answer| split(answer, source)), "{source}");
        }
        for source in [";7", "name=N ;7", "Rook;2 \"3\"", "\"42\" Ann;7"] {
            assert!(!told(Operation::ATTRIBUTION, source, |answer| split(answer, source)), "{source}");
        }
        let original = oracle::post(POST, oracle::NO_RULE).0;
        assert!(told(Operation::POST, POST, |answer| answer.text = original.into_bytes()));
    }

    #[test]
    fn trials_in_which_the_model_stands_in_are_counted() {
        let mut tally = Tally::default();
        for text in ["[quote=Ann;7]x", "[quote=Ann]x", "[quote]x"] {
            assert_eq!(check(Operation::QUOTES, text, &mut Memory::default(), 1, &mut tally), Ok(()));
        }
        assert_eq!((tally.trials, tally.attributed, tally.stood_in), (3, 2, 1));
        assert!(0 < tally.stood_in_calls && tally.stood_in_calls < tally.calls);
    }

    #[test]
    fn every_refusal_of_a_post_is_met() {
        let mut tally = Tally::default();
        for text in [POST, &"[list]".repeat(65), &"a".repeat(carve::MAX_TEXT + 1)] {
            assert_eq!(check(Operation::POST, text, &mut Memory::default(), 1, &mut tally), Ok(()));
        }
        assert!((0..9).all(|number| tally.numbers[number] > 0), "{:?}", tally.numbers);
    }

    /// The impostors that demand 3 is there to catch, and a byte copied twice or out of its order.
    #[test]
    fn demand_3_catches_impostors() {
        let post = model::post(POST);
        let text = model::bytes(&post.lists.text);
        let origins: Vec<u32> = post.lists.text.iter().map(|c| c.origin).collect();
        let demand = |text: &[u8], origins: &[u32]| model::demand3(POST, text, origins, &post.taken);
        assert_eq!(demand(&text, &origins), Ok(()));
        let echoed: Vec<u32> = (1..=POST.len() as u32).collect();
        assert!(demand(POST.as_bytes(), &echoed).is_err());
        assert!(demand(b"", &[]).is_err());
        assert!(demand(&text, &vec![0; text.len()]).is_err());
        let first = origins.iter().position(|&origin| origin != 0).expect("a copied byte");
        let mut twice = (text.clone(), origins.clone());
        twice.0.insert(first, text[first]);
        twice.1.insert(first, origins[first]);
        assert!(demand(&twice.0, &twice.1).is_err());
        let mut other = text.clone();
        other[first] ^= 1;
        assert!(demand(&other, &origins).is_err());
    }
}
