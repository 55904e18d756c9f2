//! Calls on plans cut off, calls that tell what live branches are and plans that move two switches of a branch, with one mistake each, to see
//! that the questions tell them from right ones.

use crate::calls::{self, Question};
use crate::cases::Size;
use crate::reckoning::plan::{plan, Pair};
use crate::reckoning::resume::{lines, moves, Move};
use crate::reckoning::{Network, Refusal, CLOSED};
use crate::{wrong_ends, wrong_forms};

#[derive(Debug, Clone, Copy, PartialEq)]
enum Mistake {
    CountOfPairs,
    CountOf16Bits,
    CountOf32Bits,
    OpeningFirst,
    AllClosingsFirst,
    RemainingFromTheFirst,
    BackInOrder,
    BackNotInverted,
    BackByPairs,
    SlicesExchanged,
    AnswersDone,
    SixteenAtTheLast,
    SixteenBeforeTwelve,
    ThirteenBeforeSixteen,
    FirstSliceAloneTested,
    SecondSliceAloneTested,
    FirstWrittenBeforeThirteen,
    SecondWrittenBeforeThirteen,
}

const ALL: [Mistake; 18] = [
    Mistake::CountOfPairs,
    Mistake::CountOf16Bits,
    Mistake::CountOf32Bits,
    Mistake::OpeningFirst,
    Mistake::AllClosingsFirst,
    Mistake::RemainingFromTheFirst,
    Mistake::BackInOrder,
    Mistake::BackNotInverted,
    Mistake::BackByPairs,
    Mistake::SlicesExchanged,
    Mistake::AnswersDone,
    Mistake::SixteenAtTheLast,
    Mistake::SixteenBeforeTwelve,
    Mistake::ThirteenBeforeSixteen,
    Mistake::FirstSliceAloneTested,
    Mistake::SecondSliceAloneTested,
    Mistake::FirstWrittenBeforeThirteen,
    Mistake::SecondWrittenBeforeThirteen,
];

/// A call's answer, and what it writes into each slice.
type Outcome = (Result<usize, Refusal>, [String; 2]);

/// The call with a mistake, or with none.
struct Wrong(Option<Mistake>);

impl Wrong {
    fn has(&self, mistake: Mistake) -> bool {
        self.0 == Some(mistake)
    }

    fn output(&self, question: &Question) -> String {
        let refused = |refusal| (Err(refusal), Default::default());
        let (answer, written) = match question.network() {
            Ok(network) => self.outcome(&network, question).unwrap_or_else(refused),
            Err(refusal) => refused(refusal),
        };
        let fields = match answer {
            Ok(count) => format!(" {count:04x}"),
            Err(Refusal { number, place }) => question.refusal(number, place),
        };
        question.output(&fields, &written)
    }

    fn outcome(&self, network: &Network, question: &Question) -> Result<Outcome, Refusal> {
        let Question { present, wanted, rooms, .. } = question;
        let refusal = |number| Refusal { number, place: 0 };
        let pairs = plan(network, present, wanted, usize::MAX).map_err(|first| {
            let over = first.number == 12 && question.count > moved(network, present, wanted);
            if over && self.has(Mistake::SixteenBeforeTwelve) {
                refusal(16)
            } else {
                first
            }
        })?;
        let moves = self.moves(&pairs);
        let count = self.count(question.count, &pairs);
        let done = count.min(moves.len() as u64) as usize;
        let lists = self.lists(&moves, done, &pairs);
        let answer = if self.has(Mistake::AnswersDone) { done } else { lists[0].len() };
        let mut texts = lists.map(|list| lines(network, &list));
        if self.has(Mistake::SlicesExchanged) {
            texts.reverse();
        }
        let fits = [0, 1].map(|slice| texts[slice].len() <= rooms[slice]);
        let over = count > moves.len() as u64 || (self.has(Mistake::SixteenAtTheLast) && done == moves.len());
        let short = (!fits[0] && !self.has(Mistake::SecondSliceAloneTested))
            || (!fits[1] && !self.has(Mistake::FirstSliceAloneTested));
        if over && !(short && self.has(Mistake::ThirteenBeforeSixteen)) {
            return Err(refusal(16));
        }
        // As far as there is room, and nothing before a refusal.
        let early = [Mistake::FirstWrittenBeforeThirteen, Mistake::SecondWrittenBeforeThirteen];
        for slice in [0, 1] {
            let room = if short && !(fits[slice] && self.has(early[slice])) { 0 } else { rooms[slice] };
            texts[slice].truncate(room);
        }
        Ok((if short { Err(refusal(13)) } else { Ok(answer) }, texts))
    }

    fn count(&self, count: u64, pairs: &[Pair]) -> u64 {
        match self.0 {
            Some(Mistake::CountOfPairs) => {
                let whole = usize::try_from(count).ok().and_then(|count| pairs.get(..count));
                whole.map_or(u64::MAX, |whole| whole.iter().map(Pair::moves).sum::<usize>() as u64)
            }
            Some(Mistake::CountOf16Bits) => count & 0xFFFF,
            Some(Mistake::CountOf32Bits) => count & 0xFFFF_FFFF,
            _ => count,
        }
    }

    fn moves(&self, pairs: &[Pair]) -> Vec<Move> {
        let mut all = moves(pairs);
        match self.0 {
            Some(Mistake::OpeningFirst) => {
                let turned = |pair: &Pair| {
                    let mut turned = moves(std::slice::from_ref(pair));
                    turned.sort_by_key(|one| one.byte == CLOSED);
                    turned
                };
                all = pairs.iter().flat_map(turned).collect();
            }
            Some(Mistake::AllClosingsFirst) => all.sort_by_key(|one| one.byte),
            _ => (),
        }
        all
    }

    fn lists(&self, moves: &[Move], done: usize, pairs: &[Pair]) -> [Vec<Move>; 2] {
        let from = if self.has(Mistake::RemainingFromTheFirst) { 0 } else { done };
        let mut back = moves[..done].to_vec();
        if !self.has(Mistake::BackNotInverted) {
            back.iter_mut().for_each(|one| *one = one.inverted());
        }
        match self.0 {
            Some(Mistake::BackInOrder) => (),
            Some(Mistake::BackByPairs) => {
                let mut rest = back.into_iter();
                let by_pairs: Vec<Vec<Move>> =
                    pairs.iter().map(|pair| rest.by_ref().take(pair.moves()).collect()).collect();
                back = by_pairs.into_iter().rev().flatten().collect();
            }
            _ => back.reverse(),
        }
        [moves[from..].to_vec(), back]
    }
}

/// How many switches a plan would move.
fn moved(network: &Network, present: &[u8], wanted: &[u8]) -> u64 {
    let (before, after) = (network.live(present), network.live(wanted));
    let moved = |i: usize, branch: usize| present[i] != wanted[i] && before[branch] != after[branch];
    network.switches.iter().enumerate().filter(|(i, switch)| moved(*i, switch.branch)).count() as u64
}

/// For each mistake the first question that shows it; false if one is never seen.
pub fn all_caught(size: Size, seed: u64) -> bool {
    let questions = || calls::questions(size.questions, seed).chain(calls::form_questions(size.form_questions, seed));
    let Some(of_cut_plans) = of_cut_plans(calls::cut_plans(size.cut_plans, seed)) else { return false };
    let of_plans = of_ends(&wrong_ends::IN_PLANS, questions());
    let of_cut_ends = of_ends(&wrong_ends::IN_CUT_PLANS, calls::cut_plans(size.cut_plans, seed));
    let unseen = of_cut_plans + of_plans + of_cut_ends + of_forms("S", questions()) + of_forms("B", questions());
    let counts = [ALL.len(), wrong_forms::ALL.len(), wrong_ends::IN_PLANS.len(), wrong_ends::IN_CUT_PLANS.len()];
    println!(
        "{} mistakes with plans cut off, {} about what live branches are (S and B each), {} and {} about two switches on a branch (P and R), {unseen} never seen",
        counts[0], counts[1], counts[2], counts[3]
    );
    unseen == 0
}

/// The mistakes about what live branches are in the calls of a letter, and how many are never seen.
fn of_forms(letter: &str, questions: impl Iterator<Item = Vec<u8>>) -> usize {
    let mut unseen = wrong_forms::ALL.to_vec();
    for text in questions {
        let question = &calls::read(&text)[0];
        if unseen.is_empty() || !question.name.starts_with(letter) {
            continue;
        }
        let right = calls::answers(&text);
        unseen.retain(|&mistake| {
            let seen = question.output_with(mistake) != right;
            if seen {
                println!("question {:6}  {mistake:?}", question.name);
            }
            !seen
        });
    }
    unseen.iter().for_each(|mistake| println!("NEVER SEEN in {letter}  {mistake:?}"));
    unseen.len()
}

/// The mistakes about two switches on a branch in plans, or in plans cut off, and how many are never seen.
fn of_ends(mistakes: &[wrong_ends::Mistake], questions: impl Iterator<Item = Vec<u8>>) -> usize {
    let mut unseen = mistakes.to_vec();
    for text in questions {
        let question = &calls::read(&text)[0];
        if unseen.is_empty() || !question.asks_for_plan() || !question.network().is_ok_and(|n| n.has_two_on_branch()) {
            continue;
        }
        let right = calls::answers(&text);
        unseen.retain(|&mistake| {
            let seen = question.output_of_plan(mistake) != right;
            if seen {
                println!("question {:6}  {mistake:?}", question.name);
            }
            !seen
        });
    }
    unseen.iter().for_each(|mistake| println!("NEVER SEEN       {mistake:?}"));
    unseen.len()
}

/// How many mistakes with plans cut off are never seen; none if the call without a mistake answers otherwise than the reckoning.
fn of_cut_plans(questions: impl Iterator<Item = Vec<u8>>) -> Option<usize> {
    let mut unseen = ALL.to_vec();
    for text in questions {
        let right = calls::answers(&text);
        let question = &calls::read(&text)[0];
        if Wrong(None).output(question) != right {
            println!("without a mistake it answers otherwise:\n{}", String::from_utf8_lossy(&text));
            return None;
        }
        unseen.retain(|&mistake| {
            let seen = Wrong(Some(mistake)).output(question) != right;
            if seen {
                println!("question {:6}  {mistake:?}", question.name);
            }
            !seen
        });
    }
    unseen.iter().for_each(|mistake| println!("NEVER SEEN       {mistake:?}"));
    Some(unseen.len())
}
