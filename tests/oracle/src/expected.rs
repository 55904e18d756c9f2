//! What `feeder` is to print: the original's 81 and 82 lines (with a supply, those of the steps with its loss), the reckoning's 84
//! line between them and its 86 lines, or its one 8F line.

use crate::driver::Original;
use crate::reckoning::form::{self, with_form, Form, ANSWER_LENGTH};
use crate::reckoning::plan::{self, Pair};
use crate::reckoning::{judge, reader, Network, Refusal};
use crate::supply;

/// The expected output, in the parts that come from different sources.
pub enum Expected {
    Refused(Refusal),
    Answered(Box<Answered>),
}

pub struct Answered {
    pub network: Network,
    /// The 81 line and the 82 lines.
    pub search: String,
    pub best: Vec<u8>,
    /// What the best state's live branches are.
    pub form: Form,
    /// The plan from the base to the best state; none when the base isn't radial.
    pub pairs: Option<Vec<Pair>>,
}

pub fn expected(text: &[u8]) -> Expected {
    let network = match reader::read(text) {
        Err(refusal) => return Expected::Refused(refusal),
        Ok(network) => network,
    };
    let original = Original::new(&network);
    let answer = supply::solve(&network);
    let base = network.base();
    let radial_base = judge::tree(&network, &network.live(&base));
    assert_eq!(radial_base, original.radial(&base), "the original and the judge disagree on the base");
    let form = form::form(&network, &network.live(&answer.best));
    assert_eq!(
        form == Form::Tree,
        original.radial(&answer.best),
        "the original and the reckoning disagree on the best state"
    );
    let pairs = radial_base.then(|| {
        plan::plan(&network, &base, &answer.best, usize::MAX).expect("from a radial base only refusal 13 can come")
    });
    Expected::Answered(Box::new(Answered { network, search: answer.lines, best: answer.best, form, pairs }))
}

impl Expected {
    pub fn output(&self) -> String {
        match self {
            Expected::Refused(refusal) => refusal.line(),
            Expected::Answered(answered) => answered.output(),
        }
    }

    /// What is wrong with an output; none if nothing is.
    pub fn fault(&self, output: &[u8]) -> Option<String> {
        match self {
            Expected::Refused(refusal) => {
                (output != refusal.line().as_bytes()).then(|| "the reckoning refuses this text otherwise".to_string())
            }
            Expected::Answered(answered) => answered.fault(output),
        }
    }
}

impl Answered {
    pub fn output(&self) -> String {
        with_form(&self.search, self.form.fields()) + &self.plan_lines()
    }

    pub fn plan_lines(&self) -> String {
        self.pairs.as_ref().map_or(String::new(), |pairs| plan::lines(&self.network, pairs))
    }

    fn fault(&self, output: &[u8]) -> Option<String> {
        let (first, moved) = self.search.split_at(ANSWER_LENGTH);
        let Some(rest) = output.strip_prefix(first.as_bytes()) else {
            return Some("the 81 line is not the original's".to_string());
        };
        let Some(rest) = rest.strip_prefix(form::line(self.form.fields()).as_bytes()) else {
            return Some("what follows the 81 line is not the reckoning's 84 line".to_string());
        };
        let Some(rest) = rest.strip_prefix(moved.as_bytes()) else {
            return Some("the 82 lines are not the original's".to_string());
        };
        if self.pairs.is_some() {
            let Some(printed) = self.printed_pairs(rest) else {
                return Some("what follows the 82 lines is no list of 86 lines with listed ids".to_string());
            };
            if let Some(fault) = judge::fault(&self.network, &self.network.base(), &self.best, &printed) {
                return Some(format!("the judge of plans: {fault}"));
            }
        }
        (rest != self.plan_lines().as_bytes()).then(|| "the 86 lines are not the reckoning's".to_string())
    }

    /// The pairs of the printed 86 lines, by the ids of the list.
    fn printed_pairs(&self, rest: &[u8]) -> Option<Vec<Pair>> {
        std::str::from_utf8(rest).ok()?.lines().map(|line| self.printed_pair(line.strip_prefix("86")?)).collect()
    }

    fn printed_pair(&self, fields: &str) -> Option<Pair> {
        let mut rest = fields;
        let mut field = |length: usize| {
            let (field, behind) = rest.split_at_checked(length)?;
            rest = behind;
            u16::from_str_radix(field, 16).ok()
        };
        let position = |id: u16| self.network.switches.iter().position(|s| s.id == id);
        let [closed, opened] = [(); 2].map(|()| {
            let count = field(2)?;
            (0..count).map(|_| position(field(4)?)).collect::<Option<Vec<usize>>>()
        });
        rest.is_empty().then_some(Pair { closed: closed?, opened: opened? })
    }
}
