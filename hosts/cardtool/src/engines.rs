//! The engines that a build of the tool has: the proved one, out of the archive, and the second one.

use second::bytes;
use second::rules::Rules;

/// What an entry gives: the answer (0, or the cause of a refusal) and the second number.
#[derive(Clone, Copy, Debug, PartialEq, Eq)]
pub struct Verdict {
    pub answer: u32,
    pub second: u32,
}

/// The entries of an engine, as `card.h` has them.
pub trait Engine {
    /// What the tool calls it.
    fn name(&self) -> &'static str;
    fn check(&self, image: &[u8]) -> Verdict;
    fn empty(&self, image: &mut [u8]) -> Verdict;
    fn convert(&self, old: &[u8], image: &mut [u8]) -> Verdict;
    fn enlarge(&self, image: &[u8], large: &mut [u8]) -> Verdict;
    fn judge(&self, image: &mut [u8], record: &[u8]) -> Verdict;
    fn read_out(&self, image: &[u8], number: u32, out: &mut [u8]) -> Verdict;
}

/// The proved engine.
#[cfg(feature = "proved")]
pub struct Proved;

#[cfg(feature = "proved")]
impl Engine for Proved {
    fn name(&self) -> &'static str {
        "the proved engine"
    }

    fn check(&self, image: &[u8]) -> Verdict {
        card::exact::check(image).into()
    }

    fn empty(&self, image: &mut [u8]) -> Verdict {
        card::exact::empty(image).into()
    }

    fn convert(&self, old: &[u8], image: &mut [u8]) -> Verdict {
        card::exact::convert(old, image).into()
    }

    fn enlarge(&self, image: &[u8], large: &mut [u8]) -> Verdict {
        card::exact::enlarge(image, large).into()
    }

    fn judge(&self, image: &mut [u8], record: &[u8]) -> Verdict {
        card::exact::judge(image, record).into()
    }

    fn read_out(&self, image: &[u8], number: u32, out: &mut [u8]) -> Verdict {
        card::exact::read_out(image, number, out).into()
    }
}

#[cfg(feature = "proved")]
impl From<card::exact::Verdict> for Verdict {
    fn from(verdict: card::exact::Verdict) -> Verdict {
        Verdict { answer: verdict.answer, second: verdict.second }
    }
}

/// The second engine, by the rules in force.
pub struct Second;

impl Engine for Second {
    fn name(&self) -> &'static str {
        "the second engine (not proved)"
    }

    fn check(&self, image: &[u8]) -> Verdict {
        bytes::check(Rules::IN_FORCE, image).into()
    }

    fn empty(&self, image: &mut [u8]) -> Verdict {
        bytes::empty(Rules::IN_FORCE, image).into()
    }

    fn convert(&self, old: &[u8], image: &mut [u8]) -> Verdict {
        bytes::convert(old, image).into()
    }

    fn enlarge(&self, image: &[u8], large: &mut [u8]) -> Verdict {
        bytes::enlarge(image, large).into()
    }

    fn judge(&self, image: &mut [u8], record: &[u8]) -> Verdict {
        bytes::judge(Rules::IN_FORCE, image, record).into()
    }

    fn read_out(&self, image: &[u8], number: u32, out: &mut [u8]) -> Verdict {
        bytes::read_out(Rules::IN_FORCE, image, number, out).into()
    }
}

impl From<(u32, u32)> for Verdict {
    fn from((answer, second): (u32, u32)) -> Verdict {
        Verdict { answer, second }
    }
}

/// The engine that answers: the proved one where it is linked.
pub fn answering() -> &'static dyn Engine {
    #[cfg(feature = "proved")]
    return &Proved;
    #[cfg(not(feature = "proved"))]
    return &Second;
}

/// The engine that the answering one is compared with on request; `None` when only one is linked.
pub fn other() -> Option<&'static dyn Engine> {
    match cfg!(feature = "proved") {
        true => Some(&Second),
        false => None,
    }
}

/// What is said of this build in `--version` and `--help`.
pub fn linked() -> String {
    #[cfg(feature = "proved")]
    return format!("answers by the proved engine (logic {}); the second engine is there for --both", card::LOGIC);
    #[cfg(not(feature = "proved"))]
    return "answers by the second engine, which is NOT proved: built without the archive of the proved engine".into();
}
