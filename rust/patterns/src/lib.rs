//! `regex` as the original sees it. The original compiles its patterns anew in every call, which is most of what it costs on a short text. A thread
//! that calls `keep` compiles each pattern once and keeps it; the answers are the same. Where time is measured nobody calls `keep`.

pub use regex::{escape, Captures, Error, Match};
use std::{cell::RefCell, collections::HashMap, ops::Deref, rc::Rc};

thread_local! {
    static KEPT: RefCell<Option<HashMap<String, Regex>>> = const { RefCell::new(None) };
}

/// From now on this thread keeps its compiled patterns.
pub fn keep() {
    KEPT.with(|kept| {
        kept.borrow_mut().get_or_insert_with(HashMap::new);
    });
}

#[derive(Clone)]
pub struct Regex(Rc<regex::Regex>);

impl Regex {
    pub fn new(pattern: &str) -> Result<Regex, Error> {
        if let Some(found) = KEPT.with(|kept| kept.borrow().as_ref().and_then(|k| k.get(pattern).cloned())) {
            return Ok(found);
        }
        let compiled = Regex(Rc::new(regex::Regex::new(pattern)?));
        KEPT.with(|kept| {
            if let Some(kept) = kept.borrow_mut().as_mut() {
                kept.insert(pattern.to_string(), compiled.clone());
            }
        });
        Ok(compiled)
    }
}

impl Deref for Regex {
    type Target = regex::Regex;
    fn deref(&self) -> &regex::Regex {
        &self.0
    }
}

#[cfg(test)]
mod tests {
    use super::*;

    #[test]
    fn a_pattern_is_kept_only_where_asked_for() {
        let same = || {
            let (a, b) = (Regex::new("x+").expect("a pattern"), Regex::new("x+").expect("a pattern"));
            assert_eq!(a.find("axx").map(|m| m.start()), Some(1));
            Rc::ptr_eq(&a.0, &b.0)
        };
        assert!(!same());
        keep();
        assert!(same());
    }
}
