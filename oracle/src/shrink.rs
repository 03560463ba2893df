//! Makes a question smaller while a property of it stays, so that a difference is shown on a small text.

use std::ops::Range;

/// A question about a text, which can be asked about another text too.
pub trait Question: Clone {
    fn text(&self) -> &[u8];

    fn about(&self, text: Vec<u8>) -> Self;

    /// Parts of the text that are left out before any others, such as declarations.
    fn parts(&self) -> Vec<Range<usize>> {
        Vec::new()
    }

    /// The same text with the lowest limits and storage that it needs, and with a little more storage.
    fn lowered(&self) -> Vec<Self>;
}

/// A text of at most so many bytes is tried without each of its parts.
const FEW: usize = 300;

/// Takes out ever smaller parts of the text while the property holds, then lowers limits and storage.
pub fn shrunk<Q: Question>(mut question: Q, holds: &impl Fn(&Q) -> bool) -> Q {
    while let Some(smaller) = question.parts().into_iter().rev().find_map(|part| without(&question, part, holds)) {
        question = smaller;
    }
    let mut size = question.text().len();
    while size > 0 {
        let smaller = without_parts(&question, size, holds);
        let repeat = size == 1 && smaller.text().len() < question.text().len();
        question = smaller;
        size = if repeat { 1 } else { size / 2 };
    }
    while let Some(smaller) = without_any_part(&question, holds) {
        question = smaller;
    }
    lowest(&question, holds).unwrap_or(question)
}

/// One pass from the end to the start, so that places not yet tried stay where they are.
fn without_parts<Q: Question>(question: &Q, size: usize, holds: &impl Fn(&Q) -> bool) -> Q {
    let mut question = question.clone();
    for start in (0..question.text().len()).step_by(size).rev() {
        let end = question.text().len().min(start + size);
        question = without(&question, start..end, holds).unwrap_or(question);
    }
    question
}

/// Without the longest part that can be left out, such as a whole declaration.
fn without_any_part<Q: Question>(question: &Q, holds: &impl Fn(&Q) -> bool) -> Option<Q> {
    let length = Some(question.text().len()).filter(|length| *length <= FEW)?;
    let parts = (1..=length).rev().flat_map(|size| (0..=length - size).map(move |start| start..start + size));
    parts.into_iter().find_map(|part| without(question, part, holds))
}

/// The question without a part of its text, if the property holds there too.
fn without<Q: Question>(question: &Q, part: Range<usize>, holds: &impl Fn(&Q) -> bool) -> Option<Q> {
    let mut text = question.text().to_vec();
    text.drain(part);
    let smaller = question.about(text);
    if holds(&smaller) { Some(smaller) } else { lowest(&smaller, holds) }
}

/// The same text with the lowest limits and storage, if the property holds there too.
fn lowest<Q: Question>(question: &Q, holds: &impl Fn(&Q) -> bool) -> Option<Q> {
    question.lowered().into_iter().find(holds)
}
