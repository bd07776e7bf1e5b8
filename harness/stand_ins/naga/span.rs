//! Source places: none are kept.

#[derive(Clone, Copy, Debug, Default, PartialEq)]
pub struct Span;

#[derive(Debug)]
pub struct WithSpan<E>(E);

impl<E> WithSpan<E> {
    pub fn into_inner(self) -> E {
        self.0
    }
    pub fn and_then<F>(self, next: impl FnOnce(E) -> WithSpan<F>) -> WithSpan<F> {
        next(self.0)
    }
}

pub(crate) trait AddSpan: Sized {
    fn with_span(self) -> WithSpan<Self> {
        WithSpan(self)
    }
    fn with_span_handle<H, A>(self, _handle: H, _arena: &A) -> WithSpan<Self> {
        WithSpan(self)
    }
}

impl<E> AddSpan for E {}
