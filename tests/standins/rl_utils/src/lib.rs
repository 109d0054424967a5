//! Stands in for what the published machine imports from `rl_utils`. A span is the place of a code
//! byte: that is what lets an error name its chunk and offset.

pub mod span {
    /// The place of a code byte: the number of its chunk and its offset in it.
    #[derive(Debug, Clone, Copy, PartialEq, Eq)]
    pub struct Span {
        pub chunk: u16,
        pub offset: u16,
    }

    impl Span {
        /// A place that no image has: at most 64 chunks, at most 4,096 code bytes.
        pub const NOWHERE: Span = Span {
            chunk: u16::MAX,
            offset: u16::MAX,
        };

        pub fn dummy() -> Self {
            Self::NOWHERE
        }
    }

    impl Default for Span {
        fn default() -> Self {
            Self::NOWHERE
        }
    }
}

pub mod errors {
    use crate::line_index::LineIndex;
    use crate::source::SourceFile;
    use crate::span::Span;

    #[derive(Debug, Clone, Copy, PartialEq, Eq)]
    pub enum Reason {
        Runtime,
    }

    #[derive(Debug, Clone)]
    pub struct Error {
        pub reason: Reason,
        pub message: String,
        pub span: Span,
    }

    impl Error {
        pub fn at(reason: Reason, message: impl Into<String>, span: Span) -> Self {
            Self {
                reason,
                message: message.into(),
                span,
            }
        }

        pub fn with_span(mut self, span: Span) -> Self {
            self.span = span;
            self
        }

        pub fn with_source_file(self, _file: &SourceFile) -> Self {
            self
        }

        pub fn with_location_from(self, _index: &LineIndex) -> Self {
            self
        }
    }
}

pub mod line_index {
    pub struct LineIndex;
}

pub mod source {
    pub struct SourceFile;
}
