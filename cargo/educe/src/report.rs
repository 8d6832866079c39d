//! Messages, the places that they name, and the compile errors that show them.

use proc_macro::{Delimiter, Group, Ident, Literal, Punct, Spacing, Span, TokenStream, TokenTree};

/// A place in a text: line and column, counted from 1. Columns count characters.
#[derive(Clone, Copy, Debug, PartialEq, Eq, PartialOrd, Ord)]
pub struct Place {
    pub line: usize,
    pub column: usize,
}

impl Place {
    pub const START: Place = Place { line: 1, column: 1 };

    /// The place behind a character that is at this one.
    pub fn after(self, c: char) -> Place {
        match c {
            '\n' => Place {
                line: self.line + 1,
                column: 1,
            },
            _ => Place {
                line: self.line,
                column: self.column + 1,
            },
        }
    }
}

/// Why a definition is rejected, and where.
#[derive(Debug, PartialEq, Eq)]
pub struct Rejection {
    pub place: Place,
    pub message: String,
}

impl Rejection {
    /// Reads `LINE:COLUMN: MESSAGE`.
    pub fn parse(text: &str) -> Option<Rejection> {
        let (line, rest) = text.split_once(':')?;
        let (column, message) = rest.split_once(": ")?;
        let place = Place {
            line: line.parse().ok()?,
            column: column.parse().ok()?,
        };
        Some(Rejection {
            place,
            message: message.to_owned(),
        })
    }
}

/// `::core::compile_error! { "MESSAGE" }`, each token of which is at the span.
pub fn compile_error(span: Span, message: &str) -> TokenStream {
    let mut text = Literal::string(message);
    text.set_span(span);
    let mut argument = Group::new(Delimiter::Brace, TokenTree::from(text).into());
    argument.set_span(span);
    let tokens = [
        punct(':', Spacing::Joint, span),
        punct(':', Spacing::Alone, span),
        Ident::new("core", span).into(),
        punct(':', Spacing::Joint, span),
        punct(':', Spacing::Alone, span),
        Ident::new("compile_error", span).into(),
        punct('!', Spacing::Alone, span),
        argument.into(),
    ];
    tokens.into_iter().collect()
}

fn punct(character: char, spacing: Spacing, span: Span) -> TokenTree {
    let mut punct = Punct::new(character, spacing);
    punct.set_span(span);
    punct.into()
}

#[cfg(test)]
mod tests {
    use super::*;

    #[test]
    fn a_message_has_its_place() {
        let found = Rejection::parse("1:28: the name `a` is repeated\nusage: a: b");
        let place = Place {
            line: 1,
            column: 28,
        };
        assert_eq!(
            found,
            Some(Rejection {
                place,
                message: "the name `a` is repeated\nusage: a: b".to_owned()
            })
        );
    }

    #[test]
    fn other_texts_have_no_place() {
        for text in [
            "",
            "usage: educe expand",
            "1:28 syntax error",
            "1:x: syntax error",
            "x:1: syntax error",
            "-1:2: a",
        ] {
            assert_eq!(Rejection::parse(text), None, "{text}");
        }
    }

    #[test]
    fn columns_count_characters_and_begin_anew_in_each_line() {
        let end = "aж\n\"б".chars().fold(Place::START, Place::after);
        assert_eq!(end, Place { line: 2, column: 3 });
    }
}
