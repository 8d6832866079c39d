//! The text of a definition, and the token at each place of it.

use proc_macro::{Delimiter, Group, Punct, Spacing, Span, TokenStream, TokenTree};

use crate::grouping::needs_brackets;
use crate::report::Place;

/// The text of a definition, and where its tokens begin.
pub struct Source {
    text: String,
    end: Place,
    tokens: Vec<(Place, Span)>,
}

impl Source {
    /// The definition as one line, unless a literal contains a line break, with one blank between two tokens.
    pub fn new(definition: TokenStream) -> Self {
        let mut source = Source {
            text: String::new(),
            end: Place::START,
            tokens: Vec::new(),
        };
        source.push_all(definition);
        source
    }

    pub fn text(&self) -> &str {
        &self.text
    }

    /// The span of the token that is at a place: the last one that begins there or before.
    pub fn span_at(&self, place: Place) -> Span {
        let after = self.tokens.partition_point(|(begin, _)| *begin <= place);
        after
            .checked_sub(1)
            .map_or_else(Span::call_site, |last| self.tokens[last].1)
    }

    fn push_all(&mut self, tokens: TokenStream) {
        let tokens: Vec<TokenTree> = tokens.into_iter().collect();
        for (index, token) in tokens.iter().enumerate() {
            match token {
                TokenTree::Group(group) => self.push_group(group, needs_brackets(&tokens, index)),
                TokenTree::Punct(punct) => self.push_punct(punct),
                other => self.push(&other.to_string(), other.span()),
            }
        }
    }

    fn push_group(&mut self, group: &Group, in_brackets: bool) {
        let delimiters = match group.delimiter() {
            Delimiter::Parenthesis => Some(("(", ")")),
            Delimiter::Bracket => Some(("[", "]")),
            Delimiter::Brace => Some(("{", "}")),
            Delimiter::None => in_brackets.then_some(("(", ")")),
        };
        if let Some((open, _)) = delimiters {
            self.push(open, group.span_open());
        }
        self.push_all(group.stream());
        if let Some((_, close)) = delimiters {
            self.push(close, group.span_close());
        }
    }

    /// A character that joins with the next token has no blank behind it.
    fn push_punct(&mut self, punct: &Punct) {
        self.mark(punct.span());
        self.extend(punct.as_char());
        if punct.spacing() == Spacing::Alone {
            self.extend(' ');
        }
    }

    fn push(&mut self, token: &str, span: Span) {
        self.mark(span);
        token.chars().for_each(|c| self.extend(c));
        self.extend(' ');
    }

    fn mark(&mut self, span: Span) {
        self.tokens.push((self.end, span));
    }

    fn extend(&mut self, c: char) {
        self.text.push(c);
        self.end = self.end.after(c);
    }
}
