//! Which groups without delimiters need round brackets in the text.
//!
//! What `macro_rules!` puts in place of `$e` is such a group: with `1 + 2` for `$e`, `$e * 2` is 6. In a text without the
//! group it would be 5. Brackets keep it together where it holds an operator and has another one beside it. Names, paths,
//! types, visibilities and single literals hold no operator and never get brackets, in which they might not be read.

use proc_macro::{Delimiter, Group, Spacing, TokenTree};

/// Whether the token at an index is a group without delimiters that would come apart in the text.
pub fn needs_brackets(tokens: &[TokenTree], index: usize) -> bool {
    let Some(content) = invisible(&tokens[index]).map(tokens_of) else {
        return false;
    };
    let (before, after) = (&tokens[..index], &tokens[index + 1..]);
    if has_binary_operator(&content) {
        ends_with_operator(before) || starts_with_operator(after) || starts_with_postfix(after)
    } else {
        has_prefix(&content) && starts_with_postfix(after)
    }
}

fn invisible(token: &TokenTree) -> Option<&Group> {
    match token {
        TokenTree::Group(group) if group.delimiter() == Delimiter::None => Some(group),
        _ => None,
    }
}

/// The tokens of a group, without further groups around all of them.
fn tokens_of(group: &Group) -> Vec<TokenTree> {
    let tokens: Vec<TokenTree> = group.stream().into_iter().collect();
    match &tokens[..] {
        [only] => invisible(only).map(tokens_of).unwrap_or(tokens),
        _ => tokens,
    }
}

/// The character of a punctuation token.
fn character(token: &TokenTree) -> Option<char> {
    match token {
        TokenTree::Punct(punct) => Some(punct.as_char()),
        _ => None,
    }
}

/// The character of a punctuation token that joins with the next one.
fn joint_character(token: &TokenTree) -> Option<char> {
    match token {
        TokenTree::Punct(punct) if punct.spacing() == Spacing::Joint => Some(punct.as_char()),
        _ => None,
    }
}

fn is_word(token: &TokenTree, words: &[&str]) -> bool {
    matches!(token, TokenTree::Ident(word) if words.contains(&word.to_string().as_str()))
}

/// Whether an operator stands in front of an expression. `=`, `:`, `::` and separators are none.
fn ends_with_operator(before: &[TokenTree]) -> bool {
    let Some((last, front)) = before.split_last() else {
        return false;
    };
    match character(last) {
        Some('=') => front
            .last()
            .is_some_and(|token| joint_character(token).is_some()),
        Some(',' | ';' | ':') | None => false,
        Some(_) => true,
    }
}

/// Whether a binary operator or a cast stands behind an expression.
fn starts_with_operator(after: &[TokenTree]) -> bool {
    let Some(first) = after.first() else {
        return false;
    };
    match character(first) {
        Some('=') => joint_character(first).is_some(),
        Some(',' | ';' | ':') => false,
        Some(_) => true,
        None => is_word(first, &["as"]),
    }
}

/// Whether a call, an index, a field or a `?` stands behind an expression.
fn starts_with_postfix(after: &[TokenTree]) -> bool {
    match after.first() {
        Some(TokenTree::Group(group)) => matches!(
            group.delimiter(),
            Delimiter::Parenthesis | Delimiter::Bracket
        ),
        Some(token) => matches!(character(token), Some('.' | '?')),
        None => false,
    }
}

fn has_prefix(content: &[TokenTree]) -> bool {
    matches!(content, [first, _, ..] if matches!(character(first), Some('-' | '!' | '*' | '&')))
}

/// Whether the tokens are operands with binary operators or casts between them. In a type with `dyn` or `impl`, `+` is
/// none.
fn has_binary_operator(content: &[TokenTree]) -> bool {
    !content.iter().any(|token| is_word(token, &["dyn", "impl"]))
        && (1..content.len()).any(|index| is_binary_operator(content, index))
}

fn is_binary_operator(content: &[TokenTree], index: usize) -> bool {
    let (before, token, after) = (&content[..index], &content[index], &content[index + 1..]);
    let Some(operator) = character(token) else {
        return is_word(token, &["as"]) && open_angles(before) == 0;
    };
    let next = joint_character(token)
        .and(after.first())
        .and_then(character);
    ends_operand(before)
        && match operator {
            '+' | '*' | '/' | '%' | '^' | '|' | '&' => true,
            '-' => next != Some('>'),
            '=' | '!' => next == Some('='),
            '<' => !after.iter().any(|token| character(token) == Some('>')),
            '>' => open_angles(before) == 0,
            _ => false,
        }
}

/// How many `<` are open behind the tokens, if each is an angle bracket.
fn open_angles(tokens: &[TokenTree]) -> usize {
    let mut open: usize = 0;
    let mut previous = None;
    for token in tokens.iter().map(character) {
        match token {
            Some('<') => open += 1,
            Some('>') if previous != Some('-') => open = open.saturating_sub(1),
            _ => {}
        }
        previous = token;
    }
    open
}

/// Whether an operand ends here: a literal, a group or a word, but no keyword of a type and no lifetime.
fn ends_operand(tokens: &[TokenTree]) -> bool {
    match tokens {
        [.., quote, TokenTree::Ident(_)] if character(quote) == Some('\'') => false,
        [.., last @ TokenTree::Ident(_)] => !is_word(last, &["as", "const", "mut", "for", "where"]),
        [.., TokenTree::Group(_) | TokenTree::Literal(_)] => true,
        [.., last] => character(last) == Some('?'),
        [] => false,
    }
}
