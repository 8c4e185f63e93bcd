//! The places of a Rattle source at which one token can be changed, and what it can be changed to. What a function
//! promises, declarations, types and remarks are left alone: only what runs is changed.

use std::collections::BTreeMap;

/// A place, counted in bytes, what stands there, and what can stand there instead.
#[derive(Clone, Debug, PartialEq)]
pub struct Site {
    pub at: usize,
    pub old: String,
    pub new: Vec<String>,
}

/// What sources declare: constants and cases with their types, and what functions answer.
#[derive(Default)]
pub struct Names {
    /// Of each owner, the names with what is written of their types.
    owned: BTreeMap<String, Vec<(String, String)>>,
    /// None: functions of one name differ in it.
    answers: BTreeMap<String, Option<String>>,
}

#[derive(Clone, Copy)]
struct Token<'a> {
    text: &'a str,
    at: usize,
}

/// A local or an argument: the depth of its block, and its type where that can be told from what is written.
struct Local {
    name: String,
    kind: Option<String>,
    depth: usize,
}

const SIGNS: [&str; 20] = [
    "..=", "<<=", ">>=", "::", "->", "=>", "==", "!=", "<=", ">=", "&&", "||", "+=", "-=", "*=", "/=", "%=", "..",
    "<<", ">>",
];
/// What stands between two operands, and what can stand there instead.
const SWAPS: [(&str, &str); 15] = [
    ("<", "<="),
    ("<=", "<"),
    (">", ">="),
    (">=", ">"),
    ("==", "!="),
    ("!=", "=="),
    ("+", "-"),
    ("-", "+"),
    ("*", "+"),
    ("/", "%"),
    ("%", "/"),
    ("&&", "||"),
    ("||", "&&"),
    ("+=", "-="),
    ("-=", "+="),
];
/// Behind these no operand has ended, so that what follows takes one operand and not two.
const KEYWORDS: [&str; 9] = ["return", "if", "else", "while", "match", "in", "mut", "let", "as"];

impl Names {
    /// Adds what one more source declares.
    pub fn read(&mut self, text: &str) {
        let tokens = code(text);
        let mut owner = (String::new(), 0);
        let mut i = 0;
        while i < tokens.len() {
            match tokens[i].text {
                "impl" => {
                    let open = find(&tokens, i, "{");
                    owner = (said(&tokens, i + 1).to_string(), matching(&tokens, open));
                    i = open;
                }
                "const" if i < owner.1 => {
                    let (name, equals) = (said(&tokens, i + 1).to_string(), find(&tokens, i, "="));
                    let kind = joined(&tokens, i + 3, equals);
                    self.owned.entry(owner.0.clone()).or_default().push((name, kind));
                    i = equals;
                }
                "enum" => {
                    let open = find(&tokens, i, "{");
                    let close = matching(&tokens, open);
                    let cases = self.owned.entry(said(&tokens, i + 1).to_string()).or_default();
                    let mut k = open + 1;
                    while k < close {
                        let end = match said(&tokens, k + 1) {
                            "(" => matching(&tokens, k + 1) + 1,
                            _ => k + 1,
                        };
                        cases.push((tokens[k].text.to_string(), joined(&tokens, k + 1, end)));
                        k = end + 1;
                    }
                    i = close;
                }
                "fn" => {
                    let close = matching(&tokens, parameters(&tokens, i));
                    let open = find(&tokens, close, "{");
                    let answer = Some(joined(&tokens, close + 2, open)).filter(|kind| !kind.contains("Self"));
                    let known = self.answers.entry(said(&tokens, i + 1).to_string());
                    let known = known.or_insert_with(|| answer.clone());
                    if *known != answer {
                        *known = None;
                    }
                    i = open;
                }
                _ => {}
            }
            i += 1;
        }
    }

    /// The other names of an owner that are of the same type.
    fn alike(&self, owner: &str, name: &str) -> Vec<String> {
        let Some(owned) = self.owned.get(owner) else {
            return Vec::new();
        };
        let Some((_, kind)) = owned.iter().find(|(own, _)| own == name) else {
            return Vec::new();
        };
        let others = owned.iter().filter(|(own, other)| own != name && other == kind);
        others.map(|(own, _)| own.clone()).collect()
    }
}

/// The places of a source, in its order.
pub fn sites(text: &str, names: &Names) -> Vec<Site> {
    let tokens = code(text);
    let mut sites = Vec::new();
    let mut i = 0;
    while i < tokens.len() {
        match tokens[i].text {
            "struct" | "enum" => i = matching(&tokens, find(&tokens, i, "{")),
            "impl" => i = find(&tokens, i, "{"),
            "const" => {
                let (from, end) = (find(&tokens, i, "="), find(&tokens, i, ";"));
                body(&tokens, from, end, Vec::new(), names, &mut sites);
                i = end;
            }
            "fn" => {
                let parameters = parameters(&tokens, i);
                let close = matching(&tokens, parameters);
                let open = find(&tokens, close, "{");
                let end = matching(&tokens, open);
                let arguments = arguments(&tokens, parameters + 1, close);
                body(&tokens, open, end, arguments, names, &mut sites);
                i = end;
            }
            _ => {}
        }
        i += 1;
    }
    sites
}

/// The places between two tokens, with the arguments in scope.
fn body(tokens: &[Token], from: usize, end: usize, arguments: Vec<Local>, names: &Names, sites: &mut Vec<Site>) {
    let mut scope = arguments;
    // What a `let` binds is in scope behind its semicolon.
    let mut bound: Vec<(usize, Local)> = Vec::new();
    // Of each open brace, whether it is a record's.
    let mut records: Vec<bool> = Vec::new();
    for i in from..end {
        let (text, before, after) = (tokens[i].text, said(tokens, i.wrapping_sub(1)), said(tokens, i + 1));
        let mut new: Vec<String> = Vec::new();
        match text {
            // The body's own brace follows the type of the answer.
            "{" if i == from => records.push(false),
            "{" => records.push(before.starts_with(char::is_uppercase) && before.contains(char::is_lowercase)),
            "}" => {
                records.pop();
                scope.retain(|local| local.depth <= records.len());
            }
            "let" => bound.push(binding(tokens, i, &scope, names, records.len())),
            "true" => new.push("false".to_string()),
            "false" => new.push("true".to_string()),
            _ if before != "." && text.starts_with(|first: char| first.is_ascii_digit()) => new = beside(text),
            _ if is_name(text) => {
                let binder = before == "let" || (before == "mut" && said(tokens, i.wrapping_sub(2)) == "let");
                if before == "::" {
                    new = names.alike(said(tokens, i.wrapping_sub(2)), text);
                } else if !binder && before != "." && !["::", "(", ":"].contains(&after) {
                    new = others(&scope, text);
                    // A field that is named like the local it is given keeps its name.
                    let record = records.last() == Some(&true);
                    if record && ["{", ","].contains(&before) && ["}", ","].contains(&after) {
                        new = new.iter().map(|other| format!("{text}: {other}")).collect();
                    }
                }
            }
            _ if ends_operand(before) => {
                let swap = SWAPS.iter().find(|(own, _)| *own == text);
                new.extend(swap.map(|(_, other)| other.to_string()));
            }
            _ => {}
        }
        if !new.is_empty() {
            sites.push(Site {
                at: tokens[i].at,
                old: text.to_string(),
                new,
            });
        }
        while let Some(place) = bound.iter().position(|(at, _)| *at == i) {
            scope.push(bound.remove(place).1);
        }
    }
}

/// What a `let` binds, and the place of its semicolon.
fn binding(tokens: &[Token], at: usize, scope: &[Local], names: &Names, depth: usize) -> (usize, Local) {
    let name = at + 1 + usize::from(said(tokens, at + 1) == "mut");
    let equals = find(tokens, name, "=");
    let mut end = equals;
    while end < tokens.len() && tokens[end].text != ";" {
        end = match tokens[end].text {
            "(" | "[" | "{" => matching(tokens, end) + 1,
            _ => end + 1,
        };
    }
    let given = &tokens[(equals + 1).min(end)..end];
    let kind = match given {
        _ if said(tokens, name + 1) == ":" => Some(joined(tokens, name + 2, equals)),
        [one] => latest(scope, one.text).and_then(|local| local.kind.clone()),
        _ => {
            let call = given
                .iter()
                .take_while(|token| token.text == "::" || is_name(token.text))
                .count();
            let whole = said(given, call) == "(" && matching(given, call) + 1 == given.len();
            let answer = names.answers.get(said(given, call.wrapping_sub(1)));
            answer.filter(|_| whole).cloned().flatten()
        }
    };
    let name = said(tokens, name).to_string();
    (end, Local { name, kind, depth })
}

/// Where the parentheses of a function's arguments open, behind its name and what it is generic in.
fn parameters(tokens: &[Token], at: usize) -> usize {
    let mut depth = 0;
    let mut i = at + 2;
    while i < tokens.len() && (depth > 0 || tokens[i].text != "(") {
        match tokens[i].text {
            "<" => depth += 1,
            ">" => depth -= 1,
            ">>" => depth -= 2,
            _ => {}
        }
        i += 1;
    }
    i
}

/// The arguments between a function's parentheses.
fn arguments(tokens: &[Token], from: usize, close: usize) -> Vec<Local> {
    let mut arguments = Vec::new();
    let mut i = from;
    while i < close {
        let mut end = i;
        while end < close && tokens[end].text != "," {
            end = match tokens[end].text {
                "(" | "[" => matching(tokens, end) + 1,
                _ => end + 1,
            };
        }
        let name = i + usize::from(tokens[i].text == "mut");
        if said(tokens, name + 1) == ":" {
            arguments.push(Local {
                name: tokens[name].text.to_string(),
                kind: Some(joined(tokens, name + 2, end)),
                depth: 0,
            });
        }
        i = end + 1;
    }
    arguments
}

/// What a name stands for: the last that was bound under it.
fn latest<'a>(scope: &'a [Local], name: &str) -> Option<&'a Local> {
    scope.iter().rev().find(|local| local.name == name)
}

/// The other names in scope that are of the name's type, where that is known.
fn others(scope: &[Local], name: &str) -> Vec<String> {
    let Some(kind) = latest(scope, name).and_then(|local| local.kind.as_ref()) else {
        return Vec::new();
    };
    let mut others: Vec<String> = Vec::new();
    for local in scope.iter().filter(|local| local.name != name) {
        let seen = latest(scope, &local.name).and_then(|local| local.kind.as_ref());
        if seen == Some(kind) && !others.contains(&local.name) {
            others.push(local.name.clone());
        }
    }
    others
}

/// A number's neighbours, with its suffix.
fn beside(text: &str) -> Vec<String> {
    let digits = text.find(|sign: char| !sign.is_ascii_digit()).unwrap_or(text.len());
    let (digits, suffix) = text.split_at(digits);
    if suffix.starts_with(['x', 'b', 'o', '_']) {
        return Vec::new();
    }
    let number: Option<u64> = digits.parse().ok();
    let above = number.and_then(|number| number.checked_add(1));
    let below = number.and_then(|number| number.checked_sub(1));
    let both = above.into_iter().chain(below);
    both.map(|number| format!("{number}{suffix}")).collect()
}

fn is_name(text: &str) -> bool {
    text.starts_with(|first: char| first.is_alphabetic() || first == '_')
}

/// Whether an operand ends with the token, so that a sign behind it stands between two.
fn ends_operand(text: &str) -> bool {
    let word = text.starts_with(|first: char| first.is_alphanumeric() || first == '_');
    (word && !KEYWORDS.contains(&text)) || [")", "]"].contains(&text)
}

fn said<'a>(tokens: &[Token<'a>], at: usize) -> &'a str {
    tokens.get(at).map_or("", |token| token.text)
}

fn joined(tokens: &[Token], from: usize, end: usize) -> String {
    let end = end.min(tokens.len());
    (tokens[from.min(end)..end].iter()).map(|token| token.text).collect()
}

/// The next place of a token, or the end.
fn find(tokens: &[Token], from: usize, text: &str) -> usize {
    (from..tokens.len())
        .find(|at| tokens[*at].text == text)
        .unwrap_or(tokens.len())
}

/// Where the bracket at a place is closed, or the end.
fn matching(tokens: &[Token], open: usize) -> usize {
    let mut depth = 0;
    for (at, token) in tokens.iter().enumerate().skip(open) {
        match token.text {
            "(" | "[" | "{" => depth += 1,
            ")" | "]" | "}" => depth -= 1,
            _ => {}
        }
        if depth == 0 {
            return at;
        }
    }
    tokens.len()
}

/// The tokens of what runs and of declarations: no remark, attribute, contract, ghost member or `use`.
fn code(text: &str) -> Vec<Token<'_>> {
    let all = tokens(text);
    let mut code = Vec::new();
    let mut i = 0;
    while i < all.len() {
        match all[i].text {
            "use" => i = find(&all, i, ";"),
            "ghost" if said(&all, i + 1) == "use" => {}
            "ghost" => i = matching(&all, find(&all, i, "{")),
            "#" => i = matching(&all, find(&all, i, "[")),
            "requires" | "ensures" => i = matching(&all, find(&all, i, "{")),
            _ => code.push(all[i]),
        }
        i += 1;
    }
    code
}

fn tokens(text: &str) -> Vec<Token<'_>> {
    let mut tokens = Vec::new();
    let mut at = 0;
    while let Some(first) = text[at..].chars().next() {
        let rest = &text[at..];
        let word = |sign: char| sign.is_alphanumeric() || sign == '_';
        let length = if rest.starts_with("//") {
            rest.find('\n').unwrap_or(rest.len())
        } else if let Some(length) = quoted(rest) {
            length
        } else if word(first) {
            rest.find(|sign| !word(sign)).unwrap_or(rest.len())
        } else {
            let sign = SIGNS.iter().find(|sign| rest.starts_with(**sign));
            sign.map_or(first.len_utf8(), |sign| sign.len())
        };
        if !first.is_whitespace() && !rest.starts_with("//") {
            tokens.push(Token {
                text: &rest[..length],
                at,
            });
        }
        at += length;
    }
    tokens
}

/// The length of a text or a character in quotes, where one begins.
fn quoted(rest: &str) -> Option<usize> {
    let begin = rest.strip_prefix('b').unwrap_or(rest);
    let quote = begin.chars().next().filter(|quote| ['"', '\''].contains(quote))?;
    // A name behind a single quote, and no other quote behind its first sign, is a lifetime's.
    let mut signs = begin.chars().skip(1);
    if quote == '\'' && signs.next() != Some('\\') && signs.next() != Some('\'') {
        return None;
    }
    let mut escaped = false;
    for (at, sign) in begin.char_indices().skip(1) {
        match sign {
            '\n' => return None,
            _ if escaped => escaped = false,
            '\\' => escaped = true,
            _ if sign == quote => return Some(rest.len() - begin.len() + at + 1),
            _ => {}
        }
    }
    None
}
