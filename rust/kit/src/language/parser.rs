//! Reads a description into its tree.

mod brackets;
mod grammar;
mod nodes;
mod values;

use crate::language::description::{Description, Field, Name, Template, Text, Type, TypeForm};
use crate::language::lexer::{tokens, Token, Tokens};
use crate::language::rows::meant;
use crate::mistake::{Mistake, Position};

/// The words that begin a part of a description, and so are no names.
const PARTS: [&str; 5] = ["class", "production", "type", "template", "value"];

/// How deep nodes and values may nest in a description: past the 200 that the machine takes.
const DEEPEST: usize = 300;

/// What helps where the quotes of an attribute end a text.
const QUOTE: &str = r#"a " inside a text is written \""#;

type Parsed<T> = Result<T, Mistake>;

/// The tree of a description.
///
/// # Errors
/// The mistakes in its form, one for each part that has any, and those in its words; names are not
/// looked up here.
pub fn parse(description: &str) -> Result<Description, Vec<Mistake>> {
    let Tokens {
        found: tokens,
        mut mistakes,
        tight,
    } = tokens(description);
    let mut parser = Parser {
        tokens,
        next: 0,
        depth: 0,
    };
    let mut found = Description::default();
    while *parser.peek() != Token::End {
        if let Err(mistake) = parser.part(&mut found) {
            mistakes.push(mistake);
            parser.depth = 0;
            parser.skip_to_part();
        }
    }
    for mistake in &mut mistakes {
        if tight.contains(&mistake.at.line) {
            mistake.remarks.push(QUOTE.to_string());
        }
    }
    match mistakes.is_empty() {
        true => Ok(found),
        false => Err(mistakes),
    }
}

struct Parser {
    tokens: Vec<(Token, Position)>,
    next: usize,
    depth: usize,
}

impl Parser {
    fn peek(&self) -> &Token {
        &self.tokens[self.next].0
    }

    fn at(&self) -> Position {
        self.tokens[self.next].1
    }

    fn take(&mut self) -> Token {
        let token = self.peek().clone();
        if token != Token::End {
            self.next += 1;
        }
        token
    }

    /// A mistake at the next token: something else was expected.
    fn expected<T>(&self, what: &str) -> Parsed<T> {
        Err(Mistake::new(
            self.at(),
            format!("{what} is expected here, not {}", self.peek().called()),
        ))
    }

    fn sees_word(&self, word: &str) -> bool {
        matches!(self.peek(), Token::Word(w) if w == word)
    }

    fn sees_sign(&self, sign: char) -> bool {
        *self.peek() == Token::Sign(sign)
    }

    fn accept_sign(&mut self, sign: char) -> bool {
        let seen = self.sees_sign(sign);
        if seen {
            self.take();
        }
        seen
    }

    fn sign(&mut self, sign: char) -> Parsed<()> {
        if self.accept_sign(sign) {
            return Ok(());
        }
        self.expected(&format!("`{sign}`"))
    }

    fn word(&mut self, word: &str) -> Parsed<()> {
        if self.sees_word(word) {
            self.take();
            return Ok(());
        }
        self.expected(&format!("`{word}`"))
    }

    fn name(&mut self, what: &str) -> Parsed<Name> {
        let at = self.at();
        match self.peek().clone() {
            Token::Word(word) if PARTS.contains(&word.as_str()) => Err(Mistake::new(
                at,
                format!("{what} is expected here; `{word}` begins a part and is no name"),
            )),
            Token::Word(word) => {
                self.take();
                Ok(Name { word, at })
            }
            _ => self.expected(what),
        }
    }

    fn text(&mut self) -> Parsed<Text> {
        let at = self.at();
        match self.peek().clone() {
            Token::Text(bytes) => {
                self.take();
                Ok(Text { bytes, at })
            }
            _ => self.expected("a text in quotes"),
        }
    }

    fn count(&mut self, what: &str) -> Parsed<u16> {
        let at = self.at();
        let Token::Number(number) = *self.peek() else {
            return self.expected(what);
        };
        self.take();
        u16::try_from(number).map_err(|_| Mistake::new(at, format!("{what} is at most 65,535")))
    }

    /// Skips to the next part that begins a line: one in a line that has a mistake may be none.
    fn skip_to_part(&mut self) {
        while *self.peek() != Token::End && !self.begins_part() {
            self.next += 1;
        }
    }

    fn begins_part(&self) -> bool {
        let is_first = |before: usize| self.tokens[before].1.line < self.at().line;
        let is_part = matches!(self.peek(), Token::Word(word) if PARTS.contains(&word.as_str()));
        is_part && self.next.checked_sub(1).is_none_or(is_first)
    }

    /// One level further down, for nodes and values.
    fn deeper<T>(&mut self, thing: impl FnOnce(&mut Self) -> Parsed<T>) -> Parsed<T> {
        if self.depth == DEEPEST {
            return Err(Mistake::new(
                self.at(),
                format!("this nests over {DEEPEST} deep"),
            ));
        }
        self.depth += 1;
        let found = thing(self);
        self.depth -= 1;
        found
    }

    fn part(&mut self, found: &mut Description) -> Parsed<()> {
        let at = self.at();
        match self.take() {
            Token::Word(word) => match word.as_str() {
                "class" => found.classes.push(self.class()?),
                "production" => found.productions.push(self.production()?),
                "type" => found.types.push(self.type_part()?),
                "template" => found.templates.push(self.template()?),
                "value" if found.value.is_some() => {
                    self.value()?;
                    return Err(Mistake::new(at, "there is one value only"));
                }
                "value" => found.value = Some(self.value()?),
                _ => return Err(no_part(at, &Token::Word(word))),
            },
            token => return Err(no_part(at, &token)),
        }
        Ok(())
    }

    /// `type NAME = FORM`
    fn type_part(&mut self) -> Parsed<Type> {
        let name = self.name("the type's name")?;
        self.sign('=')?;
        let form = self.type_form()?;
        Ok(Type { name, form })
    }

    fn type_form(&mut self) -> Parsed<TypeForm> {
        if self.sees_word("text") {
            self.take();
            return Ok(TypeForm::Text(self.name("the text's class")?));
        }
        if self.sees_word("list") {
            self.take();
            return Ok(TypeForm::List(self.name("the type of the list's items")?));
        }
        if self.sees_word("record") {
            self.take();
            return Ok(TypeForm::Record(self.fields("a field's name")?));
        }
        if self.sees_word("variant") {
            self.take();
            return Ok(TypeForm::Variant(self.fields("a case's name")?));
        }
        if self.sees_word("yesno") {
            self.take();
            return Ok(TypeForm::YesNo);
        }
        self.expected("`text`, `yesno`, `list`, `record` or `variant`")
    }

    /// `{ NAME: TYPE .. }`, the fields of a record or the cases of a variant.
    fn fields(&mut self, what: &str) -> Parsed<Vec<Field>> {
        self.bracketed(['{', '}'], |parser| {
            let name = parser.key(what)?;
            parser.typed(name)
        })
    }

    /// `: TYPE` behind the name of a field, a case or a parameter.
    fn typed(&mut self, name: Name) -> Parsed<Field> {
        self.sign(':')?;
        let of = self.name("the name of a type")?;
        Ok(Field { name, of })
    }

    /// `template NAME (PARAMETER..) of NONTERMINAL = NODE`
    fn template(&mut self) -> Parsed<Template> {
        let name = self.name("the template's name")?;
        let parameters = self.parameters()?;
        self.word("of")?;
        let nonterminal = self.name("the template's nonterminal")?;
        self.sign('=')?;
        let body = self.node()?;
        Ok(Template {
            name,
            parameters,
            nonterminal,
            body,
        })
    }
}

fn no_part(at: Position, token: &Token) -> Mistake {
    let near = match token {
        Token::Word(word) => meant(word, PARTS.into_iter(), 0),
        _ => String::new(),
    };
    let called = token.called();
    Mistake::new(
        at,
        format!(
            "`class`, `production`, `type`, `template` or `value` is expected here, not {called}{near}"
        ),
    )
}

#[cfg(test)]
mod tests;
