//! Classes and productions.

use super::{Parsed, Parser, PARTS};
use crate::language::description::{Class, ClassForm, Element, Production, Range};
use crate::language::lexer::Token;

impl Parser {
    /// `class NAME LEAST to MOST { RANGE.. }` or `class NAME = escaped CLASS`
    pub(super) fn class(&mut self) -> Parsed<Class> {
        let name = self.name("the class's name")?;
        let form = match self.accept_sign('=') {
            true => {
                self.word("escaped")?;
                ClassForm::Escaped(self.name("the class that is escaped")?)
            }
            false => self.plain_class()?,
        };
        Ok(Class { name, form })
    }

    fn plain_class(&mut self) -> Parsed<ClassForm> {
        let least = self.count("the least number of characters")?;
        self.word("to")?;
        let most = self.count("the greatest number of characters")?;
        let ranges = self.bracketed(['{', '}'], Self::range)?;
        Ok(ClassForm::Plain {
            least,
            most,
            ranges,
        })
    }

    /// `POINT` or `POINT-POINT`
    fn range(&mut self) -> Parsed<Range> {
        let at = self.at();
        let lowest = self.point()?;
        let highest = if self.accept_sign('-') {
            self.point()?
        } else {
            lowest
        };
        Ok(Range {
            at,
            lowest,
            highest,
        })
    }

    fn point(&mut self) -> Parsed<u32> {
        match *self.peek() {
            Token::Point(point) => {
                self.take();
                Ok(point)
            }
            _ => self.expected("a code point, as U+0061 or 'a',"),
        }
    }

    /// `production NAME of NONTERMINAL = ELEMENT..`
    pub(super) fn production(&mut self) -> Parsed<Production> {
        let name = self.name("the production's name")?;
        self.word("of")?;
        let nonterminal = self.name("the production's nonterminal")?;
        self.sign('=')?;
        let mut elements = Vec::new();
        while let Some(element) = self.element()? {
            elements.push(element);
        }
        Ok(Production {
            name,
            nonterminal,
            elements,
        })
    }

    /// An element, unless the production ends here.
    fn element(&mut self) -> Parsed<Option<Element>> {
        match self.peek() {
            Token::End => Ok(None),
            Token::Word(word) if PARTS.contains(&word.as_str()) => Ok(None),
            Token::Text(_) => Ok(Some(Element::Keyword(self.text()?))),
            _ => {
                let name = self.name("a keyword, a class or a nonterminal")?;
                Ok(Some(if self.accept_sign('*') {
                    Element::Many(name, self.separator()?)
                } else {
                    Element::One(name)
                }))
            }
        }
    }
}
