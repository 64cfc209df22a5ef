//! Nodes of templates and their paths.

use super::{Parsed, Parser};
use crate::language::description::{Arm, By, Node, NodeForm, Path, Step};
use crate::language::lexer::Token;
use crate::mistake::Mistake;

impl Parser {
    pub(super) fn node(&mut self) -> Parsed<Node> {
        self.deeper(|parser| {
            let at = parser.at();
            let form = parser.node_form()?;
            Ok(Node { at, form })
        })
    }

    fn node_form(&mut self) -> Parsed<NodeForm> {
        let word = match self.peek().clone() {
            Token::Word(word) => word,
            Token::Text(_) => return self.expected("a node (`literal` writes a text)"),
            _ => return self.expected("a node"),
        };
        let form: fn(&mut Self) -> Parsed<NodeForm> =
            match word.as_str() {
                "build" => Self::build,
                "literal" => |parser| Ok(NodeForm::Literal(parser.text()?)),
                "place" => |parser| Ok(NodeForm::Place(parser.path()?)),
                "expand" => Self::expand,
                "if" => Self::if_node,
                "for" => Self::for_node,
                "sequence" => Self::sequence,
                "match" => Self::match_node,
                _ => return self.expected(
                    "a node (`build`, `literal`, `place`, `expand`, `if`, `for`, `sequence` or \
                     `match`)",
                ),
            };
        self.take();
        form(self)
    }

    /// `build PRODUCTION` and, in brackets, its children.
    fn build(&mut self) -> Parsed<NodeForm> {
        let production = self.name("the name of a production")?;
        let children = if self.sees_sign('(') {
            self.bracketed(['(', ')'], Self::node)?
        } else {
            Vec::new()
        };
        Ok(NodeForm::Build(production, children))
    }

    /// `expand TEMPLATE (PATH..)`
    fn expand(&mut self) -> Parsed<NodeForm> {
        let template = self.name("the name of a template")?;
        let paths = self.bracketed(['(', ')'], Self::path)?;
        Ok(NodeForm::Expand(template, paths))
    }

    /// `if PATH then NODE else NODE`
    fn if_node(&mut self) -> Parsed<NodeForm> {
        let path = self.path()?;
        self.word("then")?;
        let yes = Box::new(self.node()?);
        self.word("else")?;
        let no = Box::new(self.node()?);
        Ok(NodeForm::If(path, yes, no))
    }

    /// `for NAME in PATH do NODE`
    fn for_node(&mut self) -> Parsed<NodeForm> {
        let item = self.name("a name for the item")?;
        self.word("in")?;
        let path = self.path()?;
        self.word("do")?;
        let body = Box::new(self.node()?);
        Ok(NodeForm::For(item, path, body))
    }

    /// `sequence (NODE..)`
    fn sequence(&mut self) -> Parsed<NodeForm> {
        let items = self.bracketed(['(', ')'], Self::node)?;
        Ok(NodeForm::Sequence(items))
    }

    /// `match PATH (ARM..)`
    fn match_node(&mut self) -> Parsed<NodeForm> {
        let path = self.path()?;
        let arms = self.bracketed(['(', ')'], Self::arm)?;
        Ok(NodeForm::Match(path, arms))
    }

    /// `CASE as NAME then NODE`
    fn arm(&mut self) -> Parsed<Arm> {
        let case = self.case()?;
        self.word("as")?;
        let content = self.name("a name for the case's content")?;
        self.word("then")?;
        let node = self.node()?;
        Ok(Arm {
            case,
            content,
            node,
        })
    }

    /// A case, by its name or by its number.
    pub(super) fn case(&mut self) -> Parsed<Step> {
        let at = self.at();
        match self.peek() {
            Token::Number(_) => self.step("a case"),
            _ => {
                let by = By::Name(self.key("a case's name")?.word);
                Ok(Step { by, at })
            }
        }
    }

    /// `VARIABLE` or `VARIABLE.FIELD..`
    fn path(&mut self) -> Parsed<Path> {
        let variable = self.step("a variable")?;
        let mut fields = Vec::new();
        while self.sees_sign('.') {
            let line = self.at().line;
            self.take();
            fields.push(self.field_step(line)?);
        }
        Ok(Path { variable, fields })
    }

    /// A field behind a dot. A word that begins a part is one in the dot's line only: further on a part
    /// may begin.
    fn field_step(&mut self, line: usize) -> Parsed<Step> {
        let at = self.at();
        match self.peek() {
            Token::Word(_) | Token::Text(_) if at.line == line => {
                let by = By::Name(self.key("a field")?.word);
                Ok(Step { by, at })
            }
            _ => self.step("a field"),
        }
    }

    fn step(&mut self, what: &str) -> Parsed<Step> {
        let at = self.at();
        let by = match *self.peek() {
            Token::Number(number) => {
                let number = u8::try_from(number)
                    .map_err(|_| Mistake::new(at, format!("{what} has a number of at most 255")))?;
                self.take();
                By::Number(number)
            }
            _ => By::Name(self.name(what)?.word),
        };
        Ok(Step { by, at })
    }
}
