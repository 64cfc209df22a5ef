//! Descriptions and data, read from their files.

use super::check::accepted;
use super::{Done, Step};
use crate::assembly::assemble::{Assembled, Made};
use crate::assembly::data;
use crate::assembly::map::Map;
use crate::assembly::sheet::Sheet;
use crate::decoded::decoded;
use crate::files::{self, MOST_TEXT};
use crate::json;
use crate::language::description::Description;
use crate::language::parser::parse;
use crate::language::rows::Rows;
use crate::mistake::{end_of, Mistake, Position, Source};
use crate::reasons::explain::Set;
use crate::streams::record::Kind;
use crate::words::file_called;
use std::path::Path;

/// A text and the name of its file.
pub struct Text {
    /// The name of the file, as it was given.
    pub name: String,
    /// The text.
    pub text: String,
}

impl Text {
    /// Reads a file; what is no text in it is shown, and the command ends.
    fn read(file: &Path) -> Step<Self> {
        let name = file_called(file);
        let bytes = files::read(file, MOST_TEXT).map_err(Done::file)?;
        match decoded(&bytes) {
            Ok(text) => Ok(Self {
                name,
                text: text.to_string(),
            }),
            Err(mistake) => {
                let seen = String::from_utf8_lossy(&bytes);
                Err(Done::refused(Source::new(&name, &seen).shown(&[mistake])))
            }
        }
    }

    /// Mistakes in it, with their lines.
    pub fn shown(&self, mistakes: &[Mistake]) -> String {
        Source::new(&self.name, &self.text).shown(mistakes)
    }
}

/// A description that has no mistake of its own.
pub struct Loaded {
    /// Its text.
    pub source: Text,
    /// Its tree.
    pub tree: Description,
    /// Its streams.
    pub set: Assembled,
}

impl Loaded {
    /// Reads and assembles a description.
    ///
    /// # Errors
    /// The file can't be read, or the description has mistakes, which are shown.
    pub fn read(file: &Path) -> Step<Self> {
        let source = Text::read(file)?;
        let shown = |mistakes: Vec<Mistake>| Done::refused(source.shown(&mistakes));
        let tree = parse(&source.text).map_err(shown)?;
        let set = Assembled::of(&tree, end_of(&source.text)).map_err(shown)?;
        Ok(Self { source, tree, set })
    }

    /// The map of its streams, which calls it by its file's name alone.
    pub fn map(&self) -> Map {
        let name = Path::new(&self.source.name).file_name();
        let name = name.map_or_else(String::new, |name| name.to_string_lossy().into_owned());
        Map::of(&name, &self.set)
    }

    /// The data for it: from a JSON file, else the value that it has itself.
    pub fn data(self, file: Option<&Path>) -> Step<(Self, Option<Data>)> {
        match file {
            Some(file) => Data::read(&self, file).map(|data| (self, Some(data))),
            None => Ok(self.own_data()),
        }
    }

    fn own_data(mut self) -> (Self, Option<Data>) {
        let own = self.set.value.take();
        let source = || Text {
            name: self.source.name.clone(),
            text: self.source.text.clone(),
        };
        let data = own.map(|made| Data {
            source: source(),
            made,
        });
        (self, data)
    }

    /// The streams, with a value or none.
    pub fn streams<'a>(&'a self, data: Option<&'a Data>) -> Set<'a> {
        Set {
            grammar: &self.set.grammar.blocks,
            templates: &self.set.templates.blocks,
            value: data.map_or(&[], |data| &data.made.blocks),
        }
    }
}

/// A value, and the text that it comes from.
pub struct Data {
    /// The text.
    pub source: Text,
    /// The stream.
    pub made: Made,
}

impl Data {
    /// Reads JSON data for a description.
    ///
    /// # Errors
    /// The file can't be read, is no JSON, isn't of the declared type, or doesn't fit a stream; all mistakes
    /// are shown.
    pub fn read(loaded: &Loaded, file: &Path) -> Step<Self> {
        Unpacked::read(loaded, file)?.packed()
    }
}

/// The records of JSON data for a description, which may be more than a stream holds.
pub struct Unpacked {
    source: Text,
    /// The records.
    pub sheet: Sheet,
    at: Position,
}

impl Unpacked {
    /// Reads JSON data for a description.
    ///
    /// # Errors
    /// The file can't be read, is no JSON, or isn't of the declared type; all mistakes are shown.
    pub fn read(loaded: &Loaded, file: &Path) -> Step<Self> {
        let rows = Rows::of(&loaded.tree, &mut Vec::new());
        if rows.declared(&loaded.tree).is_none() {
            // The first template is at fault then, and not the data.
            accepted(loaded, None)?;
        }
        let source = Text::read(file)?;
        let shown = |mistakes: Vec<Mistake>| Done::refused(source.shown(&mistakes));
        let json = json::parse(source.text.as_bytes()).map_err(|mistake| shown(vec![mistake]))?;
        let sheet = data::value(&loaded.tree, &loaded.set, &json).map_err(shown)?;
        let at = json.at;
        Ok(Self { source, sheet, at })
    }

    /// The value stream of the data.
    ///
    /// # Errors
    /// A stream doesn't hold that much.
    pub fn packed(self) -> Step<Data> {
        let Self { source, sheet, at } = self;
        match Made::of(Kind::Value, sheet, at) {
            Ok(made) => Ok(Data { source, made }),
            Err(mistake) => Err(Done::refused(source.shown(&[mistake]))),
        }
    }
}
