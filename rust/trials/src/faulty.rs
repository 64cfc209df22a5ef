//! A walk over the records of an accepted set that goes wrong with separators, entities or matches in
//! one way.
//!
//! Without a fault it answers as the reference does (a test says so), though it shares no code with
//! it: it reads the records where they lie.

use build::{records_of, Record, PAYLOAD};

use crate::machine::Fields;

/// What is wrong with a walk's separators, with the entities of its escaped lexemes, or with its matches.
#[derive(Clone, Copy, Debug, PartialEq, Eq)]
pub enum Fault {
    /// Nothing.
    None,
    /// Writes none.
    Forgets,
    /// Writes one before the first item, too.
    BeforeTheFirst,
    /// Writes one behind every item instead.
    BehindEach,
    /// Begins anew at each for.
    AnewAtEachFor,
    /// Takes a for for an item.
    CountsFors,
    /// Forgets items that write nothing.
    ForgetsEmptyItems,
    /// Goes on counting in a sequence below an item.
    SharesCounts,
    /// Tries the item's fuel first.
    FuelFirst,
    /// Tries the item's depth first.
    DepthFirst,
    /// Tries the item's fuel and depth and counts its step first.
    StepFirst,
    /// Gives 12 the item's place.
    PlaceOfTheItem,
    /// Counts the item's step at a 12.
    CountsTheItem,
    /// Writes as much as fits.
    InPart,
    /// Escapes nothing.
    NeverEscapes,
    /// Escapes the texts of plain classes, too.
    EscapesPlainTexts,
    /// Escapes literals, too, which are escaped already.
    EscapesLiterals,
    /// Leaves entities that stand in the plain text.
    LeavesEntities,
    /// Leaves apostrophes.
    LeavesApostrophes,
    /// Leaves all but the first of the five characters in a text.
    EscapesTheFirst,
    /// Leaves the first character of each block's payload.
    LeavesBlockStarts,
    /// Leaves the last byte of each block's payload.
    LeavesBlockEnds,
    /// Writes entities without their semicolon.
    NoSemicolons,
    /// Writes numeric references.
    Numeric,
    /// Writes as much of an escaped text as fits.
    EscapedInPart,
    /// Asks for six bytes of room for each byte of the plain text.
    RoomForSixfold,
    /// Counts the characters of the escaped text against most.
    CountsEntities,
    /// Takes the first arm of every match.
    FirstArm,
    /// Takes the last arm of every match.
    LastArm,
    /// Takes the arm behind the right one, and the first for the last.
    NextArm,
    /// Visits all arms in order.
    AllArms,
    /// Gives an arm no variable more.
    NoContent,
    /// Puts the content before the other variables.
    ContentFirst,
    /// Gives an arm the case for its content.
    CaseForContent,
    /// Visits an arm at the depth of its match.
    ArmAtSameDepth,
    /// Visits an arm two deeper than its match.
    ArmTwoDeeper,
    /// Counts no step for a match.
    MatchIsNoStep,
    /// Takes a match for no item of its sequence.
    MatchIsNoItem,
}

impl Fault {
    /// All that go wrong.
    pub const ALL: [Fault; 37] = [
        Fault::Forgets,
        Fault::BeforeTheFirst,
        Fault::BehindEach,
        Fault::AnewAtEachFor,
        Fault::CountsFors,
        Fault::ForgetsEmptyItems,
        Fault::SharesCounts,
        Fault::FuelFirst,
        Fault::DepthFirst,
        Fault::StepFirst,
        Fault::PlaceOfTheItem,
        Fault::CountsTheItem,
        Fault::InPart,
        Fault::NeverEscapes,
        Fault::EscapesPlainTexts,
        Fault::EscapesLiterals,
        Fault::LeavesEntities,
        Fault::LeavesApostrophes,
        Fault::EscapesTheFirst,
        Fault::LeavesBlockStarts,
        Fault::LeavesBlockEnds,
        Fault::NoSemicolons,
        Fault::Numeric,
        Fault::EscapedInPart,
        Fault::RoomForSixfold,
        Fault::CountsEntities,
        Fault::FirstArm,
        Fault::LastArm,
        Fault::NextArm,
        Fault::AllArms,
        Fault::NoContent,
        Fault::ContentFirst,
        Fault::CaseForContent,
        Fault::ArmAtSameDepth,
        Fault::ArmTwoDeeper,
        Fault::MatchIsNoStep,
        Fault::MatchIsNoItem,
    ];
}

/// Walks a set on a value, all of which the reference has accepted, and leaves the scratch to the
/// caller.
pub(crate) fn walk(streams: [&[u8]; 3], fuel: u32, out: &mut [u8], fault: Fault) -> Fields {
    let [grammar, templates, value] = streams.map(records_of);
    let mut walk = Walk {
        classes: classes(&grammar),
        productions: productions(&grammar),
        bodies: bodies(&templates),
        grammar,
        templates,
        value,
        fuel,
        out,
        fault,
        steps: 0,
        bytes: 0,
        items: 0,
    };
    let end = walk.visit(walk.bodies[0], 1, &[0]);
    let (number, kind, place) = match end {
        Ok(()) => (0, 0, 0),
        Err((number, place)) => (number, 2, place as u64),
    };
    [number, kind, place, walk.steps.into(), walk.bytes as u64]
}

fn word(record: &Record, at: usize) -> usize {
    u16::from_le_bytes([record[at], record[at + 1]]).into()
}

pub(crate) fn b(record: &Record) -> usize {
    word(record, 2)
}

pub(crate) fn c(record: &Record) -> usize {
    word(record, 4)
}

pub(crate) fn d(record: &Record) -> usize {
    word(record, 6)
}

/// The bytes of text behind an element.
pub(crate) fn text_length(element: &Record) -> usize {
    match element[1] {
        0 => b(element),
        4 => c(element),
        _ => 0,
    }
}

/// The heads of the classes of both kinds.
pub(crate) fn classes(grammar: &[Record]) -> Vec<usize> {
    heads(grammar, [1, 5])
}

/// The heads of the productions.
pub(crate) fn productions(grammar: &[Record]) -> Vec<usize> {
    heads(grammar, [3, 3])
}

/// The heads of two kinds in a grammar.
fn heads(grammar: &[Record], kinds: [u8; 2]) -> Vec<usize> {
    let (mut heads, mut at) = (Vec::new(), 0);
    while let Some(head) = grammar.get(at) {
        if kinds.contains(&head[0]) {
            heads.push(at);
        }
        at += match head[0] {
            1 => 1 + d(head),
            3 | 5 => 1,
            4 => 1 + text_length(head).div_ceil(8),
            _ => break,
        }
    }
    heads
}

/// The heads of the types.
pub(crate) fn types(templates: &[Record]) -> Vec<usize> {
    let (mut types, mut at) = (Vec::new(), 0);
    while let Some(head) = templates.get(at).filter(|head| head[0] == 1) {
        types.push(at);
        at += match head[1] {
            3 | 4 => 1 + d(head),
            _ => 1,
        };
    }
    types
}

/// The heads of a value and of all below it, as far as its records can be followed.
pub(crate) fn value_heads(value: &[Record]) -> Vec<usize> {
    let (mut heads, mut at) = (Vec::new(), 0);
    while let Some(head) = value.get(at).filter(|head| head[0] != 0) {
        heads.push(at);
        at += match head[0] {
            1 => 1 + b(head).div_ceil(8),
            _ => 1,
        };
    }
    heads
}

/// The heads of the templates.
pub(crate) fn template_heads(templates: &[Record]) -> Vec<usize> {
    let first = templates.iter().position(|head| ![1, 2].contains(&head[0]));
    let (mut heads, mut at) = (Vec::new(), first.unwrap_or(0));
    while let Some(head) = templates.get(at).filter(|head| head[0] == 3) {
        heads.push(at);
        at += c(head).max(1);
    }
    heads
}

/// The body of the template with this head.
pub(crate) fn body_of(templates: &[Record], head: usize) -> usize {
    head + 1 + usize::from(templates[head][1])
}

/// The body of each template.
fn bodies(templates: &[Record]) -> Vec<usize> {
    let heads = template_heads(templates).into_iter();
    heads.map(|head| body_of(templates, head)).collect()
}

/// The nodes of all bodies, in record order.
pub(crate) fn nodes(templates: &[Record]) -> Vec<usize> {
    let bodies = bodies(templates).into_iter();
    bodies.flat_map(|body| nodes_of(templates, body)).collect()
}

/// The nodes of a body, in record order, as far as its records can be followed.
pub(crate) fn nodes_of(templates: &[Record], body: usize) -> Vec<usize> {
    let end = body + templates.get(body).map_or(0, c);
    let (mut nodes, mut at) = (Vec::new(), body);
    while let Some(head) = templates.get(at).filter(|_| at < end) {
        nodes.push(at);
        at += match head[1] {
            1 => 1 + b(head).div_ceil(8),
            2 | 4 | 5 | 7 => 2,
            3 => 1 + d(head),
            _ => 1,
        };
    }
    nodes
}

/// The elements of a production, by their records.
fn elements(grammar: &[Record], production: usize) -> Vec<usize> {
    in_a_row(production + 1, d(&grammar[production]), |at| {
        1 + text_length(&grammar[at]).div_ceil(8)
    })
}

/// The elements of a form of a grammar, as far as its records can be followed.
pub(crate) fn elements_of_form(grammar: &[Record], form: u8) -> Vec<usize> {
    let (mut found, mut at) = (Vec::new(), 0);
    while let Some(&record) = grammar.get(at) {
        at += 1;
        if record[0] == 4 {
            if record[1] == form {
                found.push(at - 1);
            }
            at += text_length(&record).div_ceil(8);
        }
    }
    found
}

/// The nodes that stand in the position of a class, each with the class's record.
pub(crate) fn class_positions(grammar: &[Record], templates: &[Record]) -> Vec<(usize, usize)> {
    let (productions, classes) = (productions(grammar), classes(grammar));
    let mut found = Vec::new();
    for build in nodes(templates) {
        let head = templates[build];
        if head[1] != 0 {
            continue;
        }
        let children = in_a_row(build + 1, d(&head), |at| c(&templates[at]));
        let mut asked = elements(grammar, productions[b(&head)]);
        asked.retain(|&at| grammar[at][1] != 0);
        let pairs = children
            .into_iter()
            .zip(asked.iter().map(|&at| grammar[at]));
        let of_classes = pairs.filter(|(_, element)| element[1] == 1);
        found.extend(of_classes.map(|(child, element)| (child, classes[b(&element)])));
    }
    found
}

/// The class whose position a node stands in, by its record.
pub(crate) fn position(grammar: &[Record], templates: &[Record], node: usize) -> Option<usize> {
    let mut positions = class_positions(grammar, templates).into_iter();
    let (_, class) = positions.find(|&(found, _)| found == node)?;
    Some(class)
}

/// The text of a literal.
pub(crate) fn literal(templates: &[Record], node: usize) -> Vec<u8> {
    text(templates, node, b(&templates[node]))
}

/// The text behind a head.
pub(crate) fn text(records: &[Record], head: usize, length: usize) -> Vec<u8> {
    let units = &records[head + 1..head + 1 + length.div_ceil(8)];
    units.as_flattened()[..length].to_vec()
}

/// A text with its entities, as a faulty machine writes them. The text begins at a byte of its stream's
/// payloads.
fn escaped_by(fault: Fault, plain: &[u8], start: usize) -> Vec<u8> {
    let mut written = Vec::new();
    let mut first = true;
    for (at, byte) in plain.iter().enumerate() {
        let entity = build::escaped(&[*byte]);
        let escapes = entity.len() > 1;
        let is_entity = |entity: &&[u8]| plain[at..].starts_with(entity);
        let entities: [&[u8]; 5] = [b"&amp;", b"&lt;", b"&gt;", b"&quot;", b"&apos;"];
        let left = match fault {
            Fault::LeavesEntities => entities.iter().any(is_entity),
            Fault::LeavesApostrophes => *byte == b'\'',
            Fault::EscapesTheFirst => !first,
            Fault::LeavesBlockStarts => (start + at).is_multiple_of(PAYLOAD),
            Fault::LeavesBlockEnds => (start + at + 1).is_multiple_of(PAYLOAD),
            _ => false,
        };
        match fault {
            _ if left || !escapes => written.push(*byte),
            Fault::NoSemicolons => written.extend(&entity[..entity.len() - 1]),
            Fault::Numeric => written.extend(format!("&#{byte};").bytes()),
            _ => written.extend(&entity),
        }
        first &= !escapes;
    }
    written
}

/// The children of a list, record or case of a value.
pub(crate) fn values(value: &[Record], head: usize) -> Vec<usize> {
    let count = match value[head][0] {
        5 => 1,
        _ => d(&value[head]),
    };
    in_a_row(head + 1, count, |at| match value[at][0] {
        2 => 1,
        _ => c(&value[at]),
    })
}

/// The values that a type is asked of, in record order, each with the head of its type, as far as the
/// whole is of its declared type.
pub(crate) fn typed(templates: &[Record], value: &[Record]) -> Vec<(usize, usize)> {
    let types = types(templates);
    let declared = templates.iter().position(|record| record[0] == 4);
    let mut found = Vec::new();
    // Values that are still to be looked at, the next one last, each with its type.
    let mut left: Vec<(usize, usize)> = Vec::new();
    if let (Some(parameter), false) = (declared, value.is_empty()) {
        left.push((0, b(&templates[parameter])));
    }
    while let Some((place, number)) = left.pop() {
        let head = types[number];
        found.push((place, head));
        let below = values(value, place).into_iter();
        let named = |number: usize| b(&templates[head + 1 + number]);
        let count = d(&templates[head]);
        match (templates[head][1], value[place][0]) {
            (2, 3) => left.extend(below.rev().map(|item| (item, b(&templates[head])))),
            (3, 4) => {
                let pairs: Vec<_> = below.zip((0..count).map(named)).collect();
                left.extend(pairs.into_iter().rev());
            }
            (4, 5) => {
                let number = usize::from(value[place][1]);
                let case = Some(number).filter(|&number| number < count);
                left.extend(case.map(|number| (place + 1, named(number))));
            }
            _ => {}
        }
    }
    found
}

/// So many things in a row, from a record on.
fn in_a_row(start: usize, count: usize, size: impl Fn(usize) -> usize) -> Vec<usize> {
    let next = |&at: &usize| Some(at + size(at));
    std::iter::successors(Some(start), next)
        .take(count)
        .collect()
}

/// The number of a limit, and its place.
type Stop = (u64, usize);

struct Walk<'a> {
    grammar: Vec<Record>,
    templates: Vec<Record>,
    value: Vec<Record>,
    classes: Vec<usize>,
    productions: Vec<usize>,
    bodies: Vec<usize>,
    fuel: u32,
    out: &'a mut [u8],
    fault: Fault,
    steps: u32,
    bytes: usize,
    /// Items so far of the sequence that was entered last.
    items: usize,
}

impl Walk<'_> {
    fn visit(&mut self, node: usize, depth: usize, variables: &[usize]) -> Result<(), Stop> {
        self.reach(node, depth)?;
        self.enter(node, depth, variables)
    }

    fn reach(&mut self, node: usize, depth: usize) -> Result<(), Stop> {
        if self.fault == Fault::MatchIsNoStep && self.is_match(node) {
            return Ok(());
        }
        self.fuel_left(node)?;
        self.steps += 1;
        match depth {
            ..=200 => Ok(()),
            _ => Err((11, node)),
        }
    }

    fn is_match(&self, node: usize) -> bool {
        self.templates[node][1] == 7
    }

    fn fuel_left(&self, node: usize) -> Result<(), Stop> {
        match self.steps < self.fuel {
            true => Ok(()),
            false => Err((10, node)),
        }
    }

    fn enter(&mut self, node: usize, depth: usize, variables: &[usize]) -> Result<(), Stop> {
        let head = self.templates[node];
        match head[1] {
            0 => self.build(node, depth, variables),
            3 => {
                let paths = node + 1..node + 1 + d(&head);
                let found: Vec<usize> = paths.map(|path| self.find(path, variables)).collect();
                self.visit(self.bodies[b(&head)], depth + 1, &found)
            }
            7 => self.by_case(node, depth, variables),
            _ => {
                let no = usize::from(self.value[self.find(node + 1, variables)][1] == 0);
                self.visit(self.nodes(node + 2, 2)[no], depth + 1, variables)
            }
        }
    }

    /// The arm of a match, with the content as one variable more. (A wrong arm before it may have let
    /// the path find no case at all: that counts as its own content.)
    fn by_case(&mut self, node: usize, depth: usize, variables: &[usize]) -> Result<(), Stop> {
        let case = self.find(node + 1, variables);
        let arms = self.nodes(node + 2, d(&self.templates[node]));
        let number = usize::from(self.value[case][1]).min(arms.len() - 1);
        let content = match (self.fault, self.value[case][0]) {
            (Fault::CaseForContent, _) | (_, ..=4) => case,
            _ => case + 1,
        };
        let inside = match self.fault {
            Fault::NoContent => variables.to_vec(),
            Fault::ContentFirst => [&[content], variables].concat(),
            _ => [variables, &[content]].concat(),
        };
        let depth = match self.fault {
            Fault::ArmAtSameDepth => depth,
            Fault::ArmTwoDeeper => depth + 2,
            _ => depth + 1,
        };
        let taken = match self.fault {
            Fault::FirstArm => &arms[..1],
            Fault::LastArm => &arms[arms.len() - 1..],
            Fault::NextArm => &arms[(number + 1) % arms.len()..][..1],
            Fault::AllArms => &arms[..],
            _ => &arms[number..=number],
        };
        let mut taken = taken.iter();
        taken.try_for_each(|&arm| self.visit(arm, depth, &inside))
    }

    fn build(&mut self, node: usize, depth: usize, variables: &[usize]) -> Result<(), Stop> {
        let production = self.productions[b(&self.templates[node])];
        let mut child = node + 1;
        for at in elements(&self.grammar, production) {
            let element = self.grammar[at];
            let behind = text(&self.grammar, at, text_length(&element));
            match element[1] {
                0 => {
                    self.write(&behind, node)?;
                    continue;
                }
                1 => {
                    self.reach(child, depth + 1)?;
                    self.lexeme(child, self.classes[b(&element)], variables)?;
                }
                2 => self.visit(child, depth + 1, variables)?,
                _ => {
                    let around = self.items;
                    self.sequence(child, &behind, depth + 1, variables)?;
                    self.items = around;
                }
            }
            child += c(&self.templates[child]);
        }
        Ok(())
    }

    /// A literal, or the text that a place finds, in the position of a class.
    fn lexeme(&mut self, node: usize, class: usize, variables: &[usize]) -> Result<(), Stop> {
        let head = self.templates[node];
        let escaped = self.grammar[class][0] == 5;
        if head[1] == 1 {
            let literal = literal(&self.templates, node);
            let again = escaped && self.fault == Fault::EscapesLiterals;
            return match again {
                true => self.write(&build::escaped(&literal), node),
                false => self.write(&literal, node),
            };
        }
        let found = self.find(node + 1, variables);
        let plain = text(&self.value, found, b(&self.value[found]));
        let escapes = match self.fault {
            Fault::NeverEscapes => false,
            Fault::EscapesPlainTexts => true,
            _ => escaped,
        };
        match escapes {
            true => self.write_escaped(node, class, found, &plain),
            false => self.write(&plain, node),
        }
    }

    /// Writes a text of the value with entities; `class` is the escaped class.
    fn write_escaped(
        &mut self,
        node: usize,
        class: usize,
        found: usize,
        plain: &[u8],
    ) -> Result<(), Stop> {
        let written = escaped_by(self.fault, plain, (found + 1) * 8);
        let room = self.out.len() - self.bytes;
        match self.fault {
            Fault::RoomForSixfold if 6 * plain.len() > room => return Err((12, node)),
            Fault::EscapedInPart if written.len() > room => self.write(&written[..room], node)?,
            Fault::CountsEntities => {
                let named = self.classes[b(&self.grammar[class])];
                let characters = String::from_utf8_lossy(&written).chars().count();
                if characters > c(&self.grammar[named]) {
                    return Err((8, node));
                }
            }
            _ => {}
        }
        self.write(&written, node)
    }

    fn sequence(
        &mut self,
        node: usize,
        separator: &[u8],
        depth: usize,
        variables: &[usize],
    ) -> Result<(), Stop> {
        self.reach(node, depth)?;
        if self.fault != Fault::SharesCounts {
            self.items = 0;
        }
        let row = (node, separator);
        for child in self.nodes(node + 1, d(&self.templates[node])) {
            if self.templates[child][1] == 5 {
                self.each(child, row, depth + 1, variables)?;
            } else {
                self.item(child, row, depth + 1, variables)?;
            }
        }
        Ok(())
    }

    fn each(
        &mut self,
        node: usize,
        row: (usize, &[u8]),
        depth: usize,
        variables: &[usize],
    ) -> Result<(), Stop> {
        if self.fault == Fault::CountsFors {
            self.separate(node, row)?;
            self.items += 1;
        }
        self.reach(node, depth)?;
        if self.fault == Fault::AnewAtEachFor {
            self.items = 0;
        }
        let list = self.find(node + 1, variables);
        for item in values(&self.value, list) {
            let inside = [variables, &[item]].concat();
            self.item(node + 2, row, depth + 1, &inside)?;
        }
        Ok(())
    }

    fn item(
        &mut self,
        node: usize,
        row: (usize, &[u8]),
        depth: usize,
        variables: &[usize],
    ) -> Result<(), Stop> {
        if self.fault == Fault::FuelFirst {
            self.fuel_left(node)?;
        }
        if self.fault == Fault::DepthFirst && depth > 200 {
            return self.reach(node, depth);
        }
        if self.fault == Fault::StepFirst {
            self.reach(node, depth)?;
            self.separate(node, row)?;
        } else {
            self.separate(node, row)?;
            self.reach(node, depth)?;
        }
        let before = self.bytes;
        self.enter(node, depth, variables)?;
        if self.fault == Fault::BehindEach {
            self.write(row.1, row.0)?;
        }
        let counts = match self.fault {
            Fault::ForgetsEmptyItems => self.bytes > before,
            Fault::MatchIsNoItem => !self.is_match(node),
            _ => true,
        };
        self.items += usize::from(counts);
        Ok(())
    }

    /// The separator that is due before an item.
    fn separate(&mut self, node: usize, (sequence, separator): (usize, &[u8])) -> Result<(), Stop> {
        let due = match self.fault {
            Fault::Forgets | Fault::BehindEach => false,
            Fault::BeforeTheFirst => true,
            _ => self.items > 0,
        };
        let room = self.out.len() - self.bytes;
        if !due {
            return Ok(());
        }
        if separator.len() > room && self.fault == Fault::InPart {
            self.write(&separator[..room], sequence)?;
        }
        if separator.len() > room && self.fault == Fault::CountsTheItem {
            self.steps += 1;
        }
        let place = match self.fault {
            Fault::PlaceOfTheItem => node,
            _ => sequence,
        };
        self.write(separator, place)
    }

    fn write(&mut self, text: &[u8], place: usize) -> Result<(), Stop> {
        let end = self.bytes + text.len();
        let part = self.out.get_mut(self.bytes..end).ok_or((12, place))?;
        part.copy_from_slice(text);
        self.bytes = end;
        Ok(())
    }

    /// So many nodes in a row.
    fn nodes(&self, start: usize, count: usize) -> Vec<usize> {
        in_a_row(start, count, |at| c(&self.templates[at]))
    }

    /// The value that a path finds; the whole one where a fault lets it find none.
    fn find(&self, path: usize, variables: &[usize]) -> usize {
        let [_, variable, steps, fields @ ..] = self.templates[path];
        let mut fields = fields[..usize::from(steps)].iter();
        let start = variables.get(usize::from(variable)).copied();
        let found = start.and_then(|start| {
            fields.try_fold(start, |record, &field| {
                let below = values(&self.value, record);
                below.get(usize::from(field)).copied()
            })
        });
        found.unwrap_or(0)
    }
}
