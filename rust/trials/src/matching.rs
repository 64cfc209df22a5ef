//! Faults in judging variants, cases and matches, each put on top of the reference: in their layout,
//! their names, their limits and their typing. (Those in walking are of `faulty`.)

use build::{blocks, records_of, Record, TEMPLATES, VALUE};

use crate::faulty::{
    b, body_of, c, d, nodes_of, template_heads, typed, types, value_heads, values,
};
use crate::judging::set_b;
use crate::machine::{Fields, Machine, Reference};
use crate::mutants::change_records;

/// What is wrong with judging.
#[derive(Clone, Copy, Debug, PartialEq, Eq)]
pub enum Matching {
    /// Nothing.
    Right,
    /// A variant may have no case.
    NoCases,
    /// A variant may have more than 256 cases.
    ManyCases,
    /// A variant may have 255 cases only.
    FewCases,
    /// b of a variant isn't looked at.
    VariantsB,
    /// c of a variant isn't looked at.
    VariantsC,
    /// b of a match isn't looked at.
    MatchesB,
    /// A node of form 8 is taken for a match.
    FormEight,
    /// A case may be of the variant itself.
    NamesItself,
    /// A case may be of a later type.
    NamesLater,
    /// A match may have more arms than cases.
    ExtraArms,
    /// A match may have fewer arms than cases.
    MissingArms,
    /// A match may have no arm.
    NoArms,
    /// A match may be on anything.
    AnyPath,
    /// A path may step into a variant.
    StepsIn,
    /// Only the first arm is judged.
    FirstArmOnly,
    /// The last arm of several isn't judged.
    LastArmUnseen,
    /// A for may be an arm.
    ForAsArm,
    /// Arms don't see the content.
    NoContent,
    /// A wrong number of arms has the place of the first.
    PlaceOfArm,
    /// An arm is no loop.
    ArmIsNoLoop,
    /// A match is a loop around itself.
    MatchIsLoop,
    /// An arm is as deep as its match.
    ArmAtSameDepth,
    /// b of a case isn't looked at.
    CasesB,
    /// d of a case isn't looked at.
    CasesD,
    /// d of a case counts its one child.
    CaseCounts,
    /// A case may have several children.
    ManyContents,
    /// A case may have no child.
    NoChild,
    /// A case past the last is taken for the last.
    PastTheLast,
    /// A case one past the last is taken for the last.
    OnePast,
    /// The content of a case may be anything.
    AnyContent,
    /// Contents are of the first case's type.
    FirstType,
    /// A content is as deep as its case.
    ContentAtSameDepth,
    /// A content is two deeper than its case.
    ContentTwoDeeper,
    /// A case that isn't there has the place of its content.
    PlaceOfContent,
    /// A content of another type has the place of its case.
    PlaceOfCase,
}

impl Matching {
    /// All that go wrong.
    pub const ALL: [Matching; 35] = [
        Matching::NoCases,
        Matching::ManyCases,
        Matching::FewCases,
        Matching::VariantsB,
        Matching::VariantsC,
        Matching::MatchesB,
        Matching::FormEight,
        Matching::NamesItself,
        Matching::NamesLater,
        Matching::ExtraArms,
        Matching::MissingArms,
        Matching::NoArms,
        Matching::AnyPath,
        Matching::StepsIn,
        Matching::FirstArmOnly,
        Matching::LastArmUnseen,
        Matching::ForAsArm,
        Matching::NoContent,
        Matching::PlaceOfArm,
        Matching::ArmIsNoLoop,
        Matching::MatchIsLoop,
        Matching::ArmAtSameDepth,
        Matching::CasesB,
        Matching::CasesD,
        Matching::CaseCounts,
        Matching::ManyContents,
        Matching::NoChild,
        Matching::PastTheLast,
        Matching::OnePast,
        Matching::AnyContent,
        Matching::FirstType,
        Matching::ContentAtSameDepth,
        Matching::ContentTwoDeeper,
        Matching::PlaceOfContent,
        Matching::PlaceOfCase,
    ];

    /// What the faulty machine answers to a check call.
    pub(crate) fn check(self, grammar: &[u8], templates: &[u8]) -> Fields {
        let mut taken = templates.to_vec();
        change_records(&mut taken, TEMPLATES, |records| self.take_set(records));
        let right = Reference.check(grammar, &taken);
        match right {
            [0, ..] | [4 | 7, 2, ..] => self.altered_check(right, &records_of(&taken)),
            _ => right,
        }
    }

    /// What it answers to an evaluate call.
    pub(crate) fn evaluate(
        self,
        [grammar, templates, value]: [&[u8]; 3],
        fuel: u32,
        out: &mut [u8],
        scratch: &mut [u16],
    ) -> Fields {
        let (mut set, mut taken) = (templates.to_vec(), value.to_vec());
        change_records(&mut set, TEMPLATES, |records| self.take_set(records));
        change_records(&mut taken, VALUE, |records| self.take_value(records));
        let mut spare = (out.to_vec(), scratch.to_vec());
        let mut call = |value: &[u8]| {
            Reference.evaluate([grammar, &set, value], fuel, &mut spare.0, &mut spare.1)
        };
        let before = call(&taken);
        if before[..2] == [8, 3] {
            self.mend_cases(&records_of(&set), &mut taken);
        }
        let altered = match before[0] {
            1..=3 => None,
            _ => self.altered_run(before, &records_of(&set), &taken, call),
        };
        match altered {
            Some(fields) => {
                if fields[0] == 0 {
                    scratch.fill(0);
                }
                fields
            }
            None => Reference.evaluate([grammar, &set, &taken], fuel, out, scratch),
        }
    }

    /// The types and nodes as this machine takes them.
    fn take_set(self, records: &mut [Record]) {
        for (number, head) in types(records).into_iter().enumerate() {
            if records[head][1] == 4 {
                self.take_variant(records, number, head);
            }
        }
        for head in template_heads(records) {
            for node in nodes_of(records, body_of(records, head)) {
                match (self, records[node][1]) {
                    (Matching::MatchesB, 7) => records[node][2..4].fill(0),
                    (Matching::FormEight, 8) => records[node][1] = 7,
                    _ => {}
                }
            }
        }
    }

    fn take_variant(self, records: &mut [Record], number: usize, head: usize) {
        let count = d(&records[head]);
        let total = types(records).len();
        match self {
            // A record may have any number of fields.
            Matching::NoCases if count == 0 => records[head][1] = 3,
            Matching::ManyCases if count > 256 => records[head][1] = 3,
            Matching::FewCases if count == 256 => records[head][2] = 1,
            Matching::VariantsB => records[head][2..4].fill(0),
            Matching::VariantsC => records[head][4..6].fill(0),
            Matching::NamesItself | Matching::NamesLater if number > 0 => {
                let cases = records[head + 1..].iter_mut().take(count);
                for case in cases {
                    let named = b(case);
                    let forgiven = match self {
                        Matching::NamesItself => named == number,
                        _ => named > number && named < total,
                    };
                    if forgiven {
                        set_b(case, 0);
                    }
                }
            }
            _ => {}
        }
    }

    /// The value as this machine takes it.
    fn take_value(self, records: &mut [Record]) {
        for head in value_heads(records) {
            if records[head][0] != 5 {
                continue;
            }
            let record = records[head];
            match self {
                Matching::CasesB => records[head][2..4].fill(0),
                Matching::CasesD => records[head][6..].fill(0),
                Matching::CaseCounts if d(&record) < 2 => records[head][6] ^= 1,
                Matching::NoChild if c(&record) == 1 => records[head][..2].copy_from_slice(&[4, 0]),
                Matching::ManyContents => {
                    let count = children(records, head);
                    if count > 1 {
                        records[head][..2].copy_from_slice(&[4, 0]);
                        records[head][6] = count as u8;
                    }
                }
                _ => {}
            }
        }
    }

    /// Lets cases that aren't there be the last, if this machine takes them for it.
    fn mend_cases(self, templates: &[Record], value: &mut Vec<u8>) {
        change_records(value, VALUE, |records| {
            for (place, head) in typed(templates, records) {
                let is_case = (templates[head][1], records[place][0]) == (4, 5);
                let (count, number) = (d(&templates[head]), usize::from(records[place][1]));
                let past = match self {
                    Matching::PastTheLast => number >= count,
                    Matching::OnePast => number == count,
                    _ => false,
                };
                if is_case && past {
                    records[place][1] = (count - 1) as u8;
                }
            }
        });
    }

    /// What the faulty machine makes of the answer to a check call.
    fn altered_check(self, right: Fields, templates: &[Record]) -> Fields {
        let [number, _, place, ..] = right;
        let at_limit = matches!(
            self,
            Matching::ArmIsNoLoop | Matching::ArmAtSameDepth | Matching::MatchIsLoop
        );
        match number {
            0 if self == Matching::NoContent => {
                let mut all = standings(templates).into_iter();
                let refused = all.find(|standing| standing.reads_content(templates));
                refused.map_or(right, |standing| [7, 2, standing.node as u64, 0, 0])
            }
            4 if at_limit => self.altered_limit(right, templates),
            7 if place > 0 => {
                let all = standings(templates);
                let found = all.iter().find(|standing| standing.node == place as usize);
                match (self, found) {
                    (Matching::PlaceOfArm, Some(found)) if found.arms_differ(templates) => {
                        [7, 2, place + 2, 0, 0]
                    }
                    (_, Some(found)) if self.forgives(found, templates) => [0; 5],
                    _ => right,
                }
            }
            _ => right,
        }
    }

    /// A limit of the templates, counted in another way.
    fn altered_limit(self, right: Fields, templates: &[Record]) -> Fields {
        let place = right[2] as usize;
        let all = standings(templates);
        if self == Matching::MatchIsLoop {
            let found = all.iter().find(|standing| standing.node == place);
            let above = found.filter(|found| found.depth <= 200);
            return match above.and_then(|found| found.above) {
                Some((above, _)) if templates[above][1] == 7 => [4, 2, above as u64, 0, 0],
                _ => right,
            };
        }
        let over = |standing: &&Standing| {
            let arms = standing.arms.len();
            match self {
                Matching::ArmIsNoLoop => standing.depth > 200 || standing.loops - arms > 16,
                _ => standing.depth - arms > 200 || standing.loops > 16,
            }
        };
        match templates[place][0] {
            // Too many parameters.
            3 => right,
            _ => {
                let first = all.iter().find(over);
                first.map_or([0; 5], |first| [4, 2, first.node as u64, 0, 0])
            }
        }
    }

    /// Whether this machine takes a node that fails typing.
    fn forgives(self, found: &Standing, templates: &[Record]) -> bool {
        let head = templates[found.node];
        let is_match = head[1] == 7;
        let last = |&(above, arm): &(usize, usize)| arm > 0 && arm + 1 == d(&templates[above]);
        let cases = found.cases(templates);
        match self {
            Matching::ExtraArms => cases.is_some_and(|cases| d(&head) > cases),
            Matching::MissingArms => cases.is_some_and(|cases| d(&head) < cases && d(&head) > 0),
            Matching::NoArms => cases.is_some() && d(&head) == 0,
            Matching::AnyPath => is_match && cases.is_none(),
            Matching::StepsIn => found.steps_in(templates),
            Matching::FirstArmOnly => found.arms.iter().any(|&(_, arm)| arm > 0),
            Matching::LastArmUnseen => found.arms.iter().any(last),
            Matching::ForAsArm => {
                let above = found.above.filter(|&(above, _)| templates[above][1] == 7);
                head[1] == 5 && above.is_some()
            }
            _ => false,
        }
    }

    /// What the faulty machine makes of the answer to an evaluate call, if it is another one.
    fn altered_run(
        self,
        right: Fields,
        templates: &[Record],
        stream: &[u8],
        mut call: impl FnMut(&[u8]) -> Fields,
    ) -> Option<Fields> {
        let mut value = records_of(stream);
        let place = right[2] as usize;
        match (self, right) {
            (Matching::ContentAtSameDepth, [4, 3, ..]) => {
                let first = over_depth(&value, 0);
                Some(first.map_or([0; 5], |place| [4, 3, place as u64, 0, 0]))
            }
            (Matching::ContentTwoDeeper, [0 | 8.., ..]) => {
                over_depth(&value, 2).map(|place| [4, 3, place as u64, 0, 0])
            }
            (Matching::FirstType, [0 | 10.., ..]) => {
                for head in value_heads(&value) {
                    if value[head][0] == 5 {
                        value[head][1] = 0;
                    }
                }
                Some(call(&blocks(VALUE, &value))).filter(|fields| fields[0] == 8)
            }
            (_, [8, 3, ..]) => self.altered_type(place, templates, &value),
            _ => None,
        }
    }

    /// A refusal 8 that this machine doesn't give, or gives another place.
    fn altered_type(self, place: usize, templates: &[Record], value: &[Record]) -> Option<Fields> {
        let mut cases = value_heads(value);
        cases.retain(|&head| value[head][0] == 5);
        let around = |&case: &usize| case < place && place < case + c(&value[case]);
        let variant = |&(at, head): &(usize, usize)| at == place && templates[head][1] == 4;
        let of_variant = typed(templates, value).iter().any(variant);
        let eight_at = |place: usize| Some([8, 3, place as u64, 0, 0]);
        match self {
            Matching::AnyContent if cases.iter().any(around) => Some([0; 5]),
            Matching::PlaceOfContent if of_variant && value[place][0] == 5 => eight_at(place + 1),
            Matching::PlaceOfCase if place > 0 && cases.contains(&(place - 1)) => {
                eight_at(place - 1)
            }
            _ => None,
        }
    }
}

/// The values that follow a case up to where its size ends.
fn children(value: &[Record], case: usize) -> usize {
    let end = case + c(&value[case]);
    let (mut at, mut count) = (case + 1, 0);
    while let Some(head) = value.get(at).filter(|head| at < end && head[0] != 0) {
        count += 1;
        at += match head[0] {
            2 => 1,
            _ => c(head).max(1),
        };
    }
    count
}

/// The first value that is over 200 deep, where a content is so much deeper than its case.
fn over_depth(value: &[Record], deeper: usize) -> Option<usize> {
    // The values around the next, each with where it ends and how much deeper its children are.
    let mut around: Vec<(usize, usize)> = Vec::new();
    value_heads(value).into_iter().find(|&head| {
        while around.pop_if(|(end, _)| *end <= head).is_some() {}
        let depth = 1 + around.iter().map(|(_, more)| more).sum::<usize>();
        if !values(value, head).is_empty() {
            let more = if value[head][0] == 5 { deeper } else { 1 };
            around.push((head + c(&value[head]), more));
        }
        depth > 200
    })
}

/// Where a node stands.
struct Standing {
    node: usize,
    depth: usize,
    /// The fors and arms around it.
    loops: usize,
    /// The matches around it, each with the number of the arm that it stands in.
    arms: Vec<(usize, usize)>,
    /// The types of its variables, by number.
    variables: Vec<usize>,
    /// The variables that are contents.
    contents: Vec<usize>,
    /// The node above it, and which of its children it is.
    above: Option<(usize, usize)>,
}

/// Where all nodes stand, in record order.
fn standings(templates: &[Record]) -> Vec<Standing> {
    let types = types(templates);
    let mut all: Vec<Standing> = Vec::new();
    for head in template_heads(templates) {
        let body = body_of(templates, head);
        let parameters: Vec<usize> = templates[head + 1..body].iter().map(b).collect();
        // The nodes around the next by their index, each with the children that it had so far.
        let mut open: Vec<(usize, usize)> = Vec::new();
        for node in nodes_of(templates, body) {
            let ended = |&mut (index, _): &mut (usize, usize)| {
                let above: &Standing = &all[index];
                above.node + c(&templates[above.node]) <= node
            };
            while open.pop_if(ended).is_some() {}
            let standing = match open.last_mut() {
                None => Standing::body(node, &parameters),
                Some((above, children)) => {
                    *children += 1;
                    all[*above].below(templates, &types, node, *children - 1)
                }
            };
            open.push((all.len(), 0));
            all.push(standing);
        }
    }
    all
}

impl Standing {
    fn body(node: usize, parameters: &[usize]) -> Self {
        Standing {
            node,
            depth: 1,
            loops: 0,
            arms: vec![],
            variables: parameters.to_vec(),
            contents: vec![],
            above: None,
        }
    }

    /// A child of this node.
    fn below(&self, templates: &[Record], types: &[usize], node: usize, number: usize) -> Self {
        let mut child = Standing {
            node,
            depth: self.depth + 1,
            loops: self.loops,
            arms: self.arms.clone(),
            variables: self.variables.clone(),
            contents: self.contents.clone(),
            above: Some((self.node, number)),
        };
        let form = templates[self.node][1];
        if form == 5 || form == 7 {
            let kind = self.path_type(templates, types, self.node + 1);
            let head = kind.and_then(|kind| types.get(kind)).copied();
            let more = head.and_then(|head| match templates[head][1] {
                2 => Some(b(&templates[head])),
                4 if number < d(&templates[head]) => Some(b(&templates[head + 1 + number])),
                _ => None,
            });
            child.loops += 1;
            child.variables.push(more.unwrap_or(usize::MAX));
        }
        if form == 7 {
            child.arms.push((self.node, number));
            child.contents.push(self.variables.len());
        }
        child
    }

    /// The number of the type that a path finds.
    fn path_type(&self, templates: &[Record], types: &[usize], path: usize) -> Option<usize> {
        let [_, variable, steps, fields @ ..] = templates[path];
        let mut number = *self.variables.get(usize::from(variable))?;
        for &field in &fields[..usize::from(steps)] {
            let head = *types.get(number)?;
            let is_record = templates[head][1] == 3;
            if !is_record || usize::from(field) >= d(&templates[head]) {
                return None;
            }
            number = b(&templates[head + 1 + usize::from(field)]);
        }
        Some(number)
    }

    /// How many cases the variant has that this match is on, if it is one.
    fn cases(&self, templates: &[Record]) -> Option<usize> {
        let types = types(templates);
        if templates[self.node][1] != 7 {
            return None;
        }
        let kind = self.path_type(templates, &types, self.node + 1)?;
        let head = templates[*types.get(kind)?];
        (head[1] == 4).then(|| d(&head))
    }

    /// Whether this is a match with some arms, but not one for each case.
    fn arms_differ(&self, templates: &[Record]) -> bool {
        let arms = d(&templates[self.node]);
        let cases = self.cases(templates);
        cases.is_some_and(|cases| cases != arms && arms > 0)
    }

    /// The paths of the node.
    fn paths(&self, templates: &[Record]) -> Vec<Record> {
        let head = &templates[self.node];
        let count = match head[1] {
            2 | 4 | 5 | 7 => 1,
            3 => d(head),
            _ => 0,
        };
        templates[self.node + 1..][..count].to_vec()
    }

    /// Whether a path of the node begins at a content.
    fn reads_content(&self, templates: &[Record]) -> bool {
        let paths = self.paths(templates).into_iter();
        let mut variables = paths.map(|path| usize::from(path[1]));
        variables.any(|variable| self.contents.contains(&variable))
    }

    /// Whether a path of the node steps into a variant.
    fn steps_in(&self, templates: &[Record]) -> bool {
        let types = types(templates);
        let count = self.paths(templates).len();
        (self.node + 1..=self.node + count).any(|path| {
            // The path up to each of its steps.
            (0..templates[path][2]).any(|steps| {
                let mut cut = templates.to_vec();
                cut[path][2] = steps;
                let kind = self.path_type(&cut, &types, path);
                let head = kind.and_then(|kind| types.get(kind)).copied();
                head.is_some_and(|head| templates[head][1] == 4)
            })
        })
    }
}
