//! Descriptions that are right but for one thing of which there is very much: depth, loops, parameters,
//! parts, steps, or the length of a name, a text or a line.

use super::random::Random;

/// The rest of a description, with a body for its template and a value of its type.
fn small(more: &str, body: &str, value: &str) -> String {
    format!(
        "class c 1 to 9 {{ 'a'-'z' }}\nproduction p of n = \"<\" n*(\", \") \">\"\nproduction q of n = c n n\n\
         production r of n = \"e\"\ntype t = list t\ntype w = text c\n{more}\n\
         template a (x: t) of n =\n{body}\nvalue {value}\n"
    )
}

fn nested(times: usize, open: &str, inner: &str, close: &str) -> String {
    format!("{}{inner}{}", open.repeat(times), close.repeat(times))
}

/// One of them.
pub fn extreme(random: &mut Random) -> String {
    let few = random.mostly_small(400);
    match random.below(23) {
        0..=6 => deep(random),
        7 => parts(random),
        8 | 9 => long(random),
        10 | 11 => unclosed(random),
        12 => of_body(&format!(
            "build p (sequence ({}))",
            "build r ".repeat(few * 30)
        )),
        13 => small(&ranges(few * 30), "build r", "[]"),
        14 if random.one_in(2) => many_cases(random),
        14 => wide(few),
        15 => small(
            "",
            "build q (literal \"abc\" build r build r)",
            "[ \"b\" yes { no } ]",
        ),
        16 => of_body(&format!("place x{}", ".1".repeat(few))),
        17 => "type t = list t\nvalue\n".repeat(few),
        18 => mistakes(random),
        19 | 20 => unknown(random),
        21 => of_body("build r") + "# " + &" ".repeat(random.below(5 << 20)),
        _ => String::from_utf8_lossy(&noise(random)).into_owned(),
    }
}

fn of_body(body: &str) -> String {
    small("", body, "[]")
}

/// Depth, loops, parameters, steps and items about as many as the library takes.
fn deep(random: &mut Random) -> String {
    let many = random.mostly_small(12_000);
    match random.below(9) {
        7 => of_body(&nested(
            random.between(12, 20),
            "match x (0 as y then ",
            "build r",
            ")",
        )),
        8 => small(
            "",
            "build r",
            &nested(random.between(190, 310), "case 0 ", "yes", ""),
        ),
        0 => of_body(&nested(
            random.between(90, 155),
            "build p (sequence (",
            "build r",
            "))",
        )),
        1 => small(
            "",
            "build r",
            &nested(random.between(190, 310), "[", "", "]"),
        ),
        2 => small("", &loops(random.between(14, 18)), "[[] []]"),
        3 => parameters(random.between(7, 12)),
        4 => doubling(random.between(2, 20)),
        5 => itself(random.between(1, 12)),
        _ => {
            let value = format!("[ {} ]", "[] ".repeat(many));
            small("", "build p (sequence (for y in x do build r))", &value)
        }
    }
}

/// Fors within fors.
fn loops(count: usize) -> String {
    nested(count, "build p (sequence (for y in x do ", "build r", "))")
}

/// A template with so many parameters, and one that expands it.
fn parameters(count: usize) -> String {
    let row: String = (0..count).map(|it| format!("x{it}: t ")).collect();
    let more = format!("template b (x: t) of n = expand m ({})", "x ".repeat(count));
    let text = small("", "build r", "[]");
    text.replacen(
        "template a",
        &format!("{more}\ntemplate m ({row}) of n = build r\ntemplate a"),
        1,
    )
}

/// Templates that each expand the next one twice.
fn doubling(count: usize) -> String {
    let mut more = String::from("production d of n = n n\n");
    let mut templates = String::new();
    for number in 1..=count {
        let next = number % count + 1;
        let body = match next {
            1 => "build r".to_string(),
            _ => format!("build d (expand m{next} (x) expand m{next} (x))"),
        };
        templates.push_str(&format!("template m{number} (x: t) of n = {body}\n"));
    }
    more.push_str("class unused = escaped c\n");
    small(&more, "expand m1 (x)", "[]") + &templates
}

/// So many templates that expand one another in a ring.
fn itself(count: usize) -> String {
    let mut text = small("", "build p (sequence (build r expand m0 (x)))", "[]");
    for number in 0..count {
        let next = (number + 1) % count;
        text.push_str(&format!(
            "template m{number} (x: t) of n = build p (sequence (expand m{next} (x)))\n"
        ));
    }
    text
}

/// Hundreds or thousands of one part.
fn parts(random: &mut Random) -> String {
    let count = random.mostly_small(9000);
    let part: fn(usize) -> String = match random.below(6) {
        0 => |it| format!("class c{it} 0 to 1 {{ }}\n"),
        1 => |it| format!("production p{it} of n = c\n"),
        2 => |it| format!("production p{it} of n{it} =\n"),
        3 => |it| format!("type t{it} = record {{ f: t }}\n"),
        4 => |it| format!("template b{it} (x: t) of n = build r\n"),
        _ => |_| "type t = yesno\n".to_string(),
    };
    small(&(0..count).map(part).collect::<String>(), "build r", "[]")
}

/// A class of very many ranges.
fn ranges(count: usize) -> String {
    format!("class many 1 to 2 {{ {} }}", "'a'-'b' ".repeat(count))
}

/// Names, texts, numbers and lines that are very long.
fn long(random: &mut Random) -> String {
    let letter = *random.pick(&[
        "a",
        "é",
        "\u{1F305}",
        " ",
        "0",
        "\\n",
        "\\xFF",
        "\u{1}",
        "\u{202E}",
    ]);
    let long = letter.repeat(random.mostly_small(70_000));
    match random.below(7) {
        0 => small(
            "",
            &format!("build q (literal \"{long}\" build r build r)"),
            "[]",
        ),
        1 => small(&format!("production l of n = \"{long}\""), "build l", "[]"),
        2 => small(
            &format!("type x{long} = yesno type y = text x{long}"),
            "build r",
            "[]",
        ),
        3 => small("", &format!("expand x{long} ()"), &format!("\"{long}\"")),
        4 => small(
            "",
            &format!("build p (sequence (for x{long} in x do place x{long}))"),
            "[[]]",
        ),
        5 => format!("# {long}\n{long}\n{}", small("", "build r", "[]")),
        _ => small(
            &format!("class l 1 to {long} {{ U+{long} '{long}' }}"),
            "build r",
            "[]",
        ),
    }
}

/// Brackets and quotes without their ends.
fn unclosed(random: &mut Random) -> String {
    let open = *random.pick(&[
        "(",
        "[",
        "{",
        "\"",
        "'",
        "build p (",
        "sequence (",
        "if x then ",
        "for y in x do ",
        "record {",
        "expand a (",
        "{ a: ",
    ]);
    let text = small("", &open.repeat(random.mostly_small(2000)), "[]");
    match random.below(3) {
        0 => text,
        1 => text.replacen("[]", &open.repeat(random.mostly_small(2000)), 1),
        _ => text.replacen("'a'", &open.repeat(random.mostly_small(50)), 1),
    }
}

/// Records of records of lists, so that there are very many paths.
fn wide(count: usize) -> String {
    let fields: String = (0..count).map(|it| format!("f{it}: t ")).collect();
    let more = format!("type r = record {{ {fields} }}\ntype s = record {{ a: r b: r }}");
    let record = format!("{{ {} }}", "[] ".repeat(count));
    let text = small(&more, "build r", &format!("{{ {record} {record} }}"));
    text.replacen("(x: t)", "(x: s)", 1)
}

/// Very many mistakes of their own, each with long names.
fn mistakes(random: &mut Random) -> String {
    let name = "name".repeat(random.mostly_small(200));
    let part = format!("production {name} of {name} = {name} {name}* {name}*(\"\")\n");
    small(&part.repeat(random.mostly_small(300)), "build r", "[]")
}

/// A variant of about as many cases as there may be, or of very many, a match on it, and a list of its cases.
fn many_cases(random: &mut Random) -> String {
    let count = match random.below(3) {
        0 => random.mostly_small(20_000),
        _ => random.between(250, 260),
    };
    let row = |part: fn(usize) -> String| -> String { (0..count).map(part).collect() };
    let cases = row(|it| format!("k{it}: w "));
    let arms = row(|it| format!("k{it} as y then build r "));
    let values = row(|it| format!("case k{it} \"a\" "));
    let more = format!("type v = variant {{ {cases} }}\ntype l = list v");
    let body = format!("build p (sequence (for x in x do match x ({arms})))");
    small(&more, &body, &format!("[ {values} ]")).replacen("(x: t)", "(x: l)", 1)
}

/// Very many names that stand for nothing, among very many that stand for something.
fn unknown(random: &mut Random) -> String {
    let (known, unknown) = (random.mostly_small(3000), random.mostly_small(3000));
    let row = |before: &str, count: usize, behind: &str| -> String {
        (0..count)
            .map(|it| format!("{before}{it}{behind} "))
            .collect()
    };
    let fields = row("a", known, ": w");
    let record = format!("type r = record {{ {fields} }}");
    let more = match random.below(4) {
        0 => format!(
            "{record} type s = record {{ {} }}",
            row("f", unknown, ": bb")
        ),
        1 => format!(
            "{} production u of n = {}",
            row("type a", known, " = yesno"),
            row("b", unknown, "")
        ),
        2 => format!(
            "{record} template u (x: r) of n = build q ({})",
            row("place x.b", unknown, "")
        ),
        _ => format!(
            "template u ({fields}) of n = build q ({})",
            row("place b", unknown, "")
        ),
    };
    small(&more, "build r", "[]")
}

/// Bytes and words without any order.
fn noise(random: &mut Random) -> Vec<u8> {
    let count = random.mostly_small(3000);
    match random.below(2) {
        0 => (0..count).map(|_| random.byte()).collect(),
        _ => {
            let words = (0..count).flat_map(|_| random.pick(super::descriptions::TOKENS).bytes());
            words.collect()
        }
    }
}
