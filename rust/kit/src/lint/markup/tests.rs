use super::markup;
use crate::language::parser::parse;

/// What is said of a production with a class of all characters, one of letters, and an escaped one.
fn said(elements: &str) -> Vec<String> {
    let text = format!(
        "class all 0 to 9 {{ ' '-'~' }} class word 0 to 9 {{ 'a'-'z' }} \
         class quote 0 to 9 {{ '\"' '\\'' }}\nclass and 0 to 9 {{ '&' }} \
         class xml = escaped and class other_xml = escaped and\n\
         production p of n = {elements}"
    );
    markup(&parse(&text).expect("a description"))
        .iter()
        .map(ToString::to_string)
        .collect()
}

const NONE: [&str; 0] = [];

#[test]
fn content_of_an_element() {
    assert_eq!(
        said(r#""<channel>\n" "  <title>" all "</title>\n""#),
        ["line 3, column 47: class `all` admits `&` and `<` here, between `<title>` and `</title>`, \
          where they would be read as markup: \
          ask for an escaped form of it (`class NAME = escaped all`)"]
    );
    assert_eq!(
        said(r#""<p>" and "</p>""#),
        [
            "line 3, column 27: class `and` admits `&` here, between `<p>` and `</p>`, \
          where it would be read as markup: ask for its escaped form `xml`"
        ]
    );
    assert_eq!(
        said(r#""<a href=\"" word "\">" n* word ", " and " and\n " n " <br/>""#),
        ["line 3, column 58: class `and` admits `&` here, \
          between `<a href=\"..\">....,` and `and .. <br/>`, \
          where it would be read as markup: ask for its escaped form `xml`"]
    );
}

#[test]
fn the_value_of_an_attribute() {
    assert_eq!(
        said(r#""<a b=\"c\" href=\"" all "\" title='" quote "'/>""#),
        [
            "line 3, column 42: class `all` admits `&`, `<` and `\"` here, \
             between `<a b=\"c\" href=\"` and `\"`, \
             where `&` and `<` would be read as markup and `\"` would end the value: \
             ask for an escaped form of it (`class NAME = escaped all`)",
            "line 3, column 59: class `quote` admits `'` here, \
             between `<a b=\"c\" href=\"..\" title='` and `'`, where it would end the value: \
             ask for an escaped form of it (`class NAME = escaped quote`)"
        ]
    );
    assert_eq!(
        said(r#"" href='" and " " word "'""#),
        [
            "line 3, column 31: class `and` admits `&` here, between `href='` and `..'`, \
          where it would be read as markup: ask for its escaped form `xml`"
        ]
    );
}

#[test]
fn a_tag_outside_its_values() {
    assert_eq!(
        said(r#""<" all ">" word "</" word ">""#),
        [
            "line 3, column 25: class `all` admits `&`, `<` and `>` here, between `<` and `>`, \
          where they would be read as markup, \
          and in a tag outside its values so would an escaped form: \
          leave them out of the class's ranges"
        ]
    );
    assert_eq!(
        said(r#""<a " and "/>""#),
        [
            "line 3, column 27: class `and` admits `&` here, between `<a` and `/>`, \
          where it would be read as markup, \
          and in a tag outside its values so would an escaped form: \
          leave it out of the class's ranges"
        ]
    );
}

#[test]
fn classes_that_are_safe_there() {
    for elements in [
        r#""<p>" word "</p>""#,
        r#""<p>" xml "</p>""#,
        r#""<p>" quote "</p>""#,
        r#""<a b=\"" word "\" c='" xml "'/>""#,
        r#""<" word ">""#,
        r#""<p>" n "</p>" n* "<br/>" unknown "<p>""#,
    ] {
        assert_eq!(said(elements), NONE, "{elements}");
    }
}

#[test]
fn keywords_that_are_no_markup() {
    for elements in [
        r#"all"#,
        r#""" all """#,
        r#""[" all "]""#,
        r#""a > b: " all ".""#,
        r#""-> " all " <- " all " <-""#,
        r#""=> " all "=>" word"#,
        r#"" \"" all "\"""#,
        r#""<!-- " all " --><?xml " all "?><![CDATA[" all "]]>""#,
    ] {
        assert_eq!(said(elements), NONE, "{elements}");
    }
}

#[test]
fn a_keyword_on_one_side_only() {
    for elements in [r#""<p>" all"#, r#"all "</p>""#, r#""<a b=\"" all """#] {
        assert_eq!(said(elements), NONE, "{elements}");
    }
}

#[test]
fn what_stands_around_is_cut() {
    let long = format!("\"<p class='{}'>\" and \"</p>\"", "x".repeat(1000));
    let message = said(&long).pop().expect("a warning");
    let around = format!("between `<p class='{} ..` and `</p>`", "x".repeat(30));
    assert!(message.contains(&around), "{message}");
    let bytes = said(r#""<p>\xFF\n\t\x00" and "\xFF</p>""#);
    assert!(bytes[0].contains("between `<p>\u{FFFD} \\u{0}` and `\u{FFFD}</p>`"));
}

#[test]
fn many_elements_take_no_long_time() {
    let elements = "and \"\" ".repeat(50_000);
    assert_eq!(said(&format!("\"<p>\" {elements}\"</p>\"")).len(), 50_000);
}
