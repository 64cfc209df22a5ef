use super::*;

fn kinds(description: &str) -> Vec<Token> {
    let Tokens {
        found, mistakes, ..
    } = tokens(description);
    assert_eq!(mistakes, []);
    found.into_iter().map(|(token, _)| token).collect()
}

fn mistake(description: &str) -> (usize, usize) {
    let at = tokens(description).mistakes[0].at;
    (at.line, at.column)
}

#[test]
fn words_numbers_points_and_signs() {
    let word = |w: &str| Token::Word(w.to_string());
    assert_eq!(
        kinds("class t 1, 4 { U+0061-'z' } # and no more\n*"),
        [
            word("class"),
            word("t"),
            Token::Number(1),
            Token::Number(4),
            Token::Sign('{'),
            Token::Point(0x61),
            Token::Sign('-'),
            Token::Point(0x7a),
            Token::Sign('}'),
            Token::Sign('*'),
            Token::End
        ]
    );
}

#[test]
fn points_in_quotes() {
    let points = [
        Token::Point(0x27),
        Token::Point(0x5c),
        Token::Point(0x3b1),
        Token::End,
    ];
    assert_eq!(kinds(r"'\'' '\\' 'α'"), points);
}

#[test]
fn escapes_of_a_text() {
    let text = |bytes: &[u8]| vec![Token::Text(bytes.to_vec()), Token::End];
    assert_eq!(
        kinds(r#""a\"\\\n\r\t\xC0\u{3b1}""#),
        text(b"a\"\\\n\r\t\xC0\xCE\xB1")
    );
    assert_eq!(kinds("\"a\\\n   b # c\""), text(b"ab # c"));
}

#[test]
fn a_mistake_has_its_line_and_column() {
    assert_eq!(mistake("αβ ;"), (1, 4));
    assert_eq!(mistake("x\n  \"abc\n"), (2, 3));
    assert_eq!(mistake(r#""ab\q""#), (1, 4));
    assert_eq!(mistake(r#""\xZ0""#), (1, 2));
    assert_eq!(mistake(r#""\u{D800}""#), (1, 2));
    assert_eq!(mistake("U+1000000"), (1, 1));
    assert_eq!(mistake("99999999999999999999999"), (1, 1));
    assert_eq!(mistake("''"), (1, 1));
    assert_eq!(mistake("'ab'"), (1, 1));
    assert_eq!(mistake(r"'\n'"), (1, 1));
}

fn mistakes(description: &str) -> Vec<String> {
    let mistakes = tokens(description).mistakes;
    mistakes.iter().map(ToString::to_string).collect()
}

#[test]
fn the_tokens_behind_a_mistake_are_read() {
    let Tokens {
        found, mistakes, ..
    } = tokens("a ; \"b\\q\\xZ\" 'xy' \"c\nU+ d");
    let kinds: Vec<Token> = found.into_iter().map(|(token, _)| token).collect();
    let word = |w: &str| Token::Word(w.to_string());
    assert_eq!(
        kinds,
        [
            word("a"),
            Token::Text(b"bqZ".to_vec()),
            Token::Point(0),
            Token::Text(b"c".to_vec()),
            Token::Point(0),
            word("d"),
            Token::End
        ]
    );
    assert_eq!(mistakes.len(), 6);
}

#[test]
fn stray_characters_are_one_mistake_and_shown_as_escapes() {
    assert_eq!(
        mistakes("a \u{1b};; b"),
        ["line 1, column 3: `\\u{1b};;` begins nothing here"]
    );
}

#[test]
fn a_text_goes_on_behind_the_end_of_a_line_of_windows() {
    assert_eq!(
        kinds("\"a\\\r\n  b\""),
        [Token::Text(b"ab".to_vec()), Token::End]
    );
}
