//! A test that tools/rules adds to crates/brulefile, with the text of the rules of `b check` and their table: each example
//! finds what it says, or is silent.
use crate::check_rules::CHECK_RULES;
use crate::made::{CLAIMS, NAMES, RULES, STEPS};
use blex::{Lexeme, Scanner};
use bmatch::{RuleTable, TokenPlace, Tree, grown, notices_of};
use bword::Edition;
use std::alloc::{AllocError, Global};

// Whether a rule of this name tells something of a source.
fn tells(alloc: Global, name: &[u8], text: &[u8]) -> Result<bool, AllocError> {
    let mut lexemes = Vec::new(alloc);
    let mut places = Vec::new(alloc);
    let mut scanner = Scanner::new(text, Edition::Two);
    for _ in 0..text.len() {
        let found = scanner.next();
        let place = TokenPlace {
            line: found.line,
            start: found.first,
            len: found.end.saturating_sub(found.first),
        };
        let lexeme = found.lexeme;
        match lexeme {
            Some(Lexeme::End) => break,
            Some(lexeme) => {
                lexemes.push(lexeme)?;
                places.push(place)?;
            }
            None => {}
        }
    }
    let rows = grown(alloc, lexemes.as_slice())?;
    let tree = Tree {
        text,
        lexemes: lexemes.as_slice(),
        places: places.as_slice(),
        rows: rows.as_slice(),
    };
    let table = RuleTable {
        steps: &STEPS,
        claims: &CLAIMS,
        rules: &RULES,
    };
    let found = notices_of(alloc, &tree, &table)?;
    for notice in &found {
        if let Some(told) = NAMES.get(notice.rule) {
            if told.as_bytes() == name {
                return Ok(true);
            }
        }
    }
    Ok(false)
}

// An example is a definition of `f`, or statements of a function.
fn program_of(alloc: Global, example: &[u8]) -> Result<Vec<u8>, AllocError> {
    let mut text = Vec::new(alloc);
    if example.starts_with(b"f(") && example.ends_with(b"}") {
        text.extend_from_slice(example)?;
    } else {
        text.extend_from_slice(b"main() { ")?;
        text.extend_from_slice(example)?;
        text.extend_from_slice(b" }")?;
    }
    Ok(text)
}

#[test]
fn examples_are_told(rt: HostRuntime) -> Result<(), AllocError> {
    let alloc = rt.alloc();
    let mut name: &[u8] = b"";
    let mut wrong = 0_u64;
    for line in CHECK_RULES.as_bytes().split(|byte| *byte == b'\n') {
        let text = line.trim_ascii();
        if let Some(rest) = text.strip_prefix(b"rule ") {
            name = rest;
        }
        for (word, wanted) in [(b"found ".as_slice(), true), (b"silent ".as_slice(), false)] {
            if let Some(example) = text.strip_prefix(word) {
                let source = program_of(alloc, example)?;
                if tells(alloc, name, source.as_slice())? != wanted {
                    println!(rt;
                        "{}: {}",
                        std::str::from_utf8(name).unwrap_or(""),
                        std::str::from_utf8(text).unwrap_or("")
                    )
                    .unwrap_or(());
                    wrong = wrong.saturating_add(1);
                }
            }
        }
    }
    assert_eq!(rt; wrong, 0);
    Ok(())
}
