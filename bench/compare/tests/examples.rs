//! The kept examples are what the second reading answers.

use std::fs;
use std::path::{Path, PathBuf};

fn examples() -> PathBuf {
    Path::new(env!("CARGO_MANIFEST_DIR")).join("../../examples")
}

#[test]
fn the_expected_lines_are_the_second_readings() {
    let mut count = 0;
    for entry in fs::read_dir(examples().join("cases")).unwrap() {
        let path = entry.unwrap().path();
        if path.extension().is_some_and(|extension| extension == "in") {
            let input = fs::read(&path).unwrap();
            let expected = fs::read_to_string(path.with_extension("out")).unwrap();
            assert_eq!(reader::check_program(&input), expected, "{}", path.display());
            assert_eq!(reader::check::check_program_by(reader::stream::feed, &input), expected);
            count += 1;
        }
    }
    assert!(count > 100, "{count}");
}

#[test]
fn the_rule_files_are_good() {
    for (name, bytes) in [("rule-a", 47), ("rule-b", 44), ("rule-c", 44), ("stay-text", 189)] {
        let file = fs::read(examples().join("rules").join(format!("{name}.rule"))).unwrap();
        assert_eq!(file.len(), bytes, "{name}");
        assert_eq!(reader::Rule::from_file(&file).unwrap().to_file(), file);
    }
    let file = fs::read(examples().join("rules/rule-a.rule")).unwrap();
    assert_eq!(file, generate::rules::rule_a().to_file());
    let file = fs::read(examples().join("rules/rule-b.rule")).unwrap();
    assert_eq!(file, generate::rules::rule_b().to_file());
}

/// What README.md says of the rule stay-text: 8 and 9 are still, and every state
/// is in hold(5).
#[test]
fn the_book_of_stay_text() {
    let file = fs::read(examples().join("rules/stay-text.rule")).unwrap();
    let book = reader::Book::of(&reader::Rule::from_file(&file).unwrap()).words();
    assert_eq!(book[0], 1 << 8 | 1 << 9);
    assert_eq!(book[1 + 5], (1 << 10) - 1);
}
