//! A refusal has one name and one number: in the proved code, in its
//! definition, in the header and in the second program's table.

mod sources;

use sources::{code, header, text};

/// The names and numbers of a table, in its order.
type Table = Vec<(String, u64)>;

/// The lines after the one that reads `open`, up to the one that reads `close`.
fn block<'a>(text: &'a str, open: &str, close: &str) -> Vec<&'a str> {
    let lines = text.lines().map(str::trim);
    let after = lines.skip_while(|line| *line != open).skip(1);
    after.take_while(|line| *line != close).collect()
}

/// A case's name as the rules write it: `BadKey` is BAD_KEY. Neither language
/// lets a case be called Self.
fn rules_name(case: &str) -> String {
    if case == "OwnPeer" || case == "SelfPeer" {
        return "SELF".to_string();
    }
    let mut name = String::new();
    for letter in case.chars() {
        if letter.is_uppercase() && !name.is_empty() {
            name.push('_');
        }
        name.push(letter.to_ascii_uppercase());
    }
    name
}

/// The names between a prefix and a mark, with the numbers after the mark.
fn numbered<'a>(lines: impl Iterator<Item = &'a str>, prefix: &str, mark: &str) -> Table {
    lines
        .filter_map(|line| line.trim().strip_prefix(prefix)?.split_once(mark))
        .filter_map(|(name, number)| {
            let number = number.trim_end_matches(',').trim().parse().ok()?;
            Some((name.trim().to_string(), number))
        })
        .collect()
}

fn by_rules_name(table: Table) -> Table {
    let rename = |(case, number): (String, u64)| (rules_name(&case), number);
    table.into_iter().map(rename).collect()
}

/// The cases of the enum, in their order.
fn cases(code: &str) -> Vec<String> {
    let lines = block(code, "pub enum Refusal {", "}");
    let cases = lines.iter().filter_map(|line| line.strip_suffix(','));
    cases.map(rules_name).collect()
}

fn names(table: &Table) -> Vec<String> {
    table.iter().map(|(name, _)| name.clone()).collect()
}

/// Whether the numbers rise from 1 on; some may be left out.
fn rises(table: &Table) -> bool {
    let first = table.first().is_some_and(|(_, number)| *number == 1);
    first && table.windows(2).all(|pair| pair[0].1 < pair[1].1)
}

/// What the code's `number` says of each case.
fn numbers(code: &str) -> Table {
    by_rules_name(numbered(code.lines(), "Refusal::", "=>"))
}

/// What the definition says of each case.
fn definition(specs: &str) -> Table {
    by_rules_name(numbered(specs.lines(), "number refusal.", "="))
}

/// The bound that laws about all numbers name.
fn last_number(specs: &str) -> u64 {
    let line = specs
        .lines()
        .find_map(|line| line.strip_prefix("last_number = "));
    line.expect("last_number").trim().parse().expect("a number")
}

/// The header's list.
fn listed(header: &str) -> Table {
    let lines = block(header, "/* Refusals. */", "").into_iter();
    let defines = lines.filter_map(|line| line.split("/*").next());
    numbered(defines, "#define SP_", " ")
}

/// What the header's `sp_refusal_name` returns for each constant.
fn returned(header: &str) -> Vec<(String, String)> {
    let cases = header.lines().filter_map(|line| {
        let (constant, rest) = line
            .trim()
            .strip_prefix("case SP_")?
            .split_once(": return \"")?;
        Some((constant.to_string(), rest.strip_suffix("\";")?.to_string()))
    });
    cases.collect()
}

/// The second program's table.
fn reference(model: &str) -> Table {
    let lines = block(model, "refusals! {", "}");
    by_rules_name(numbered(lines.into_iter(), "", "="))
}

#[test]
fn one_name_and_one_number() {
    let (code, specs) = (code("entry"), text("crates/entry/specs/Refusal.antt"));
    let model = text("rust/reference/src/refusal.rs");
    let right = numbers(&code);
    assert!(right.len() >= 20, "the code has {} numbers", right.len());
    assert!(rises(&right), "{right:?}");
    assert_eq!(cases(&code), names(&right), "the enum");
    assert_eq!(definition(&specs), right, "the definition");
    let last = right.last().map(|(_, number)| *number);
    assert_eq!(Some(last_number(&specs)), last, "last_number");
    let header = header();
    assert_eq!(listed(&header), right, "the header");
    let named = right.iter().map(|(name, _)| (name.clone(), name.clone()));
    let named: Vec<_> = named.collect();
    assert_eq!(returned(&header), named, "sp_refusal_name");
    assert_eq!(reference(&model), right, "the second program");
}

#[test]
fn numbers_rise() {
    let table = |numbers: &[u64]| numbers.iter().map(|n| (n.to_string(), *n)).collect();
    assert!(rises(&table(&[1, 2, 30])));
    for wrong in [&[][..], &[2, 3], &[1, 1], &[1, 3, 2]] {
        assert!(!rises(&table(wrong)), "{wrong:?}");
    }
}

/// The comparison sees a case that is missing, renamed, moved or renumbered.
#[test]
fn differences_are_seen() {
    let code = "pub enum Refusal {\n    BadKey,\n    // SELF\n    OwnPeer,\n}\n\
                Refusal::BadKey => 1,\nRefusal::OwnPeer => 30,\n";
    let right = numbers(code);
    assert_eq!(
        right,
        [("BAD_KEY".to_string(), 1), ("SELF".to_string(), 30)]
    );
    assert_eq!(cases(code), names(&right));
    let moved = code
        .replace("    BadKey,\n", "")
        .replace("Peer,\n", "Peer,\n    BadKey,\n");
    assert_ne!(cases(&moved), names(&right));
    let lines = "/* Refusals. */\n#define SP_BAD_KEY 1 /* a key */\n#define SP_SELF 30\n\n\
                 #define SP_X 31\n    case SP_SELF: return \"SELF\";\n";
    assert_eq!(listed(lines), right);
    for (old, new) in [
        ("#define SP_BAD_KEY 1", ""),
        ("BAD_KEY", "BAD_KEYS"),
        ("SELF 30", "SELF 2"),
        (
            "#define SP_SELF 30\n",
            "#define SP_SELF 30\n#define SP_STALE 31\n",
        ),
    ] {
        assert_ne!(listed(&lines.replace(old, new)), right, "{old} as {new}");
    }
    let self_named = [("SELF".to_string(), "SELF".to_string())];
    assert_eq!(returned(lines), self_named);
    assert_ne!(
        returned(&lines.replace("\"SELF\"", "\"SELVES\"")),
        self_named
    );
    let defined = "number refusal.BadKey = 1\nnumber refusal.OwnPeer = 30\nlast_number = 30\n";
    assert_eq!(definition(defined), right);
    assert_eq!(last_number(defined), 30);
    let model = "refusals! {\n    BadKey = 1,\n    SelfPeer = 30,\n}\n";
    assert_eq!(reference(model), right);
    assert_ne!(reference(&model.replace("= 30", "= 2")), right);
}
