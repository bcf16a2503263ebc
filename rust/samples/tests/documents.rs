//! The picture of the crates has what `crates.txt` has, and what the documents
//! name is there.

use std::collections::{BTreeMap, BTreeSet};
use std::fs;
use std::path::{Path, PathBuf};

const DOCUMENTS: [&str; 7] = [
    "README.md",
    "docs/ARCHITECTURE.md",
    AUDIT,
    DECISIONS,
    "docs/FORMAT.md",
    "docs/MUTATION.md",
    "docs/PERFORMANCE.md",
];
const AUDIT: &str = "docs/AUDIT.md";
const DECISIONS: &str = "docs/DECISIONS.md";
const COLUMNS: usize = 100;

/// The repository: the first folder upwards that has crates.txt.
fn root() -> PathBuf {
    let package = Path::new(env!("CARGO_MANIFEST_DIR"));
    let root = package.ancestors().find(|f| f.join("crates.txt").is_file());
    root.expect("a folder with crates.txt").to_path_buf()
}

fn text(below_root: &str) -> String {
    fs::read_to_string(root().join(below_root)).expect(below_root)
}

fn assert_none(faults: Vec<String>) {
    assert!(faults.is_empty(), "\n{}\n", faults.join("\n"));
}

// ---- the picture

/// The crates of the repository, and those of them that each uses.
type Uses = BTreeMap<String, BTreeSet<String>>;

/// Behind a name its kind can stand, as in `capi staticlib: wire`.
fn uses(list: &str) -> Uses {
    let plain = list.lines().filter_map(|line| line.split('#').next());
    let lines = plain.filter_map(|line| line.split_once(':'));
    let lines = lines.filter_map(|(name, used)| Some((name.split(' ').next()?, used)));
    let lines: Vec<(&str, &str)> = lines.collect();
    let known = |name: &&str| lines.iter().any(|(crate_name, _)| crate_name == name);
    let used = |names: &str| names.split(' ').filter(known).map(String::from).collect();
    let named = lines
        .iter()
        .map(|(name, names)| (name.to_string(), used(names)));
    named.collect()
}

/// Whether a crate uses another one, maybe through others.
fn reaches(uses: &Uses, from: &str, to: &str) -> bool {
    let used = &uses[from];
    used.contains(to) || used.iter().any(|next| reaches(uses, next, to))
}

/// The uses that do not follow from others.
fn reduced(uses: &Uses) -> Uses {
    let lean = |used: &BTreeSet<String>| {
        let implied = |name: &&String| used.iter().any(|other| reaches(uses, other, name));
        used.iter().filter(|name| !implied(name)).cloned().collect()
    };
    let named = uses.iter().map(|(name, used)| (name.clone(), lean(used)));
    named.collect()
}

/// What a picture shows: a box is a line with a rectangle and the crate's name,
/// maybe with a text of the crates that it uses; an arrow has an id of two names.
fn drawn(picture: &str) -> Uses {
    let mut uses = Uses::new();
    for line in picture.lines() {
        let texts: Vec<&str> = line
            .split('>')
            .filter_map(|t| t.strip_suffix("</text"))
            .collect();
        if let (true, [name, more @ ..]) = (line.contains("<rect"), &texts[..]) {
            let listed = more.iter().filter_map(|text| text.strip_prefix("uses "));
            let used = listed.flat_map(|names| names.split(' ')).map(String::from);
            uses.entry(name.to_string()).or_default().extend(used);
        }
        let id = line
            .strip_prefix("<line id=\"")
            .and_then(|l| l.split('"').next());
        if let Some((from, to)) = id.and_then(|id| id.split_once('-')) {
            uses.entry(from.to_string())
                .or_default()
                .insert(to.to_string());
        }
    }
    uses
}

#[test]
fn the_picture_has_every_crate_and_use() {
    assert_eq!(
        drawn(&text("docs/layers.svg")),
        reduced(&uses(&text("crates.txt")))
    );
}

// ---- names and paths

/// What stands in code marks outside of code blocks.
fn marked(document: &str) -> Vec<&str> {
    let prose = document.split("```").step_by(2);
    prose
        .flat_map(|part| part.split('`').skip(1).step_by(2))
        .collect()
}

/// The files below a folder that have this extension; not what rt made, in the folders `out`.
fn files(folder: &Path, extension: &str) -> Vec<PathBuf> {
    let mut found = Vec::new();
    for entry in fs::read_dir(folder).into_iter().flatten() {
        let path = entry.expect("a file").path();
        if path.is_dir() && !path.ends_with("out") {
            found.extend(files(&path, extension));
        } else if path.extension().is_some_and(|e| e == extension) {
            found.push(path);
        }
    }
    found
}

/// The proof files that declare a theorem.
fn proved_in(theorem: &str) -> Vec<PathBuf> {
    let declared = format!("\npub {theorem} :");
    let mut proofs = files(&root().join("crates"), "antt");
    proofs.retain(|file| file.components().any(|c| c.as_os_str() == "proofs"));
    proofs.retain(|file| fs::read_to_string(file).expect("text").contains(&declared));
    proofs
}

/// The theorems of a document's tables, which stand under the head "theorem", each with the proof files that its row
/// names; "the same" are those of the row above.
fn theorems(document: &str) -> Vec<(&str, Vec<&str>)> {
    let (mut found, mut places, mut inside) = (Vec::new(), Vec::new(), false);
    for line in document.lines() {
        let cells: Vec<&str> = line.trim_matches(['|', ' ']).split(" | ").collect();
        let (first, last) = (cells[0], cells[cells.len() - 1]);
        inside = line.starts_with('|') && (inside || first == "theorem");
        if !inside || first == "theorem" {
            places.clear();
            continue;
        }
        if last != "the same" {
            let files = marked(last).into_iter();
            places = files.filter(|name| name.ends_with(".antt")).collect();
        }
        found.extend(marked(first).into_iter().map(|name| (name, places.clone())));
    }
    found
}

/// Every theorem of the tables of AUDIT and DECISIONS is proved; in a file that its row names, if it names any.
#[test]
fn theorems_are_proved() {
    let mut faults = Vec::new();
    let (audit, decisions) = (text(AUDIT), text(DECISIONS));
    let all = [theorems(&audit), theorems(&decisions)].concat();
    assert!(all.len() > 60, "{} theorems", all.len());
    for (theorem, places) in all {
        let proofs = proved_in(theorem);
        let named = |file: &PathBuf| places.iter().any(|place| file.ends_with(place));
        if proofs.is_empty() || !(places.is_empty() || proofs.iter().any(named)) {
            faults.push(format!("{theorem}: {places:?}"));
        }
    }
    assert_none(faults);
}

/// A name of AUDIT or DECISIONS that is one word is declared in the crates, the header or the Rust side; these are words
/// of the languages and tools, and keys.
const OTHER: &str = "Bool Unit abbrev cc data declared e ensures ltb memcpy memmove memset node \
                     points pub record refusal replay requires result sp_ capi_ std unfoldable zero";

/// Whether a name is one of a definition, a function or a theorem: of DECISIONS, which speaks of other things too, only
/// those of several words.
fn is_name(document: &str, name: &str) -> bool {
    let letters = |c: char| c.is_ascii_alphanumeric() || "_-".contains(c);
    name.starts_with(|c: char| c.is_ascii_alphabetic())
        && name.chars().all(letters)
        && (document == AUDIT || name.contains(['_', '-']))
}

#[test]
fn names_are_declared() {
    let (crates, rust) = (root().join("crates"), root().join("rust"));
    let sources = [files(&crates, "antt"), files(&crates, "rt")].concat();
    let sources = sources
        .iter()
        .map(|file| fs::read_to_string(file).expect("text"));
    let all = sources.collect::<String>() + &text("include/snowpulley.h");
    let declared = |name: &str| {
        let forms = [
            format!("pub {name} "),
            format!("pub record {name} "),
            format!("pub data {name} "),
            format!("fn {name}("),
            format!("fn {name}<"),
            format!("sp_result {name}("),
        ];
        let is_crate = crates.join(name).is_dir() || rust.join(name).is_dir();
        is_crate || forms.iter().any(|form| all.contains(form))
    };
    let mut faults = Vec::new();
    for document in [AUDIT, DECISIONS] {
        let text = text(document);
        let mut names = marked(&text);
        names.retain(|name| is_name(document, name) && !OTHER.split(' ').any(|o| o == *name));
        names.retain(|name| !declared(name));
        faults.extend(names.iter().map(|name| format!("{document}: {name}")));
    }
    assert_none(faults);
}

/// Every path from the root, and every link to a file, leads to something.
#[test]
fn paths_lead_somewhere() {
    let mut faults = Vec::new();
    for document in DOCUMENTS {
        let text = text(document);
        let folder = Path::new(document).parent().expect("a folder");
        let links = text
            .split("](")
            .skip(1)
            .filter_map(|rest| rest.split([')', '#']).next());
        let links = links
            .filter(|link| !link.is_empty())
            .map(|link| folder.join(link));
        let from_root = ["crates/", "docs/", "include/", "rust/"];
        let paths = marked(&text).into_iter().filter(|path| {
            let made = path.starts_with("rust/target/");
            from_root.iter().any(|top| path.starts_with(top)) && !path.contains(['*', ' ']) && !made
        });
        let all = links.chain(paths.map(PathBuf::from));
        let missing = all.filter(|path| !root().join(path).exists());
        faults.extend(missing.map(|path| format!("{document}: {}", path.display())));
    }
    assert_none(faults);
}

// ---- what is to be read

/// `a/{B,C}.antt` as its files.
fn expanded(pattern: &str) -> Vec<String> {
    match pattern.split_once('{').zip(pattern.split_once('}')) {
        Some(((before, _), (inside, after))) => {
            let names = inside[before.len() + 1..].split(',');
            names.map(|name| format!("{before}{name}{after}")).collect()
        }
        None => vec![pattern.to_string()],
    }
}

/// Each list of AUDIT has the lines, to a tenth, and the files that it says; and
/// each file of definitions is in one of the lists.
#[test]
fn every_definition_is_listed() {
    let audit = text(AUDIT);
    let (mut listed, mut faults) = (Vec::new(), Vec::new());
    for (before, block) in audit.split("```sh\n").zip(audit.split("```sh\n").skip(1)) {
        let Some((_, command)) = block.split_once("cd crates && wc -l ") else {
            continue;
        };
        let words = command
            .split("```")
            .next()
            .expect("an end")
            .split_whitespace();
        let files: Vec<String> = words.filter(|w| *w != "\\").flat_map(expanded).collect();
        let lines = files
            .iter()
            .map(|file| text(&format!("crates/{file}")).lines().count());
        let lines: usize = lines.sum();
        let said = said(before);
        if said.1 != files.len() || said.0.abs_diff(lines) > lines / 10 {
            faults.push(format!(
                "{said:?}, not {lines} lines in {} files",
                files.len()
            ));
        }
        listed.extend(files);
    }
    for file in files(&root().join("crates"), "antt") {
        let file = file.strip_prefix(root().join("crates")).expect("a crate's");
        let name = file.to_str().expect("a name");
        let times = listed.iter().filter(|listed| *listed == name).count();
        if name.contains("/specs/") && !name.ends_with("/Lib.antt") && times != 1 {
            faults.push(format!("{name} is listed {times} times"));
        }
    }
    assert_none(faults);
}

/// The last "N lines .. in M files" of a text.
fn said(text: &str) -> (usize, usize) {
    let words: Vec<&str> = text.split_whitespace().collect();
    let number = |unit: &str| {
        let at = words
            .iter()
            .rposition(|word| word.trim_end_matches([':', '.']) == unit);
        let before = at.and_then(|at| words.get(at - 1)).expect(unit);
        before.replace(',', "").parse().expect(unit)
    };
    (number("lines"), number("files"))
}

// ---- layout

#[test]
fn prose_wraps() {
    let mut faults = Vec::new();
    for document in DOCUMENTS {
        for (at, line) in (1..).zip(text(document).lines()) {
            if line.chars().count() > COLUMNS && !line.starts_with('|') {
                faults.push(format!("{document}, line {at}"));
            }
        }
    }
    assert_none(faults);
}

/// What the tests must see, on small texts.
#[test]
fn faults_are_seen() {
    let all = uses("# d: a\na:\nb: a\nc staticlib: a b json\n");
    assert_eq!(all["c"].len(), 2);
    assert_eq!(reduced(&all)["c"].iter().collect::<Vec<_>>(), ["b"]);
    let picture = "<rect/><text>a</text>\n<rect/><text>b</text><text>uses a</text>\n\
                   <rect/><text>c</text>\n<line id=\"c-b\" x1=\"1\"/>\n";
    assert_eq!(drawn(picture), reduced(&all));
    assert_ne!(drawn(&picture.replace("c-b", "c-a")), reduced(&all));
    assert_eq!(marked("`a` b\n```\n`c`\n```\n`d`"), ["a", "d"]);
    let table = "`a`\n\n| theorem | says | proved in |\n|---|---|---|\n| `a`, `b-c` | `d` | `x/E.antt` |\n\
                 | `f` | g | the same |\n\n| theorem | says |\n|---|---|\n| `h` | `I.antt.` |\n| word | `j` |\n";
    let places = vec!["x/E.antt"];
    let found = [
        ("a", places.clone()),
        ("b-c", places.clone()),
        ("f", places),
        ("h", vec![]),
    ];
    assert_eq!(theorems(table), found);
    assert!(is_name(AUDIT, "a") && is_name(DECISIONS, "a_b") && !is_name(DECISIONS, "a"));
    assert!(!is_name(AUDIT, "--a") && !is_name(AUDIT, "a b") && is_name(AUDIT, "a-b_c"));
    assert_eq!(expanded("a/{B,C}.x"), ["a/B.x", "a/C.x"]);
    assert_eq!(said("1,234 lines more in 5 files: x"), (1234, 5));
}
