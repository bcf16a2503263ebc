//! `snowpulley.h`, `src/lib.rs` and the proved library's code declare the same
//! functions, and the same numbers where they have them.

mod sources;

use sources::{code, header, text};
use std::collections::BTreeMap;

/// A function's parameters, as (name, type) in their order, and its return
/// type, all in Rust's words.
#[derive(Debug, PartialEq, Eq)]
struct Function {
    parameters: Vec<(String, String)>,
    returns: String,
}

type Functions = BTreeMap<String, Function>;
type Numbers = BTreeMap<String, u64>;

fn declarations() -> String {
    text("rust/snowpulley-sys/src/lib.rs")
}

/// All code with functions for C: of the crate `capi`, and of each that has
/// `capi_` before its subject.
fn interface() -> String {
    let list = text("crates.txt");
    // behind a name its kind stands, as in `capi staticlib: wire`
    let crates = list
        .lines()
        .filter_map(|line| line.split([':', ' ', '#']).next());
    crates
        .filter(|krate| *krate == "capi" || krate.starts_with("capi_"))
        .map(code)
        .collect::<Vec<_>>()
        .join("\n")
}

/// The text without what stands between the two marks.
fn without(text: &str, open: &str, close: &str) -> String {
    let mut kept = String::new();
    let mut rest = text;
    while let Some((before, after)) = rest.split_once(open) {
        kept.push_str(before);
        rest = after.split_once(close).expect("a closing mark").1;
    }
    kept + rest
}

fn spaced(text: &str) -> String {
    text.split_whitespace().collect::<Vec<_>>().join(" ")
}

/// A C type in Rust's words.
fn rust_type(c: &str) -> String {
    let simple = |name: &str| match name {
        "uint8_t" => "u8",
        "uint16_t" => "u16",
        "uint32_t" | "sp_result" => "u32",
        "uint64_t" => "u64",
        "size_t" => "usize",
        other => panic!("a type the test does not know: {other}"),
    };
    match c.trim().strip_suffix('*') {
        None => simple(c.trim()).to_string(),
        Some(to) => match to.trim().strip_prefix("const ") {
            Some(to) => format!("*const {}", simple(to.trim())),
            None => format!("*mut {}", simple(to.trim())),
        },
    }
}

/// Splits `TYPE NAME`; a star belongs to the type.
fn c_pair(declaration: &str) -> (String, String) {
    let declaration = declaration.trim();
    let at = declaration
        .rfind([' ', '*'])
        .expect("a type before the name");
    let (kind, name) = declaration.split_at(at + 1);
    (name.to_string(), rust_type(kind))
}

/// The header without comments and without the bodies of its own functions.
fn plain(header: &str) -> String {
    without(&without(header, "/*", "*/"), "static inline", "\n}\n")
}

fn c_functions(header: &str) -> Functions {
    let plain = plain(header);
    let code: Vec<&str> = plain
        .lines()
        .filter(|line| !line.starts_with('#'))
        .collect();
    let code = spaced(&code.join(" ")).replace("extern \"C\" {", "");
    code.split(';')
        .filter(|statement| statement.contains('('))
        .map(c_function)
        .collect()
}

fn c_function(statement: &str) -> (String, Function) {
    let (front, rest) = statement.split_once('(').expect("a parameter list");
    let list = rest.trim().strip_suffix(')').expect("a closed list");
    let (name, returns) = c_pair(front);
    let parameters = list.split(',').map(c_pair).collect();
    (
        name,
        Function {
            parameters,
            returns,
        },
    )
}

fn rust_functions(declarations: &str) -> Functions {
    let (_, block) = declarations
        .split_once("extern \"C\" {")
        .expect("the block");
    let functions = block.split("pub fn ").skip(1);
    functions
        .map(|f| function(f, |n, k| vec![(n, k)]))
        .collect()
}

/// The functions of the code that C can link.
fn rattle_functions(code: &str) -> Functions {
    let functions = code.split(RATTLE_FUNCTION).skip(1);
    functions.map(|f| function(f, lent)).collect()
}

const RATTLE_FUNCTION: &str = "#[unsafe(no_mangle)]\npub extern \"C\" fn ";

type Parameter = (String, String);

/// A function by its name and all that follows it; `each` gives what becomes of
/// a parameter.
fn function(text: &str, each: fn(String, String) -> Vec<Parameter>) -> (String, Function) {
    let (name, rest) = text.split_once('(').expect("a parameter list");
    let (list, after) = rest.split_once(')').expect("a closed list");
    let mut words = after.split_whitespace();
    assert_eq!(words.next(), Some("->"), "a return type of {name}");
    let returns = words.next().expect("a type").trim_end_matches(';');
    let parameters = list
        .split(',')
        .filter(|p| !p.trim().is_empty())
        .map(|p| p.split_once(':').expect("a name and a type"))
        .flat_map(|(name, kind)| each(name.trim().to_string(), kind.trim().to_string()))
        .collect();
    let function = Function {
        parameters,
        returns: returns.to_string(),
    };
    (name.to_string(), function)
}

/// A parameter of the code as C has it: a slice is a pointer and a length.
/// `now` is a word of the language, so the code says `time`.
fn lent(name: String, kind: String) -> Vec<Parameter> {
    let element = |prefix: &str| kind.strip_prefix(prefix)?.strip_suffix(']');
    let pointer = match (element("&["), element("&mut [")) {
        (Some(to), _) => format!("*const {to}"),
        (_, Some(to)) => format!("*mut {to}"),
        _ if name == "time" => return vec![("now".to_string(), kind)],
        _ => return vec![(name, kind)],
    };
    let length = (format!("{name}_len"), "usize".to_string());
    vec![(name, pointer), length]
}

fn c_numbers(header: &str) -> Numbers {
    let plain = plain(header);
    let defines = plain.lines().filter_map(|l| l.strip_prefix("#define "));
    defines
        .filter_map(|define| define.split_once(' '))
        .filter_map(|(name, number)| Some((name.to_string(), c_number(number.trim())?)))
        .collect()
}

/// A number, maybe with its type around it.
fn c_number(text: &str) -> Option<u64> {
    let inner = text
        .strip_prefix("UINT64_C(")
        .and_then(|t| t.strip_suffix(')'));
    inner.unwrap_or(text).parse().ok()
}

/// The constants that stand at the beginning of a line: of `src/lib.rs`, or of
/// a crate. One may be a sum of numbers and of constants before it. Beside them
/// the cases of enums that have a number.
fn constants(code: &str, known: &Numbers) -> Numbers {
    let mut numbers = known.clone();
    for line in code.lines() {
        if let Some((case, number)) = line.strip_suffix(',').and_then(|l| l.split_once(" = ")) {
            if let Ok(number) = number.parse() {
                numbers.insert(case.trim().to_string(), number);
            }
        }
        let line = ["pub ", "pub(crate) "]
            .iter()
            .find_map(|public| line.strip_prefix(public))
            .unwrap_or(line);
        let constant = line.strip_prefix("const ").and_then(|l| l.split_once(':'));
        let sum = constant.and_then(|(_, rest)| rest.strip_suffix(';')?.split_once('='));
        let (Some((name, _)), Some((_, sum))) = (constant, sum) else {
            continue;
        };
        let parts = sum.split('+').map(|part| match part.trim() {
            name if numbers.contains_key(name) => numbers.get(name).copied(),
            number => number.replace('_', "").parse().ok(),
        });
        if let Some(number) = parts.sum::<Option<u64>>() {
            numbers.insert(name.to_string(), number);
        }
    }
    numbers
}

#[test]
fn same_functions() {
    let c = c_functions(&header());
    let (declarations, code) = (declarations(), interface());
    let others = [
        ("lib.rs", rust_functions(&declarations)),
        ("the crates", rattle_functions(&code)),
    ];
    for (place, functions) in &others {
        for (name, function) in &c {
            assert_eq!(functions.get(name), Some(function), "{name} in {place}");
        }
        for name in functions.keys() {
            assert!(c.contains_key(name), "{name} of {place} in the header");
        }
    }
    // Every declaration was seen.
    assert_eq!(c.len(), declarations.matches("pub fn sp_").count());
    assert_eq!(c.len(), code.matches("extern \"C\"").count());
    assert_eq!(c.len(), code.matches("#[unsafe(no_mangle)]").count());
    assert!(c.len() > 30);
}

#[test]
fn same_numbers() {
    let (c, rust) = (
        c_numbers(&header()),
        constants(&declarations(), &Numbers::new()),
    );
    assert_eq!(c, rust);
    assert!(c.len() >= 70);
}

/// The header's name, and a crate's.
const IN_THE_CODE: [(&str, &str, &str); 34] = [
    ("SP_KEY_MAX", "entry", "MAX_KEY"),
    ("SP_VALUE_MAX", "entry", "MAX_VALUE"),
    ("SP_TIME_END", "entry", "TIME_LIMIT"),
    ("SP_FLAG_ACTIVE", "entry", "ACTIVE"),
    ("SP_FLAG_TOMBSTONE", "entry", "TOMBSTONE"),
    ("SP_FRAME_MAX", "frame", "MAX_FRAME"),
    ("SP_TYPE_PUT", "frame", "Put"),
    ("SP_TYPE_GET", "frame", "Get"),
    ("SP_TYPE_DEL", "frame", "Del"),
    ("SP_TYPE_REPL", "frame", "Repl"),
    ("SP_TYPE_OK", "frame", "Ok"),
    ("SP_TYPE_VALUE", "frame", "Value"),
    ("SP_TYPE_NOTFOUND", "frame", "NotFound"),
    ("SP_TYPE_ERR", "frame", "Err"),
    ("SP_SLOTS_MAX", "image", "MAX_SLOTS"),
    ("SP_STATE_ALIVE", "peers", "ALIVE"),
    ("SP_STATE_SUSPECT", "peers", "SUSPECT"),
    ("SP_STATE_DOWN", "peers", "DOWN"),
    ("SP_PEERS_MAX", "peers", "MAX_ROWS"),
    ("SP_PEERS_MAX", "ring", "MAX_IDS"),
    ("SP_VNODES_MAX", "ring", "MAX_VNODES"),
    ("SP_RING_MAX", "ring", "MAX_PLACES"),
    ("SP_OWNERS_MAX", "ring", "MAX_OWNERS"),
    ("SP_CLOCK_WORDS", "capi", "CLOCK_WORDS"),
    ("SP_PEERS_WORDS", "capi_cluster", "TABLE_WORDS"),
    ("SP_DELIVERIES_MAX", "deliveries", "MAX_DELIVERIES"),
    ("SP_NO_DELIVERY", "capi_audit", "NO_DELIVERY"),
    ("SP_WON", "explain", "Won"),
    ("SP_EARLIER_TIME", "explain", "EarlierTime"),
    ("SP_LOWER_COUNT", "explain", "LowerCount"),
    ("SP_LOWER_NODE", "explain", "LowerNode"),
    ("SP_SAME_ENTRY", "explain", "SameEntry"),
    ("SP_OTHER_KEY", "explain", "OtherKey"),
    ("SP_LOWER_CONTENT", "explain", "LowerContent"),
];

#[test]
fn the_code_has_the_same_numbers() {
    let header = header();
    let c = c_numbers(&header);
    for (ours, krate, theirs) in IN_THE_CODE {
        let numbers = constants(&code(krate), &Numbers::new());
        let number = numbers.get(theirs);
        assert!(number.is_some(), "{krate} has no {theirs}");
        assert_eq!(c.get(ours), number, "{ours} and {theirs} of {krate}");
    }
    let rows = c["SP_PEERS_MAX"] * c["SP_ROW_WORDS"];
    assert_eq!(c["SP_PEERS_WORDS"], 1 + rows);
    let entry = constants(&code("entry"), &Numbers::new());
    let image = constants(&code("image"), &entry);
    let (first, width) = (image["HEADER_WIDTH"], image["SLOT_WIDTH"]);
    let bytes = format!("#define SP_STORE_BYTES(slots) ({first} + {width} * (size_t)(slots))");
    assert!(header.contains(&bytes), "{bytes}");
}

#[test]
fn no_line_is_long() {
    let header = header();
    let long: Vec<&str> = header.lines().filter(|l| l.chars().count() > 100).collect();
    assert!(long.is_empty(), "{long:#?}");
}

/// The comparison sees each kind of difference.
#[test]
fn differences_are_seen() {
    let right = c_functions("uint32_t sp_a(const uint8_t *key, size_t key_len);");
    let wrong = [
        "uint32_t sp_b(const uint8_t *key, size_t key_len);",
        "uint32_t sp_a(uint8_t *key, size_t key_len);",
        "uint32_t sp_a(const uint8_t *key, uint32_t key_len);",
        "uint32_t sp_a(size_t key_len, const uint8_t *key);",
        "uint32_t sp_a(const uint8_t *key);",
        "uint64_t sp_a(const uint8_t *key, size_t key_len);",
    ];
    for text in wrong {
        assert_ne!(c_functions(text), right, "{text}");
    }
    let typed = c_functions("typedef uint32_t sp_result;\nsp_result sp_a(uint8_t h);");
    assert_eq!(typed, c_functions("uint32_t sp_a(uint8_t h);"));
    let rust = "extern \"C\" { pub fn sp_a(key: *const u8, key_len: usize) -> u32; }";
    assert_eq!(rust_functions(rust), right);
    let rattle =
        "#[unsafe(no_mangle)]\npub extern \"C\" fn sp_a(key: &[u8]) -> u32\n    ensures {}";
    assert_eq!(rattle_functions(rattle), right);
    for (old, new) in [
        ("&[", "&mut ["),
        ("u8", "u64"),
        ("key", "time"),
        ("u32", "u64"),
    ] {
        let changed = rattle_functions(&rattle.replace(old, new));
        assert_ne!(changed, right, "{old} as {new}");
    }
    let inline = "static inline int sp_b(int n) {\n    return n;\n}\n";
    let declared = "uint32_t sp_a(const uint8_t *key, size_t key_len); /* sp_c(); */";
    assert_eq!(c_functions(&format!("{inline}{declared}")), right);
}

#[test]
fn numbers_are_read() {
    let header = "#define SP_A 1 /* SP_X 2 */\n#define SP_B UINT64_C(16)\n#define SP_C(n) (n)\n";
    let right = Numbers::from([("SP_A".to_string(), 1), ("SP_B".to_string(), 16)]);
    assert_eq!(c_numbers(header), right);
    let code = "pub const SP_A: u8 = 1;\nconst SP_B: usize = SP_A + 1_5;\nconst S: T = T {\n";
    assert_eq!(constants(code, &Numbers::new()), right);
    assert_ne!(
        constants(&code.replace("1_5", "1_6"), &Numbers::new()),
        right
    );
}
