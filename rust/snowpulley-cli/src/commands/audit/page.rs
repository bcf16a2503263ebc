//! The report as a page of HTML: black on white, for sheets of A4.

use super::checked::{Checked, Proved, CONTRACT, LIMITS, LIMITS_TITLE};
use super::findings::{with_key, Findings, Row, COLUMNS, KEY_COLUMN, NOTE, REUSED, REUSED_TITLE};
use crate::cli::VERSION;
use crate::text::markup::escaped;
use crate::text::table::{Column, Side};
use std::fmt::Write;

const STYLE: &str = "\
body { margin: 8mm auto; max-width: 180mm; color: black; background: white;
  font: 10pt/1.4 Helvetica, Arial, 'Liberation Sans', 'DejaVu Sans', sans-serif }
h1 { font-size: 15pt; margin: 0 0 4mm }
h2 { font-size: 10.5pt; margin: 4mm 0 1mm; break-after: avoid }
p, ul { margin: 0 0 2mm }
ul { padding-left: 5mm }
.answer { border: 0.6mm solid black; padding: 3mm; font-size: 11pt; font-weight: bold }
.answer, dd, td { white-space: pre-wrap; overflow-wrap: anywhere }
dl { display: grid; grid-template-columns: max-content 1fr; gap: 0.5mm 5mm; margin: 0 0 5mm }
dt { font-weight: bold }
dd { margin: 0 }
code { font-family: 'DejaVu Sans Mono', monospace; font-size: 90% }
table { width: 100%; table-layout: fixed; border-collapse: collapse;
  font-size: 8.5pt; line-height: 1.35 }
thead { display: table-header-group }
tr, p, li, section { break-inside: avoid }
th, td { padding: 1mm 1.5mm; text-align: left; vertical-align: top;
  border-bottom: 0.2mm solid black }
th { border-bottom-width: 0.5mm }
th:first-child, td:first-child { padding-left: 0 }
th:last-child, td:last-child { padding-right: 0 }
.number { text-align: right }
.winner td { font-weight: bold; border-top: 0.5mm solid black; border-bottom-width: 0.5mm }
footer { font-size: 8.5pt }
.small { font-size: 8.5pt }
table + p { margin-top: 2mm }
.signed { display: none; margin: 0 }
.signed dd { border-bottom: 0.2mm solid black; height: 8mm }
.signed dt { padding-top: 4mm }
@media print { body { margin: 0; max-width: none } .signed { display: grid } }
";

/// The whole page.
pub fn page(findings: &Findings<'_>, all: bool) -> String {
    let mut body = String::new();
    element(
        &mut body,
        "h1",
        "Which delivery is in force, and why not the others",
    );
    let answer = escaped(&findings.answer(false));
    let _ = writeln!(body, "<p class=\"answer\">{answer}</p>");
    facts(&mut body, &findings.facts(all));
    let rows = findings.rows(all, true);
    if !rows.is_empty() {
        table(&mut body, &rows, all);
        let _ = writeln!(body, "<p class=\"small\">{}</p>", escaped(NOTE));
    }
    if findings.has_reused_stamp() {
        element(&mut body, "h2", REUSED_TITLE);
        element(&mut body, "p", REUSED);
    }
    footer(&mut body, &findings.checked());
    let (key, size) = (escaped(&findings.key()), findings.size());
    format!(
        "<!DOCTYPE html>\n<html lang=\"en\">\n<head>\n<meta charset=\"utf-8\">\n\
         <title>Audit of {key}</title>\n<style>\n{}{STYLE}</style>\n</head>\n\
         <body>\n{body}</body>\n</html>\n",
        sheet(&size)
    )
}

/// The format of a sheet, and its last line, by which a single sheet still says
/// which list it is about.
fn sheet(size: &str) -> String {
    format!(
        "@page {{ size: A4; margin: 15mm 15mm 18mm;\n  \
         @bottom-left {{ content: 'list: {size}'; font: 8pt sans-serif }}\n  \
         @bottom-right {{ content: 'page ' counter(page) ' of ' counter(pages); \
         font: 8pt sans-serif }} }}\n"
    )
}

/// An element with some text, on a line of its own.
fn element(body: &mut String, name: &str, text: &str) {
    let _ = writeln!(body, "<{name}>{}</{name}>", escaped(text));
}

fn facts(body: &mut String, facts: &[(&str, String)]) {
    body.push_str("<dl>\n");
    for (name, fact) in facts {
        let _ = writeln!(body, "<dt>{name}</dt><dd>{}</dd>", escaped(fact));
    }
    body.push_str("</dl>\n");
}

/// How wide the columns are, in hundredths; with the key in its place.
const WIDTHS: [u8; 6] = [9, 26, 8, 9, 26, 22];
const WIDTHS_WITH_KEY: [u8; 7] = [9, 15, 15, 7, 9, 21, 24];

fn table(body: &mut String, rows: &[Row], all: bool) {
    let (columns, widths) = match all {
        true => (&with_key(KEY_COLUMN, COLUMNS)[..], &WIDTHS_WITH_KEY[..]),
        false => (&COLUMNS[..], &WIDTHS[..]),
    };
    body.push_str("<table>\n<colgroup>");
    for width in widths {
        let _ = write!(body, "<col style=\"width: {width}%\">");
    }
    body.push_str("</colgroup>\n<thead>\n<tr>");
    for column in columns {
        cell(body, "th", *column, column.1);
    }
    body.push_str("</tr>\n</thead>\n<tbody>\n");
    for row in rows {
        let class = if row.is_winner {
            " class=\"winner\""
        } else {
            ""
        };
        let _ = write!(body, "<tr{class}>");
        let cells = row.cells.each_ref();
        let cells = match all {
            true => &with_key(&row.key, cells)[..],
            false => &cells[..],
        };
        for (column, text) in columns.iter().zip(cells) {
            cell(body, "td", *column, text);
        }
        body.push_str("</tr>\n");
    }
    body.push_str("</tbody>\n</table>\n");
}

fn cell(body: &mut String, name: &str, (side, _): Column, text: &str) {
    let class = match side {
        Side::Left => "",
        Side::Right => " class=\"number\"",
    };
    let _ = write!(body, "<{name}{class}>{}</{name}>", escaped(text));
}

fn footer(body: &mut String, checked: &Checked) {
    body.push_str("<footer>\n");
    element(body, "h2", "Who answered");
    element(body, "p", checked.sources);
    element(body, "h2", "What is proved of the library");
    element(body, "p", PROVED);
    body.push_str("<ul>\n");
    proved(body, "contract of", CONTRACT);
    for theorem in checked.theorems {
        proved(body, "theorem", *theorem);
    }
    body.push_str("</ul>\n");
    limits(body);
    body.push_str("</footer>\n");
}

/// With the lines to sign, so that these stand on no sheet of their own.
fn limits(body: &mut String) {
    body.push_str("<section>\n");
    element(body, "h2", LIMITS_TITLE);
    body.push_str("<ul>\n");
    for limit in LIMITS {
        element(body, "li", limit);
    }
    body.push_str("</ul>\n");
    element(body, "p", &format!("Made by {VERSION}."));
    body.push_str(SIGNED);
    body.push_str("</section>\n");
}

const PROVED: &str = "A machine has checked these statements for every list and every key. What \
    they assume, and where the proofs are, is said in docs/AUDIT.md.";

/// Lines to fill in by hand, on paper only.
const SIGNED: &str = "\
<dl class=\"signed\">
<dt>Date</dt><dd></dd>
<dt>Name and signature</dt><dd></dd>
</dl>
";

fn proved(body: &mut String, kind: &str, (meaning, name): Proved) {
    let meaning = escaped(meaning);
    let _ = writeln!(body, "<li>{meaning} ({kind} <code>{name}</code>)</li>");
}
