//! A run over mutants.

use crate::change::{Change, Part};
use crate::code::{self, Declared};
use crate::definitions;
use crate::edit::Files;
use crate::group::{bodies, grouped, Body};
use crate::known::{self, Known};
use crate::log::Verdict;
use crate::options::Options;
use crate::pool::{Job, Pool};
use crate::progress::Progress;
use crate::repository::Repository;
use crate::table::Table;
use std::collections::BTreeMap;
use std::fs;
use std::path::Path;
use support::Rng;

/// A mutant, with the text of the file that it changes.
struct Mutant {
    name: String,
    change: Change,
    text: String,
    known: Known,
    /// Whether it is listed as the same program.
    listed: bool,
}

impl Mutant {
    /// The function whose body it changes, if it changes one.
    fn place<'a>(&self, bodies: &'a [Body]) -> Option<&'a Body> {
        let at = &self.change;
        bodies
            .iter()
            .find(|body| at.part == Part::Code && body.file == at.file && body.path == at.within)
    }
}

/// Every mutant of some crates, and what is listed of them and no longer made.
struct Made {
    repository: Repository,
    crates: Vec<String>,
    mutants: Vec<Vec<Mutant>>,
    gone: Vec<Known>,
}

fn made(options: &Options) -> Result<Made, String> {
    let (repository, crates) = options.open()?;
    let known = known_mutants()?;
    let mut gone: Vec<Known> = known
        .iter()
        .filter(|k| crates.iter().any(|n| k.is_of(n)))
        .cloned()
        .collect();
    let mut mutants = Vec::new();
    for name in &crates {
        let mut all = mutants_of(&repository, name, &known).map_err(|e| format!("{name}: {e}"))?;
        shuffle(&mut all, options.seed);
        gone.retain(|known| !all.iter().any(|m| known.names(&m.known)));
        mutants.push(all);
    }
    Ok(Made {
        repository,
        crates,
        mutants,
        gone,
    })
}

/// Prints every mutant.
pub fn list(options: &Options) -> Result<bool, String> {
    made(options)?
        .mutants
        .iter()
        .flatten()
        .for_each(|mutant| println!("{}", told(mutant)));
    Ok(true)
}

/// Tries as many mutants of each crate as are asked for. Whether none survives but those that are listed.
pub fn run(options: &Options) -> Result<bool, String> {
    let Made {
        repository,
        crates,
        mutants,
        gone,
    } = made(options)?;
    let mut table = Table::default();
    for (name, all) in crates.iter().zip(&mutants) {
        for part in [Part::Code, Part::Definitions] {
            table.row(name, part).made = all.iter().filter(|m| m.change.part == part).count();
        }
    }
    let chosen: Vec<Vec<Mutant>> = mutants
        .into_iter()
        .map(|all| sampled(all, options))
        .collect();
    let count = chosen.iter().map(Vec::len).sum();
    println!(
        "{count} mutants of {} crates, seed {}",
        crates.len(),
        options.seed
    );
    let mut pool = Pool::new(&repository, &crates, options.jobs)?;
    let progress = Progress::new(count);
    let mut good = gone.is_empty();
    for (name, mutants) in crates.iter().zip(&chosen) {
        let files = repository
            .sources_and_definitions(name)
            .map_err(|e| format!("{name}: {e}"))?;
        let verdicts = try_mutants(&mut pool, mutants, &files, options.alone, &progress)?;
        for (mutant, verdict) in mutants.iter().zip(verdicts) {
            table
                .row(name, mutant.change.part)
                .count(verdict, mutant.listed);
            good &= (verdict == Verdict::Proved) == mutant.listed;
        }
    }
    gone.iter()
        .for_each(|known| println!("listed, and no longer made:\n{known}\n"));
    println!("\n{table}");
    Ok(good)
}

/// The first mutants of the code and of the definitions, as many as are asked for, and those that are listed.
fn sampled(all: Vec<Mutant>, options: &Options) -> Vec<Mutant> {
    let (mut code, mut definitions) = (0, 0);
    let mut is_taken = |mutant: &Mutant| {
        let (count, limit) = match mutant.change.part {
            Part::Code => (&mut code, options.code),
            Part::Definitions => (&mut definitions, options.definitions),
        };
        *count += 1;
        mutant.listed || *count <= limit
    };
    all.into_iter().filter(|mutant| is_taken(mutant)).collect()
}

fn known_mutants() -> Result<Vec<Known>, String> {
    let path = Path::new(env!("CARGO_MANIFEST_DIR")).join("same-program.txt");
    let text = fs::read_to_string(&path).map_err(|e| format!("{}: {e}", path.display()))?;
    known::read(&text)
}

fn mutants_of(
    repository: &Repository,
    name: &str,
    known: &[Known],
) -> std::io::Result<Vec<Mutant>> {
    let mut declared = Declared::default();
    for other in &repository.crates {
        repository
            .sources(other)?
            .iter()
            .for_each(|(_, source)| declared.add(source));
    }
    let sources = repository.sources(name)?;
    let files = repository.definitions(name)?;
    let mut changes: Vec<Change> = Vec::new();
    sources
        .iter()
        .for_each(|(file, source)| changes.extend(code::mutants(file, source, &declared)));
    let mut texts: BTreeMap<String, String> = files.iter().cloned().collect();
    texts.extend(
        sources
            .iter()
            .map(|(file, source)| (file.clone(), source.text.clone())),
    );
    let sources: Vec<_> = sources.into_iter().map(|(_, source)| source).collect();
    changes.extend(definitions::mutants(&files, &definitions::cited(&sources)));
    let mutant = |change: Change| {
        let text = texts[&change.file].clone();
        let own = Known::of(name, &change, &text);
        let listed = known.iter().any(|k| k.names(&own));
        Mutant {
            name: name.to_string(),
            change,
            text,
            known: own,
            listed,
        }
    };
    Ok(changes.into_iter().map(mutant).collect())
}

fn shuffle(mutants: &mut [Mutant], seed: u64) {
    let mut rng = Rng::new(seed);
    for i in (1..mutants.len()).rev() {
        mutants.swap(i, rng.index(i + 1));
    }
}

fn told(mutant: &Mutant) -> String {
    let Mutant {
        name,
        change,
        text,
        known,
        ..
    } = mutant;
    let line = change.line(text);
    format!(
        "{name}/{}:{line} in {}\n    {}\n    {}",
        change.file, change.within, known.old, known.new
    )
}

/// Tries the mutants of one crate, first those of several functions in one check, then alone those that this did not decide.
fn try_mutants(
    pool: &mut Pool,
    chosen: &[Mutant],
    files: &Files,
    alone: bool,
    progress: &Progress,
) -> Result<Vec<Verdict>, String> {
    let mut found: Vec<Option<Verdict>> = vec![None; chosen.len()];
    if !alone {
        let bodies = bodies(files);
        let places: Vec<_> = chosen.iter().map(|mutant| mutant.place(&bodies)).collect();
        let groups: Vec<_> = grouped(&places, &bodies)
            .into_iter()
            .filter(|group| group.len() > 1)
            .collect();
        let logs = pool.check(
            groups.iter().map(|group| job(chosen, group)).collect(),
            |_, _| {},
        );
        for (group, log) in groups.iter().zip(logs) {
            let log = log.map_err(|e| e.to_string())?;
            for &i in group {
                found[i] = log
                    .verdict_on(&chosen[i].change.within)
                    .filter(|v| *v != Verdict::Proved);
            }
        }
    }
    found.iter().flatten().for_each(|_| progress.step(None));
    let left: Vec<usize> = (0..chosen.len()).filter(|&i| found[i].is_none()).collect();
    let jobs = left.iter().map(|&i| job(chosen, &[i])).collect();
    let logs = pool.check(jobs, |i, log| {
        progress.step(said(&chosen[left[i]], log.verdict));
    });
    for (&i, log) in left.iter().zip(logs) {
        found[i] = Some(log.map_err(|e| e.to_string())?.verdict);
    }
    Ok(found.into_iter().flatten().collect())
}

/// What is said of a mutant as soon as it is decided.
fn said(mutant: &Mutant, verdict: Verdict) -> Option<String> {
    match (verdict, mutant.listed) {
        (Verdict::Proved, false) => Some(format!("SURVIVES  {}", told(mutant))),
        (Verdict::NoVerdict, _) => Some(format!("no verdict  {}", told(mutant))),
        (Verdict::Fact | Verdict::Unfit | Verdict::Output, true) => {
            Some(format!("listed, and refused  {}", told(mutant)))
        }
        _ => None,
    }
}

/// The check of some mutants of one crate at once.
fn job(chosen: &[Mutant], group: &[usize]) -> Job {
    let mut changed: BTreeMap<String, String> = BTreeMap::new();
    let mut order: Vec<&Mutant> = group.iter().map(|&i| &chosen[i]).collect();
    // from the end of a file to its start, so that each change still stands where it was made
    order.sort_by_key(|mutant| std::cmp::Reverse(mutant.change.at.start));
    for mutant in order {
        let text = changed
            .entry(mutant.change.file.clone())
            .or_insert_with(|| mutant.text.clone());
        *text = mutant.change.applied(text);
    }
    Job {
        name: chosen[group[0]].name.clone(),
        changed: changed.into_iter().collect(),
    }
}
