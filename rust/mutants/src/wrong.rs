//! A run over the hand-written wrong answers.

use crate::antt::{add_laws, Laws};
use crate::edit::{Edit, Files};
use crate::fit;
use crate::group::{bodies, grouped};
use crate::log::{Log, Verdict};
use crate::options::Options;
use crate::pool::{Job, Pool};
use crate::progress::Progress;
use crate::repository::Repository;
use std::collections::BTreeSet;
use std::rc::Rc;

/// Edits of one crate that share a check, with what is asked of it.
struct Group<'a> {
    edits: Vec<Edit>,
    of: &'a Crate,
}

impl Group<'_> {
    /// How many edits change a text that does not stand just once in its file; each is told.
    fn stale(&self) -> usize {
        let mut count = 0;
        for edit in &self.edits {
            if let Err(e) = edit.apply(&mut self.of.files.clone()) {
                println!("NOT AS EXPECTED  {}/{}: {e}", edit.name, edit.label);
                count += 1;
            }
        }
        count
    }
}

/// A crate's files, with the laws of its proofs.
struct Crate {
    name: String,
    files: Files,
    proofs: Files,
    laws: Laws,
    edits: Vec<Edit>,
}

impl Crate {
    fn read(repository: &Repository, name: &str) -> Result<Crate, String> {
        let failed = |e: std::io::Error| format!("{name}: {e}");
        let mut laws = Laws::new();
        let proofs = repository.files(name, "proofs", "antt").map_err(failed)?;
        for (_, text) in &proofs {
            add_laws(&mut laws, text);
        }
        let files = repository.sources_and_definitions(name).map_err(failed)?;
        Ok(Crate {
            name: name.to_string(),
            files,
            proofs: proofs.into_iter().collect(),
            laws,
            edits: edits_of(repository, name)?,
        })
    }

    fn groups(&self, options: &Options) -> Vec<Group<'_>> {
        let mut named = BTreeSet::new();
        let mut is_chosen = |edit: &&Edit| {
            let wanted = options.edits.is_empty() || options.edits.contains(&edit.label);
            wanted && (!options.once || named.insert(edit.expect.clone()))
        };
        let chosen: Vec<&Edit> = self.edits.iter().filter(|edit| is_chosen(edit)).collect();
        let bodies = bodies(&self.files);
        let places: Vec<_> = chosen.iter().map(|edit| edit.place(&bodies)).collect();
        let groups = grouped(&places, &bodies).into_iter();
        groups
            .map(|group| Group {
                edits: group.iter().map(|&i| chosen[i].clone()).collect(),
                of: self,
            })
            .collect()
    }
}

fn crates(options: &Options) -> Result<(Repository, Vec<Crate>), String> {
    let (repository, names) = options.open()?;
    let crates: Result<Vec<Crate>, String> = names
        .iter()
        .map(|name| Crate::read(&repository, name))
        .collect();
    Ok((repository, crates?))
}

/// Counts the wrong answers, and says whether each public function has two of its own.
pub fn count(options: &Options) -> Result<bool, String> {
    let (_, crates) = crates(options)?;
    let groups: Vec<Group<'_>> = crates.iter().flat_map(|one| one.groups(options)).collect();
    println!("{}", counted(&groups));
    is_enough(options)
}

/// Whether each public function has two wrong answers of its own.
fn is_enough(options: &Options) -> Result<bool, String> {
    let (repository, crates) = crates(options)?;
    let mut good = true;
    for one in &crates {
        good &= enough(&repository, &one.name, &one.edits)?;
    }
    Ok(good)
}

fn counted(groups: &[Group<'_>]) -> String {
    let edits: usize = groups.iter().map(|group| group.edits.len()).sum();
    format!("{edits} wrong answers in {} checks", groups.len())
}

/// Tries the wrong answers, and counts them if none was asked for by name.
pub fn run(options: &Options) -> Result<bool, String> {
    let good = !options.edits.is_empty() || is_enough(options)?;
    let (repository, crates) = crates(options)?;
    let groups: Vec<Group<'_>> = crates.iter().flat_map(|one| one.groups(options)).collect();
    let count: usize = groups.iter().map(|group| group.edits.len()).sum();
    println!("{}", counted(&groups));
    let stale = groups.iter().map(Group::stale).sum::<usize>();
    let used = crates
        .iter()
        .filter(|one| groups.iter().any(|g| g.of.name == one.name));
    let used: Vec<String> = used.map(|one| one.name.clone()).collect();
    let mut pool = Pool::new(&repository, &used, options.jobs)?;
    let (together, single): (Vec<_>, Vec<_>) = try_groups(&mut pool, groups)?
        .into_iter()
        .partition(|one| one.is_shared);
    let mut open = single;
    open.extend(try_edits(&mut pool, together)?);
    for _ in 0..fit::ROUNDS {
        let mut unfit = Vec::new();
        for mut one in std::mem::take(&mut open) {
            let list = if one.fit() { &mut unfit } else { &mut open };
            list.push(one);
        }
        open.extend(try_edits(&mut pool, unfit)?);
    }
    for one in &open {
        println!("NOT AS EXPECTED  {}", complaint(&one.edit, &one.log));
    }
    let failures = open.len() + stale;
    println!(
        "wrong answers: {} refused, {failures} not",
        count - failures
    );
    Ok(good && failures == 0)
}

/// An edit that is not met so far, and what its check said.
struct Open<'a> {
    edit: Edit,
    of: &'a Crate,
    log: Rc<Log>,
    /// Whether others were tried in the same check.
    is_shared: bool,
    /// The proof files of the function that it names, where they were made to fit.
    proofs: Files,
}

impl Open<'_> {
    /// Makes the function's proof files fit the edit. Whether they changed.
    fn fit(&mut self) -> bool {
        let function = &self.edit.expect;
        if self.log.verdict_on(function) != Some(Verdict::Unfit) {
            return false;
        }
        if self.proofs.is_empty() {
            let folder = self.log.proofs_of(function).unwrap_or_default();
            let own = |file: &&String| file.rsplit_once('/').is_some_and(|f| f.0 == folder);
            let files = self.of.proofs.iter().filter(|(file, _)| own(file));
            self.proofs = files.map(|(f, t)| (f.clone(), t.clone())).collect();
        }
        match fit::fitted(&self.log, function, &self.proofs) {
            Some(proofs) => self.proofs = proofs,
            None => return false,
        }
        true
    }

    /// The check of this edit alone.
    fn job(&self) -> Job {
        let mut files = self.of.files.clone();
        let mut changed = match self.edit.apply(&mut files) {
            Ok(()) => changed(files, self.of),
            Err(_) => Vec::new(),
        };
        changed.extend(self.proofs.clone());
        Job {
            name: self.of.name.clone(),
            changed,
        }
    }
}

/// The files that are other than those of a crate.
fn changed(mut files: Files, of: &Crate) -> Vec<(String, String)> {
    files.retain(|file, text| of.files[file] != *text);
    files.into_iter().collect()
}

/// Tries each group as one check, and hands back the edits that are not met.
fn try_groups<'a>(pool: &mut Pool, groups: Vec<Group<'a>>) -> Result<Vec<Open<'a>>, String> {
    let mut jobs = Vec::new();
    for group in &groups {
        let mut files = group.of.files.clone();
        for edit in &group.edits {
            // where two edits of a group do not fit together, the second is tried alone later
            let mut more = files.clone();
            if edit.apply(&mut more).is_ok() {
                files = more;
            }
        }
        jobs.push(Job {
            name: group.of.name.clone(),
            changed: changed(files, group.of),
        });
    }
    let progress = Progress::new(jobs.len());
    let logs = pool.check(jobs, |_, _| progress.step(None));
    let mut open = Vec::new();
    for (group, log) in groups.into_iter().zip(logs) {
        let log = Rc::new(log.map_err(|e| format!("{}: {e}", group.of.name))?);
        let is_shared = group.edits.len() > 1;
        let applies = |edit: &Edit| edit.apply(&mut group.of.files.clone()).is_ok();
        let edits = group.edits.into_iter().filter(applies);
        let left = edits.filter(|edit| !edit.is_met(&log, &group.of.laws));
        open.extend(left.map(|edit| Open {
            edit,
            of: group.of,
            log: Rc::clone(&log),
            is_shared,
            proofs: Files::new(),
        }));
    }
    Ok(open)
}

/// Tries each edit alone, and hands back those that are not met.
fn try_edits<'a>(pool: &mut Pool, edits: Vec<Open<'a>>) -> Result<Vec<Open<'a>>, String> {
    let jobs: Vec<Job> = edits.iter().map(Open::job).collect();
    let logs = pool.check(jobs, |_, _| {});
    let mut open = Vec::new();
    for (mut one, log) in edits.into_iter().zip(logs) {
        one.log = Rc::new(log.map_err(|e| format!("{}: {e}", one.of.name))?);
        one.is_shared = false;
        if !one.edit.is_met(&one.log, &one.of.laws) {
            open.push(one);
        }
    }
    Ok(open)
}

fn complaint(edit: &Edit, log: &Log) -> String {
    let first = log
        .faults
        .first()
        .map_or("none", |fault| fault.says.as_str());
    let first: String = first.chars().take(200).collect();
    let standing = log.standing(&edit.expect);
    format!(
        "{}/{}: {} is {standing:?}, the check says {:?}; first error: {first}",
        edit.name, edit.label, edit.expect, log.verdict
    )
}

fn edits_of(repository: &Repository, name: &str) -> Result<Vec<Edit>, String> {
    let files = repository
        .files(name, "wrong-answers", "edit")
        .map_err(|e| format!("{name}: {e}"))?;
    let mut found = Vec::new();
    for (file, text) in files {
        let label = file
            .rsplit('/')
            .next()
            .unwrap_or("")
            .trim_end_matches(".edit");
        found.push(Edit::read(name, label, &text).map_err(|e| format!("{name}/{label}: {e}"))?);
    }
    Ok(found)
}

/// Whether each public function of a crate has two wrong answers of its own.
fn enough(repository: &Repository, name: &str, edits: &[Edit]) -> Result<bool, String> {
    let sources = repository
        .sources(name)
        .map_err(|e| format!("{name}: {e}"))?;
    let mut good = true;
    for function in sources
        .iter()
        .flat_map(|(_, source)| source.functions())
        .filter(|f| f.public)
    {
        let count = edits.iter().filter(|e| e.expect == function.path).count();
        if count < 2 {
            println!(
                "{name}: {} has {count} of its two wrong answers",
                function.path
            );
            good = false;
        }
    }
    Ok(good)
}
