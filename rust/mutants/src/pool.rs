//! The checks, spread over one workplace for each core.

use crate::log::Log;
use crate::repository::Repository;
use crate::workplace::{keep_base, Workplace, KEPT};
use std::collections::VecDeque;
use std::fs;
use std::io;
use std::path::{Path, PathBuf};
use std::process::Command;
use std::sync::Mutex;

/// Some files of a crate, changed: paths below the crate's folder, and texts.
#[derive(Debug)]
pub struct Job {
    pub name: String,
    pub changed: Vec<(String, String)>,
}

/// The workplaces lie outside the repository, since rt refuses a source of Rattle that stands in none of its crates.
#[derive(Debug)]
pub struct Pool {
    workplaces: Vec<Workplace>,
    below: PathBuf,
}

impl Drop for Pool {
    fn drop(&mut self) {
        // What is left is found and removed by a later run.
        let _ = fs::remove_dir_all(&self.below);
    }
}

impl Pool {
    /// Proves the crates, keeps what that left, and copies the repository once for each core.
    pub fn new(repository: &Repository, crates: &[String], cores: usize) -> Result<Pool, String> {
        prove(repository, crates, cores)?;
        let at = |e: io::Error| format!("copy of the repository: {e}");
        let below = own_folder(&std::env::temp_dir()).map_err(at)?;
        let mut pool = Pool {
            workplaces: Vec::new(),
            below: below.clone(),
        };
        let bases = below.join("bases");
        for name in crates {
            keep_base(&repository.root, &bases, name).map_err(at)?;
        }
        for k in 0..cores {
            let root = below.join(format!("copy-{k}"));
            let place = Workplace::new(&repository.root, root, bases.clone());
            pool.workplaces.push(place.map_err(at)?);
        }
        Ok(pool)
    }

    /// Checks every job; `told` hears of each as it ends. The logs are in the order of the jobs.
    pub fn check(
        &mut self,
        jobs: Vec<Job>,
        told: impl Fn(usize, &Log) + Sync,
    ) -> Vec<io::Result<Log>> {
        let told = |i: usize, log: &io::Result<Log>| {
            if let Ok(log) = log {
                told(i, log);
            }
        };
        self.each(
            jobs,
            |workplace, job: &Job| workplace.check(&job.name, &job.changed),
            told,
        )
    }

    fn each<J: Sync + Send, R: Send>(
        &mut self,
        jobs: Vec<J>,
        work: impl Fn(&mut Workplace, &J) -> R + Sync,
        told: impl Fn(usize, &R) + Sync,
    ) -> Vec<R> {
        let count = jobs.len();
        let queue: Mutex<VecDeque<(usize, J)>> = Mutex::new(jobs.into_iter().enumerate().collect());
        let done: Mutex<Vec<Option<R>>> = Mutex::new((0..count).map(|_| None).collect());
        std::thread::scope(|scope| {
            for workplace in &mut self.workplaces {
                scope.spawn(|| loop {
                    let Some((i, job)) = queue.lock().expect("the queue").pop_front() else {
                        break;
                    };
                    let result = work(workplace, &job);
                    told(i, &result);
                    done.lock().expect("the results")[i] = Some(result);
                });
            }
        });
        done.into_inner()
            .expect("the results")
            .into_iter()
            .map(|r| r.expect("each job was done"))
            .collect()
    }
}

/// Proves the crates where they stand, over what was kept there, with the libraries below them.
fn prove(repository: &Repository, crates: &[String], cores: usize) -> Result<(), String> {
    let is_whole = crates.len() == repository.crates.len();
    if is_whole {
        let jobs = cores.to_string();
        rt(&["all", "check", "--jobs", &jobs], &repository.root)?;
    }
    // what the line above built before, and a check left nothing of, is checked too
    let mut left = crates.iter().map(|name| repository.folder(name));
    left.try_for_each(|folder| match is_whole && folder.join(KEPT).exists() {
        true => Ok(()),
        false => rt(&["check"], &folder),
    })
}

fn rt(words: &[&str], folder: &Path) -> Result<(), String> {
    let told = format!("rt {} in {}", words.join(" "), folder.display());
    let mut command = Command::new("rt");
    let ran = command.args(words).current_dir(folder).output();
    let ran = ran.map_err(|e| format!("{told}: {e}"))?;
    if ran.status.success() {
        return Ok(());
    }
    let said = String::from_utf8_lossy(&ran.stdout) + String::from_utf8_lossy(&ran.stderr);
    Err(format!("{told}: not proved as it stands:\n{said}"))
}

/// Makes a folder that no other run has, below `top`, in the place of one whose run is over.
fn own_folder(top: &Path) -> io::Result<PathBuf> {
    for n in 0.. {
        let path = top.join(format!("snowpulley-mutants-{n}"));
        let owner = path.join("process");
        let is_over =
            fs::read_to_string(&owner).is_ok_and(|id| !Path::new("/proc").join(id.trim()).exists());
        if is_over {
            fs::remove_dir_all(&path)?;
        }
        match fs::create_dir(&path) {
            Ok(()) => {
                fs::write(owner, std::process::id().to_string())?;
                return Ok(path);
            }
            Err(e) if e.kind() == io::ErrorKind::AlreadyExists => {}
            Err(e) => return Err(e),
        }
    }
    unreachable!("there are folders without end")
}
