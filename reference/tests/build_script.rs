//! The script `build`: what makes it build again. A stand-in for `rt` counts the calls and writes the file.

use std::fs;
use std::os::unix::fs::PermissionsExt;
use std::path::{Path, PathBuf};
use std::process::Command;
use std::sync::{Mutex, MutexGuard, PoisonError};
use std::time::{Duration, SystemTime};

/// One repository at a time: a process that is started while a script is being written keeps that file open for a moment, and the
/// script does not run then.
static TURN: Mutex<()> = Mutex::new(());

struct Repository {
    root: PathBuf,
    _turn: MutexGuard<'static, ()>,
}

impl Repository {
    fn new(name: &str) -> Self {
        let _turn = TURN.lock().unwrap_or_else(PoisonError::into_inner);
        let root = std::env::temp_dir().join(format!("build-{name}-{}", std::process::id()));
        let _ = fs::remove_dir_all(&root);
        for folder in ["src", "specs", "proofs/f", "must-fail"] {
            fs::create_dir_all(root.join("crates/one").join(folder)).expect("a folder");
        }
        fs::create_dir_all(root.join("target/bin")).expect("a folder");
        fs::create_dir_all(root.join("path")).expect("a folder");
        let repository = Self { root, _turn };
        let script = Path::new(env!("CARGO_MANIFEST_DIR")).join("../build");
        fs::copy(script, repository.root.join("build")).expect("the script");
        repository.write(
            "path/rt",
            "#!/bin/sh\necho call >>../../calls\nmkdir -p out\n: >out/one\n",
        );
        let rt = repository.root.join("path/rt");
        fs::set_permissions(rt, fs::Permissions::from_mode(0o755)).expect("a mode");
        for file in Self::FILES {
            repository.write(file, "");
        }
        repository
    }

    const FILES: [&'static str; 6] = [
        "crates.txt",
        "crates/one/src/main.rt",
        "crates/one/specs/Lib.antt",
        "crates/one/proofs/Lib.antt",
        "crates/one/proofs/f/Proof.antt",
        "crates/one/must-fail/a.edit",
    ];

    fn write(&self, file: &str, text: &str) {
        fs::write(self.root.join(file), text).expect("a file");
    }

    /// Everything is as old as an hour ago.
    fn age(&self) {
        let old = SystemTime::now() - Duration::from_secs(3600);
        let folders = ["", "/src", "/specs", "/proofs", "/proofs/f", "/must-fail"]
            .map(|f| format!("crates/one{f}"));
        for name in Self::FILES.map(String::from).iter().chain(&folders) {
            let file = fs::File::open(self.root.join(name)).expect("a file");
            file.set_modified(old).expect("a time");
        }
    }

    /// How often `rt` is called by one run of the script.
    fn builds(&self) -> usize {
        let calls = self.root.join("calls");
        let _ = fs::remove_file(&calls);
        let path = format!(
            "{}:{}",
            self.root.join("path").display(),
            std::env::var("PATH").expect("a path")
        );
        let mut script = Command::new(self.root.join("build"));
        let status = script
            .args(["bin/one", "check", "one"])
            .env("PATH", path)
            .status();
        assert!(status.expect("the script runs").success());
        fs::read_to_string(&calls)
            .unwrap_or_default()
            .lines()
            .count()
    }
}

impl Drop for Repository {
    fn drop(&mut self) {
        let _ = fs::remove_dir_all(&self.root);
    }
}

#[test]
fn an_edit_of_code_definitions_or_proofs_builds_again() {
    let repository = Repository::new("edit");
    assert_eq!(repository.builds(), 1, "nothing is built yet");
    repository.age();
    assert_eq!(repository.builds(), 0, "nothing has changed");
    for (file, builds) in Repository::FILES.iter().zip([1, 1, 1, 1, 1, 0]) {
        repository.age();
        repository.builds();
        let later = SystemTime::now() + Duration::from_secs(3600);
        let changed = fs::File::open(repository.root.join(file)).expect("a file");
        changed.set_modified(later).expect("a time");
        assert_eq!(repository.builds(), builds, "{file}");
    }
}

#[test]
fn a_proof_that_is_removed_builds_again() {
    let repository = Repository::new("removal");
    repository.builds();
    repository.age();
    repository.builds();
    std::thread::sleep(Duration::from_millis(50));
    fs::remove_file(repository.root.join("crates/one/proofs/f/Proof.antt")).expect("a file");
    assert_eq!(repository.builds(), 1);
}
