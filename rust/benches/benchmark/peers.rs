//! LPeg and leg: what they have in their own idiom, run as programs that time themselves.
use std::fs;
use std::path::{Path, PathBuf};
use std::process::Command;

pub struct Peers {
    directory: PathBuf,
    sources: PathBuf,
}

fn said(command: &mut Command) -> String {
    let ran = command
        .output()
        .unwrap_or_else(|error| panic!("{command:?}: {error}"));
    assert!(
        ran.status.success(),
        "{command:?}: {}",
        String::from_utf8_lossy(&ran.stderr)
    );
    String::from_utf8_lossy(&ran.stdout).trim().to_string()
}

impl Peers {
    /// Compiles the grammars that leg has, and writes the entries, a line each.
    pub fn new(entries: &[Vec<u8>]) -> Peers {
        let sources = Path::new(env!("CARGO_MANIFEST_DIR")).join("benches/benchmark/peers");
        let directory = std::env::temp_dir().join(format!("peers.{}", std::process::id()));
        fs::create_dir_all(&directory).expect("a directory");
        let text: Vec<u8> = entries
            .iter()
            .flat_map(|e| [&e[..], b"\n"].concat())
            .collect();
        fs::write(directory.join("entries.txt"), text).expect("a file");
        let peers = Peers { directory, sources };
        peers.compile(
            "dates",
            &fs::read_to_string(peers.sources.join("dates.leg")).expect("a file"),
        );
        peers
    }

    fn compile(&self, name: &str, grammar: &str) {
        let at = |end: &str| self.directory.join(format!("{name}.{end}"));
        fs::write(at("leg"), grammar).expect("a file");
        said(Command::new("leg").arg("-o").arg(at("c")).arg(at("leg")));
        said(
            Command::new("cc")
                .args(["-O3", "-w", "-DGRAMMAR"])
                .arg(format!("-DPARSER=\"{}\"", at("c").display()))
                .arg("-o")
                .arg(self.directory.join(name))
                .arg(self.sources.join("main.c")),
        );
    }

    fn number(&self, command: &mut Command) -> f64 {
        said(command).parse().expect("nanoseconds")
    }

    /// Nanoseconds for all the entries, once.
    pub fn lpeg_dates(&self, calls: usize) -> f64 {
        self.number(
            Command::new("lua5.4")
                .arg(self.sources.join("dates.lua"))
                .arg(self.directory.join("entries.txt"))
                .arg(calls.to_string()),
        )
    }

    pub fn leg_dates(&self, calls: usize) -> f64 {
        self.number(
            Command::new(self.directory.join("dates"))
                .arg(self.directory.join("entries.txt"))
                .arg(calls.to_string()),
        )
    }

    /// Nanoseconds for the entry `ab` by rules of so many levels.
    pub fn lpeg_levels(&self, depth: u32) -> f64 {
        self.number(
            Command::new("lua5.4")
                .arg(self.sources.join("levels.lua"))
                .arg(depth.to_string()),
        )
    }

    pub fn leg_levels(&self, depth: u32) -> f64 {
        let mut grammar = String::from("entry = s0\n");
        for i in 0..depth {
            grammar += &format!("s{i} = s{} 'x' | s{}\n", i + 1, i + 1);
        }
        grammar += &format!("s{depth} = 'a'\n");
        let name = format!("levels{depth}");
        self.compile(&name, &grammar);
        fs::write(self.directory.join("ab.txt"), "ab\n").expect("a file");
        self.number(
            Command::new(self.directory.join(name))
                .arg(self.directory.join("ab.txt"))
                .arg("1"),
        )
    }
}

impl Drop for Peers {
    fn drop(&mut self) {
        fs::remove_dir_all(&self.directory).ok();
    }
}
