//! Runs the program `flashlist`, whose code is for x86-64: directly there, elsewhere under the kit's
//! emulator. To start it there takes some twenty milliseconds, so many jobs go through one process that
//! makes a copy of itself for each (`far/serve.c`).

use std::io::{Read, Result, Write};
use std::path::{Path, PathBuf};
use std::process::{Child, Command, Stdio};

#[derive(Debug, PartialEq, Eq)]
pub struct Ran {
    pub status: i32,
    pub printed: Vec<u8>,
}

pub struct Program {
    words: Vec<String>,
    path: PathBuf,
}

fn root() -> &'static Path {
    Path::new(env!("CARGO_MANIFEST_DIR")).parent().unwrap()
}

impl Program {
    pub fn at(path: PathBuf) -> Program {
        let prefix = Command::new(root().join("tools/x86-64")).arg("prefix").output().expect("tools/x86-64 runs");
        let words = String::from_utf8(prefix.stdout).unwrap();
        Program { words: words.lines().map(str::to_string).collect(), path }
    }

    fn emulated(&self) -> bool {
        !self.words.is_empty()
    }

    fn command(&self, more: &[&Path]) -> Command {
        let mut words =
            self.words.iter().map(|word| word.as_ref()).chain(more.iter().copied()).chain([self.path.as_path()]);
        let mut command = Command::new(words.next().unwrap());
        command.args(words).stdin(Stdio::piped()).stdout(Stdio::piped());
        command
    }

    /// One process, for one job.
    pub fn run(&self, job: &[u8]) -> Result<Ran> {
        let mut child = self.command(&[]).spawn()?;
        // a job fits into the pipe; the program may end without reading all of it
        let _ = child.stdin.take().unwrap().write_all(job);
        let output = child.wait_with_output()?;
        Ok(Ran { status: output.status.code().unwrap_or(255), printed: output.stdout })
    }

    /// Something that runs many jobs, one after the other.
    pub fn runner<'a>(&'a self, library: &Path) -> Result<Runner<'a>> {
        if !self.emulated() {
            return Ok(Runner { program: self, server: None });
        }
        let preload = [Path::new("--preload"), library];
        Ok(Runner { program: self, server: Some(self.command(&preload).spawn()?) })
    }

    /// Builds what is preloaded, where it is needed.
    pub fn build_server(&self, library: &Path) -> Result<()> {
        if self.emulated() {
            let source = root().join("rust/far/serve.c");
            let mut compiler = Command::new(root().join("tools/x86-64"));
            let built = compiler.args(["cc", "-O2", "-shared", "-o"]).args([library, &source]).status()?;
            assert!(built.success(), "{} could not be built", source.display());
        }
        Ok(())
    }
}

pub struct Runner<'a> {
    program: &'a Program,
    server: Option<Child>,
}

impl Runner<'_> {
    pub fn run(&mut self, job: &[u8]) -> Result<Ran> {
        let server = match &mut self.server {
            None => return self.program.run(job),
            Some(server) => server,
        };
        let to = server.stdin.as_mut().unwrap();
        to.write_all(&(job.len() as u64).to_le_bytes())?;
        to.write_all(job)?;
        let from = server.stdout.as_mut().unwrap();
        let mut number = || {
            let mut bytes = [0; 8];
            from.read_exact(&mut bytes).map(|()| u64::from_le_bytes(bytes))
        };
        let status = number()? as i32;
        let mut printed = vec![0; number()? as usize];
        from.read_exact(&mut printed)?;
        Ok(Ran { status, printed })
    }
}

impl Drop for Runner<'_> {
    fn drop(&mut self) {
        if let Some(server) = &mut self.server {
            drop(server.stdin.take());
            let _ = server.wait();
        }
    }
}
