//! Keeps a policy and a table in files, and stores the table so that no grant is ever lost.
//!
//!     keep FOLDER < requests
//!
//! The folder has the policy's image in `policy`; the table is `table`, made of four blocks the first
//! time. Each line of the input is a request, such as `user 7 in role 1: 1 on 1 at 1=5, 2=90`, or a
//! context that is to be closed, such as `close 1=5`; each line of the output is what it got, and
//! nothing but a refusal is printed before the table is stored.
//! Any number of these programs may run on one folder at the same time.

use hastovimen::{Context, Grant, Line, Policy, PolicyBuf, Refusal, Request, TableBuf};
use std::error::Error;
use std::fs::{self, File};
use std::io::{self, BufRead, ErrorKind, Write};
use std::path::{Path, PathBuf};

pub struct Keeper {
    policy: PolicyBuf,
    folder: PathBuf,
}

impl Keeper {
    pub fn open(folder: &Path) -> Result<Keeper, Box<dyn Error>> {
        let policy = Policy::own(fs::read(folder.join("policy"))?)?;
        let folder = folder.to_owned();
        Ok(Keeper { policy, folder })
    }

    /// Decides a request. The outer error means that nothing is known to be stored: take no step.
    pub fn decide(&self, request: &Request) -> Result<Result<Grant, Refusal>, Box<dyn Error>> {
        self.stored(|table| table.decide(request))
    }

    /// Closes a context: how many records were removed. An error means that nothing is known to be
    /// stored.
    pub fn close(&self, context: &Context) -> Result<u32, Box<dyn Error>> {
        Ok(self.stored(|table| table.close(context))??)
    }

    /// What the call gives. What is accepted has been stored.
    fn stored<T>(
        &self,
        call: impl FnOnce(&mut TableBuf) -> Result<T, Refusal>,
    ) -> Result<Result<T, Refusal>, Box<dyn Error>> {
        // A file of its own is locked, for the table's is replaced by another one. It is free
        // again once `lock` is dropped, or the program ends, however it ends.
        let lock = File::create(self.folder.join("lock"))?;
        lock.lock()?;
        let mut table = match fs::read(self.folder.join("table")) {
            Ok(image) => self.policy.own_table(image)?,
            Err(error) if error.kind() == ErrorKind::NotFound => self.policy.new_table(4)?,
            Err(error) => return Err(error.into()),
        };
        let answer = call(&mut table);
        if answer.is_ok() {
            self.store(table.image())?;
        }
        Ok(answer)
    }

    /// At every moment `table` is the old image or the new one, whole, even if the power fails.
    fn store(&self, image: &[u8]) -> io::Result<()> {
        let new = self.folder.join("table.new");
        let mut file = File::create(&new)?;
        file.write_all(image)?;
        file.sync_all()?;
        fs::rename(&new, self.folder.join("table"))?;
        File::open(&self.folder)?.sync_all()
    }
}

/// Decides one request a line, or closes a context, and prints what each got.
pub fn keep(
    folder: &Path,
    input: impl BufRead,
    mut output: impl Write,
) -> Result<(), Box<dyn Error>> {
    let keeper = Keeper::open(folder)?;
    for line in input.lines() {
        let line = line?;
        match line.strip_prefix("close ") {
            Some(context) => writeln!(output, "removed {}", keeper.close(&context.parse()?)?)?,
            None => writeln!(output, "{}", Line(keeper.decide(&line.parse()?)?))?,
        }
    }
    Ok(())
}

fn main() -> Result<(), Box<dyn Error>> {
    let folder = std::env::args().nth(1).ok_or("keep FOLDER < requests")?;
    keep(Path::new(&folder), io::stdin().lock(), io::stdout())
}
