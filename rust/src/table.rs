//! Tables of earlier grants.

use crate::bytes::{put_header, seal, u16_at};
use crate::image::TableImage;
use crate::{
    raw, BuildError, Context, Grant, Policy, PolicyBuf, Preview, Record, Refusal, Request,
};
use crate::{BLOCK, MOST_TABLE_BLOCKS, RECORDS_PER_BLOCK};
use std::fmt;

pub(crate) const TABLE: u32 = 2;
/// Where in a block its records begin.
pub(crate) const RECORDS_AT: usize = 24;

/// A table that was made fresh or checked under a policy, and that nobody else can alter while this
/// value lives.
///
/// Its buffer is lent by `&mut` ([`Policy::fresh_table`], [`Policy::open_table`]) or its own
/// ([`Policy::new_table`], [`Policy::own_table`], [`TableBuf`]). It keeps its policy, so that it is
/// never decided under another one. It is decided on, and contexts are closed in it, through
/// `&mut self`, by one thread at a time; it is previewed through `&self`, by any number of them.
/// Dropping it gives a lent buffer back, to be stored.
///
/// ```compile_fail
/// # use hastovimen::*;
/// # let image = PolicyBuilder::new().build().unwrap();
/// let policy = Policy::check(&image).unwrap();
/// let mut buffer = [0; 512];
/// let mut table = policy.fresh_table(&mut buffer).unwrap();
/// buffer[24] = 1; // the table still has it
/// let decided = table.decide_bytes(&[]);
/// ```
#[must_use = "a table does nothing until it is decided on"]
pub struct Table<'p, 't> {
    policy: Policy<'p>,
    image: TableImage<'t>,
}

/// A table with a buffer and a policy of its own, which can be kept anywhere.
///
/// ```
/// use hastovimen::*;
///
/// struct Desk {
///     table: TableBuf,
/// }
///
/// let policy = Policy::own(PolicyBuilder::new().build()?)?;
/// let mut desk = Desk { table: policy.new_table(4)? };
/// let step = Operation::of(1).on(Target::of(1));
/// let request = Request::new(User::of(7), Role::of(1), step, []);
/// assert_eq!(desk.table.decide(&request), Err(Refusal::NotPermitted));
/// # Ok::<(), Box<dyn std::error::Error>>(())
/// ```
pub type TableBuf = Table<'static, 'static>;

impl<'p> Policy<'p> {
    /// Makes a fresh table in a lent buffer of 512 times 1 to 128 bytes, whatever it held before.
    pub fn fresh_table<'t>(&self, buffer: &'t mut [u8]) -> Result<Table<'p, 't>, Refusal> {
        raw::fresh_table(self.image(), buffer)?;
        Ok(self.table(TableImage::Lent(buffer)))
    }

    /// Makes a fresh table of 1 to 128 blocks, with a buffer of its own.
    pub fn new_table(&self, blocks: usize) -> Result<Table<'p, 'static>, Refusal> {
        if blocks > MOST_TABLE_BLOCKS {
            // The buffer may be more than there is memory for.
            return Err(Refusal::TableLength);
        }
        let mut buffer = vec![0; blocks * BLOCK];
        raw::fresh_table(self.image(), &mut buffer)?;
        Ok(self.table(TableImage::Owned(buffer)))
    }

    /// Lets the engine check a lent table that was made under this policy, and takes it up.
    pub fn open_table<'t>(&self, buffer: &'t mut [u8]) -> Result<Table<'p, 't>, Refusal> {
        raw::check_table(self.image(), buffer)?;
        Ok(self.table(TableImage::Lent(buffer)))
    }

    /// Lets the engine check a table that was made under this policy, and keeps it.
    pub fn own_table(&self, buffer: Vec<u8>) -> Result<Table<'p, 'static>, Refusal> {
        raw::check_table(self.image(), &buffer)?;
        Ok(self.table(TableImage::Owned(buffer)))
    }

    fn table<'t>(&self, image: TableImage<'t>) -> Table<'p, 't> {
        let policy = self.clone();
        Table { policy, image }
    }
}

impl<'p> Table<'p, '_> {
    /// Decides a request and brings the table up to date. If it is refused, the table stays as it
    /// was. Once it is granted, store the table before the step is taken.
    ///
    /// ```
    /// use hastovimen::*;
    ///
    /// let policy = Policy::own("role 1 may do 1 on 1\n".parse::<PolicyBuilder>()?.build()?)?;
    /// let mut table = policy.new_table(1)?;
    /// let request: Request = "user 7 in role 1: 1 on 1 at the whole business".parse()?;
    /// match table.decide(&request) {
    ///     Ok(grant) => assert!(!grant.recorded), // there is no rule that counts it
    ///     Err(refusal) => panic!("{refusal}"),
    /// }
    /// # Ok::<(), Box<dyn std::error::Error>>(())
    /// ```
    ///
    /// An answer that nobody looks at is warned of:
    ///
    /// ```compile_fail
    /// #![deny(unused_must_use)]
    /// # use hastovimen::*;
    /// fn careless(table: &mut Table, request: &Request) {
    ///     table.decide(request);
    /// }
    /// ```
    pub fn decide(&mut self, request: &Request) -> Result<Grant, Refusal> {
        self.decide_bytes(&request.to_bytes())
    }

    /// Decides a request that came as bytes, whatever they are.
    pub fn decide_bytes(&mut self, request: &[u8]) -> Result<Grant, Refusal> {
        raw::decide(self.policy.image(), &mut self.image, request)
    }

    /// What [`decide`](Table::decide) would answer now; the table stays as it is. Any number of
    /// readers may ask at the same time.
    ///
    /// Nothing is recorded and nothing is reserved, so two requests may both have a good preview of
    /// which only the one that is decided first will be granted:
    ///
    /// ```
    /// use hastovimen::*;
    ///
    /// let policy: PolicyBuilder = "\
    /// rule 1: over 2=!
    ///   exclusion 1: 2 of privileges 1 on 1, 2 on 1
    /// role 1 may do 1 on 1
    /// role 2 may do 2 on 1
    /// ".parse()?;
    /// let mut table = Policy::own(policy.build()?)?.new_table(1)?;
    /// let adjust: Request = "user 7 in role 1: 1 on 1 at 2=90".parse()?;
    /// let check: Request = "user 7 in role 2: 2 on 1 at 2=90".parse()?;
    /// std::thread::scope(|desks| {
    ///     for request in [&adjust, &check] {
    ///         let table = &table;
    ///         desks.spawn(move || {
    ///             let preview = table.preview(request).unwrap();
    ///             assert_eq!(preview.to_string(), "would grant 1 0 1");
    ///         });
    ///     }
    /// });
    /// assert_eq!(table.held(), 0);
    ///
    /// assert!(table.decide(&adjust)?.recorded);
    /// let forbidden = Refusal::ExclusivePrivileges { rule: 1, exclusion: 1 };
    /// assert_eq!(table.preview(&check), Err(forbidden));
    /// # Ok::<(), Box<dyn std::error::Error>>(())
    /// ```
    ///
    /// A preview does not pass for a grant:
    ///
    /// ```compile_fail
    /// # use hastovimen::*;
    /// fn too_early(table: &Table, request: &Request) -> Result<Grant, Refusal> {
    ///     table.preview(request)
    /// }
    /// ```
    ///
    /// And a reader, who may preview, cannot decide:
    ///
    /// ```compile_fail
    /// # use hastovimen::*;
    /// fn reader(table: &Table, request: &Request) -> Result<Grant, Refusal> {
    ///     table.decide(request)
    /// }
    /// ```
    pub fn preview(&self, request: &Request) -> Result<Preview, Refusal> {
        self.preview_bytes(&request.to_bytes())
    }

    /// Previews a request that came as bytes, whatever they are.
    pub fn preview_bytes(&self, request: &[u8]) -> Result<Preview, Refusal> {
        raw::preview(self.policy.image(), &self.image, request)
    }

    /// Closes a context, such as a depot that shuts: removes every record whose context
    /// [begins with](Context::begins_with) its levels, and returns how many these were. The other
    /// records keep their order and their marks. A context without levels names every record. Store the
    /// table, as after a grant.
    ///
    /// What was removed no longer counts for anyone. Of a run that goes beyond the context the rest
    /// still counts, even if its first step is gone; a run with nothing left has ended. Nothing is
    /// forbidden: later requests in the context are judged as ever.
    ///
    /// ```
    /// use hastovimen::*;
    ///
    /// let policy: PolicyBuilder = "\
    /// rule 1: over 1=*, 2=!; last step 4 on 1
    ///   exclusion 1: 2 of privileges 1 on 1, 2 on 1
    /// role 1 may do 1 on 1
    /// role 2 may do 2 on 1
    /// ".parse()?;
    /// let mut table = Policy::own(policy.build()?)?.new_table(1)?;
    /// for adjust in [
    ///     "user 7 in role 1: 1 on 1 at 1=5, 2=90",
    ///     "user 7 in role 1: 1 on 1 at 1=5, 2=91",
    ///     "user 7 in role 1: 1 on 1 at 1=6, 2=92",
    /// ] {
    ///     assert!(table.decide(&adjust.parse()?)?.recorded);
    /// }
    ///
    /// let depot: Context = "1=5".parse()?;
    /// let named = table.records().filter(|record| record.request.context.begins_with(&depot));
    /// assert_eq!(named.count(), 2);
    /// assert_eq!(table.close(&depot)?, 2);
    /// assert_eq!(table.held(), 1);
    /// assert_eq!(table.close(&depot)?, 0);
    ///
    /// // The jobs of depot 5 begin anew; that of depot 6 goes on.
    /// let check = |place: &str| format!("user 7 in role 2: 2 on 1 at {place}").parse::<Request>();
    /// assert!(table.decide(&check("1=5, 2=90")?).is_ok());
    /// let forbidden = Refusal::ExclusivePrivileges { rule: 1, exclusion: 1 };
    /// assert_eq!(table.decide(&check("1=6, 2=92")?), Err(forbidden));
    /// # Ok::<(), Box<dyn std::error::Error>>(())
    /// ```
    ///
    /// A `Context` is always a good one, and the table was checked. So it is refused only if a lent
    /// buffer was altered from outside the program, as a mapped file can be.
    ///
    /// A reader, who may preview, cannot close:
    ///
    /// ```compile_fail
    /// # use hastovimen::*;
    /// fn reader(table: &Table, context: &Context) -> Result<u32, Refusal> {
    ///     table.close(context)
    /// }
    /// ```
    pub fn close(&mut self, context: &Context) -> Result<u32, Refusal> {
        self.close_bytes(&context.to_bytes())
    }

    /// Closes a context that came as bytes, whatever they are.
    pub fn close_bytes(&mut self, context: &[u8]) -> Result<u32, Refusal> {
        raw::close(self.policy.image(), &mut self.image, context)
    }

    /// The policy that it stands under.
    pub fn policy(&self) -> &Policy<'p> {
        &self.policy
    }

    /// The image, to be stored.
    pub fn image(&self) -> &[u8] {
        &self.image
    }

    /// The image, taken out; that of a lent buffer is copied.
    #[must_use = "the table is gone otherwise"]
    pub fn into_image(self) -> Vec<u8> {
        self.image.into_vec()
    }

    /// The same table with a buffer and a policy of its own; what is lent is copied.
    pub fn into_owned(self) -> TableBuf {
        let policy: PolicyBuf = self.policy.into_owned();
        policy.table(TableImage::Owned(self.image.into_vec()))
    }

    /// How many blocks it has.
    pub fn blocks(&self) -> usize {
        self.image.len() / BLOCK
    }

    /// How many records it can hold.
    pub fn places(&self) -> usize {
        RECORDS_PER_BLOCK * self.blocks()
    }

    /// How many it holds.
    pub fn held(&self) -> usize {
        self.image.chunks_exact(BLOCK).map(records_in).sum()
    }

    /// Its records, in the order in which they were granted.
    pub fn records(&self) -> impl Iterator<Item = Record> + '_ {
        let blocks = self.image.chunks_exact(BLOCK);
        let records = blocks.flat_map(|block| {
            let end = RECORDS_AT + Record::LENGTH * records_in(block);
            block[RECORDS_AT..end].chunks_exact(Record::LENGTH)
        });
        records.map(|record| Record::read(record).expect("the table was checked"))
    }

    /// The same records in a table of so many blocks: as many as this one has, or more. This one
    /// stays as it is; decide on one of the two from here on.
    ///
    /// ```
    /// use hastovimen::*;
    ///
    /// let policy = Policy::own(PolicyBuilder::new().build()?)?;
    /// let table = policy.new_table(2)?;
    /// let grown = table.grown(3)?;
    /// assert_eq!((grown.places(), grown.held()), (45, table.held()));
    /// let error = grown.grown(2).unwrap_err();
    /// assert_eq!(error, BuildError::FewerBlocks { has: 3, asked: 2 });
    /// # Ok::<(), Box<dyn std::error::Error>>(())
    /// ```
    pub fn grown(&self, blocks: usize) -> Result<Table<'p, 'static>, BuildError> {
        let has = self.blocks();
        if blocks > MOST_TABLE_BLOCKS {
            return Err(BuildError::TableBlocks(blocks));
        }
        if blocks < has {
            return Err(BuildError::FewerBlocks { has, asked: blocks });
        }
        let mut image = self.image.to_vec();
        image.resize(blocks * BLOCK, 0);
        let stamp = &self.image[16..24];
        for (number, block) in image.chunks_exact_mut(BLOCK).enumerate() {
            put_header(block, TABLE, number, blocks);
            block[16..24].copy_from_slice(stamp);
        }
        seal(&mut image);
        let grown = self.policy.own_table(image);
        Ok(grown.expect("records that were checked, from the front on"))
    }
}

fn records_in(block: &[u8]) -> usize {
    u16_at(block, 8).into()
}

/// Shows the records, one a line, below a line that says how full the table is.
impl fmt::Display for Table<'_, '_> {
    fn fmt(&self, f: &mut fmt::Formatter) -> fmt::Result {
        writeln!(f, "{} of {} places", self.held(), self.places())?;
        for (i, record) in self.records().enumerate() {
            writeln!(f, "{}: {record}", i + 1)?;
        }
        Ok(())
    }
}

impl fmt::Debug for Table<'_, '_> {
    fn fmt(&self, f: &mut fmt::Formatter) -> fmt::Result {
        f.debug_struct("Table")
            .field("policy", &self.policy)
            .field("places", &self.places())
            .field("records", &self.records().collect::<Vec<_>>())
            .finish()
    }
}
