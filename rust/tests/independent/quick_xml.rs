//! Policies as text on the bytes themselves: one pass over the text, nothing allocated.
//!
//! This is what somebody writes who knows document 02, W5, and wants it plain and quick. It has its own
//! reading of the form and of every field, and uses nothing of [`super::form`], [`super::xml`] or
//! [`super::images`]. In every place of the form one byte tells what comes, so that the byte at which
//! the reader cannot go on is the one that 41 names, provided that it never looks further ahead than it
//! has to.
//!
//! Names are looked up by going through the list.

use super::quick;
use super::{refuse_unless, Answer, Reply};

type Block = [u8; 512];

const TYPE: u8 = 1;
const VALUE: u8 = 2;
const ROLE: u8 = 3;
const OPERATION: u8 = 4;
const TARGET: u8 = 5;

// ---------------------------------------------------------------------------------------------
// The entry points

pub fn read_rules(text: &[u8], names: &[u8], second: &[u8], output: &mut [u8]) -> Reply {
    match read(text, names, second, output) {
        Ok(length) => Reply::accept(length),
        Err(refusal) => refusal,
    }
}

pub fn write_rules(policy: &[u8], names: &[u8], output: &mut [u8]) -> Reply {
    match write(policy, names, output) {
        Ok(length) => Reply::accept(length),
        Err(refusal) => refusal,
    }
}

/// The rule blocks and the permission blocks of a policy that passes its check.
fn parted(policy: &[u8]) -> Answer<(&[Block], &[Block])> {
    let checked = quick::check_policy(policy);
    if checked.is_refusal() {
        return Err(checked);
    }
    Ok(policy.as_chunks().0.split_at(checked.first as usize))
}

// ---------------------------------------------------------------------------------------------
// The list of names

/// A good list: kind, length, number (2), name of up to 60 bytes.
#[derive(Clone, Copy)]
struct Names<'n>(&'n [[u8; 64]]);

impl<'n> Names<'n> {
    fn check(list: &'n [u8]) -> Answer<Names<'n>> {
        let (entries, rest) = list.as_chunks();
        let mut good = rest.is_empty() && entries.len() <= 1024;
        for (i, entry) in entries.iter().enumerate() {
            good = good && good_entry(entry) && !entries[..i].iter().any(|one| clash(one, entry));
        }
        refuse_unless(good, 42, 0, 0)?;
        Ok(Names(entries))
    }

    /// The number of a name.
    fn number(self, kind: u8, name: &[u8]) -> Answer<u16> {
        for entry in self.0 {
            if entry[0] == kind
                && entry[1] as usize == name.len()
                && &entry[4..4 + name.len()] == name
            {
                return Ok(number(entry));
            }
        }
        Err(unlisted())
    }

    /// The name of a number.
    fn name(self, kind: u8, wanted: u16) -> Answer<&'n [u8]> {
        for entry in self.0 {
            if entry[0] == kind && number(entry) == wanted {
                return Ok(&entry[4..4 + entry[1] as usize]);
            }
        }
        Err(unlisted())
    }
}

fn unlisted() -> Reply {
    Reply::refuse(42, 0, 0)
}

fn number(entry: &[u8; 64]) -> u16 {
    u16::from_le_bytes([entry[2], entry[3]])
}

fn good_entry(entry: &[u8; 64]) -> bool {
    let (kind, length) = (entry[0], entry[1] as usize);
    if !(1..=5).contains(&kind) || !(1..=60).contains(&length) || number(entry) == 0 {
        return false;
    }
    let (name, behind) = entry[4..].split_at(length);
    name.iter().all(|&byte| in_name(byte)) && behind.iter().all(|&byte| byte == 0)
}

/// Whether two entries of one kind have the name or the number in common.
fn clash(one: &[u8; 64], other: &[u8; 64]) -> bool {
    one[0] == other[0] && (one[2..4] == other[2..4] || one[1] == other[1] && one[4..] == other[4..])
}

/// By byte: 1 for white space, 2 for the bytes of a name.
const BYTES: [u8; 256] = {
    let mut bytes = [0; 256];
    let mut byte = 33;
    while byte <= 126 {
        bytes[byte] = 2;
        byte += 1;
    }
    let (not, white) = (b"\"&<>=,*!", b" \t\r\n");
    let mut i = 0;
    while i < not.len() {
        bytes[not[i] as usize] = 0;
        i += 1;
    }
    i = 0;
    while i < white.len() {
        bytes[white[i] as usize] = 1;
        i += 1;
    }
    bytes
};

fn in_name(byte: u8) -> bool {
    BYTES[byte as usize] == 2
}

// ---------------------------------------------------------------------------------------------
// Reading

fn read(text: &[u8], names: &[u8], second: &[u8], output: &mut [u8]) -> Answer<usize> {
    let (_, permissions) = parted(second)?;
    let names = Names::check(names)?;
    let mut reader = Reader { text, at: 0, names };
    let mut rules = [[0; 512]; 32];
    let count = reader.set(&mut rules)?;
    let total = count + permissions.len();
    let length = 512 * total;
    let good = count <= 32 && (1..=64).contains(&total) && length <= output.len();
    refuse_unless(good, 43, 0, 0)?;
    reader.white();
    if reader.at < text.len() {
        return Err(reader.not_of_the_form());
    }
    let blocks = rules[..count].iter().chain(permissions);
    let lent = output.as_chunks_mut::<512>().0;
    for (number, (to, block)) in lent.iter_mut().zip(blocks).enumerate() {
        *to = *block;
        to[4..6].copy_from_slice(&(number as u16).to_le_bytes());
        to[6..8].copy_from_slice(&(total as u16).to_le_bytes());
        seal(to);
    }
    Ok(length)
}

fn seal(block: &mut Block) {
    let (mut a, mut b) = (1u32, 0u32);
    for word in block[..504].as_chunks().0 {
        a = a.wrapping_add(u32::from_le_bytes(*word));
        b = b.wrapping_add(a);
    }
    block[504..508].copy_from_slice(&a.to_le_bytes());
    block[508..].copy_from_slice(&b.to_le_bytes());
}

fn put(block: &mut [u8], at: usize, number: u16) {
    block[at..at + 2].copy_from_slice(&number.to_le_bytes());
}

/// The text and how far it has been read.
struct Reader<'t> {
    text: &'t [u8],
    at: usize,
    names: Names<'t>,
}

impl<'t> Reader<'t> {
    /// 41 at the byte that comes next.
    fn not_of_the_form(&self) -> Reply {
        Reply::refuse(41, self.at.min(u32::MAX as usize), 0)
    }

    fn next(&self) -> Option<u8> {
        self.text.get(self.at).copied()
    }

    /// White space, if there is any.
    fn white(&mut self) {
        while self.next().is_some_and(|byte| BYTES[byte as usize] == 1) {
            self.at += 1;
        }
    }

    /// White space that must be there.
    fn some_white(&mut self) -> Answer<()> {
        let before = self.at;
        self.white();
        if self.at == before {
            return Err(self.not_of_the_form());
        }
        Ok(())
    }

    fn word(&mut self, word: &[u8]) -> Answer<()> {
        self.one_of(&[word])?;
        Ok(())
    }

    /// Which of these words comes, none of which begins another. Where it is none of them, the byte is
    /// the first that they all do without.
    fn one_of(&mut self, words: &[&[u8]]) -> Answer<usize> {
        let rest = &self.text[self.at..];
        let mut furthest = 0;
        for (i, word) in words.iter().enumerate() {
            if rest.starts_with(word) {
                self.at += word.len();
                return Ok(i);
            }
            let alike = rest.iter().zip(*word).take_while(|(a, b)| a == b).count();
            furthest = furthest.max(alike);
        }
        self.at += furthest;
        Err(self.not_of_the_form())
    }

    /// One or more bytes of a name.
    fn name(&mut self) -> Answer<&'t [u8]> {
        let from = self.at;
        while self.next().is_some_and(in_name) {
            self.at += 1;
        }
        if self.at == from {
            return Err(self.not_of_the_form());
        }
        Ok(&self.text[from..self.at])
    }

    /// One or more digits; what is above 255 counts as 255.
    fn digits(&mut self) -> Answer<u8> {
        let from = self.at;
        let mut number = 0u8;
        while let Some(digit @ b'0'..=b'9') = self.next() {
            number = number.saturating_mul(10).saturating_add(digit - b'0');
            self.at += 1;
        }
        if self.at == from {
            return Err(self.not_of_the_form());
        }
        Ok(number)
    }

    /// An equals sign between free white space.
    fn equals(&mut self) -> Answer<()> {
        self.white();
        self.word(b"=")?;
        self.white();
        Ok(())
    }

    /// Behind the name of an attribute: its value, which is a name.
    fn quoted_name(&mut self) -> Answer<&'t [u8]> {
        self.equals()?;
        self.word(b"\"")?;
        let name = self.name()?;
        self.word(b"\"")?;
        Ok(name)
    }

    /// The two attributes of a step or member, in either order, and its end.
    fn two_names(&mut self, attributes: [&[u8]; 2]) -> Answer<[&'t [u8]; 2]> {
        let mut values: [&[u8]; 2] = [&[]; 2];
        self.some_white()?;
        let first = self.one_of(&attributes)?;
        values[first] = self.quoted_name()?;
        self.some_white()?;
        self.word(attributes[1 - first])?;
        values[1 - first] = self.quoted_name()?;
        self.white();
        self.word(b"/>")?;
        Ok(values)
    }

    /// The name of an end tag has been read: how it ends.
    fn end(&mut self) -> Answer<()> {
        self.white();
        self.word(b">")
    }

    /// The set up to its end tag; how many rules it has, of which the first 32 are put down.
    fn set(&mut self, rules: &mut [Block; 32]) -> Answer<usize> {
        self.white();
        self.word(b"<MSoDPolicySet")?;
        self.end()?;
        let mut count = 0;
        loop {
            self.white();
            if self.one_of(&[b"<MSoDPolicy", b"</MSoDPolicySet"])? == 1 {
                break;
            }
            let mut rule = [0; 512];
            self.rule(&mut rule)?;
            if count < 32 {
                rules[count] = rule;
            }
            count += 1;
        }
        self.end()?;
        Ok(count)
    }

    fn rule(&mut self, block: &mut Block) -> Answer<()> {
        self.some_white()?;
        self.word(b"BusinessContext")?;
        self.equals()?;
        self.word(b"\"")?;
        let (depth, listed) = self.context(block)?;
        self.word(b"\"")?;
        self.end()?;
        let exclusions = self.steps_and_exclusions(block)?;
        self.end()?;
        refuse_unless(listed, 42, 0, 0)?;
        let alike = block[10] == 1 && block[11] == 1 && block[48..52] == block[52..56];
        let good = depth <= 4 && (1..=8).contains(&exclusions) && !alike;
        refuse_unless(good, 43, 0, 0)?;
        block[0] = 1;
        block[8] = depth as u8;
        block[9] = exclusions as u8;
        Ok(())
    }

    /// How many levels there are, and whether all their names are listed, which matters at the end
    /// tag only.
    fn context(&mut self, block: &mut Block) -> Answer<(usize, bool)> {
        let (mut depth, mut listed) = (0, true);
        if self.next() == Some(b'"') {
            return Ok((depth, listed));
        }
        loop {
            listed &= self.level(block, depth)?;
            depth += 1;
            let end = self.at;
            self.white();
            // White space leads to a comma: there is none at the end.
            if self.at == end && self.next() == Some(b'"') {
                return Ok((depth, listed));
            }
            self.word(b",")?;
            self.white();
        }
    }

    /// A level, put down if it is one of the first four; whether its names are listed.
    fn level(&mut self, block: &mut Block, depth: usize) -> Answer<bool> {
        let kind = self.names.number(TYPE, self.name()?);
        self.equals()?;
        let (mark, value) = match self.next() {
            Some(b'*') => (2, Ok(0)),
            Some(b'!') => (3, Ok(0)),
            _ => (1, self.names.number(VALUE, self.name()?)),
        };
        self.at += usize::from(mark != 1);
        let (Ok(kind), Ok(value)) = (kind, value) else {
            return Ok(false);
        };
        if depth < 4 {
            let level = &mut block[16 + 8 * depth..24 + 8 * depth];
            put(level, 0, kind);
            level[2] = mark;
            put(level, 4, value);
        }
        Ok(true)
    }

    /// All that stands in a rule, and the name of its end tag; how many exclusions it has.
    fn steps_and_exclusions(&mut self, block: &mut Block) -> Answer<usize> {
        const TAGS: [&[u8]; 5] = [
            b"<FirstStep",
            b"<LastStep",
            b"<MMER",
            b"<MMEP",
            b"</MSoDPolicy",
        ];
        let (mut from, mut exclusions) = (0, 0);
        loop {
            self.white();
            let which = from + self.one_of(&TAGS[from..])?;
            match which {
                0 | 1 => {
                    self.step(block, which)?;
                    from = which + 1;
                }
                4 => return Ok(exclusions),
                kind => {
                    let mut bytes = [0; 36];
                    self.exclusion(&mut bytes, kind == 2)?;
                    if exclusions < 8 {
                        block[56 + 36 * exclusions..92 + 36 * exclusions].copy_from_slice(&bytes);
                    }
                    exclusions += 1;
                    from = 2;
                }
            }
        }
    }

    fn step(&mut self, block: &mut Block, which: usize) -> Answer<()> {
        let [operation, target] = self.two_names([b"operation", b"targetURI"])?;
        block[10 + which] = 1;
        put(
            block,
            48 + 4 * which,
            self.names.number(OPERATION, operation)?,
        );
        put(block, 50 + 4 * which, self.names.number(TARGET, target)?);
        Ok(())
    }

    fn exclusion(&mut self, bytes: &mut [u8; 36], of_roles: bool) -> Answer<()> {
        self.some_white()?;
        self.word(b"ForbiddenCardinality")?;
        self.equals()?;
        self.word(b"\"")?;
        let m = self.digits()?;
        self.word(b"\"")?;
        self.end()?;
        let (n, twice) = self.members(bytes, of_roles)?;
        self.end()?;
        let good = 2 <= m && usize::from(m) <= n && n <= 8 && !twice;
        refuse_unless(good, 43, 0, 0)?;
        bytes[..3].copy_from_slice(&[if of_roles { 1 } else { 2 }, m, n as u8]);
        Ok(())
    }

    /// The members of an exclusion, of which the first eight are put down, and the name of its end tag;
    /// how many they are, and whether a role stands twice among them.
    fn members(&mut self, bytes: &mut [u8; 36], of_roles: bool) -> Answer<(usize, bool)> {
        let tags: [&[u8]; 2] = if of_roles {
            [b"<Role", b"</MMER"]
        } else {
            [b"<Operation", b"</MMEP"]
        };
        let (mut n, mut twice) = (0, false);
        loop {
            self.white();
            if self.one_of(&tags)? == 1 {
                return Ok((n, twice));
            }
            let member = if of_roles {
                self.role()?
            } else {
                self.operation()?
            };
            let before = &bytes[4..4 + 4 * n.min(8)];
            twice |= of_roles && before.as_chunks().0.contains(&member);
            if n < 8 {
                bytes[4 + 4 * n..8 + 4 * n].copy_from_slice(&member);
            }
            n += 1;
        }
    }

    /// The type is dropped.
    fn role(&mut self) -> Answer<[u8; 4]> {
        let [_, value] = self.two_names([b"type", b"value"])?;
        let role = self.names.number(ROLE, value)?;
        refuse_unless(role <= 32, 43, 0, 0)?;
        Ok([role as u8, 0, 0, 0])
    }

    fn operation(&mut self) -> Answer<[u8; 4]> {
        let [value, target] = self.two_names([b"value", b"target"])?;
        let [low, high] = self.names.number(OPERATION, value)?.to_le_bytes();
        let [target_low, target_high] = self.names.number(TARGET, target)?.to_le_bytes();
        Ok([low, high, target_low, target_high])
    }
}

// ---------------------------------------------------------------------------------------------
// Writing

/// Once to see whether all can be written and how long it is, once to write.
fn write(policy: &[u8], names: &[u8], output: &mut [u8]) -> Answer<usize> {
    let (rules, _) = parted(policy)?;
    let names = Names::check(names)?;
    let mut length = 0;
    write_set(rules, names, &mut |bytes| length += bytes.len())?;
    refuse_unless(length <= output.len(), 43, 0, 0)?;
    let mut at = 0;
    write_set(rules, names, &mut |bytes| {
        output[at..at + bytes.len()].copy_from_slice(bytes);
        at += bytes.len();
    })?;
    Ok(length)
}

fn write_set(rules: &[Block], names: Names, put: &mut impl FnMut(&[u8])) -> Answer<()> {
    put(b"<MSoDPolicySet>");
    for rule in rules {
        write_rule(rule, names, put)?;
    }
    put(b"</MSoDPolicySet>");
    Ok(())
}

fn half(bytes: &[u8], at: usize) -> u16 {
    u16::from_le_bytes([bytes[at], bytes[at + 1]])
}

fn write_rule(rule: &Block, names: Names, put: &mut impl FnMut(&[u8])) -> Answer<()> {
    put(b"<MSoDPolicy BusinessContext=\"");
    let mut ranged = false;
    for i in 0..usize::from(rule[8]) {
        let level = &rule[16 + 8 * i..24 + 8 * i];
        if i > 0 {
            put(b",");
        }
        put(names.name(TYPE, half(level, 0))?);
        put(b"=");
        match level[2] {
            1 => put(names.name(VALUE, half(level, 4))?),
            2 => put(b"*"),
            3 => put(b"!"),
            // Refused where the rule ends: a name may yet be missing.
            _ => ranged = true,
        }
    }
    put(b"\">");
    let steps: [&[u8]; 2] = [b"<FirstStep operation=\"", b"<LastStep operation=\""];
    for (i, tag) in steps.into_iter().enumerate() {
        if rule[10 + i] == 1 {
            let step = &rule[48 + 4 * i..52 + 4 * i];
            write_privilege(tag, b"\" targetURI=\"", step, names, put)?;
        }
    }
    for x in 0..usize::from(rule[9]) {
        write_exclusion(&rule[56 + 36 * x..92 + 36 * x], names, put)?;
    }
    put(b"</MSoDPolicy>");
    refuse_unless(!ranged, 43, 0, 0)
}

fn write_exclusion(bytes: &[u8], names: Names, put: &mut impl FnMut(&[u8])) -> Answer<()> {
    let of_roles = bytes[0] == 1;
    put(if of_roles { b"<MMER" } else { b"<MMEP" });
    put(b" ForbiddenCardinality=\"");
    put(&[b'0' + bytes[1]]);
    put(b"\">");
    for i in 1..=usize::from(bytes[2]) {
        let member = &bytes[4 * i..4 * i + 4];
        if of_roles {
            put(b"<Role type=\"role\" value=\"");
            put(names.name(ROLE, half(member, 0))?);
            put(b"\"/>");
        } else {
            write_privilege(b"<Operation value=\"", b"\" target=\"", member, names, put)?;
        }
    }
    put(if of_roles { b"</MMER>" } else { b"</MMEP>" });
    Ok(())
}

fn write_privilege(
    before: &[u8],
    between: &[u8],
    privilege: &[u8],
    names: Names,
    put: &mut impl FnMut(&[u8]),
) -> Answer<()> {
    put(before);
    put(names.name(OPERATION, half(privilege, 0))?);
    put(between);
    put(names.name(TARGET, half(privilege, 2))?);
    put(b"\"/>");
    Ok(())
}
