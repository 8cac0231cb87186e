//! A policy's rules as XML text, read and written by the engine.

use crate::{raw, Names, Policy, PolicyBuf, Refusal, Unwritable, XmlError};
use crate::{BLOCK, MOST_POLICY_BLOCKS, MOST_TEXT};

impl PolicyBuf {
    /// The policy of these rules, as text, and of the permissions of another policy, whose own rules
    /// play no part.
    ///
    /// include/sod.h has the form of the text. Each name in it stands for a number of the list. A
    /// role's type is read and dropped.
    ///
    /// ```
    /// use hastovimen::*;
    ///
    /// let names = NamesBuilder::new()
    ///     .name(ContextType::of(1), "Branch")
    ///     .name(ContextType::of(2), "Period")
    ///     .name(Role::of(1), "Teller")
    ///     .name(Role::of(2), "Auditor")
    ///     .name(Operation::of(7), "CommitAudit")
    ///     .name(Target::of(1), "http://audit.location.com/audit")
    ///     .build()?;
    /// let commit = Operation::of(7).on(Target::of(1));
    /// let permissions = PolicyBuilder::new().permit(Role::of(2), commit).build()?;
    /// let permissions = Policy::check(&permissions)?;
    ///
    /// let text = r#"
    /// <MSoDPolicySet>
    ///   <MSoDPolicy BusinessContext="Branch=*, Period=!">
    ///     <LastStep operation="CommitAudit" targetURI="http://audit.location.com/audit"/>
    ///     <MMER ForbiddenCardinality="2">
    ///       <Role type="employee" value="Teller"/>
    ///       <Role type="employee" value="Auditor"/>
    ///     </MMER>
    ///   </MSoDPolicy>
    /// </MSoDPolicySet>
    /// "#;
    /// let policy = Policy::from_xml(text, &names, &permissions)?;
    /// assert_eq!(policy.to_string(), "\
    /// rule 1: over 1=*, 2=!; last step 7 on 1
    ///   exclusion 1: 2 of roles 1, 2
    /// role 2 may do 7 on 1
    /// ");
    ///
    /// let mended = text.replace("/>", ">");
    /// let error = Policy::from_xml(&mended, &names, &permissions).unwrap_err();
    /// assert_eq!(error.to_string(), "\
    /// 41: line 4, column 82: `>` stands where `/>` or white space is expected");
    /// # Ok::<(), Box<dyn std::error::Error>>(())
    /// ```
    pub fn from_xml(
        text: impl AsRef<[u8]>,
        names: &Names,
        permissions: &Policy,
    ) -> Result<PolicyBuf, XmlError> {
        let text = text.as_ref();
        let mut image = vec![0; MOST_POLICY_BLOCKS * BLOCK];
        let mut read =
            |text: &[u8]| raw::read_rules(text, names.image(), permissions.image(), &mut image);
        let length = match read(text) {
            Ok(length) => length,
            Err(Refusal::TextForm { byte }) => return Err(XmlError::form(text, byte as usize)),
            Err(refusal @ (Refusal::Names | Refusal::TextLimit)) => {
                let end = fault_end(text, |beginning| read(beginning) == Err(refusal));
                return Err(XmlError::of_element(&text[..end], refusal));
            }
            Err(refusal) => return Err(XmlError::Refused(refusal)),
        };
        image.truncate(length);
        Policy::own(image).map_err(XmlError::Refused)
    }
}

impl Policy<'_> {
    /// Its rules as text, in the one spelling that the engine writes. Permissions have no text:
    /// [`Policy::from_xml`], given this policy for them, reads the same policy again.
    ///
    /// ```
    /// use hastovimen::*;
    ///
    /// let names = NamesBuilder::new()
    ///     .name(ContextType::of(1), "Job")
    ///     .name(Role::of(1), "Adjuster")
    ///     .name(Role::of(2), "Checker")
    ///     .build()?;
    /// let rule = "over 1=!\n  exclusion 1: 2 of roles 1, 2".parse::<Rule>()?;
    /// let policy = Policy::own(PolicyBuilder::new().rule(rule).build()?)?;
    /// let text = policy.to_xml(&names)?;
    /// assert_eq!(
    ///     text,
    ///     "<MSoDPolicySet><MSoDPolicy BusinessContext=\"Job=!\"><MMER ForbiddenCardinality=\"2\">\
    ///      <Role type=\"role\" value=\"Adjuster\"/><Role type=\"role\" value=\"Checker\"/>\
    ///      </MMER></MSoDPolicy></MSoDPolicySet>"
    /// );
    /// assert_eq!(Policy::from_xml(text, &names, &policy)?, policy);
    /// # Ok::<(), Box<dyn std::error::Error>>(())
    /// ```
    pub fn to_xml(&self, names: &Names) -> Result<String, Unwritable> {
        let mut text = vec![0; MOST_TEXT];
        let length = raw::write_rules(self.image(), names.image(), &mut text)
            .map_err(|refusal| Unwritable::find(self, names, refusal))?;
        text.truncate(length);
        text.shrink_to_fit();
        Ok(String::from_utf8(text).expect("the engine writes ASCII"))
    }
}

/// The end of the element for which a text is refused by 42 or 43. The engine gives no place, but a
/// text that is cut before that end merely stops too early, which is 41; one that is cut anywhere
/// behind it is refused as the whole is.
fn fault_end(text: &[u8], mut refused: impl FnMut(&[u8]) -> bool) -> usize {
    let (mut low, mut high) = (0, text.len());
    while low < high {
        let middle = low + (high - low) / 2;
        if refused(&text[..middle]) {
            high = middle;
        } else {
            low = middle + 1;
        }
    }
    low
}
