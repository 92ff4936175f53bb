//! A source that is built rule by rule in a lent buffer.

use crate::{exports, halves, Operation, Refusal};
use std::fmt;

/// The bytes of an assembly's state.
pub const STATE: usize = 520;

/// The length of a buffer that suffices for every assembly.
pub const ASSEMBLY_BOUND: usize = 63_236;

/// A source that is being built in a buffer: rules are added, the last one is dropped, and closing hands back the
/// source's bytes.
///
/// It owns the state, [`STATE`] bytes, and borrows the buffer as long as it lives: every call gets the state that the
/// call before gave back and the same buffer, and nothing else writes there. So what [`close`](Assembly::close) hands
/// back is accepted by [`read_source`](crate::read_source), and [`show_source`](crate::show_source) gives exactly the
/// rules that were added and not dropped, in order. A call that refuses changes neither the state nor the buffer.
/// [`ASSEMBLY_BOUND`] bytes suffice for any rules.
///
/// ```
/// use aspda::{Assembly, ASSEMBLY_BOUND};
/// let one = b"D:\0\x07\x01\0\0\0\0\0\0\x01"; // tag 7: 1
/// let never = b"S:\0\0\0\0\0"; // neither head nor body
/// let two_if_one = b"S:\0\0\x01\x01\0\0\0\0\0\x02\0\0\0\0\x01"; // 2 if 1
///
/// let mut buffer = [0; ASSEMBLY_BOUND];
/// let mut assembly = Assembly::begin(&mut buffer)?;
/// assert_eq!(assembly.add(one)?, 1);
/// assert_eq!(assembly.add(never)?, 2);
/// assert_eq!(assembly.drop_last()?, 1);
/// assert_eq!(assembly.add(two_if_one)?, 2);
/// // An end record is no rule's. The assembly is as before.
/// assert_eq!(assembly.add(b"E:\0\x02").unwrap_err().number, 3);
///
/// let source = assembly.close();
/// assert_eq!(source, [&one[..], two_if_one, b"E:\0\x02"].concat());
/// assert_eq!(aspda::read_source(source)?, 2);
/// assert_eq!(aspda::show_source(source, 2)?, two_if_one);
/// # Ok::<(), aspda::Refusal>(())
/// ```
pub struct Assembly<'a> {
    state: [u8; STATE],
    buffer: &'a mut [u8],
    /// How many rules are held: what the last accepted call answered.
    rules: usize,
}

/// The number of rules then held, which an accepted call answers.
fn held(operation: Operation, word: u64) -> Result<usize, Refusal> {
    halves(operation, word).map(|(_, rules)| rules as usize)
}

impl<'a> Assembly<'a> {
    /// Begins an assembly without rules in the buffer, which has room for an end record at least. Nothing is written.
    ///
    /// ```
    /// use aspda::{Assembly, Slice};
    /// let mut buffer = [0xAA; 4];
    /// assert_eq!(Assembly::begin(&mut buffer)?.rules(), 0);
    /// assert_eq!(buffer, [0xAA; 4]);
    ///
    /// let refusal = Assembly::begin(&mut buffer[..3]).unwrap_err();
    /// assert_eq!((refusal.number, refusal.slice), (9, Slice::Output));
    /// # Ok::<(), aspda::Refusal>(())
    /// ```
    ///
    /// # Errors
    /// Refusal 9.
    pub fn begin(buffer: &'a mut [u8]) -> Result<Assembly<'a>, Refusal> {
        // All zero: a state before the first begin.
        let mut state = [0; STATE];
        let rules = held(Operation::Begin, exports::begin(&mut state, buffer))?;
        Ok(Assembly { state, buffer, rules })
    }

    /// Adds the rule whose record the slice starts with: the number of rules then held. Bytes behind the record are not
    /// looked at, so that records may be added from a slice that holds one behind the other; by how much
    /// [`length`](Assembly::length) grows is the record's length.
    ///
    /// ```
    /// use aspda::{Assembly, Part, Slice};
    /// let records = b"S:\0\0\0\0\0D:\0\x07\x01\0\0\0\0\0\0\x01"; // never; tag 7: 1
    /// let mut buffer = [0; 23];
    /// let mut assembly = Assembly::begin(&mut buffer)?;
    /// assert_eq!((assembly.add(records)?, assembly.length()), (1, 7 + 4));
    /// assert_eq!((assembly.add(&records[7..])?, assembly.length()), (2, 7 + 12 + 4));
    ///
    /// // Atom 501: the place is counted in the record.
    /// let refusal = assembly.add(b"S:\0\0\x01\0\0\0\0\0\x01\xF5").unwrap_err();
    /// assert_eq!((refusal.number, refusal.place), (5, 7));
    /// assert_eq!((refusal.slice, refusal.part()), (Slice::Record, Part::Literal));
    /// // There is no room for another seven bytes.
    /// assert_eq!(assembly.add(records).unwrap_err().number, 9);
    /// assert_eq!(assembly.rules(), 2);
    /// # Ok::<(), aspda::Refusal>(())
    /// ```
    ///
    /// # Errors
    /// Refusals 2 to 7 as [`read_source`](crate::read_source) gives them behind the rules held, but 3 for a record of a
    /// preference sheet and for an end record too; 9 if the records held, this one and an end record have no room.
    pub fn add(&mut self, record: &[u8]) -> Result<usize, Refusal> {
        self.rules = held(Operation::Add, exports::add(&mut self.state, record, self.buffer))?;
        Ok(self.rules)
    }

    /// Drops the last of the rules held: the number of rules then held.
    ///
    /// ```
    /// use aspda::{Assembly, Slice};
    /// let mut buffer = [0; 11];
    /// let mut assembly = Assembly::begin(&mut buffer)?;
    /// assembly.add(b"S:\0\0\0\0\0")?;
    /// assert_eq!(assembly.drop_last()?, 0);
    /// let refusal = assembly.drop_last().unwrap_err();
    /// assert_eq!((refusal.number, refusal.slice), (15, Slice::State));
    /// # Ok::<(), aspda::Refusal>(())
    /// ```
    ///
    /// # Errors
    /// Refusal 15 if no rule is held.
    pub fn drop_last(&mut self) -> Result<usize, Refusal> {
        self.rules = held(Operation::Drop, exports::drop(&mut self.state))?;
        Ok(self.rules)
    }

    /// Begins again in the same buffer: no rule is held. It is not refused, for an end record had room before.
    ///
    /// ```
    /// let mut buffer = [0; 11];
    /// let mut assembly = aspda::Assembly::begin(&mut buffer)?;
    /// assembly.add(b"S:\0\0\0\0\0")?;
    /// assembly.restart();
    /// assert_eq!((assembly.rules(), assembly.length()), (0, 4));
    /// # Ok::<(), aspda::Refusal>(())
    /// ```
    pub fn restart(&mut self) {
        let word = exports::begin(&mut self.state, self.buffer);
        self.rules = held(Operation::Begin, word).expect("the buffer has room for an end record");
    }

    /// The number of rules held.
    ///
    /// ```
    /// let mut buffer = [0; aspda::ASSEMBLY_BOUND];
    /// let mut assembly = aspda::Assembly::begin(&mut buffer)?;
    /// for _ in 0..256 {
    ///     assembly.add(b"S:\0\0\0\0\0")?;
    /// }
    /// assert_eq!(assembly.add(b"S:\0\0\0\0\0").unwrap_err().number, 4);
    /// assert_eq!(assembly.rules(), 256);
    /// # Ok::<(), aspda::Refusal>(())
    /// ```
    pub fn rules(&self) -> usize {
        self.rules
    }

    /// The length that the source has if it is closed now: that of the records held and of an end record.
    ///
    /// ```
    /// let mut buffer = [0; 16];
    /// let mut assembly = aspda::Assembly::begin(&mut buffer)?;
    /// assert_eq!(assembly.length(), 4);
    /// assembly.add(b"D:\0\x07\x01\0\0\0\0\0\0\x01")?; // tag 7: 1
    /// assert_eq!(assembly.length(), 16);
    /// assert_eq!(assembly.close().len(), 16);
    /// # Ok::<(), aspda::Refusal>(())
    /// ```
    pub fn length(&self) -> usize {
        exports::assembled(&self.state) as usize
    }

    /// Closes the source and hands its bytes back, a part of the buffer. It is not refused, for whatever was accepted
    /// before left room for the end record.
    ///
    /// ```
    /// let mut buffer = [0xAA; 8];
    /// assert_eq!(aspda::Assembly::begin(&mut buffer)?.close(), b"E:\0\0");
    /// assert_eq!(buffer, *b"E:\0\0\xAA\xAA\xAA\xAA");
    /// # Ok::<(), aspda::Refusal>(())
    /// ```
    pub fn close(mut self) -> &'a [u8] {
        let word = exports::close(&mut self.state, self.buffer);
        held(Operation::Close, word).expect("an open assembly has room for its end record");
        let length = self.length();
        &self.buffer[..length]
    }
}

impl fmt::Debug for Assembly<'_> {
    fn fmt(&self, f: &mut fmt::Formatter<'_>) -> fmt::Result {
        f.debug_struct("Assembly").field("rules", &self.rules()).field("length", &self.length()).finish_non_exhaustive()
    }
}
