//! The element over a lent store and session: calls by type, commands given as bytes, lists.

use crate::command::{ACKNOWLEDGE, APPEND, CLOSE, COUNT, DATA, ERASE_AND_WRITE};
use crate::command::{GET, IDENTIFIER, METADATA, OPEN, REFUSED, SET};
use crate::library::{self, List, ANSWERED};
use crate::{tag, Counter, Error, FareNumber, Queue, Refusal, Session};
use crate::{COUNTER_SIZE, HEADER, LARGEST_BODY, LARGEST_COMMAND, LEAD};

/// The bytes before the body in an append, and before the number in an acknowledge: the header and the object.
const FRONT: usize = HEADER + 2;

/// The number that names an object.
#[derive(Clone, Copy, Debug, PartialEq, Eq, PartialOrd, Ord, Hash)]
pub struct ObjectNumber(pub u16);

impl ObjectNumber {
    /// LcsG, one byte that lives in the session.
    pub const LCSG: ObjectNumber = ObjectNumber(0xE0C0);
    /// LcsA, one byte that lives in the session.
    pub const LCSA: ObjectNumber = ObjectNumber(0xF1C0);
    /// The last error, one byte that lives in the session; a read that gives the byte sets it to 0.
    pub const LAST_ERROR: ObjectNumber = ObjectNumber(0xF1C2);
}

/// A place in an object's data.
#[derive(Clone, Copy, Debug, PartialEq, Eq, PartialOrd, Ord, Hash)]
pub struct Offset(pub u16);

/// How many bytes to read at most.
#[derive(Clone, Copy, Debug, PartialEq, Eq, PartialOrd, Ord, Hash)]
pub struct Length(pub u16);

impl Length {
    /// All that is in use from the offset on.
    pub const ALL: Length = Length(0xFFFF);
}

/// What came of a command sent as bytes.
#[derive(Clone, Copy, Debug, PartialEq, Eq)]
pub struct Answer<'r> {
    /// 0 where a response stands, 1 where the room is under 4 bytes.
    pub outcome: u8,
    /// Status, 00, OutLen and OutData; empty where none stands.
    pub response: &'r [u8],
}

/// The element: a store and a session that the host keeps and lends.
///
/// Calls by type ([`open`](Element::open), [`read`](Element::read), [`write`](Element::write), ..) answer with the data, or with an [`Error`]
/// that holds the refusal's own number. What a write sends is put together in a scratch that the host lends: [`LEAD`] bytes more than what is
/// written; [`LARGEST_COMMAND`] bytes are enough for every write.
#[derive(Debug)]
pub struct Element<'a> {
    store: &'a mut [u8],
    session: &'a mut Session,
}

impl<'a> Element<'a> {
    /// Goes on with a store and a session. Every command on a malformed store is refused: see [`check_store`](Element::check_store).
    pub fn new(store: &'a mut [u8], session: &'a mut Session) -> Element<'a> {
        Element { store, session }
    }

    /// A new element: fills the store with the factory's objects and makes the session fresh.
    ///
    /// [`Error::WrongSize`] where the store has not [`FACTORY_STORE_SIZE`](crate::FACTORY_STORE_SIZE) bytes.
    pub fn factory(store: &'a mut [u8], session: &'a mut Session) -> Result<Element<'a>, Error> {
        if library::make_factory_store(store) != ANSWERED {
            return Err(Error::WrongSize);
        }
        *session = Session::fresh();
        Ok(Element { store, session })
    }

    /// Whether the store is well formed.
    pub fn check_store(&self) -> bool {
        library::check_store(self.store)
    }

    /// The session as it stands.
    pub fn session(&self) -> Session {
        *self.session
    }

    /// The store as it stands.
    pub fn store(&self) -> &[u8] {
        self.store
    }

    /// Opens the application.
    pub fn open(&mut self) -> Result<(), Error> {
        let mut command = [0; HEADER + IDENTIFIER.len()];
        let (header, identifier) = command.split_at_mut(HEADER);
        header.copy_from_slice(&[OPEN, DATA, 0, IDENTIFIER.len() as u8]);
        identifier.copy_from_slice(&IDENTIFIER);
        self.change(&command)
    }

    /// Closes the application.
    pub fn close(&mut self) -> Result<(), Error> {
        self.change(&[CLOSE, DATA, 0, 0])
    }

    /// Reads data of an object into the room and gives it: the bytes in use from the offset on, at most the length. So it may be fewer bytes than
    /// asked; at the end of the bytes in use it is none. The room has [`HEADER`] bytes more than what is given.
    ///
    /// A read that is done changes the store where its read expression uses up a [counter](crate::expression::counter), also if it gives no byte.
    ///
    /// [`Refusal::BoundaryExceeded`] where the offset is past the bytes in use.
    ///
    /// ```
    /// # use element::{Element, Error, Length, ObjectNumber, Offset, Refusal, Session, FACTORY_STORE_SIZE};
    /// # use element::{HEADER, LEAD};
    /// # let (mut store, mut session) = ([0; FACTORY_STORE_SIZE], Session::fresh());
    /// # let mut element = Element::factory(&mut store, &mut session)?;
    /// # element.open()?;
    /// let fares = ObjectNumber(0xF1D0);
    /// element.write(fares, Offset(0), b"FARE", &mut [0; LEAD + 4])?;
    ///
    /// let mut room = [0; HEADER + 4];
    /// assert_eq!(element.read(fares, Offset(0), Length(8), &mut room)?, b"FARE"); // 4 of 8
    /// assert_eq!(element.read(fares, Offset(1), Length::ALL, &mut room)?, b"ARE");
    /// assert_eq!(element.read(fares, Offset(4), Length(8), &mut room)?, b"");
    /// let past = element.read(fares, Offset(5), Length(8), &mut room);
    /// assert_eq!(past, Err(Error::Refused(Refusal::BoundaryExceeded)));
    ///
    /// let error = element.read(ObjectNumber::LAST_ERROR, Offset(0), Length(1), &mut room)?;
    /// assert_eq!(error, [0x08]);
    /// # Ok::<(), Error>(())
    /// ```
    pub fn read<'r>(
        &mut self,
        object: ObjectNumber,
        offset: Offset,
        length: Length,
        room: &'r mut [u8],
    ) -> Result<&'r [u8], Error> {
        let [object, offset, length] = [object.0, offset.0, length.0].map(u16::to_be_bytes);
        let command = [[GET, DATA], [0, 6], object, offset, length];
        self.carry_out(command.as_flattened(), room)
    }

    /// Writes bytes at an offset of an object. A full object refuses and keeps what it has.
    ///
    /// [`Error::WrongSize`] where the scratch is under [`LEAD`] bytes more than the bytes, or where they fit no command.
    ///
    /// ```
    /// # use element::{Element, Error, ObjectNumber, Offset, Refusal, Session, FACTORY_STORE_SIZE, LEAD};
    /// # let (mut store, mut session) = ([0; FACTORY_STORE_SIZE], Session::fresh());
    /// # let mut element = Element::factory(&mut store, &mut session)?;
    /// # element.open()?;
    /// let fares = ObjectNumber(0xF1D0); // 140 bytes
    /// let mut scratch = [0; LEAD + 8];
    /// element.write(fares, Offset(132), b"FARE 018", &mut scratch)?;
    /// let past = element.write(fares, Offset(140), b"FARE 019", &mut scratch);
    /// assert_eq!(past, Err(Error::Refused(Refusal::BoundaryExceeded)));
    /// # Ok::<(), Error>(())
    /// ```
    pub fn write(
        &mut self,
        object: ObjectNumber,
        offset: Offset,
        bytes: &[u8],
        scratch: &mut [u8],
    ) -> Result<(), Error> {
        let place = offset.0.to_be_bytes();
        self.change(set(DATA, object, place, bytes, scratch)?)
    }

    /// Makes all data of an object zero, then writes as [`write`](Element::write) does: what stands behind the bytes is no more in use.
    pub fn erase_and_write(
        &mut self,
        object: ObjectNumber,
        offset: Offset,
        bytes: &[u8],
        scratch: &mut [u8],
    ) -> Result<(), Error> {
        let place = offset.0.to_be_bytes();
        self.change(set(ERASE_AND_WRITE, object, place, bytes, scratch)?)
    }

    /// Counts: moves a counter's value by the step towards its threshold, at most onto it. A step of 0 changes nothing.
    ///
    /// [`Refusal::InvalidParam`] where the object is no counter, [`Refusal::BoundaryExceeded`] where the value is at its threshold, or past it,
    /// already; the change expression is asked as by a write. Where that names the counter itself, it steps once more, at most onto the threshold.
    ///
    /// ```
    /// # use element::{Counter, Element, Error, ObjectNumber, Refusal, Session};
    /// # let (mut store, mut session) = ([0; 104], Session::fresh());
    /// # store[..11].copy_from_slice(&[104, 0, 2, 0, 0xD0, 0xF1, 8, 0, 8, 0, 1]);
    /// # (store[12], store[40], store[68]) = (1, 1, 1);
    /// # let mut element = Element::new(&mut store, &mut session);
    /// # element.open()?;
    /// let trips = ObjectNumber(0xF1D0); // counts up
    /// element.set_counter(trips, Counter { value: 298, threshold: 300 })?;
    /// element.count(trips, 5)?;
    /// assert_eq!(element.counter(trips)?, Counter { value: 300, threshold: 300 });
    /// let past = element.count(trips, 1);
    /// assert_eq!(past, Err(Error::Refused(Refusal::BoundaryExceeded)));
    /// # Ok::<(), Error>(())
    /// ```
    pub fn count(&mut self, object: ObjectNumber, step: u8) -> Result<(), Error> {
        let [high, low] = object.0.to_be_bytes();
        self.change(&[SET, COUNT, 0, 5, high, low, 0, 0, step])
    }

    /// Reads value and threshold of a counter. The record's kind is not looked at: of other data the first eight bytes are read so. A counter whose own
    /// read expression uses it up is given as it is before its step.
    ///
    /// [`Error::WrongSize`] where fewer than eight bytes are in use; what the read expression names is used up then too.
    pub fn counter(&mut self, object: ObjectNumber) -> Result<Counter, Error> {
        let before = *self.session;
        let mut room = [0; HEADER + COUNTER_SIZE];
        let length = Length(COUNTER_SIZE as u16);
        let data = self.read(object, Offset(0), length, &mut room)?;
        let Ok(bytes) = data.try_into() else {
            // Of the last error the one byte was given, and so cleared.
            *self.session = before;
            return Err(Error::WrongSize);
        };
        Ok(Counter::from_bytes(bytes))
    }

    /// Writes value and threshold of a counter, all eight bytes, as [`write`](Element::write) does; a counter refuses fewer. Where its change
    /// expression names the counter itself, it steps once after the write.
    pub fn set_counter(&mut self, object: ObjectNumber, counter: Counter) -> Result<(), Error> {
        let mut scratch = [0; LEAD + COUNTER_SIZE];
        self.write(object, Offset(0), &counter.to_bytes(), &mut scratch)
    }

    /// Appends a fare to a queue: the body stands behind the other fares, under the queue's next number. A full queue refuses and keeps what it has.
    ///
    /// [`Refusal::BoundaryExceeded`] where the fare, [`FARE_HEAD`](crate::FARE_HEAD) bytes and the body, does not fit behind the others: append it again
    /// after an [`acknowledge`](Element::acknowledge). [`Refusal::InvalidParam`] where the object is no queue, [`Refusal::InvalidLength`] where the body
    /// is empty, [`Refusal::InsufficientBuffer`] where no number is left ([`FareNumber::NONE`]).
    ///
    /// [`Error::WrongSize`] where the body is over [`LARGEST_BODY`] bytes; nothing is changed then.
    ///
    /// ```
    /// # use element::{kind, Element, Error, Fare, FareNumber, ObjectNumber, Refusal, Session, HEADER};
    /// # let mut store = [96 + 32, kind::QUEUE, 0xE130, 32, 4, 1].map(u16::to_le_bytes).concat();
    /// # for _ in 0..3 {
    /// #     store.push(1);
    /// #     store.resize(store.len() + 27, 0);
    /// # }
    /// # store.resize(96 + 32, 0);
    /// # let mut session = Session::fresh();
    /// # let mut element = Element::new(&mut store, &mut session);
    /// # element.open()?;
    /// let fares = ObjectNumber(0xE130); // a queue of 32 bytes, empty
    /// element.append(fares, b"FARE 1")?;
    /// element.append(fares, b"FARE 2")?;
    /// let full = element.append(fares, b"FARE 3");
    /// assert_eq!(full, Err(Error::Refused(Refusal::BoundaryExceeded)));
    ///
    /// let mut room = [0; HEADER + 32];
    /// let queue = element.queue(fares, &mut room)?; // to be uploaded
    /// assert_eq!(queue.fares().last(), Some(Fare { number: FareNumber(1), body: b"FARE 2" }));
    ///
    /// element.acknowledge(fares, FareNumber(1))?;
    /// element.append(fares, b"FARE 3")?;
    /// let first = element.queue(fares, &mut room)?.fares().next();
    /// assert_eq!(first, Some(Fare { number: FareNumber(2), body: b"FARE 3" }));
    /// # Ok::<(), Error>(())
    /// ```
    pub fn append(&mut self, object: ObjectNumber, body: &[u8]) -> Result<(), Error> {
        let mut scratch = [0; FRONT + LARGEST_BODY];
        self.change(set(APPEND, object, [], body, &mut scratch)?)
    }

    /// Acknowledges fares of a queue: the one with the number and all before it are gone. Call it once these are uploaded.
    ///
    /// [`Refusal::InvalidData`] where no fare present has the number, so also where it was acknowledged before; [`Refusal::InvalidParam`] where the
    /// object is no queue.
    ///
    /// ```
    /// # use element::{kind, Element, Error, FareNumber, ObjectNumber, Refusal, Session, HEADER};
    /// # let mut store = [96 + 32, kind::QUEUE, 0xE130, 32, 4, 1].map(u16::to_le_bytes).concat();
    /// # for _ in 0..3 {
    /// #     store.push(1);
    /// #     store.resize(store.len() + 27, 0);
    /// # }
    /// # store.resize(96 + 32, 0);
    /// # let mut session = Session::fresh();
    /// # let mut element = Element::new(&mut store, &mut session);
    /// # element.open()?;
    /// let fares = ObjectNumber(0xE130);
    /// element.append(fares, b"FARE 1")?;
    /// element.acknowledge(fares, FareNumber(0))?;
    /// let again = element.acknowledge(fares, FareNumber(0));
    /// assert_eq!(again, Err(Error::Refused(Refusal::InvalidData)));
    /// # Ok::<(), Error>(())
    /// ```
    pub fn acknowledge(&mut self, object: ObjectNumber, number: FareNumber) -> Result<(), Error> {
        let mut scratch = [0; FRONT + 4];
        let number = number.0.to_be_bytes();
        self.change(set(ACKNOWLEDGE, object, number, &[], &mut scratch)?)
    }

    /// Reads all of a queue into the room and gives it. The room has [`HEADER`] bytes more than what is in use; as many more than the queue's maximum
    /// are always enough. The record's kind is not looked at: other data that has the bytes of a queue is read so.
    ///
    /// [`Error::WrongSize`] where the bytes are no queue; what the read expression names is used up then too.
    ///
    /// ```
    /// # use element::{kind, Element, Error, FareNumber, ObjectNumber, Session, HEADER};
    /// # let mut store = [96 + 32, kind::QUEUE, 0xE130, 32, 4, 1].map(u16::to_le_bytes).concat();
    /// # for _ in 0..3 {
    /// #     store.push(1);
    /// #     store.resize(store.len() + 27, 0);
    /// # }
    /// # store.resize(96 + 32, 0);
    /// # let mut session = Session::fresh();
    /// # let mut element = Element::new(&mut store, &mut session);
    /// # element.open()?;
    /// let fares = ObjectNumber(0xE130); // a queue of 32 bytes, empty
    /// element.append(fares, b"FARE 1")?;
    /// element.append(fares, b"FARE 2")?;
    ///
    /// let mut room = [0; HEADER + 32];
    /// let queue = element.queue(fares, &mut room)?;
    /// let bodies: Vec<_> = queue.fares().map(|fare| fare.body).collect();
    /// assert_eq!(bodies, [b"FARE 1", b"FARE 2"]);
    /// assert_eq!(queue.next_number(), FareNumber(2));
    ///
    /// let error = element.queue(ObjectNumber::LAST_ERROR, &mut room);
    /// assert_eq!(error, Err(Error::WrongSize));
    /// # Ok::<(), Error>(())
    /// ```
    pub fn queue<'r>(
        &mut self,
        object: ObjectNumber,
        room: &'r mut [u8],
    ) -> Result<Queue<'r>, Error> {
        let before = *self.session;
        let data = self.read(object, Offset(0), Length::ALL, room)?;
        let Some(queue) = Queue::from_bytes(data) else {
            // Of the last error the one byte was given, and so cleared.
            *self.session = before;
            return Err(Error::WrongSize);
        };
        Ok(queue)
    }

    /// Reads the metadata of an object into the room and gives its fields, those behind 20 and L, with the tags of [`tag`].
    pub fn metadata<'r>(
        &mut self,
        object: ObjectNumber,
        room: &'r mut [u8],
    ) -> Result<&'r [u8], Error> {
        let command = [[GET, METADATA], [0, 2], object.0.to_be_bytes()];
        let answer = self.carry_out(command.as_flattened(), room)?;
        Ok(answer.get(2..).unwrap_or(&[]))
    }

    /// Writes metadata of an object: fields with the tags of [`tag`], without 20 and L in front. All of them are stored or none.
    ///
    /// [`Error::WrongSize`] where the scratch is under [`LEAD`] bytes more than the fields, or where these are over 255 bytes.
    ///
    /// ```
    /// # use element::{Element, Error, ObjectNumber, Session, FACTORY_STORE_SIZE, LARGEST_ROOM};
    /// use element::{expression, tag, LEAD, OPERATIONAL};
    /// # let (mut store, mut session) = ([0; FACTORY_STORE_SIZE], Session::fresh());
    /// # let mut element = Element::factory(&mut store, &mut session)?;
    /// # element.open()?;
    /// # let mut room = [0; LARGEST_ROOM];
    ///
    /// let fields = [tag::LCSO, 1, OPERATIONAL, tag::CHANGE, 1, expression::NEVER];
    /// element.set_metadata(ObjectNumber(0xF1D0), &fields, &mut [0; LEAD + 6])?;
    /// let stored = element.metadata(ObjectNumber(0xF1D0), &mut room)?;
    /// assert!(stored.starts_with(&[tag::LCSO, 1, OPERATIONAL]));
    /// # Ok::<(), Error>(())
    /// ```
    pub fn set_metadata(
        &mut self,
        object: ObjectNumber,
        fields: &[u8],
        scratch: &mut [u8],
    ) -> Result<(), Error> {
        let length = u8::try_from(fields.len()).map_err(|_| Error::WrongSize)?;
        let lead = [tag::METADATA, length];
        self.change(set(METADATA, object, lead, fields, scratch)?)
    }

    /// Carries out a command given as bytes, and gives outcome and response as they stand.
    ///
    /// With a room of [`LARGEST_ROOM`](crate::LARGEST_ROOM) bytes every response fits.
    pub fn send<'r>(&mut self, command: &[u8], room: &'r mut [u8]) -> Answer<'r> {
        let outcome = library::execute(command, self.store, self.session, room);
        let response = match outcome {
            ANSWERED => response(room),
            _ => &[],
        };
        Answer { outcome, response }
    }

    /// Carries out a command given as bytes, as [`send`](Element::send) does, and gives its OutData, or the refusal by its own number, also
    /// where the last error holds a higher one. (A refused command is judged twice, the second time for its number.)
    ///
    /// ```
    /// # use element::{Element, Error, Refusal, Session, FACTORY_STORE_SIZE, LEAST_ROOM};
    /// # let (mut store, mut session) = ([0; FACTORY_STORE_SIZE], Session::fresh());
    /// # let mut element = Element::factory(&mut store, &mut session)?;
    /// let mut room = [0; LEAST_ROOM];
    /// let closed = element.carry_out(&[0x71, 0x00, 0x00, 0x00], &mut room);
    /// assert_eq!(closed, Err(Error::Refused(Refusal::NotAvailable)));
    /// let unknown = element.carry_out(&[0x72, 0x00, 0x00, 0x00], &mut room);
    /// assert_eq!(unknown, Err(Error::Refused(Refusal::InvalidCommand)));
    /// assert_eq!(element.session().error, 0x0C); // the higher of both
    /// # Ok::<(), Error>(())
    /// ```
    pub fn carry_out<'r>(&mut self, command: &[u8], room: &'r mut [u8]) -> Result<&'r [u8], Error> {
        if library::execute(command, self.store, self.session, room) != ANSWERED {
            return Err(Error::NoRoom);
        }
        if room.first() == Some(&REFUSED) {
            return Err(Error::Refused(self.refusal_of(command, room)));
        }
        Ok(response(room).get(HEADER..).unwrap_or(&[]))
    }

    /// Carries out a list of commands as that many calls of [`send`](Element::send) would. The i-th command is the next `sizes[i]` bytes of
    /// `commands`, its room the next `spaces[i]` bytes of `rooms`, its outcome `outcomes[i]`. There are as many commands as outcomes.
    ///
    /// [`Error::WrongSize`] where there are fewer sizes or spaces than outcomes, or where they add up to more than `commands` or `rooms` have.
    ///
    /// ```
    /// # use element::{Element, Error, Session, FACTORY_STORE_SIZE};
    /// # let (mut store, mut session) = ([0; FACTORY_STORE_SIZE], Session::fresh());
    /// # let mut element = Element::factory(&mut store, &mut session)?;
    /// let list = b"\x70\x00\x00\x10\xD2\x76\x00\x00\x04GenAuthAppl\x71\x00\x00\x00"; // open, close
    /// let (mut rooms, mut outcomes) = ([0xEE; 8], [0xEE; 2]);
    /// element.run(list, &[20, 4], &mut rooms, &[4, 4], &mut outcomes)?;
    /// assert_eq!((rooms, outcomes), ([0; 8], [0; 2]));
    /// # Ok::<(), Error>(())
    /// ```
    pub fn run(
        &mut self,
        commands: &[u8],
        sizes: &[usize],
        rooms: &mut [u8],
        spaces: &[usize],
        outcomes: &mut [u8],
    ) -> Result<(), Error> {
        let list = List {
            commands,
            sizes,
            rooms,
            spaces,
            outcomes,
        };
        match library::run(list, self.store, self.session) {
            ANSWERED => Ok(()),
            _ => Err(Error::WrongSize),
        }
    }

    /// Carries out a command that answers with no data.
    fn change(&mut self, command: &[u8]) -> Result<(), Error> {
        let mut room = [0; HEADER];
        self.carry_out(command, &mut room).map(|_| ())
    }

    /// The number of a command that was just refused. The last error may hold a higher one, so the command is carried out once more on a
    /// session that differs from the one before it only in a last error of 0. No judgment looks at the last error, and a refused command changes
    /// nothing else: it is refused again with the same number, and the store stays as it is.
    fn refusal_of(&mut self, command: &[u8], room: &mut [u8]) -> Refusal {
        let mut again = Session {
            error: 0,
            ..*self.session
        };
        library::execute(command, self.store, &mut again, room);
        Refusal::from_number(again.error).unwrap_or(Refusal::InternalError)
    }
}

/// The bytes of the response at the front of a room.
fn response(room: &[u8]) -> &[u8] {
    match room {
        [_, _, high, low, ..] => {
            let out_len = usize::from(u16::from_be_bytes([*high, *low]));
            room.get(..HEADER + out_len).unwrap_or(&[])
        }
        _ => &[],
    }
}

/// Puts a set command together at the front of the scratch: `between` stands between the object and what is written.
fn set<'s, const N: usize>(
    param: u8,
    object: ObjectNumber,
    between: [u8; N],
    written: &[u8],
    scratch: &'s mut [u8],
) -> Result<&'s [u8], Error> {
    let length = FRONT + N + written.len();
    if length > LARGEST_COMMAND {
        return Err(Error::WrongSize);
    }
    let command = scratch.get_mut(..length).ok_or(Error::WrongSize)?;
    let (front, rest) = command.split_first_chunk_mut().ok_or(Error::WrongSize)?;
    let (middle, rest) = rest.split_first_chunk_mut().ok_or(Error::WrongSize)?;
    let [[a, b], [c, d]] = [(length - HEADER) as u16, object.0].map(u16::to_be_bytes);
    *front = [SET, param, a, b, c, d];
    *middle = between;
    rest.copy_from_slice(written);
    Ok(command)
}

#[cfg(test)]
mod tests {
    use super::*;

    const FARES: ObjectNumber = ObjectNumber(0xF1D0);

    #[test]
    fn a_response_ends_at_its_out_len() {
        assert_eq!(response(&[0, 0, 0, 1, 9, 9]), [0, 0, 0, 1, 9]);
        assert_eq!(response(&[0, 0, 0, 0, 9, 9]), [0, 0, 0, 0]);
        assert_eq!(response(&[0, 0, 0, 3, 9, 9]), []);
        assert_eq!(response(&[0, 0, 0]), []);
    }

    #[test]
    fn a_write_is_put_together_at_the_front_of_the_scratch() {
        let mut scratch = [0xEE; 12];
        let command = set(DATA, FARES, [0x00, 0x09], &[1, 2, 3], &mut scratch);
        let expected = [2, 0, 0, 7, 0xF1, 0xD0, 0, 9, 1, 2, 3];
        assert_eq!(command, Ok(&expected[..]));
        assert_eq!(scratch[11], 0xEE);
    }

    #[test]
    fn an_append_has_its_body_behind_the_object() {
        let mut scratch = [0xEE; 9];
        let command = set(APPEND, FARES, [], &[1, 2], &mut scratch);
        assert_eq!(command, Ok(&[2, 4, 0, 4, 0xF1, 0xD0, 1, 2][..]));
        assert_eq!(scratch[8], 0xEE);
        let command = set(ACKNOWLEDGE, FARES, [9, 8, 7, 6], &[], &mut scratch[..8]);
        assert_eq!(command, Err(Error::WrongSize));
        let mut scratch = [0xEE; 10];
        let command = set(ACKNOWLEDGE, FARES, [9, 8, 7, 6], &[], &mut scratch);
        assert_eq!(command, Ok(&[2, 5, 0, 6, 0xF1, 0xD0, 9, 8, 7, 6][..]));
    }

    #[test]
    fn the_largest_command_has_its_in_len() {
        let mut scratch = [0; LARGEST_COMMAND];
        let command = set(
            ERASE_AND_WRITE,
            FARES,
            [0, 0],
            &[7; LARGEST_COMMAND - LEAD],
            &mut scratch,
        );
        let command = command.expect("1,557 bytes are a command");
        assert_eq!(command.len(), LARGEST_COMMAND);
        assert_eq!(command[..4], [2, 0x40, 0x06, 0x11]);
    }

    #[test]
    fn what_fits_no_command_or_scratch_leaves_the_scratch() {
        let mut scratch = [0xEE; LARGEST_COMMAND + 1];
        let long = [0; LARGEST_COMMAND - LEAD + 1];
        assert_eq!(
            set(DATA, FARES, [0, 0], &long, &mut scratch),
            Err(Error::WrongSize)
        );
        assert_eq!(
            set(DATA, FARES, [0, 0], &[1], &mut scratch[..LEAD]),
            Err(Error::WrongSize)
        );
        assert_eq!(scratch, [0xEE; LARGEST_COMMAND + 1]);
    }
}
