//! The library liboffer.a, linked with the feature `offer`.

/// A reader of documents: 0 and 0 if accepted, else refusal number and place.
pub type Reader = fn(&[u8]) -> (u32, u64);

#[cfg(feature = "offer")]
pub const READER: Option<Reader> = Some(read);

#[cfg(not(feature = "offer"))]
pub const READER: Option<Reader> = None;

/// A finder: 0 and both counts, else refusal number, place and 0; the words are
/// written from the front.
pub type Finder = fn(&[u8], &mut [u32]) -> (u32, [u64; 2]);

#[cfg(feature = "offer")]
pub const FINDER: Option<Finder> = Some(find);

#[cfg(not(feature = "offer"))]
pub const FINDER: Option<Finder> = None;

/// A teller: 0 and the message's length, else refusal number and place; then 0.
/// The text is written from the front.
pub type Teller = fn(&[u8], u64, &mut [u8]) -> (u32, [u64; 2]);

#[cfg(feature = "offer")]
pub const TELLER: Option<Teller> = Some(tell);

#[cfg(not(feature = "offer"))]
pub const TELLER: Option<Teller> = None;

#[cfg(feature = "offer")]
extern "C" {
    fn offer_read(doc: *const u8, doc_len: usize, place: *mut u64) -> u32;
    fn offer_findings(
        doc: *const u8,
        doc_len: usize,
        words: *mut u32,
        words_len: usize,
        answer: *mut u64,
    ) -> u32;
    fn offer_message(
        doc: *const u8,
        doc_len: usize,
        number: u64,
        text: *mut u8,
        text_len: usize,
        answer: *mut u64,
    ) -> u32;
}

/// The library's message. The answer starts as none, so that a call that
/// leaves it alone shows.
#[cfg(feature = "offer")]
pub fn tell(doc: &[u8], number: u64, text: &mut [u8]) -> (u32, [u64; 2]) {
    let mut answer = [u64::MAX; 2];
    // Document and text are lent for the call, and answer is two u64 to write.
    let number = unsafe {
        offer_message(
            doc.as_ptr(),
            doc.len(),
            number,
            text.as_mut_ptr(),
            text.len(),
            answer.as_mut_ptr(),
        )
    };
    (number, answer)
}

/// The library's findings. The answer starts as none, so that a call that
/// leaves it alone shows.
#[cfg(feature = "offer")]
pub fn find(doc: &[u8], words: &mut [u32]) -> (u32, [u64; 2]) {
    let mut answer = [u64::MAX; 2];
    // Document and words are lent for the call, and answer is two u64 to write.
    let number = unsafe {
        offer_findings(
            doc.as_ptr(),
            doc.len(),
            words.as_mut_ptr(),
            words.len(),
            answer.as_mut_ptr(),
        )
    };
    (number, answer)
}

/// The library's answer. The place starts as no place, so that a call that
/// leaves it alone shows.
#[cfg(feature = "offer")]
pub fn read(doc: &[u8]) -> (u32, u64) {
    let mut place = u64::MAX;
    // The document is lent for the call, and place is one u64 to write.
    let number = unsafe { offer_read(doc.as_ptr(), doc.len(), &mut place) };
    (number, place)
}
