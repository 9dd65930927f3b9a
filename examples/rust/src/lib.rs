//! A safe wrapper of the three calls of offer.h.

/// Document 01's number of a refusal, and its place.
#[derive(Clone, Copy, Debug, PartialEq, Eq)]
pub struct Refusal {
    pub number: u32,
    pub place: u64,
}

/// How many errors and warnings there are.
#[derive(Clone, Copy, Debug, PartialEq, Eq)]
pub struct Counts {
    pub errors: u64,
    pub warnings: u64,
}

extern "C" {
    fn offer_read(doc: *const u8, doc_len: usize, place: *mut u64) -> u32;
    fn offer_findings(
        doc: *const u8,
        doc_len: usize,
        words: *mut u32,
        words_len: usize,
        answer: *mut u64,
    ) -> u32;
    fn offer_message(
        doc: *const u8,
        doc_len: usize,
        number: u64,
        text: *mut u8,
        text_len: usize,
        answer: *mut u64,
    ) -> u32;
}

fn answered(number: u32, place: u64) -> Result<(), Refusal> {
    match number {
        0 => Ok(()),
        _ => Err(Refusal { number, place }),
    }
}

/// Whether the bytes are a document.
pub fn read(doc: &[u8]) -> Result<(), Refusal> {
    let mut place = 0;
    // SAFETY: the document is lent for the call, and place is a u64 to write.
    let number = unsafe { offer_read(doc.as_ptr(), doc.len(), &mut place) };
    answered(number, place)
}

/// All findings into the front of the words, five words each.
pub fn findings(doc: &[u8], words: &mut [u32]) -> Result<Counts, Refusal> {
    let mut answer = [0; 2];
    // SAFETY: document and words are lent for the call and do not overlap, and answer is two u64 to write.
    let number = unsafe {
        offer_findings(
            doc.as_ptr(),
            doc.len(),
            words.as_mut_ptr(),
            words.len(),
            answer.as_mut_ptr(),
        )
    };
    let [errors, warnings] = answer;
    answered(number, errors).map(|()| Counts { errors, warnings })
}

/// The message of one finding, as the front of the text. It is ASCII.
pub fn message<'a>(doc: &[u8], number: u64, text: &'a mut [u8]) -> Result<&'a str, Refusal> {
    let mut answer = [0; 2];
    // SAFETY: document and text are lent for the call and do not overlap, and answer is two u64 to write.
    let refusal = unsafe {
        offer_message(
            doc.as_ptr(),
            doc.len(),
            number,
            text.as_mut_ptr(),
            text.len(),
            answer.as_mut_ptr(),
        )
    };
    answered(refusal, answer[0])?;
    let written = &text[..answer[0] as usize];
    Ok(std::str::from_utf8(written).expect("a message is ASCII"))
}
