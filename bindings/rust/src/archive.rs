//! The calls of the archive.

/// An answer of the archive: its status and its text.
pub(crate) struct Answer {
    pub(crate) status: u32,
    pub(crate) text: String,
}

extern "C" {
    fn gutsirava_bundle(
        input: *const u8,
        input_length: usize,
        output: *mut u8,
        output_length: usize,
        written: &mut usize,
    ) -> u32;

    fn gutsirava_bundle_sources(
        input: *const u8,
        input_length: usize,
        output: *mut u8,
        output_length: usize,
        written: &mut usize,
    ) -> u32;

    fn gutsirava_form(
        source: *const u8,
        source_length: usize,
        is_common_js: bool,
        output: *mut u8,
        output_length: usize,
        written: &mut usize,
    ) -> u32;

    fn gutsirava_text(
        form: *const u8,
        form_length: usize,
        output: *mut u8,
        output_length: usize,
        written: &mut usize,
    ) -> u32;
}

/// The status of an answer that has no room.
const NO_ROOM: u32 = 3;

/// The bundles of a document, or its refusal.
pub(crate) fn bundle(document: &[u8]) -> Answer {
    // SAFETY: the archive reads `document` and writes `output` within their lengths, and keeps neither.
    answered(
        document.len().saturating_mul(4),
        |output, room, written| unsafe {
            gutsirava_bundle(document.as_ptr(), document.len(), output, room, written)
        },
    )
}

/// The bundles of source texts, and what is told of them.
pub(crate) fn bundle_sources(request: &[u8]) -> Answer {
    // SAFETY: as in `bundle`.
    answered(
        request.len().saturating_mul(4),
        |output, room, written| unsafe {
            gutsirava_bundle_sources(request.as_ptr(), request.len(), output, room, written)
        },
    )
}

/// The JSON form of a module's tree, or the line that says why its text has none.
pub(crate) fn form(source: &str, is_common_js: bool) -> Answer {
    // SAFETY: as in `bundle`.
    answered(
        source.len().saturating_mul(48),
        |output, room, written| unsafe {
            gutsirava_form(
                source.as_ptr(),
                source.len(),
                is_common_js,
                output,
                room,
                written,
            )
        },
    )
}

/// The text of a module whose JSON form this is.
pub(crate) fn text(form: &str) -> Answer {
    // SAFETY: as in `bundle`.
    answered(form.len(), |output, room, written| unsafe {
        gutsirava_text(form.as_ptr(), form.len(), output, room, written)
    })
}

// The answer of a call, which is made again where it has no room. Memory that nothing touches costs nothing, so there is
// much of it at once.
fn answered(room: usize, mut call: impl FnMut(*mut u8, usize, &mut usize) -> u32) -> Answer {
    let mut text = Vec::with_capacity(room.saturating_add(4096));
    let mut written = 0;
    let mut status = call(text.as_mut_ptr(), text.capacity(), &mut written);
    if status == NO_ROOM {
        text.reserve_exact(written);
        status = call(text.as_mut_ptr(), text.capacity(), &mut written);
    }
    // SAFETY: the archive wrote so many bytes, for which there was room.
    unsafe { text.set_len(if status == NO_ROOM { 0 } else { written }) };
    text.shrink_to_fit();
    debug_assert!(std::str::from_utf8(&text).is_ok());
    // SAFETY: an answer is UTF-8: the contract of each call has it (`IsHandedOver` of crates/gutsirava_c).
    let text = unsafe { String::from_utf8_unchecked(text) };
    Answer { status, text }
}
