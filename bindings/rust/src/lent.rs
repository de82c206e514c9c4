//! The library's functions on plain slices, and all of this crate's unsafe code.
//!
//! They take slices of any length and any contents. With an answer shorter than 3 numbers a call writes 1 to its first, if it has one, and
//! changes nothing else; with a record shorter than `Machine::NUMBERS` it answers 1, 0, 0 and changes nothing else; numbers after as
//! many and after the answer's 3 are kept.

/// The six slices that every call is lent.
pub struct Lent<'a> {
    pub record: &'a mut [u64],
    pub marks: &'a mut [u32],
    pub words: &'a mut [u64],
    pub bitmap: &'a mut [u64],
    pub owners: &'a mut [u32],
    pub answer: &'a mut [u64],
}

/// Declares each function of the library, and a safe function of the same arguments on `Lent`: numbers, and a text that is read or a buffer
/// that is written.
macro_rules! calls {
    ($($call:ident is $symbol:ident($($number:ident),* $(; $text:ident)?) $(into $buffer:ident)?;)*) => {
        extern "C" {
            $(fn $symbol(
                record: *mut u64, record_length: usize,
                marks: *mut u32, marks_length: usize,
                words: *mut u64, words_length: usize,
                bitmap: *mut u64, bitmap_length: usize,
                owners: *mut u32, owners_length: usize,
                answer: *mut u64, answer_length: usize,
                $($number: u64,)* $($text: *const u8, text_length: usize,)? $($buffer: *mut u8, buffer_length: usize,)?
            );)*
        }
        $(pub fn $call(lent: Lent, $($number: u64,)* $($text: &[u8],)? $($buffer: &mut [u8],)?) {
            // SAFETY: the function is proved to read and write inside the slices alone, for every length and every contents, and to keep no
            // pointer; the slices are live, and borrowed by `lent` and the arguments, so that none overlaps one that is written.
            unsafe {
                $symbol(
                    lent.record.as_mut_ptr(), lent.record.len(),
                    lent.marks.as_mut_ptr(), lent.marks.len(),
                    lent.words.as_mut_ptr(), lent.words.len(),
                    lent.bitmap.as_mut_ptr(), lent.bitmap.len(),
                    lent.owners.as_mut_ptr(), lent.owners.len(),
                    lent.answer.as_mut_ptr(), lent.answer.len(),
                    $($number,)* $($text.as_ptr(), $text.len(),)? $($buffer.as_mut_ptr(), $buffer.len(),)?
                )
            }
        })*
    };
}

calls! {
    boot is szk_boot(base, frames, block_order; text);
    declare is szk_declare(base, size, limit, alignment, order_per_bit, fixed);
    put_movable is szk_put_movable(name);
    put_fixed is szk_put_fixed(name);
    drop is szk_drop(name);
    pin is szk_pin(name);
    unpin is szk_unpin(name);
    store is szk_store(name, word);
    read is szk_read(name);
    grant is szk_grant(area, count, align, device);
    release is szk_release(area, frame, count, device);
    device_store is szk_device_store(frame, word, device);
    device_read is szk_device_read(frame, device);
    report is szk_report() into buffer;
}

extern "C" {
    fn szk_since(later: u32, earlier: u32) -> u32;
}

/// How much a counter has counted from an earlier reading to a later one. It is right where that is less than 2^32
/// and no boot was accepted between.
pub fn since(later: u32, earlier: u32) -> u32 {
    // SAFETY: the function takes and gives numbers alone.
    unsafe { szk_since(later, earlier) }
}
