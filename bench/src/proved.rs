//! The proved book and the proved factory, through their C interface (include/delivery.h).

extern "C" {
    fn delivery_session(input: *const u8, input_length: usize, output: *mut u8, output_length: usize) -> usize;
    fn delivery_session_by_table(table: *const u8, table_length: usize, input: *const u8, input_length: usize, output: *mut u8, output_length: usize) -> usize;
    fn delivery_page(input: *const u8, input_length: usize, output: *mut u8, output_length: usize) -> usize;
    fn delivery_page_by_table(table: *const u8, table_length: usize, input: *const u8, input_length: usize, output: *mut u8, output_length: usize) -> usize;
    fn delivery_heat_table(output: *mut u8, output_length: usize) -> usize;
    fn delivery_dispatch(input: *const u8, input_length: usize, output: *mut u8, output_length: usize) -> usize;
}

/// Room for the output of every session.
pub const ROOM: usize = 848_427;

/// Room for every page.
pub const PAGE_ROOM: usize = 22_468;

/// A whole session into a buffer of ROOM bytes, which is not cleared first; answers how many bytes it wrote.
pub fn run(input: &[u8], out: &mut Vec<u8>) -> usize {
    if out.len() < ROOM {
        out.resize(ROOM, 0);
    }
    // The two slices are valid for their lengths and apart, and the function writes only within the second.
    unsafe { delivery_session(input.as_ptr(), input.len(), out.as_mut_ptr(), out.len()) }
}

/// The same with the heat table that is loaded from these bytes.
pub fn run_by_table(table: &[u8], input: &[u8], out: &mut Vec<u8>) -> usize {
    if out.len() < ROOM {
        out.resize(ROOM, 0);
    }
    // As above, with a third slice that is only read.
    unsafe { delivery_session_by_table(table.as_ptr(), table.len(), input.as_ptr(), input.len(), out.as_mut_ptr(), out.len()) }
}

/// The page of the book after a session into a lent buffer of any length; answers how many bytes it wrote.
pub fn lend(input: &[u8], out: &mut [u8]) -> usize {
    // As above.
    unsafe { delivery_page(input.as_ptr(), input.len(), out.as_mut_ptr(), out.len()) }
}

/// The same with the heat table that is loaded from these bytes.
pub fn lend_by_table(table: &[u8], input: &[u8], out: &mut [u8]) -> usize {
    // As above.
    unsafe { delivery_page_by_table(table.as_ptr(), table.len(), input.as_ptr(), input.len(), out.as_mut_ptr(), out.len()) }
}

/// The page into a buffer of PAGE_ROOM bytes, which is not cleared first.
pub fn page(input: &[u8], out: &mut Vec<u8>) -> usize {
    if out.len() < PAGE_ROOM {
        out.resize(PAGE_ROOM, 0);
    }
    lend(input, out)
}

/// The heat table into a lent buffer of any length; answers how many bytes it wrote.
pub fn heat_table(out: &mut [u8]) -> usize {
    // The slice is valid for its length, and the function writes only within it.
    unsafe { delivery_heat_table(out.as_mut_ptr(), out.len()) }
}

/// Room for the answers to every list of a factory's calls of so many bytes.
pub fn dispatch_room(bytes: usize) -> usize {
    82 * bytes + 24
}

/// The answers to a list of a factory's calls into a lent buffer of any length; answers how many bytes it wrote.
pub fn lend_dispatch(input: &[u8], out: &mut [u8]) -> usize {
    // As the page above.
    unsafe { delivery_dispatch(input.as_ptr(), input.len(), out.as_mut_ptr(), out.len()) }
}

/// The answers into a buffer with room for them, which is not cleared first.
pub fn dispatch(input: &[u8], out: &mut Vec<u8>) -> usize {
    let room = dispatch_room(input.len());
    if out.len() < room {
        out.resize(room, 0);
    }
    lend_dispatch(input, out)
}
