//! The proved archive, libpimlasut.a, by its C interface. This is the only
//! file that knows that interface.

extern "C" {
    fn pim_read_bare(
        input: *const u8,
        n: usize,
        record: *mut i32,
        record_len: usize,
        reading: *mut u32,
        reading_len: usize,
    ) -> u32;
    fn pim_read_wrapped(
        input: *const u8,
        n: usize,
        record: *mut i32,
        record_len: usize,
        reading: *mut u32,
        reading_len: usize,
    ) -> u32;
    fn pim_read_unit(
        input: *const u8,
        n: usize,
        record: *mut i32,
        record_len: usize,
        reading: *mut u32,
        reading_len: usize,
    ) -> u32;
    fn pim_why_wrapped(
        input: *const u8,
        n: usize,
        out: *mut u8,
        out_len: usize,
        written: *mut u32,
    ) -> u32;
    fn pim_write_bare(
        record: *const i32,
        record_len: usize,
        out: *mut u8,
        n: usize,
        written: *mut u32,
    ) -> u32;
    fn pim_write_wrapped(
        record: *const i32,
        record_len: usize,
        out: *mut u8,
        n: usize,
        written: *mut u32,
    ) -> u32;
    fn pim_write_unit(
        record: *const i32,
        record_len: usize,
        out: *mut u8,
        n: usize,
        written: *mut u32,
    ) -> u32;
    fn pim_shader(block: *const i32, block_len: usize, bits: *mut u32, bits_len: usize) -> u32;
    fn pim_place(
        record: *const i32,
        record_len: usize,
        picture: i32,
        segment: u16,
        table: *mut i32,
        table_len: usize,
        count: *mut u32,
    ) -> u32;
    fn pim_lookup(
        table: *const i32,
        table_len: usize,
        count: usize,
        picture: i32,
        point: *mut i32,
        point_len: usize,
        found: *mut u32,
    ) -> u32;
    fn pim_join(
        a: *const i32,
        a_len: usize,
        a_count: usize,
        b: *const i32,
        b_len: usize,
        b_count: usize,
        table: *mut i32,
        table_len: usize,
        count: *mut u32,
    ) -> u32;
}

// Each call below lends slices as a pointer with its length, counted in
// elements, and a single number as a pointer, for the time of the call only; an
// output never overlaps an input or another output.

pub fn read_bare(input: &[u8], record: &mut [i32], facts: &mut [u32]) -> u32 {
    unsafe {
        pim_read_bare(
            input.as_ptr(),
            input.len(),
            record.as_mut_ptr(),
            record.len(),
            facts.as_mut_ptr(),
            facts.len(),
        )
    }
}

pub fn read_wrapped(input: &[u8], record: &mut [i32], facts: &mut [u32]) -> u32 {
    unsafe {
        pim_read_wrapped(
            input.as_ptr(),
            input.len(),
            record.as_mut_ptr(),
            record.len(),
            facts.as_mut_ptr(),
            facts.len(),
        )
    }
}

pub fn read_unit(input: &[u8], record: &mut [i32], facts: &mut [u32]) -> u32 {
    unsafe {
        pim_read_unit(
            input.as_ptr(),
            input.len(),
            record.as_mut_ptr(),
            record.len(),
            facts.as_mut_ptr(),
            facts.len(),
        )
    }
}

pub fn why_wrapped(input: &[u8], out: &mut [u8], written: &mut u32) -> u32 {
    unsafe {
        pim_why_wrapped(
            input.as_ptr(),
            input.len(),
            out.as_mut_ptr(),
            out.len(),
            written,
        )
    }
}

pub fn write_bare(record: &[i32], out: &mut [u8], written: &mut u32) -> u32 {
    unsafe {
        pim_write_bare(
            record.as_ptr(),
            record.len(),
            out.as_mut_ptr(),
            out.len(),
            written,
        )
    }
}

pub fn write_wrapped(record: &[i32], out: &mut [u8], written: &mut u32) -> u32 {
    unsafe {
        pim_write_wrapped(
            record.as_ptr(),
            record.len(),
            out.as_mut_ptr(),
            out.len(),
            written,
        )
    }
}

pub fn write_unit(record: &[i32], out: &mut [u8], written: &mut u32) -> u32 {
    unsafe {
        pim_write_unit(
            record.as_ptr(),
            record.len(),
            out.as_mut_ptr(),
            out.len(),
            written,
        )
    }
}

pub fn shader(block: &[i32], bits: &mut [u32]) -> u32 {
    unsafe { pim_shader(block.as_ptr(), block.len(), bits.as_mut_ptr(), bits.len()) }
}

pub fn place(
    record: &[i32],
    picture: i32,
    segment: u16,
    table: &mut [i32],
    count: &mut u32,
) -> u32 {
    unsafe {
        pim_place(
            record.as_ptr(),
            record.len(),
            picture,
            segment,
            table.as_mut_ptr(),
            table.len(),
            count,
        )
    }
}

pub fn lookup(
    table: &[i32],
    count: usize,
    picture: i32,
    point: &mut [i32],
    found: &mut u32,
) -> u32 {
    unsafe {
        pim_lookup(
            table.as_ptr(),
            table.len(),
            count,
            picture,
            point.as_mut_ptr(),
            point.len(),
            found,
        )
    }
}

pub fn join(
    a: &[i32],
    a_count: usize,
    b: &[i32],
    b_count: usize,
    table: &mut [i32],
    count: &mut u32,
) -> u32 {
    unsafe {
        pim_join(
            a.as_ptr(),
            a.len(),
            a_count,
            b.as_ptr(),
            b.len(),
            b_count,
            table.as_mut_ptr(),
            table.len(),
            count,
        )
    }
}
