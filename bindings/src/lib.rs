//! The proved library's calls as safe functions on slices, one for each function of
//! `include/beetle.h`, which says what they do. An answer below 0 there, a refusal, is here in two's
//! complement: `answer as i32` is its number.

mod c;

#[allow(clippy::too_many_arguments)]
pub fn start(
    order: u8,
    memory: &mut [u8],
    ep: u32,
    handler: u32,
    data_top: u32,
    data_cells: u32,
    return_top: u32,
    return_cells: u32,
    table: u32,
    table_end: u32,
    registers: &mut [u32],
    out: &mut [u32],
) -> u32 {
    let (m, m_length) = (memory.as_mut_ptr(), memory.len());
    let (r, r_length) = (registers.as_mut_ptr(), registers.len());
    let (o, o_length) = (out.as_mut_ptr(), out.len());
    // SAFETY: each pointer goes with the length of its slice; the slices do not overlap.
    unsafe {
        c::beetle_start(
            order,
            m,
            m_length,
            ep,
            handler,
            data_top,
            data_cells,
            return_top,
            return_cells,
            table,
            table_end,
            r,
            r_length,
            o,
            o_length,
        )
    }
}

pub fn cycle(
    order: u8,
    memory: &mut [u8],
    table: u32,
    table_end: u32,
    registers: &mut [u32],
    out: &mut [u32],
) -> u32 {
    let (m, m_length) = (memory.as_mut_ptr(), memory.len());
    let (r, r_length) = (registers.as_mut_ptr(), registers.len());
    let (o, o_length) = (out.as_mut_ptr(), out.len());
    // SAFETY: as above.
    unsafe {
        c::beetle_cycle(
            order, m, m_length, table, table_end, r, r_length, o, o_length,
        )
    }
}

pub fn run(
    order: u8,
    memory: &mut [u8],
    table: u32,
    table_end: u32,
    registers: &mut [u32],
    budget: u32,
    out: &mut [u32],
) -> u32 {
    let (m, m_length) = (memory.as_mut_ptr(), memory.len());
    let (r, r_length) = (registers.as_mut_ptr(), registers.len());
    let (o, o_length) = (out.as_mut_ptr(), out.len());
    // SAFETY: as above.
    unsafe {
        c::beetle_run(
            order, m, m_length, table, table_end, r, r_length, budget, o, o_length,
        )
    }
}

/// `registers` holds the eight numbers that `run` takes, by value: no call of this writes them.
#[allow(clippy::too_many_arguments)]
pub fn batch(
    order: u8,
    start: &[u8],
    memory: &mut [u8],
    forms: &[u8],
    count: u16,
    form_length: u32,
    address: u32,
    registers: [u32; 8],
    table: u32,
    table_end: u32,
    budget: u32,
    out: &mut [u32],
) -> u32 {
    let (s, s_length) = (start.as_ptr(), start.len());
    let (m, m_length) = (memory.as_mut_ptr(), memory.len());
    let (f, f_length) = (forms.as_ptr(), forms.len());
    let [ep, a, sp, rp, data_top, data_cells, return_top, return_cells] = registers;
    let (o, o_length) = (out.as_mut_ptr(), out.len());
    // SAFETY: as above.
    unsafe {
        c::beetle_batch(
            order,
            s,
            s_length,
            m,
            m_length,
            f,
            f_length,
            count,
            form_length,
            address,
            ep,
            a,
            sp,
            rp,
            data_top,
            data_cells,
            return_top,
            return_cells,
            table,
            table_end,
            budget,
            o,
            o_length,
        )
    }
}

pub fn load(order: u8, memory: &mut [u8], file: &[u8], address: u32, out: &mut [u32]) -> u32 {
    let (m, m_length) = (memory.as_mut_ptr(), memory.len());
    let (f, f_length) = (file.as_ptr(), file.len());
    let (o, o_length) = (out.as_mut_ptr(), out.len());
    // SAFETY: as above.
    unsafe { c::beetle_load(order, m, m_length, f, f_length, address, o, o_length) }
}

pub fn load_first(
    order: u8,
    memory: &mut [u8],
    file: &[u8],
    address: u32,
    cells: u32,
    out: &mut [u32],
) -> u32 {
    let (m, m_length) = (memory.as_mut_ptr(), memory.len());
    let (f, f_length) = (file.as_ptr(), file.len());
    let (o, o_length) = (out.as_mut_ptr(), out.len());
    // SAFETY: as above.
    unsafe { c::beetle_load_first(order, m, m_length, f, f_length, address, cells, o, o_length) }
}

pub fn load_set(
    order: u8,
    memory: &mut [u8],
    buffer: &[u8],
    modules: &[u32],
    out: &mut [u32],
) -> u32 {
    let (m, m_length) = (memory.as_mut_ptr(), memory.len());
    let (b, b_length) = (buffer.as_ptr(), buffer.len());
    let (n, n_length) = (modules.as_ptr(), modules.len());
    let (o, o_length) = (out.as_mut_ptr(), out.len());
    // SAFETY: as above.
    unsafe { c::beetle_load_set(order, m, m_length, b, b_length, n, n_length, o, o_length) }
}

pub fn save(
    order: u8,
    memory: &[u8],
    address: u32,
    cells: u32,
    output: &mut [u8],
    out: &mut [u32],
) -> u32 {
    let (m, m_length) = (memory.as_ptr(), memory.len());
    let (w, w_length) = (output.as_mut_ptr(), output.len());
    let (o, o_length) = (out.as_mut_ptr(), out.len());
    // SAFETY: as above.
    unsafe { c::beetle_save(order, m, m_length, address, cells, w, w_length, o, o_length) }
}

pub fn pack(
    order: u8,
    kinds: &[u8],
    operands: &[u32],
    base: u32,
    output: &mut [u8],
    out: &mut [u32],
) -> u32 {
    let (k, k_length) = (kinds.as_ptr(), kinds.len());
    let (v, v_length) = (operands.as_ptr(), operands.len());
    let (w, w_length) = (output.as_mut_ptr(), output.len());
    let (o, o_length) = (out.as_mut_ptr(), out.len());
    // SAFETY: as above.
    unsafe {
        c::beetle_pack(
            order, k, k_length, v, v_length, base, w, w_length, o, o_length,
        )
    }
}

pub fn pack_file(order: u8, file: &[u8], output: &mut [u8], out: &mut [u32]) -> u32 {
    let (f, f_length) = (file.as_ptr(), file.len());
    let (w, w_length) = (output.as_mut_ptr(), output.len());
    let (o, o_length) = (out.as_mut_ptr(), out.len());
    // SAFETY: as above.
    unsafe { c::beetle_pack_file(order, f, f_length, w, w_length, o, o_length) }
}

pub fn pack_short(order: u8, file: &[u8], output: &mut [u8], out: &mut [u32]) -> u32 {
    let (f, f_length) = (file.as_ptr(), file.len());
    let (w, w_length) = (output.as_mut_ptr(), output.len());
    let (o, o_length) = (out.as_mut_ptr(), out.len());
    // SAFETY: as above.
    unsafe { c::beetle_pack_short(order, f, f_length, w, w_length, o, o_length) }
}

pub fn unpack(
    order: u8,
    image: &[u8],
    base: u32,
    kinds: &mut [u8],
    operands: &mut [u32],
    out: &mut [u32],
) -> u32 {
    let (i, i_length) = (image.as_ptr(), image.len());
    let (k, k_length) = (kinds.as_mut_ptr(), kinds.len());
    let (v, v_length) = (operands.as_mut_ptr(), operands.len());
    let (o, o_length) = (out.as_mut_ptr(), out.len());
    // SAFETY: as above.
    unsafe {
        c::beetle_unpack(
            order, i, i_length, base, k, k_length, v, v_length, o, o_length,
        )
    }
}

pub fn shorten(file: &[u8], output: &mut [u8], out: &mut [u32]) -> u32 {
    let (f, f_length) = (file.as_ptr(), file.len());
    let (w, w_length) = (output.as_mut_ptr(), output.len());
    let (o, o_length) = (out.as_mut_ptr(), out.len());
    // SAFETY: as above.
    unsafe { c::beetle_shorten(f, f_length, w, w_length, o, o_length) }
}

pub fn lengthen(file: &[u8], output: &mut [u8], out: &mut [u32]) -> u32 {
    let (f, f_length) = (file.as_ptr(), file.len());
    let (w, w_length) = (output.as_mut_ptr(), output.len());
    let (o, o_length) = (out.as_mut_ptr(), out.len());
    // SAFETY: as above.
    unsafe { c::beetle_lengthen(f, f_length, w, w_length, o, o_length) }
}

#[allow(clippy::too_many_arguments)]
pub fn list_run(
    order: u8,
    kinds: &[u8],
    operands: &[u32],
    base: u32,
    memory: &mut [u8],
    table: u32,
    table_end: u32,
    pointers: &mut [u32],
    items: u32,
    out: &mut [u32],
) -> u32 {
    let (k, k_length) = (kinds.as_ptr(), kinds.len());
    let (v, v_length) = (operands.as_ptr(), operands.len());
    let (m, m_length) = (memory.as_mut_ptr(), memory.len());
    let (p, p_length) = (pointers.as_mut_ptr(), pointers.len());
    let (o, o_length) = (out.as_mut_ptr(), out.len());
    // SAFETY: as above.
    unsafe {
        c::beetle_list_run(
            order, k, k_length, v, v_length, base, m, m_length, table, table_end, p, p_length,
            items, o, o_length,
        )
    }
}

#[allow(clippy::too_many_arguments)]
pub fn list_resume(
    order: u8,
    kinds: &[u8],
    operands: &[u32],
    base: u32,
    memory: &mut [u8],
    table: u32,
    table_end: u32,
    item: u32,
    ran: u8,
    pointers: &mut [u32],
    items: u32,
    out: &mut [u32],
) -> u32 {
    let (k, k_length) = (kinds.as_ptr(), kinds.len());
    let (v, v_length) = (operands.as_ptr(), operands.len());
    let (m, m_length) = (memory.as_mut_ptr(), memory.len());
    let (p, p_length) = (pointers.as_mut_ptr(), pointers.len());
    let (o, o_length) = (out.as_mut_ptr(), out.len());
    // SAFETY: as above.
    unsafe {
        c::beetle_list_resume(
            order, k, k_length, v, v_length, base, m, m_length, table, table_end, item, ran, p,
            p_length, items, o, o_length,
        )
    }
}
