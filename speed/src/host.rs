//! The proved step as a host calls it: out of its static library.

use second::machine::Bench;

/// The report as the static library gives it.
#[repr(C)]
pub struct StepNumbers {
    pub number: u64,
    pub count: u64,
    pub element: u64,
    pub address: u64,
}

#[link(name = "hosts", kind = "static")]
extern "C" {
    fn kjolvast_step(
        z: *mut u8,
        z_len: usize,
        x: *mut u64,
        x_len: usize,
        ram: *const u8,
        ram_len: usize,
        word: u32,
        vl: u64,
        simd: bool,
        sve: bool,
        f64mm: bool,
        p: *const u8,
        p_len: usize,
        flash_start: u64,
        ram_start: u64,
        flash: *const u8,
        flash_len: usize,
        flash_rights: *const u8,
        flash_rights_len: usize,
        ram_rights: *const u8,
        ram_rights_len: usize,
    ) -> StepNumbers;
}

/// The address of the proved step.
pub fn place() -> usize {
    kjolvast_step as *const () as usize
}

/// A bench as the static library wants it, argument by argument. A host that makes many steps has
/// them at hand; so they are looked up once for all rounds.
pub struct Lent<'a> {
    z: &'a mut [u8],
    pub x: &'a mut [u64],
    ram: &'a [u8],
    vl: u64,
    simd: bool,
    sve: bool,
    f64mm: bool,
    p: &'a [u8],
    flash_start: u64,
    ram_start: u64,
    flash: &'a [u8],
    flash_rights: &'a [u8],
    ram_rights: &'a [u8],
}

impl Lent<'_> {
    pub fn of(bench: &mut Bench) -> Lent<'_> {
        let Bench { z, x, p, .. } = bench;
        let (flash, ram) = (&bench.flash, &bench.ram);
        Lent {
            z,
            x,
            ram: &ram.bytes,
            vl: bench.vl,
            simd: bench.simd,
            sve: bench.sve,
            f64mm: bench.f64mm,
            p,
            flash_start: flash.start,
            ram_start: ram.start,
            flash: &flash.bytes,
            flash_rights: &flash.rights,
            ram_rights: &ram.rights,
        }
    }

    /// Becomes a part of the loop that calls it: no call between counts as the step's.
    #[inline(always)]
    pub fn step(&mut self, word: u32) -> StepNumbers {
        // SAFETY: each pointer comes with the length of its own slice, all of them live through the
        // call, and z and x, which are written, are borrowed for this call alone
        unsafe {
            kjolvast_step(
                self.z.as_mut_ptr(),
                self.z.len(),
                self.x.as_mut_ptr(),
                self.x.len(),
                self.ram.as_ptr(),
                self.ram.len(),
                word,
                self.vl,
                self.simd,
                self.sve,
                self.f64mm,
                self.p.as_ptr(),
                self.p.len(),
                self.flash_start,
                self.ram_start,
                self.flash.as_ptr(),
                self.flash.len(),
                self.flash_rights.as_ptr(),
                self.flash_rights.len(),
                self.ram_rights.as_ptr(),
                self.ram_rights.len(),
            )
        }
    }
}
