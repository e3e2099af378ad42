//! Deliberately wrong interpreters. A set of cases is worth something if it tells each of them
//! from the right one. A variant bends one small rule (`bent.rs`), or does something of its own
//! with the right interpreter's help (`instead.rs`), for example with the copies of a block
//! (`copies.rs`), with the stack rule of block loads (`stack.rs`), with the registers of LD2R to LD4R
//! (`structures.rs`), with the rights of pages (`pages.rs`) or where all elements lie together
//! (`stretch.rs`). `windows.rs` has the wrong windows.

#[macro_use]
mod bent;
mod copies;
mod instead;
mod pages;
mod stack;
mod stretch;
mod structures;
mod windows;

pub use windows::{WindowVariant, WINDOW_VARIANTS};

use crate::cases::{Case, Outcome};
use crate::rules::Rules;

pub struct Variant {
    pub name: &'static str,
    how: How,
}

#[derive(Clone, Copy)]
enum How {
    Bent(&'static dyn Rules),
    Instead(fn(&Case) -> Outcome),
}

impl Variant {
    pub fn outcome(&self, case: &Case) -> Outcome {
        match self.how {
            How::Bent(rules) => case.outcome_under(rules),
            How::Instead(outcome) => outcome(case),
        }
    }
}

const fn bent(name: &'static str, rules: &'static dyn Rules) -> Variant {
    Variant {
        name,
        how: How::Bent(rules),
    }
}

const fn instead(name: &'static str, outcome: fn(&Case) -> Outcome) -> Variant {
    Variant {
        name,
        how: How::Instead(outcome),
    }
}

/// Every variant; the first seven are the faults that were already paid for (document 01).
pub const VARIANTS: &[Variant] = &[
    instead(
        "an inactive lane keeps its old value",
        instead::inactive_keeps,
    ),
    bent("any bit of a group makes its lane active", &bent::AnyBit),
    instead(
        "a whole vector is fetched, then masked",
        instead::fetched_then_masked,
    ),
    bent("LD1 immediate scaled by active lanes", &bent::ByActiveLanes),
    bent(
        "LD1 immediate scaled by bytes of one lane",
        &bent::ByOneLane,
    ),
    instead(
        "lanes before a fault are written",
        instead::written_before_fault,
    ),
    instead(
        "LD1R with Q=0 keeps the upper part",
        instead::q0_keeps_upper,
    ),
    // The set-up
    bent("VL 2,176 accepted", &bent::Vl2176),
    bent("only powers of two accepted as VL", &bent::PowerOfTwo),
    bent("area limit one too large", &bent::LimitPlusOne),
    bent("area limit one too small", &bent::LimitMinusOne),
    bent("one rights byte too many accepted", &bent::RightsMore),
    bent("one rights byte too few accepted", &bent::RightsLess),
    bent(
        "a start that is no multiple of 4,096 accepted",
        &bent::AnyStart,
    ),
    bent("an area that ends at 2^64 refused", &bent::EndRefused),
    bent("an area that runs over 2^64 accepted", &bent::AnyEnd),
    bent("overlapping areas accepted", &bent::OverlapAccepted),
    bent("touching areas refused", &bent::TouchingRefused),
    bent("empty areas that overlap refused", &bent::EmptyOverlap),
    instead("more than 33 scalars accepted", instead::more_scalars),
    instead("a long vector file accepted", instead::long_vector_file),
    // The word
    bent("dtype rows 4 and 8 swapped", &bent::Rows4And8),
    bent("dtype rows 2 and 6 swapped", &bent::Rows2And6),
    instead("dh and dl swapped", instead::dh_dl_swapped),
    bent("signed immediate read as unsigned", &bent::Unsigned4),
    instead("S=1 tolerated", instead::s_tolerated),
    instead("L=0 tolerated", instead::l_tolerated),
    bent("Rm = 31 of an SVE scalar form tolerated", &bent::Rm31),
    instead("F64MM not asked", instead::f64mm_not_asked),
    instead("LDNF1 taken for LD1 immediate", instead::ldnf1),
    instead("LD1R no offset with any Rm field", instead::any_rm),
    // Switches and stack
    instead("LD1R asks the SVE switch", instead::ld1r_asks_sve),
    instead("SVE loads ask the SIMD switch too", instead::sve_asks_simd),
    instead("short VL told before the switch", instead::short_vl_first),
    instead(
        "the switch told before an undefined word",
        instead::switch_first,
    ),
    bent("SP a multiple of 8 is enough", &bent::SpEight),
    bent("post-index LD1R without the SP check", &bent::PostNoSp),
    bent(
        "SVE loads check SP with no active lane",
        &bent::SpNoneActive,
    ),
    instead("the stack told after the memory", instead::stack_last),
    instead("Rn = 31 read as zero", instead::rn31_zero),
    instead("Rn = 31 read as X30", instead::rn31_x30),
    // The stack rule of block loads, and lanes past the block
    bent(
        "block loads check SP for the block's lanes alone",
        &stack::BlockLanesOnly,
    ),
    bent(
        "LD1RQ checks SP for the block's lanes alone",
        &stack::Ld1rqAsBefore,
    ),
    bent(
        "LD1RO checks SP for the block's lanes alone",
        &stack::Ld1roAsBefore,
    ),
    bent(
        "scalar block loads check SP for the block's lanes alone",
        &stack::ScalarAsBefore,
    ),
    bent(
        "immediate block loads check SP for the block's lanes alone",
        &stack::ImmediateAsBefore,
    ),
    bent(
        "block loads check SP for whole copies alone",
        &stack::WholeCopiesOnly,
    ),
    bent(
        "block loads check SP for lanes past the block alone",
        &stack::PastBlockOnly,
    ),
    bent(
        "block loads check SP for 16 predicate bits alone",
        &stack::First16Bits,
    ),
    bent(
        "block loads check SP for 32 predicate bits alone",
        &stack::First32Bits,
    ),
    bent(
        "block loads check SP for all lanes but the last",
        &stack::AllButLast,
    ),
    bent(
        "block loads check SP at lanes of 64 bits",
        &stack::LanesOf64,
    ),
    bent(
        "block loads check SP at lanes of a byte, so for any bit",
        &stack::LanesOfBytes,
    ),
    bent(
        "block loads check SP for any bit past the block",
        &stack::AnyBitPastBlock,
    ),
    instead(
        "block loads check SP for bits of the next predicate",
        stack::next_predicate_too,
    ),
    bent("block loads always check SP", &stack::Always),
    bent("block loads never check SP", &stack::Never),
    instead("block loads check any base", stack::any_base),
    bent("LD1 checks SP for any bit", &stack::Ld1AnyBit),
    bent(
        "LD1R by element checks SP for any bit",
        &stack::ElementAnyBit,
    ),
    bent(
        "a block load reads for all lanes of VL",
        &stack::ReadsEveryLane,
    ),
    instead(
        "a block load judges memory for all lanes of VL",
        stack::judges_every_lane,
    ),
    instead(
        "a block load counts all lanes of VL",
        stack::counts_every_lane,
    ),
    instead(
        "lanes past a block make its first element looked at",
        stack::looks_at_first_element,
    ),
    // Addresses
    bent("LD1 immediate scaled by register bytes", &bent::ByRegister),
    bent(
        "LD1R by element: imm6 scaled by lane bytes",
        &bent::Imm6ByLane,
    ),
    bent("LD1 scalar: Xm scaled by lane bytes", &bent::XmByLane),
    bent("LD1 scalar: Xm not scaled", &bent::XmNotScaled),
    bent("LD1RO immediate counts 16 bytes", &bent::BlockSixteen),
    bent("element addresses stop at 2^64", &bent::NoWrap),
    bent("bytes of an element stop at 2^64", &bent::NoByteWrap),
    // Memory
    bent(
        "highest byte of an element looked at first",
        &bent::HighestFirst,
    ),
    bent(
        "highest byte of an element at the lowest address",
        &bent::BigEndian,
    ),
    bent("rights bit 1 looked at", &bent::RightBit1),
    bent("any rights bit lets read", &bent::AnyRight),
    instead(
        "denied page under an inactive lane faults",
        instead::denied_inactive,
    ),
    instead("lanes looked at downward", instead::downward),
    instead("a page's right by its number modulo 8", pages::modulo_8),
    instead("the right of page 0 for every page", pages::page_0),
    instead("the right of the page behind", pages::page_behind),
    instead("the right of the page before", pages::page_before),
    instead("rights counted from the last page", pages::turned_around),
    instead("the last page's right not asked", pages::last_page_free),
    instead("no right asked from page 8 on", pages::free_from_8_on),
    instead("no right had from page 8 on", pages::denied_from_8_on),
    instead(
        "the sixteenth page's right not asked",
        pages::sixteenth_free,
    ),
    instead(
        "nothing found behind eight pages",
        pages::eight_pages_at_most,
    ),
    bent("areas over eight pages refused", &bent::EightPages),
    instead("the rights of the other area", pages::of_the_other_area),
    // What is answered
    instead("6 and 7 exchanged", instead::exchanged),
    instead(
        "the count told as the faulting lane",
        instead::count_as_lane,
    ),
    instead(
        "the count includes the faulting lane",
        instead::count_with_fault,
    ),
    instead("LD1R counts its copies", copies::ld1r_counts_copies),
    instead(
        "LD1R by element counts its lanes",
        copies::element_counts_lanes,
    ),
    instead(
        "a block load counts all its copies",
        copies::block_counts_copies,
    ),
    instead(
        "a fault tells its element's first address",
        instead::first_address,
    ),
    // What is written
    bent("sign extension missing", &bent::NoSign),
    bent("sign extension from the bit below", &bent::SignBelow),
    bent(
        "the largest number of a size taken as negative",
        &bent::LargestNegative,
    ),
    bent(
        "the smallest number of a size taken as positive",
        &bent::SmallestPositive,
    ),
    bent(
        "LD1R by element: lanes at memory size",
        &bent::LanesAtMemorySize,
    ),
    instead("Q=0 fills 128 bits", instead::q0_fills_128),
    instead(
        "LD1R keeps the register above 128 bits",
        instead::ld1r_keeps_z,
    ),
    instead(
        "copies of a block ask their own predicate bit",
        copies::copies_ask,
    ),
    instead(
        "copies of a block are filled by their own predicate bit",
        stack::filled_by_own_bit,
    ),
    instead(
        "a block asks the predicate bits of its second copy",
        copies::bits_of_second_copy,
    ),
    instead("copies of a block a lane off", copies::copies_a_lane_off),
    instead(
        "copies of a block made from its second half",
        copies::copies_of_second_half,
    ),
    instead("left-over bytes of LD1RO filled", copies::left_over_filled),
    instead("left-over bytes of LD1RO kept", copies::left_over_kept),
    instead("post-index with Rm = 31 adds 1", instead::rm31_adds_1),
    instead(
        "post-index with Rm = 31 adds nothing",
        instead::rm31_adds_nothing,
    ),
    instead(
        "post-index adds Xm as it is after the size",
        instead::rm_after,
    ),
    instead("base written back after a fault", instead::base_after_fault),
    instead("SP not written back", instead::sp_not_written),
    instead("PC + 0", instead::pc_stays),
    instead("PC stops at 2^64", instead::pc_stops),
    instead("PC grows after a fault", instead::pc_after_fault),
    // LD2R, LD3R and LD4R: the word
    instead(
        "LD2R to LD4R outside, as before request One",
        structures::outside_as_before,
    ),
    instead(
        "LD2R to LD4R with L=0 or S=1 outside",
        structures::undefined_is_outside,
    ),
    bent("LD2R to LD4R with L=0 tolerated", &structures::LDefined),
    bent("LD2R to LD4R with S=1 tolerated", &structures::SDefined),
    bent("R ignored: LD2R as LD1R", &structures::RIgnored),
    bent(
        "opcode<0> ignored: LD3R as LD1R",
        &structures::OpcodeIgnored,
    ),
    bent(
        "R:opcode<0> read: LD2R as LD3R",
        &structures::OpcodeAndRSwapped,
    ),
    instead("opcode 10x taken for 11x", structures::opcode_10x),
    instead("opcode 01x taken for 11x", structures::opcode_01x),
    instead(
        "LD2R to LD4R ask the SVE switch too",
        structures::asks_sve_too,
    ),
    bent("LD2R to LD4R without the SP check", &structures::LaterNoSp),
    // Their elements
    bent("elements 8 bytes apart", &structures::EightApart),
    bent(
        "elements as far apart as registers are filled",
        &structures::RegistersApart,
    ),
    bent("all elements at one address", &structures::OneAddress),
    instead("as LD1R with post-index in turn", structures::one_by_one),
    instead("elements looked at downward", structures::downward),
    instead(
        "no memory at any element told before denied",
        structures::no_memory_first,
    ),
    // Their registers
    bent("order of registers reversed", &structures::OrderReversed),
    bent(
        "nothing written behind register 31",
        &structures::NothingAfter31,
    ),
    bent("register 31 followed by itself", &structures::StaysAt31),
    bent("register 30 followed by 0", &structures::ZeroAfter30),
    bent("register 32 followed by 0", &structures::ZeroAfter32),
    instead(
        "every register takes the first element",
        structures::all_take_first,
    ),
    instead(
        "every register takes the last element",
        structures::all_take_last,
    ),
    instead(
        "all elements in turn in every register",
        structures::structure_repeated,
    ),
    instead(
        "only the first register written",
        structures::only_first_written,
    ),
    instead(
        "the last register not written",
        structures::last_not_written,
    ),
    instead(
        "Q=0 keeps the upper part of later registers",
        structures::later_q0_keeps_upper,
    ),
    instead(
        "Q=0 fills 128 bits of later registers",
        structures::later_q0_fills_128,
    ),
    instead(
        "later registers keep what is above 128 bits",
        structures::later_keep_z,
    ),
    instead(
        "registers before a fault are written",
        structures::written_before_fault,
    ),
    instead(
        "all registers zero after a fault",
        structures::cleared_before_fault,
    ),
    // Their base and PC, and what they answer
    bent("post-index immediate of one read", &structures::ByOneRead),
    bent(
        "post-index immediate of one read fewer",
        &structures::ByOneReadFewer,
    ),
    bent(
        "post-index immediate counts registers",
        &structures::ByRegisters,
    ),
    bent(
        "post-index immediate of whole registers",
        &structures::ByWholeRegisters,
    ),
    instead("Xm added for each register", structures::xm_for_each),
    instead("PC + 4 for each register", structures::pc_for_each),
    instead("LD2R to LD4R count 1", structures::counts_one),
    instead(
        "element of a fault always 0",
        structures::fault_at_element_0,
    ),
    instead("count of a fault always 0", structures::fault_counts_none),
    instead(
        "the register told as the faulting element",
        structures::register_told,
    ),
    instead("the base told as the bad address", structures::base_told),
    // Whether all elements lie together
    instead(
        "the right of the first page alone is asked",
        stretch::right_of_first_page,
    ),
    instead(
        "the right of the last page alone is asked",
        stretch::right_of_last_page,
    ),
    instead(
        "the right of the last byte is not asked",
        stretch::last_byte_not_asked,
    ),
    instead(
        "the right of the first byte is not asked",
        stretch::first_byte_not_asked,
    ),
    instead(
        "the page behind all elements is asked too",
        stretch::page_behind_asked,
    ),
    instead(
        "the page before all elements is asked too",
        stretch::page_before_asked,
    ),
    instead(
        "the bounds of the first byte alone are asked",
        stretch::bounds_of_first_byte,
    ),
    instead(
        "one byte past an area's end is read",
        stretch::one_byte_past_the_area,
    ),
    instead("elements in two areas fault", stretch::one_area_alone),
    // Where all elements lie together
    instead(
        "together: read from the other area",
        stretch::from_the_other_area,
    ),
    instead(
        "together: elements as far apart as lanes",
        stretch::a_lane_apart,
    ),
    instead(
        "together: an inactive lane keeps its old value",
        stretch::inactive_keeps_together,
    ),
    instead(
        "together: an inactive lane is filled",
        stretch::inactive_filled_together,
    ),
    instead(
        "together: inactive lanes are counted",
        stretch::all_counted_together,
    ),
    instead(
        "together: every lane has the sign of lane 0",
        stretch::sign_of_lane_0,
    ),
    instead(
        "together: the stack is not asked",
        stretch::stack_not_asked_together,
    ),
    instead(
        "together: the stack asks the block's lanes alone",
        stretch::block_lanes_only_together,
    ),
    instead(
        "together: base not written back",
        stretch::base_stays_together,
    ),
    instead("together: PC + 0", stretch::pc_stays_together),
];
