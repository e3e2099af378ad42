// The proved step for a host in C: one load, on files and areas that the host owns and lends (crates/hosts/src/lib.rt).
//
// Link target/staticlib/libhosts.a, which host/library makes; host/run shows how, and host.c how it is called. The library is
// code for x86-64 Linux alone. So this header includes nothing, which the Rattle kit, having no C headers, could not follow, and names
// plain types: there `unsigned char`, `unsigned int` and `unsigned long` are uint8_t, uint32_t, and uint64_t and size_t themselves,
// and a host that has <stdint.h> lends its own arrays without a cast. C99; C++ takes it too.
#ifndef KJOLVAST_H
#define KJOLVAST_H

#if !defined(__x86_64__) || !defined(__LP64__)
#error "libhosts.a is code for x86-64 with a long of 64 bits"
#endif

#ifdef __cplusplus
extern "C" {
typedef bool kjolvast_switch;
#else
typedef _Bool kjolvast_switch;
#endif

// What a step tells, in the numbers of the scope of work.
struct kjolvast_numbers {
    unsigned long number;  // the answer: 0 ran, 1 set-up, 2 outside, 3 undefined, 4 switched off, 5 stack, 6 no memory, 7 denied
    unsigned long count;   // how many elements were read: all where it ran, those before the bad one for 6 and 7, else 0
    unsigned long element; // the element of the first bad byte for 6 and 7, its lane, or of LD2R to LD4R its register from 0 on; else 0
    unsigned long address; // the address of the first bad byte for 6 and 7, else 0
};

// One step of a word. Any word and any lengths may be lent: a wrong one is answered, with 1 where it is a length. Only z and x are
// written, and only where the answer is 0.
//
// What the host sees to, since no code can: each pointer has as many elements behind it as its length says and is not null, not even
// at a length of 0; x is aligned as an unsigned long is; and neither z nor x shares a byte with anything else that is lent. Nothing is
// kept from one call to the next, so that a host may call from several threads with benches of their own.
struct kjolvast_numbers kjolvast_step(
    unsigned char *z, unsigned long z_len,                          // vector file: 32 registers of VL/8 bytes, lowest byte first
    unsigned long *x, unsigned long x_len,                          // scalars: X0 to X30, SP, PC; x_len counts numbers, so 33
    const unsigned char *ram, unsigned long ram_len,                // RAM: up to 65,536 bytes
    unsigned int word,                                              // the instruction word
    unsigned long vl,                                               // vector length in bits
    kjolvast_switch simd, kjolvast_switch sve,                      // SIMD on, SVE on
    kjolvast_switch f64mm,                                          // F64MM present
    const unsigned char *p, unsigned long p_len,                    // predicate file: 16 registers of VL/64 bytes, lowest bit first
    unsigned long flash_start, unsigned long ram_start,             // where the areas start: multiples of 4,096
    const unsigned char *flash, unsigned long flash_len,            // flash: up to 65,536 bytes
    const unsigned char *flash_rights, unsigned long flash_rights_len, // a byte for each page of 4,096 begun; bit 0 is the read right
    const unsigned char *ram_rights, unsigned long ram_rights_len);    // the same for RAM

#ifdef __cplusplus
}
#endif

#endif
