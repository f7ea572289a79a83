/* What the C source of the library (tools/library --c) is compiled by: these lines stand before those of wabt's wasm-rt.h. */

/* Each place that is read or written is looked at first: one outside of the memory ends in etcs_source_trap. */
#define WASM_RT_MEMCHECK_SIGNAL_HANDLER 0

/* Whether the highest byte of a number comes first. Where the compiler doesn't say so, its words have to (-DWABT_BIG_ENDIAN=1, or 0). */
#ifndef WABT_BIG_ENDIAN
#if !defined(__BYTE_ORDER__)
#error "define WABT_BIG_ENDIAN as 1 where the highest byte of a number comes first, else as 0"
#elif __BYTE_ORDER__ == __ORDER_BIG_ENDIAN__
#define WABT_BIG_ENDIAN 1
#else
#define WABT_BIG_ENDIAN 0
#endif
#endif

