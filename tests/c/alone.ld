/* The library linked by itself: what it would keep between calls, or need of others, stops the link. */

/* A compiler may call these on its own: copies and comparisons, and on processors of 32 bits arithmetic on 64. */
PROVIDE(memcpy = 0);
PROVIDE(memmove = 0);
PROVIDE(memset = 0);
PROVIDE(memcmp = 0);
PROVIDE(bcmp = 0);
PROVIDE(__aeabi_memcpy = 0);
PROVIDE(__aeabi_memcpy4 = 0);
PROVIDE(__aeabi_memcpy8 = 0);
PROVIDE(__aeabi_memmove = 0);
PROVIDE(__aeabi_memmove4 = 0);
PROVIDE(__aeabi_memmove8 = 0);
PROVIDE(__aeabi_memset = 0);
PROVIDE(__aeabi_memset4 = 0);
PROVIDE(__aeabi_memset8 = 0);
PROVIDE(__aeabi_memclr = 0);
PROVIDE(__aeabi_memclr4 = 0);
PROVIDE(__aeabi_memclr8 = 0);
PROVIDE(__aeabi_llsl = 0);
PROVIDE(__aeabi_llsr = 0);
PROVIDE(__aeabi_lmul = 0);
PROVIDE(__aeabi_uldivmod = 0);

SECTIONS
{
    .kept : { INPUT_SECTION_FLAGS(SHF_WRITE) *(*) }
    ASSERT(SIZEOF(.kept) == 0, "the library keeps data between calls")
}
