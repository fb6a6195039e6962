/* The proved library is linked after this, so that its code begins PLACE bytes after a multiple of 64: its loops are quicker or slower by where
 * they stand, and the library itself asks for a multiple of 16 alone. */
#define QUOTED(x) #x
#define TEXT(x) QUOTED(x)

__asm__(".text\n.p2align 6\n.skip 64 + " TEXT(PLACE) "\n");
