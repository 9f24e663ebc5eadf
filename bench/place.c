/* Padding before the library's code. The address of a loop changes its time by up to a third, and any change in the
 * code before it moves the loop. So each program is linked with 0, 16, 32 and 48 bytes of padding. */
#define TEXT(n) #n
#define BYTES(n) TEXT(n)
__asm__(".text\n.fill " BYTES(PLACE) ", 1, 0x90");
