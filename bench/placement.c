// Moves the code that is linked behind it by so many bytes. A loop that lies across a page's border
// is slow under the emulator, on whichever side it is: so each side is timed in several placements.
#define WORDS_OF(number) #number
#define WORDS(number) WORDS_OF(number)

__asm__(".text\n.skip " WORDS(PLACEMENT) "\n");
