// Checks, loads, lists and composes DTAUS files, checks and loads media of them, and finds their
// payments and texts: the diskette form, euro, 2002.
//
// A file is one header A of 128 bytes, one or more payments C of 256 to 768 bytes, and one trailer
// E of 128 bytes, with nothing between or behind them. A medium is one or more files end to end.
// Fields are named by record and number: C12 is field 12 of a payment. Link with libdtaus.a (x86-64
// Linux).
//
// Slices. What a call reads and what it writes is lent to it, each slice as a pointer and then the
// count of its entries (bytes for uint8_t, numbers for uint64_t). Slices of one call must not
// overlap. A slice of 0 entries may have any pointer, also a null pointer. No call keeps a pointer,
// allocates, does input or output, or keeps state.
//
// Answers. Every input gets an answer, the empty one included; nothing has to be checked before.
// Each call returns a number: 0 if it is done, else why it refused. Its figures go to the lent
// slice `result`, always number and place first. The place is the first byte, counted from 0, of
// the field of the input that is refused (15: the first byte behind E; 17: the start of the line,
// and so 6, and 9 where no payment may begin, in a listing; 18: the end of the listing); with 0, 16
// and 19 it is 0.
//
// Refusals. A refused call leaves columns and output wholly as they were. Its result has number and
// place, and 0 for each other figure of the layout. Where `result` is shorter than the layout, the
// call returns DTAUS_NO_ROOM at once, looks at nothing else, and writes nothing, not even there.
// Entries of `result` behind the layout are never touched.
#ifndef DTAUS_H
#define DTAUS_H

#include <stddef.h>
#include <stdint.h>

#ifdef __cplusplus
extern "C" {
#endif

// The version of this header: one more with each change of an answer, a figure or a call.
#define DTAUS_VERSION 3

// The version of the header that belongs to the archive. A program that compares it with
// DTAUS_VERSION knows that what it was compiled with and what it was linked with belong together.
uint32_t dtaus_version(void);

// The number that a call returns and puts into result[0]. Fields are examined in the order of the
// input; the first that is wrong is named. No file reaches 7 or 8: 6 comes before. 20 is of the
// programs alone, and no call gives it.
enum dtaus_number {
    DTAUS_ACCEPTED = 0,         // done
    DTAUS_SHORT = 1,            // the file ends before the field is whole
    DTAUS_NOT_FIXED = 2,        // fixed bytes, blanks or zeros are not so; A3 is not GK, LK, GB, LB
    DTAUS_NO_DIGIT = 3,         // a byte of a digit field is no digit
    DTAUS_NO_SIGN = 4,          // a byte of a text is no permitted sign
    DTAUS_NO_LENGTH = 5,        // neither a payment begins here nor, behind a payment, E
    DTAUS_NO_MORE_PAYMENTS = 6, // a payment begins, but 9,999,999 have been read
    DTAUS_ACCOUNTS_OVER = 7,    // C5 takes the sum of account numbers above 17 digits
    DTAUS_BANK_CODES_OVER = 8,  // C4 takes the sum of bank codes above 17 digits
    DTAUS_CENTS_OVER = 9,       // C12 takes the sum of cents above 13 digits, or a payment begins
                                // though the sum is 9,999,999,999,999
    DTAUS_NO_DATE = 10,         // A7 or A11b is no day of the calendar
    DTAUS_CONDITION = 11,       // C4 or C10 begins with 0 or 9; C5, C11 or C12 is zero; C14a or C15
                                // is blank; C6 does not begin and end with 0; C18 is not as C1
                                // tells; A5 is not zero in a customer's file (A3 ends in K)
    DTAUS_NO_KEY = 12,        // C7a is no key of this kind of file: 51, 53, 54, 56 where A3 begins
                              // with G, 04, 05 where it begins with L
    DTAUS_NO_MARK = 13,       // the mark of an extension part cannot stand here
    DTAUS_NOT_COUNTED = 14,   // a figure of E is not the counted one
    DTAUS_SURPLUS = 15,       // bytes follow E; the place is the first of them. Not of a medium
    DTAUS_NO_ROOM = 16,       // the input is accepted, but a column, the table of files or the
                              // output is too short; or, ahead of all else, the result is
    DTAUS_NO_LINE = 17,       // a line of the listing has not its form; the place is its start
    DTAUS_ENDS_EARLY = 18,    // the listing has no line of A, or of a payment; place: its end
    DTAUS_NO_SUCH = 19,       // the file is accepted, but has no such payment, or it no such part
    DTAUS_NO_SUPPLEMENT = 21, // C7b is no supplement of its key C7a: 000 and 888 with 04, 51, 53;
                              // 000, 888, 005, 006, 015 with 05; 000 with 56; any with 54
    DTAUS_TOO_EARLY = 22,     // A11b is a day before that of A7
    DTAUS_TOO_LATE = 23       // A11b is a day more than 15 days after that of A7
};

// How many figures the layout of each result has.
#define DTAUS_CHECK_FIGURES 6
#define DTAUS_LOAD_FIGURES 6
#define DTAUS_CHECK_MEDIUM_FIGURES 4
#define DTAUS_LOAD_MEDIUM_FIGURES 4
#define DTAUS_LIST_FIGURES 3
#define DTAUS_COMPOSE_FIGURES 3
#define DTAUS_FIND_FIGURES 4
#define DTAUS_TEXT_FIGURES 4

// The texts of a payment that dtaus_text finds. Extension parts are counted from 1, up to 15.
#define DTAUS_C14A 0            // name of the beneficiary or payer, who has the account C5
#define DTAUS_C15 1             // name of the sender or payee, who has the account C11
#define DTAUS_C16 2             // purpose
#define DTAUS_PART(i) (2 + (i)) // text of extension part i, from 1 on: 0 gives DTAUS_C16

// Checks a file.
//
// result[0] number, [1] place, [2] count of payments, [3] sum of account numbers (C5), [4] sum of
// bank codes (C4), [5] sum of cents (C12). The sums are added up from the payments.
//
// Refuses with 16 where the result is too short; then with 1 to 15 or 21 to 23. It writes to
// `result` alone.
uint8_t dtaus_check(const uint8_t *file, size_t file_length, uint64_t *result,
                    size_t result_length);

// Loads the payments of a file into four columns: row i of each is of payment i, counted from 0.
//
// bank_codes: C4. accounts: C5. cents: C12. starts: the byte of the file where the payment begins.
// Each column needs as many entries as the file has payments. A file has fewer payments than
// file_length / 256, so columns of that many entries are long enough. Entries behind the count are
// never touched.
//
// result: as of dtaus_check.
//
// Refuses with 16 where the result is too short; then with 1 to 15 or 21 to 23; then with 16 at 0
// where a column is too short. Columns then stay as they were.
uint8_t dtaus_load(const uint8_t *file, size_t file_length, uint64_t *bank_codes,
                   size_t bank_codes_length, uint64_t *accounts, size_t accounts_length,
                   uint64_t *cents, size_t cents_length, uint64_t *starts, size_t starts_length,
                   uint64_t *result, size_t result_length);

// Checks a medium: one or more files end to end. Where a file ends and bytes follow, the next file
// begins; a medium of no bytes is refused as a file of none is.
//
// result[0] number, [1] place, counted from the medium's start, [2] count of files, [3] count of
// the payments of all files. It has no totals: they are of a file, as the limits of 9,999,999
// payments and of the sum of cents are.
//
// Refuses with 16 where the result is too short; then with 1 to 14 or 21 to 23. It writes to
// `result` alone.
uint8_t dtaus_check_medium(const uint8_t *medium, size_t medium_length, uint64_t *result,
                           size_t result_length);

// Loads the payments of a medium into four columns, which run on through its files, and the files
// into a table of five columns.
//
// bank_codes, accounts, cents, starts: as of dtaus_load; row i is of payment i of the medium. A
// start is counted from the medium's start. A medium has fewer payments than medium_length / 256.
//
// Row j of the table is of file j, counted from 0. file_starts: the byte of the medium where the
// file begins. file_counts: how many payments it has. file_accounts, file_bank_codes, file_cents:
// its sums of C5, C4 and C12, in the order of E, added up from its payments. A file has 512 bytes
// or more, so table columns of medium_length / 512 entries are long enough. Entries behind payments
// and files are never touched.
//
// result: as of dtaus_check_medium.
//
// Refuses with 16 where the result is too short; then with 1 to 14 or 21 to 23; then with 16 at 0
// where one of the nine columns is too short. All of them then stay as they were.
uint8_t dtaus_load_medium(const uint8_t *medium, size_t medium_length, uint64_t *bank_codes,
                          size_t bank_codes_length, uint64_t *accounts, size_t accounts_length,
                          uint64_t *cents, size_t cents_length, uint64_t *starts,
                          size_t starts_length, uint64_t *file_starts, size_t file_starts_length,
                          uint64_t *file_counts, size_t file_counts_length, uint64_t *file_accounts,
                          size_t file_accounts_length, uint64_t *file_bank_codes,
                          size_t file_bank_codes_length, uint64_t *file_cents,
                          size_t file_cents_length, uint64_t *result, size_t result_length);

// Lists a file: writes its listing to the output.
//
// A listing is lines that end with byte 0A, their fields parted by tabs: one line for A with `A`,
// A3, A4, A5, A6, A7, A9, A10, A11b, then one for each payment with `C`, C3, C4, C5, C6, C7a, C7b,
// C10, C11, C12, C14a, C15, C16, and mark and text of each extension part. Texts stand without
// their closing blanks, an absent A11b is empty, all else has its full width. A listing is never
// longer than its file, so an output of file_length bytes is long enough.
//
// result[0] number, [1] place, [2] length of the listing. Output behind that is never touched.
//
// Refuses with 16 where the result is too short; then with 1 to 15 or 21 to 23; then with 16 at 0
// where the output is too short. The output then stays as it was.
uint8_t dtaus_list(const uint8_t *file, size_t file_length, uint8_t *output, size_t output_length,
                   uint64_t *result, size_t result_length);

// Composes the file that has the listing: writes it to the output. Lengths, fixed bytes, closing
// blanks and E are made. The listing of an accepted file gives that file again, byte for byte.
//
// A payment of k extension parts takes 256 bytes for k up to 2, 384 up to 6, 512 up to 10, 640 up
// to 14, 768 for 15; A and E take 128 bytes each.
//
// result[0] number, [1] place in the listing, [2] length of the file. Output behind that is never
// touched.
//
// Refuses with 16 where the result is too short; then line by line: with 17 at the line's start;
// with 6 or 9 there, where no payment may begin; with 2, 3, 4, 9 to 13 and 21 to 23 at the field in
// the listing. Then with 18 at the listing's end; then with 16 at 0 where the output is too short.
// The output then stays as it was.
uint8_t dtaus_compose(const uint8_t *listing, size_t listing_length, uint8_t *output,
                      size_t output_length, uint64_t *result, size_t result_length);

// Finds where a payment begins; payments are counted from 0. It checks the whole file.
//
// result[0] number, [1] place, [2] from: the payment's first byte, [3] to: the end of the file. So
// file[from..to) is the payment and all that follows it.
//
// Refuses with 16 where the result is too short; then with 1 to 15 or 21 to 23; then with 19 at 0
// where the file has no such payment. It writes to `result` alone.
uint8_t dtaus_find(const uint8_t *file, size_t file_length, size_t payment, uint64_t *result,
                   size_t result_length);

// Finds where a text of a payment stands. It checks the whole file. start: the byte where the
// payment begins, as dtaus_load puts it into `starts` and dtaus_find gives it as `from`. wanted:
// DTAUS_C14A, DTAUS_C15, DTAUS_C16 or DTAUS_PART(i).
//
// result[0] number, [1] place, [2] from, [3] to: the text is file[from..to), always 27 bytes, with
// its closing blanks.
//
// Refuses with 16 where the result is too short; then with 1 to 15 or 21 to 23; then with 19 at 0
// where no payment of the file begins at start, or it has no such part. It writes to `result`
// alone.
uint8_t dtaus_text(const uint8_t *file, size_t file_length, size_t start, size_t wanted,
                   uint64_t *result, size_t result_length);

#ifdef __cplusplus
}
#endif

#endif
