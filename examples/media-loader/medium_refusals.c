// The refusal numbers of dtaus_load_medium in words: those of dtaus_load, but that a file is one
// among others.
#include "medium_refusals.h"

#include "dtaus.h"
#include "refusals.h"

const char *reason_of_medium(uint8_t number) {
    switch (number) {
    case DTAUS_SHORT:
        return "the medium ends before the field is whole";
    case DTAUS_NO_MORE_PAYMENTS:
        return "one payment more than the 9,999,999 of a file";
    case DTAUS_ACCOUNTS_OVER:
        return "the file's sum of accounts takes more than 17 digits";
    case DTAUS_BANK_CODES_OVER:
        return "the file's sum of bank codes takes more than 17 digits";
    case DTAUS_CENTS_OVER:
        return "the file's sum of cents takes more than 13 digits";
    default:
        return reason(number);
    }
}
