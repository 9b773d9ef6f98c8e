// The refusal numbers of dtaus_load in words, for the people who get the message.
#include "refusals.h"

#include "dtaus.h"

static const char *const reasons[] = {
    [DTAUS_ACCEPTED] = "accepted",
    [DTAUS_SHORT] = "the file ends before the field is whole",
    [DTAUS_NOT_FIXED] = "the field's fixed bytes, blanks or zeros are not there",
    [DTAUS_NO_DIGIT] = "a byte of a digit field is no digit",
    [DTAUS_NO_SIGN] = "a byte of a text field is none of the permitted signs",
    [DTAUS_NO_LENGTH] = "neither the length of a payment nor, after a payment, that of the trailer",
    [DTAUS_NO_MORE_PAYMENTS] = "one payment more than 9,999,999",
    [DTAUS_ACCOUNTS_OVER] = "the sum of accounts takes more than 17 digits",
    [DTAUS_BANK_CODES_OVER] = "the sum of bank codes takes more than 17 digits",
    [DTAUS_CENTS_OVER] = "the sum of cents takes more than 13 digits",
    [DTAUS_NO_DATE] = "the calendar has no such day",
    [DTAUS_CONDITION] = "a value that the field may not have",
    [DTAUS_NO_KEY] = "the key is none of this kind of file",
    [DTAUS_NO_MARK] = "the mark of an extension part breaks the rules of marks",
    [DTAUS_NOT_COUNTED] = "the trailer's figure is not the counted one",
    [DTAUS_SURPLUS] = "bytes follow the trailer",
    [DTAUS_NO_ROOM] = "a lent column is too short",
    [DTAUS_NO_SUPPLEMENT] = "the supplement is none that goes with the key",
    [DTAUS_TOO_EARLY] = "the execution date is before the creation date",
    [DTAUS_TOO_LATE] = "the execution date is more than 15 days after the creation date",
};

// The table lacks the numbers that only other calls give, and those that a later library may have.
const char *reason(uint8_t number) {
    if (number >= sizeof reasons / sizeof reasons[0] || reasons[number] == NULL) {
        return "a reason that this loader has no words for";
    }
    return reasons[number];
}
