// The signs that may stand in a text, and what fixed fields are filled with.
#include "fields.h"

#define B BLANK
#define O OTHER
#define S SIGN

const uint8_t sign_class[256] = {
    O, O, O, O, O, O, O, O, O, O, O, O, O, O, O, O, // 00
    O, O, O, O, O, O, O, O, O, O, O, O, O, O, O, O, // 10
    B, O, O, O, S, S, S, O, O, O, S, S, S, S, S, S, // 20: blank $ % & * + , - . /
    S, S, S, S, S, S, S, S, S, S, O, O, O, O, O, O, // 30: digits
    O, S, S, S, S, S, S, S, S, S, S, S, S, S, S, S, // 40: A to O
    S, S, S, S, S, S, S, S, S, S, S, S, S, S, O, O, // 50: P to Z and three umlauts
    O, O, O, O, O, O, O, O, O, O, O, O, O, O, O, O, // 60
    O, O, O, O, O, O, O, O, O, O, O, O, O, O, S, O, // 70: the sharp s
    O, O, O, O, O, O, O, O, O, O, O, O, O, O, O, O, // 80
    O, O, O, O, O, O, O, O, O, O, O, O, O, O, O, O, // 90
    O, O, O, O, O, O, O, O, O, O, O, O, O, O, O, O, // A0
    O, O, O, O, O, O, O, O, O, O, O, O, O, O, O, O, // B0
    O, O, O, O, O, O, O, O, O, O, O, O, O, O, O, O, // C0
    O, O, O, O, O, O, O, O, O, O, O, O, O, O, O, O, // D0
    O, O, O, O, O, O, O, O, O, O, O, O, O, O, O, O, // E0
    O, O, O, O, O, O, O, O, O, O, O, O, O, O, O, O, // F0
};

const char blanks_99[100] = "                                                 "
                            "                                                  ";

const char zeros_13[14] = "0000000000000";
