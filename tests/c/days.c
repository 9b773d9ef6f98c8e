// The days that do not go together.
#include "days.h"

#include "dtaus.h"

const struct days wrong_days[WRONG_DAYS] = {
    {"150304", "3103200X", DTAUS_NO_DIGIT, "A11b has a letter"},
    {"150304", "    2004", DTAUS_NO_DIGIT, "A11b begins with blanks"},
    {"150304", "00000000", DTAUS_NO_DATE, "A11b is zeros"},
    {"150304", "00032004", DTAUS_NO_DATE, "A11b has the day 0"},
    {"150304", "32032004", DTAUS_NO_DATE, "A11b has the day 32"},
    {"150304", "15002004", DTAUS_NO_DATE, "A11b has the month 0"},
    {"150304", "15132004", DTAUS_NO_DATE, "A11b has the month 13"},
    {"150304", "15030000", DTAUS_NO_DATE, "A11b has the year 0"},
    {"150304", "29021900", DTAUS_NO_DATE, "A11b is 29 February of 1900"},
    {"150304", "29022100", DTAUS_NO_DATE, "A11b is 29 February of 2100"},
    {"150304", "29022000", DTAUS_TOO_EARLY, "A11b is 29 February of 2000"},
    {"150304", "14032004", DTAUS_TOO_EARLY, "A11b is a day earlier"},
    {"010100", "31121999", DTAUS_TOO_EARLY, "A11b is a day earlier, in the century before"},
    {"150304", "31032004", DTAUS_TOO_LATE, "A11b is 16 days later"},
    {"280203", "16032003", DTAUS_TOO_LATE, "A11b is 16 days later, February has 28"},
    {"311279", "16012080", DTAUS_TOO_LATE, "A11b is 16 days later, in 2080"},
    {"010180", "01012080", DTAUS_TOO_LATE, "A11b is a century later"},
};
