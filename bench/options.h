// The words behind the command.
#ifndef OPTIONS_H
#define OPTIONS_H

enum { MOST_SIZES = 8 };

enum verb { AGREE, TIME };

// What is to be done, on files of which sizes in MB, and in how many rounds: 0 means as many as the
// size asks for.
struct options {
    enum verb verb;
    int sizes[MOST_SIZES];
    int size_count;
    int rounds;
};

// Ends the program where the words are not right.
struct options read_options(int count, char **words);

#endif
