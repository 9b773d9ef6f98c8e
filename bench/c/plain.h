// The six calls in plain C, which the benchmark compares with those of the library. Each takes,
// returns and writes what the call of the same name in include/dtaus.h does.
#ifndef PLAIN_H
#define PLAIN_H

#include <stddef.h>
#include <stdint.h>

uint8_t plain_check(const uint8_t *file, size_t file_length, uint64_t *result,
                    size_t result_length);

uint8_t plain_load(const uint8_t *file, size_t file_length, uint64_t *bank_codes,
                   size_t bank_codes_length, uint64_t *accounts, size_t accounts_length,
                   uint64_t *cents, size_t cents_length, uint64_t *starts, size_t starts_length,
                   uint64_t *result, size_t result_length);

uint8_t plain_check_medium(const uint8_t *medium, size_t medium_length, uint64_t *result,
                           size_t result_length);

uint8_t plain_load_medium(const uint8_t *medium, size_t medium_length, uint64_t *bank_codes,
                          size_t bank_codes_length, uint64_t *accounts, size_t accounts_length,
                          uint64_t *cents, size_t cents_length, uint64_t *starts,
                          size_t starts_length, uint64_t *file_starts, size_t file_starts_length,
                          uint64_t *file_counts, size_t file_counts_length, uint64_t *file_accounts,
                          size_t file_accounts_length, uint64_t *file_bank_codes,
                          size_t file_bank_codes_length, uint64_t *file_cents,
                          size_t file_cents_length, uint64_t *result, size_t result_length);

uint8_t plain_list(const uint8_t *file, size_t file_length, uint8_t *output, size_t output_length,
                   uint64_t *result, size_t result_length);

uint8_t plain_compose(const uint8_t *listing, size_t listing_length, uint8_t *output,
                      size_t output_length, uint64_t *result, size_t result_length);

#endif
