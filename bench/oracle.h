/* The calls on a book by the second implementation, which take what the header's calls take. */
#ifndef ORACLE_H
#define ORACLE_H

#include "botskhela.h"

uint32_t oracle_found(botskhela_book *book, uint32_t edition, uint32_t corn, uint32_t soybeans,
                      uint32_t soybean_oil, uint32_t soybean_meal, uint32_t chicago_wheat,
                      uint32_t kc_wheat, uint32_t oats, uint32_t rough_rice);
uint32_t oracle_open(botskhela_book *book, uint32_t year, uint32_t month, uint32_t day,
                     uint32_t left);
uint32_t oracle_sheet(botskhela_book *book, uint32_t product, const uint32_t *months,
                      size_t n_months, const uint32_t *settlements, size_t n_settlements);
uint32_t oracle_end(botskhela_book *book);
uint32_t oracle_convert(botskhela_book *book);
uint32_t oracle_check(const botskhela_book *book, uint32_t product, uint32_t size, uint32_t month,
                      uint32_t price);
botskhela_span oracle_check_span(const botskhela_book *book, uint32_t product, uint32_t size,
                                 uint32_t month, uint32_t price);
uint32_t oracle_tallied_book_check(botskhela_tally *tally, const botskhela_book *book,
                                   uint32_t product, uint32_t size, uint32_t month,
                                   uint32_t price);

#endif
