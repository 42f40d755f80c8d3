/* Drawn books, sound and damaged, as no calls may have left them, and calls on them. */
#ifndef DRAWN_H
#define DRAWN_H

#include "call.h"

void draw_book(botskhela_book *book);

/* Sound, full or unsound. */
void draw_tally(botskhela_tally *tally);

/* The first month from one on that a product trades. */
uint32_t traded_month(uint32_t product, uint32_t month);

/* A call of a kind, which a sound book may well accept. */
void draw_call(struct call *call, enum kind kind, const botskhela_book *book);

#endif
