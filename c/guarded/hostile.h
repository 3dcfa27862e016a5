/* What all hostile calls share: chance, how an answer is judged, and the count of answers. */
#ifndef HOSTILE_H
#define HOSTILE_H

#include "guard.h"
#include "tuyrashka.h"

/* What is called now: its name, and what shows its arguments. */
struct call {
    const char *name;
    void (*show)(void);
};
extern struct call now;

uint32_t any(void);
uint32_t below(uint32_t limit);
bool one_in(uint32_t times);

/* A number beside an edge of some rule, or of its type. */
uint32_t extreme(void);

/* Shows the call and ends the run, if what is said does not hold. */
void expect(bool holds, const char *said);

/* Counts an answer: its number, and whether something landed or was found. */
void count(uint32_t status, bool something);

/* An output of so many bytes, lent between guards and filled with bytes that no answer leaves. */
void lend_output(struct arena *a, size_t length);

/* One call of a function with arguments by chance, judged. */
void draw_once(int function);
void read_once(void);
void intersect_once(void);
void decode_lbmp_once(void);
void decode_res_once(void);

/* Calls on a canvas of 32,767 rows of 32,767 pixels in every format. */
void draw_on_largest(void);

void make_drawing_arenas(void);
void make_file_arenas(void);

/* The functions that draw, in the order of draw_once's numbers. */
#define DRAWING 11

#endif
