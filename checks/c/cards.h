/* The reader of settings cards. */
#ifndef CARDS_H
#define CARDS_H

/* Calls it, prints the first differences, adds how many calls were made and numbers compared, and
   gives the count that differ. It lends the rooms 0 to 6. */
unsigned long run_cards(unsigned long *calls_made, unsigned long *numbers_compared);

#endif
