/* The writer of settings cards, and how long a card is. */
#ifndef CARD_WRITING_H
#define CARD_WRITING_H

/* Calls them, prints the first differences, adds how many calls were made and numbers compared, and
   gives the count that differ. It lends the rooms 0 to 5. */
unsigned long run_card_writing(unsigned long *calls_made, unsigned long *numbers_compared);

#endif
