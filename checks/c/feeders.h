/* The calls over a row of feeders. */
#ifndef FEEDERS_H
#define FEEDERS_H

/* Makes them, prints the first differences, adds how many calls were made and numbers compared, and
   gives the count that differ. It lends the rooms 0 to 2. */
unsigned long run_feeders(unsigned long *calls_made, unsigned long *numbers_compared);

#endif
