#ifndef TEXTS_H
#define TEXTS_H

void measure_texts(void);
void measure_chosen_ids(void);
void measure_marked_ids(void);

#endif
