/* Heap sort of words, ascending. */
typedef unsigned long word;

void sort(word *words, word count);
