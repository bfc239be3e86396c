extern _Thread_local int calls;
extern _Thread_local char letters[5];
extern _Thread_local int *here;
int note(int);
int aligned_by(unsigned long);
const char *word(void);
