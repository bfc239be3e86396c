// What the files of the program share.
extern int add_up(int first, int last);
extern const char *name_of(int number);
extern int note_call(void);
extern int calls_so_far(void);
extern int guarded(int (*action)(void));
extern int scaled(int number);
