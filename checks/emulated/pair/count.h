extern int numbers[6];
extern const char *const library_name;
extern _Thread_local int visits;
int count(const char *);
int apply(int (*)(int), int);
int total(void);
int base(int);
int base_calls(void);
