struct node {
    const char *name;
    struct node *next;
    int (*act)(int);
    const int *part;
};

extern struct node first, second, third;
extern const int numbers[8];
extern const char *const names[4];
extern int (*const actions[3])(int);
extern const int *far_places[5000];
extern const int distance;
extern const long long_distance;
struct node *by_distance(void);
struct node *by_slot(void);
extern long plain_value;
extern const char *local_text;

int twice(int);
int negated(int);
int chosen(int);
