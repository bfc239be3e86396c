struct Fault {
    explicit Fault(int number);
    Fault(const Fault &other);
    virtual ~Fault();
    virtual const char *text() const;
    int number;
};

struct Deep : Fault {
    explicit Deep(int number);
    const char *text() const override;
};

// A type that each file describes for itself: two descriptions are one type where their names are alike.
struct Odd {
    int number;
};

struct Trace {
    explicit Trace(const char *name);
    ~Trace();
    const char *name;
};

int checked(int number);
int through(int (*action)(int), int number);
extern "C" int between(int (*action)(int), int number);
