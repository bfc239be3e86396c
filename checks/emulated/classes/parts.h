struct Part {
    virtual ~Part() {}
    virtual int size() const = 0;
    virtual const char *name() const { return "a part"; }
};

template <typename T> struct Counter {
    static T count;
    static T next() {
        static T begun = 5;
        return begun++ + ++count;
    }
};
template <typename T> T Counter<T>::count = 100;

inline int everywhere = 7;
inline const char *where(int number) {
    static const char *const places[] = {"here", "there", "elsewhere"};
    return places[number % 3];
}

Part *made(int kind);
int counted_there();
bool same_place(const int *);
