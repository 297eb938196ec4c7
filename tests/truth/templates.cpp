// Templates that call other templates with lambdas of their own, so that a substitution names a tree of another function. The tree has one
// parameter, several parameters, or packs. The file also has types of each form, qualifiers, members, operators and conversions.
namespace forms {
struct Plain {
  int number;
};
enum class Level : short { low = -1, high };
union Either {
  int one;
  float other;
};
template <class T> struct Box {
  T value;
  Box(T) {}
  template <class U> Box(T, U *) {}
  ~Box() {}
  T &operator*() { return value; }
  T operator->*(int) const { return value; }
  Box &operator<<(const Box &) { return *this; }
  Box operator+(Box other) const & { return other; }
  bool operator<(const Box &) const { return false; }
  T operator()(T, Box *, const Box *const *) volatile { return value; }
  T operator[](unsigned long) && { return value; }
  void *operator new(unsigned long, Box *at) { return at; }
  operator int() const { return 0; }
  operator T *() { return &value; }
  template <class U, class... Rest> U made(Box<U>, T (*)(U, Rest...), Rest &&...) { return U(); }
};
template <class A, class B> struct Pair {};
template <class... Items> struct List {};
template <int Size, class T> struct Row {
  T items[Size];
};

void builtin(signed char, unsigned char, short, unsigned short, unsigned, long, unsigned long, long long, unsigned long long, float, double,
             long double, __int128, unsigned __int128, wchar_t, char16_t, char32_t, bool, ...) {}
void declared(int *const *, const volatile int *, int (*)(char, Plain &), int (&)[3], Plain (*)[2][4], int Plain::*, void (Box<int>::*)(Level) const,
              Either &&, const Plain &, int (*(*)(char))(long)) {}
namespace {
struct Hidden {
  void method(Hidden *, const Hidden &) {}
};
void hidden(Hidden, Hidden *) {}
} // namespace
inline namespace v2 {
struct Inner {};
void inner(Inner, Box<Inner> *, Pair<Inner, Inner *>) {}
} // namespace v2

template <class A, class F> void one(A *, F, A) {}
template <class A> void call_one(A *at) { one(at, [](A *, A) {}, *at); }
template <class A, class B, class F> void two(Pair<A, B> *, F, A *, B *) {}
template <class A, class B> void call_two(Pair<A, B> *at, A *a, B *b) { two(at, [](int) {}, a, b); }
template <class A, class B, class F> void crossed(Pair<B, A>, F, Pair<A, B> *, Pair<A *, B &> *) {}
template <class A, class B> void call_crossed(A, B) { crossed<A, B>({}, [](Pair<A, B>) {}, nullptr, nullptr); }
template <int M, int N, class F> void sized(Row<M, char[N]> &, F, Row<M, char[N]> *) {}
template <int M, int N> void call_sized(Row<M, char[N]> &at) { sized(at, [](int) {}, &at); }
template <class F, class... Items> void many(F, List<Items...> *, Items *...) {}
template <class... Items> void call_many(List<Items...> *at, Items *...items) { many([](Items...) {}, at, items...); }
template <template <class> class Holder, class T, class F> void held(Holder<T> *, F, T) {}
template <class T> void call_held(Box<T> *at, T value) { held(at, [](Box<T>) {}, value); }
template <class F> int through(F f) { return f(1, nullptr); }
template <class T> int local(T value) {
  struct Local {
    T *kept;
    int method(Local *, T) { return 0; }
  } made{&value};
  return made.method(&made, value) + through([](int number, Local *) { return number; });
}
template <class T, T Value> struct Constant {};
template <class T, T First, T... Rest> void constants(Constant<T, First>, Constant<T, Rest> *...) {}
} // namespace forms

int taken(forms::Plain, char, forms::Plain *) { return 0; }

int main() {
  using namespace forms;
  Plain plain{};
  Box<Plain> box(plain);
  Box<int> number(1, &plain);
  Box<Box<Plain> *> nested(&box);
  *number = number->*1;
  number << number + number;
  (void)(number < number);
  number(1, &number, nullptr);
  Box<int>(2)[3];
  int *at = number;
  number.made(box, taken, 'c', &plain);
  builtin(1, 2, 3, 4, 5, 6, 7, 8, 9, 1, 2, 3, 4, 5, L'a', u'a', U'a', true);
  int three[3] = {};
  declared(nullptr, at, nullptr, three, nullptr, nullptr, nullptr, {}, plain, nullptr);
  hidden({}, nullptr);
  Hidden().method(nullptr, {});
  inner({}, nullptr, {});
  call_one(at);
  call_one(&plain);
  Pair<int, char> *pair = nullptr;
  call_two(pair, at, (char *)nullptr);
  Pair<Plain, Box<int>> *other = nullptr;
  call_two(other, &plain, &number);
  call_crossed(1, plain);
  call_crossed(&plain, 'c');
  Row<2, char[3]> row{};
  call_sized(row);
  List<int, Plain> *list = nullptr;
  call_many(list, at, &plain);
  call_many((List<> *)nullptr);
  call_held(&box, plain);
  local(1);
  local(&plain);
  constants(Constant<int, 1>{}, (Constant<int, 2> *)nullptr, (Constant<int, -3> *)nullptr);
  constants(Constant<Level, Level::high>{});
}
