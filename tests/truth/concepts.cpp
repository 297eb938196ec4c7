// Constraints of parameters, results and constants, by concepts with arguments. Compilers differ in whether a concept's name is a substitution candidate.
template<class T> struct rr { typedef T type; };
template<class T> struct rr<T&> { typedef T type; };
template<class T> struct Box { };
template<class T, class U> concept Is = true;
template<class T> concept One = true;
namespace ns { template<class T, class U> concept Nis = true; template<class T> concept None = true; template<class T> struct NB {}; }
struct W { template<class T> struct In {}; };
// Tk
template<class T, Is<Box<T>> U> void tk1(T, U, Box<T>*, T*) {}
template<class T, ns::Nis<Box<T>> U> void tk2(T, U, Box<T>*, ns::NB<T>, T*) {}
template<class T, One U> void tk3(T, U, Box<T>*, T*) {}
template<class T, ns::None U> void tk4(T, U, Box<T>*, ns::NB<T>, T*) {}
template<class T, Is<ns::NB<T>>... U> void tk5(T, ns::NB<T>*, Box<T>, T*, U...) {}
template<class T, template<One> class X> void tk6(T, X<T>, Box<T>*, T*) {}
template<class T, template<Is<T>> class X> void tk7(T, X<T>, Box<T>*, T*) {}
template<class T> struct OneT {}; template<One T> struct OneC {}; template<Is<int> T> struct IsC {};
// Dk
template<class T> ns::Nis<T> auto dk1(T* p, Box<T>* q) { return 1; }
template<class T> Is<Box<T>> auto dk2(T* p, Box<T>* q) { return 1; }
template<class T> One auto dk3(T* p, Box<T>* q) { return 1; }
template<class T> One decltype(auto) dk4(T* p, Box<T>* q) { return 1; }
template<Is<int> auto V> void dk5(Box<int>*, ns::NB<int>, Box<int>**) {}
template<ns::Nis<Box<int>> auto V> void dk6(Box<int>*, ns::NB<int>, Box<int>**) {}
// Tn with types
template<class T, Box<T>* p> void tn1(Box<T>*, T*) {}
template<auto V, decltype(V) W2> void tn2(Box<decltype(V)>*, decltype(W2)*) {}
// Q
template<class T> requires Is<T, Box<T>> void q1(T, Box<T>*, T*) {}
template<class T> void q2(T, Box<T>*, T*) requires ns::Nis<T, Box<T>> {}
template<class T, class U> requires Is<T, Box<U>> && One<U> struct Q3 { void f(Box<U>*, T*, ns::NB<T>, Box<U>**) {} };
template<class T> struct Q4 { template<class U> requires Is<U, T> void g(U, Box<T>*, Box<U>*, T*) {} friend void fr(Q4, Box<T>*, T*) requires One<T> {} };
// lambdas
inline auto l1 = []<class T, Is<T> U>(T, U, Box<T>*, T*) { return 1; };
template<class F, class T> void call(F, T, Box<T>*, T*) {}
void all() {
  int i = 0; Box<int> b; ns::NB<int> n;
  tk1(1, 2, &b, &i); tk2(1, 2, &b, n, &i); tk3(1, 2, &b, &i); tk4(1, 2, &b, n, &i); tk5(1, &n, b, &i, 'c', 2L);
  tk6(1, OneC<int>{}, &b, &i); tk7(1, IsC<int>{}, &b, &i);
  dk1(&i, &b); dk2(&i, &b); dk3(&i, &b); dk4(&i, &b); dk5<3>(&b, n, nullptr); dk6<3>(&b, n, nullptr);
  tn1<int, nullptr>(&b, &i); tn2<3, 4>(&b, &i); q1(1, &b, &i); q2(1, &b, &i); Q3<int, int> q; q.f(&b, &i, n, nullptr);
  Q4<int> z; z.g('c', &b, (Box<char>*)0, &i); fr(z, &b, &i);
  l1(1, 2, &b, &i);
  call([]<class T, Is<T> U>(T, U, Box<T>*, T*) { return 1; }, 1, &b, &i);
  call([](Is<int> auto x, Box<int>*) { return 1; }, 1, &b, &i);
  call([](auto x, ns::NB<int>*) requires Is<decltype(x), int> { return 1; }, 1, &b, &i);
}
