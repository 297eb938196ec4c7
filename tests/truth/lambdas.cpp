// Lambdas that initialize variables and members. Their symbols have the variable or the member as a prefix; older and newer compilers
// differ in whether it is a substitution candidate.
namespace app {
struct Item {};
template <class T> struct Box {
  T value;
};
inline auto variable = [](auto, Item) { return 1; };
inline auto pointers = [](Item, Item *, auto) { return 1; };
inline auto references = [](Item, Item *, Item &, Item **, const Item &) { return 1; };
inline auto pack = [](auto... all) { return sizeof...(all); };
inline auto inner = [](Item, auto *, auto **) { return [](Item, Item *, auto) { return 2; }; };
inline auto boxes = [](Box<Item>, Box<Item *>, Box<Box<Item>>, Box<Item> *) { return 1; };
template <class T> inline auto of_template = [](T, Item, Item *, auto, Box<T>, Box<T> *) { return 1; };
struct Holder {
  int (*first)(Item, Holder *) = [](Item, Holder *) { return 1; };
  int (*second)(Item *, Holder &, const Holder &) = [](Item *, Holder &, const Holder &) { return 1; };
  static inline auto shared = [](Item, Holder &, auto...) { return 1; };
  int value = [](auto, Holder *, Holder **, Item, Item *) { return 1; }(1, this, nullptr, Item{}, nullptr);
  Holder() {}
};
template <class T> struct TemplateHolder {
  int plain = [](T, TemplateHolder *, Item, Item *, Box<T>) { return 1; }(T(), this, Item{}, nullptr, Box<T>{});
  int generic = [](auto, TemplateHolder *, Item, Item *, T *, T **) { return 1; }(T(), this, Item{}, nullptr, nullptr, nullptr);
  TemplateHolder() {}
};
template <class F, class... All> int call(F function, All... all) {
  function(all...);
  return 1;
}
inline int value = call([](Item *, Box<Item>, Item **, Box<Item> *) { return 1; }, (Item *)nullptr, Box<Item>{}, (Item **)nullptr, (Box<Item> *)nullptr);
namespace {
inline auto hidden = [](Item, Item *, auto, Item **) { return 1; };
}
int use() {
  Item item;
  Item *at = &item;
  Holder holder;
  TemplateHolder<int> one;
  TemplateHolder<Item> other;
  variable(1, item);
  variable(item, item);
  pointers(item, at, 1);
  pointers(item, at, at);
  references(item, at, item, &at, item);
  pack(1, 2, item, at);
  inner(item, at, &at)(item, at, item);
  boxes({}, {}, {}, nullptr);
  of_template<int>(1, item, at, item, {}, nullptr);
  of_template<Item>(item, item, at, 1, {}, nullptr);
  holder.shared(item, holder, 1, at);
  hidden(item, at, 1, &at);
  return call(pointers, item, at, 1) + call(references, item, at, item, &at, item) + call(of_template<int>, 1, item, at, 1, Box<int>{}, (Box<int> *)nullptr) + value;
}
} // namespace app

int main() { return app::use(); }
