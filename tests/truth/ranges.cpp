// C++23: ranges, views and formats in usual code.
#include <algorithm>
#include <ranges>
#include <vector>
#include <list>
#include <string>
#include <format>
#include <map>
struct P { std::string n; int a; };
int main() {
  std::vector<P> v{{"a",1},{"b",2}}; std::list<int> l{3,1,2};
  std::ranges::sort(v, std::ranges::less{}, &P::a);
  auto it = std::ranges::find(v, 2, &P::a);
  auto d = std::ranges::distance(l.begin(), l.end());
  auto n = std::ranges::next(l.begin(), 2, l.end());
  std::ranges::copy(l | std::views::transform([](int x){return x+1;}) | std::views::filter([](int x){return x>2;}), std::back_inserter(l));
  std::ranges::for_each(v, [](auto& p){ p.a++; });
  auto [b, e] = std::ranges::minmax(l);
  auto sub = std::ranges::subrange(l.begin(), l.end());
  auto z = std::views::zip(v, l); for (auto [p, q] : z) p.a += q;
  auto s = std::format("{} {:>5} {}", v[0].n, d, *n);
  std::map<std::string, int> m; std::ranges::transform(v, std::inserter(m, m.end()), [](const P& p){ return std::pair{p.n, p.a}; });
  auto c = v | std::views::chunk(2) | std::views::join | std::ranges::to<std::vector>();
  return s.size() + b + e + c.size() + std::ranges::equal(l, l) + (it != v.end()) + std::ranges::lower_bound(v, 1, {}, &P::a)->a;
}
