// Classes of the standard library, instantiated whole: names of many scopes, substitutions of each kind, tags.
#include <algorithm>
#include <array>
#include <deque>
#include <functional>
#include <future>
#include <iostream>
#include <list>
#include <map>
#include <memory>
#include <numeric>
#include <optional>
#include <regex>
#include <set>
#include <string>
#include <thread>
#include <tuple>
#include <unordered_map>
#include <variant>
#include <vector>

namespace shop {
struct Price {
  long cents;
  bool operator<(const Price &other) const { return cents < other.cents; }
  bool operator==(const Price &other) const { return cents == other.cents; }
};
template <class T> struct Shelf {
  T first;
  std::vector<T *> others;
};
} // namespace shop

template class std::vector<shop::Price>;
template class std::vector<shop::Shelf<shop::Price> *>;
template class std::deque<shop::Price>;
template class std::list<shop::Price>;
template class std::map<std::string, shop::Shelf<shop::Price>>;
template class std::set<shop::Price>;
template class std::unordered_map<int, std::vector<shop::Price>>;
template class std::shared_ptr<shop::Shelf<int>>;
template class std::unique_ptr<shop::Price[]>;
template class std::function<shop::Price(const shop::Price &, shop::Shelf<int> *)>;
template class std::basic_regex<char>;
template class std::promise<shop::Price>;
template class std::future<std::string>;

int main(int argc, char **) {
  std::vector<shop::Price> prices{{3}, {1}, {2}};
  std::sort(prices.begin(), prices.end());
  std::sort(prices.begin(), prices.end(), [](const shop::Price &one, const shop::Price &other) { return other < one; });
  std::map<std::string, std::vector<shop::Price>> by_name{{"tea", prices}};
  std::unordered_map<std::string, std::shared_ptr<shop::Price>> kept;
  kept.emplace("tea", std::make_shared<shop::Price>());
  std::variant<int, std::string, shop::Price> some = prices[0];
  std::visit([](auto &&it) { std::cout << sizeof(it); }, some);
  std::optional<std::tuple<int, shop::Price, std::string>> maybe;
  maybe.emplace(1, prices[0], "tea");
  auto later = std::async(std::launch::async, [](int number, shop::Price price) { return number + price.cents; }, argc, prices[0]);
  std::thread runner([](std::vector<shop::Price> *all, const std::string &) { all->clear(); }, &prices, "tea");
  runner.join();
  std::array<shop::Price, 3> three{};
  std::cout << std::accumulate(three.begin(), three.end(), 0L, [](long sum, const shop::Price &it) { return sum + it.cents; });
  std::cout << std::regex_match("tea", std::regex("t.*")) << later.get() << by_name.size();
}
