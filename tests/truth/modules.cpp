// C++20 module
export module shop.prices;

export namespace shop {
class Price {
public:
    explicit Price(int cents) : cents(cents) {}
    int sum(const Price &other) const;
    template <class T> T as(T scale) const { return scale * cents; }

private:
    int cents;
};
}

namespace shop {
int Price::sum(const Price &other) const { return cents + other.cents; }

struct Inner {
    Price first;
    Price *second;
};

int of_inner(Inner inner, Inner *more, Price price) { return inner.first.sum(price) + more->first.sum(*inner.second); }

template <class T, class U> U both(T first, U second, Inner *inner) { return first + second + inner->first.sum(Price(1)); }

int used(int number) {
    Inner inner{Price(number), nullptr};
    inner.second = &inner.first;
    return of_inner(inner, &inner, inner.first) + both(number, 2L, &inner) + both(inner.first.as(2.0), 3, &inner);
}
}

enum class Color { red, green };

int of_color(Color color, Color *other, shop::Inner *inner) { return color == *other ? 1 : inner->first.sum(shop::Price(2)); }

export int all() {
    Color color = Color::red;
    shop::Inner inner{shop::Price(1), nullptr};
    return shop::used(1) + of_color(color, &color, &inner);
}
