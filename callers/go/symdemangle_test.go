package symdemangle

import (
	"fmt"
	"os"
	"strings"
	"testing"
)

// Whether the library is one that doesn't know types and words within runs (tests/callers/older.c).
var isOlder = os.Getenv("SYMDEMANGLE_OLDER") != ""

func TestText(t *testing.T) {
	long := strings.Repeat("a", 5000)
	for name, wanted := range map[string]string{
		"_ZN3foo3barEPKc":                        "foo::bar(char const*)",
		"_RNvC3foo3bar":                          "foo::bar",
		"__Z1fv":                                 "f()",
		"_ZN13_$LT$test$GT$17h0123456789abcdefE": "<test>",
		"_RNvC3foo5000" + long:                   "foo::" + long,
	} {
		if text, err := Text(name, Wide|Legacy|Underscore); err != nil || text != wanted {
			t.Error(name, text, err)
		}
	}
	for name, wanted := range map[string]Error{
		"main":   {11, 0},
		"":       {11, 0},
		"_Z1fY":  {1, 4},
		"__Z1fv": {11, 0},
	} {
		_, err := Text(name, 0)
		if e, ok := err.(*Error); !ok || *e != wanted {
			t.Error(name, err)
		}
	}
	if _, err := Text("_Z1fY", 0); err.Error() != "malformed symbol at 4" {
		t.Error(err)
	}
	if _, err := Text("main", 0); err.Error() != "not a symbol" {
		t.Error(err)
	}
}

func TestLimit(t *testing.T) {
	if text, err := (Options{Limit: 6}).Text("_Z1fv"); err != nil || text != "f()" {
		t.Error(text, err)
	}
	if _, err := (Options{Limit: 5}).Text("_Z1fv"); err == nil || err.(*Error).Status != 4 {
		t.Error(err)
	}
	if text, err := (Options{Limit: 5}).Filter("at _Z1fv"); err != nil || text != "at _Z1fv" {
		t.Error(text, err)
	}
	if text, err := (Options{}).Text("_Z1fv"); err != nil || text != "f()" {
		t.Error(text, err)
	}
}

func TestNamesFromOutside(t *testing.T) {
	// A<int, int>, then A<T, T> with T the type before, and so on: the size doubles 36 times
	name := "_Z1f1AIiiE"
	for _, digit := range strings.Split("0123456789ABCDEFGHIJKLMNOPQRSTUVWXYZ", "") {
		name += "S_IS" + digit + "_S" + digit + "_E"
	}
	options := Options{Flags: Wide, Limit: 25000}
	if _, err := options.Text(name); err == nil || err.(*Error).Status != 4 {
		t.Error(err)
	}
	if texts, errs := options.Texts([]string{name, "_Z1fv"}); texts[0] != name || errs[0] == nil || texts[1] != "f()" {
		t.Error(texts, errs)
	}
	if text, err := options.Filter(name + " _Z1fv"); err != nil || text != name+" f()" {
		t.Error(text, err)
	}
}

func TestTexts(t *testing.T) {
	long := strings.Repeat("a", 30000)
	names := []string{"_Z1fv", "main", "", "_RNvC3foo30000" + long, "_RNvC3foo30000" + long, "_Z1fY"}
	texts, errs := Options{Flags: Wide}.Texts(names)
	wanted := []string{"f()", "main", "", "foo::" + long, "foo::" + long, "_Z1fY"}
	for i, name := range names {
		if texts[i] != wanted[i] || (errs[i] == nil) != (texts[i] != name) {
			t.Error(i, texts[i], errs[i])
		}
	}
	if e := errs[5].(*Error); *e != (Error{1, 4}) {
		t.Error(e)
	}
	if texts, errs := (Options{}).Texts(nil); len(texts) != 0 || len(errs) != 0 {
		t.Error(texts, errs)
	}
	if texts, errs := (Options{}).Texts([]string{""}); texts[0] != "" || errs[0].(*Error).Status != 11 {
		t.Error(texts, errs)
	}
	texts, errs = Options{Limit: 5}.Texts([]string{"_Z1fv"})
	if texts[0] != "_Z1fv" || errs[0].(*Error).Status != 4 {
		t.Error(texts, errs)
	}
}

func TestUnknownFlag(t *testing.T) {
	unknown := Options{Flags: 1 << 31}
	texts, errs := unknown.Texts([]string{"_Z1fv", "main"})
	if texts[0] != "_Z1fv" || texts[1] != "main" || errs[0].(*Error).Status != 8 || errs[1].(*Error).Status != 8 {
		t.Error(texts, errs)
	}
	if _, err := unknown.Text("_Z1fv"); err == nil || err.(*Error).Status != 8 {
		t.Error(err)
	}
	if _, err := unknown.Filter("_Z1fv"); err == nil || err.(*Error).Status != 8 {
		t.Error(err)
	}
}

func TestTypes(t *testing.T) {
	wanted := "char const*"
	if isOlder {
		wanted = "PKc"
	}
	texts, errs := Options{Flags: Types}.Texts([]string{"PKc", "_Z1fv", "?"})
	if texts[0] != wanted || texts[1] != "f()" || texts[2] != "?" || (errs[0] == nil) == isOlder || errs[2] == nil {
		t.Error(texts, errs)
	}
	if text, err := Text("PKc", Types); (err == nil) == isOlder || (err == nil && text != wanted) {
		t.Error(text, err)
	}
	if text, err := Text("_Z1fv", Types); err != nil || text != "f()" {
		t.Error(text, err)
	}
}

func TestShort(t *testing.T) {
	name, whole := "_Z1fNSt3__16vectorIiNS_9allocatorIiEEEE", "f(std::__1::vector<int, std::__1::allocator<int>>)"
	for flags, wanted := range map[Flags]string{
		Short:              "f(std::vector<int>)",
		Short | KeepInline: "f(std::__1::vector<int>)",
		KeepInline:         whole,
	} {
		if isOlder {
			wanted = whole
		}
		if text, err := Text(name, flags); err != nil || text != wanted {
			t.Error(flags, text, err)
		}
	}
}

func TestParts(t *testing.T) {
	if isOlder {
		t.Skip("the library has no such call")
	}
	parsed, err := Parts("_ZNK1A1fIicEEvi", Wide)
	if err != nil || parsed.Text != "void A::f<int, char>(int) const" || parsed.Kind != "function" || parsed.Mangling != "itanium" {
		t.Fatal(parsed, err)
	}
	if parsed.Base() != "f" || parsed.Scope() != "A" || parsed.Of("qualifiers") != " const" || parsed.Of("suffix") != "" {
		t.Error(parsed)
	}
	arguments := 0
	if scope := parsed.Parts[1]; scope.From != 4 || scope.To != 6 {
		t.Error(scope)
	}
	for _, part := range parsed.Parts {
		if parsed.Text[part.Start:part.Start+len(part.Text)] != part.Text {
			t.Error(part)
		}
		if part.Role == "generic_argument" {
			arguments++
		}
	}
	if arguments != 2 {
		t.Error(parsed)
	}
	if parsed, err := Parts("_RNvC3foo3bar", 0); err != nil || parsed.Kind != "value" || parsed.Mangling != "rust-v0" || parsed.Of("crate") != "foo" {
		t.Error(parsed, err)
	}
	long := "_Z1f" + strings.Repeat("PKc", 4000)
	if parsed, err := Parts(long, 0); err != nil || len(parsed.Text) <= 4096 || len(parsed.Parts) != 4002 {
		t.Error(err)
	}
	for name, wanted := range map[string]Error{"_Z1fY": {1, 4}, "main": {11, 0}, "": {11, 0}} {
		if _, err := Parts(name, 0); err == nil || *err.(*Error) != wanted {
			t.Error(name, err)
		}
	}
	for _, flags := range []Flags{Short, Types, 1 << 31} {
		if _, err := Parts("_Z1fv", flags); err == nil || err.(*Error).Status != 8 {
			t.Error(flags, err)
		}
	}
	if _, err := (Options{Limit: 5}).Parts("_Z1fv"); err == nil || err.(*Error).Status != 4 {
		t.Error(err)
	}
}

func TestFilter(t *testing.T) {
	if text, err := Filter("at _Z1fv. _Z1fY", 0); err != nil || text != "at f(). _Z1fY" {
		t.Error(text, err)
	}
	if text, err := Filter("", 0); err != nil || text != "" {
		t.Error(text, err)
	}
	for text, wanted := range map[string]string{
		".text._ZN1A1fEv": ".text.A::f()",
		"‘_Z1fv’":         "‘f()’",
		"self._Zoom":      "self._Zoom",
	} {
		if isOlder {
			wanted = text
		}
		if filtered, err := Filter(text, Types); err != nil || filtered != wanted {
			t.Error(text, filtered, err)
		}
	}
	if text, err := Filter("‘_Z1fv’", ASCIIWords); err != nil || text != "‘f()’" {
		t.Error(text, err)
	}
}

func BenchmarkText(b *testing.B) {
	b.ReportAllocs()
	for i := 0; i < b.N; i++ {
		if _, err := Text("_ZN3foo3barEPKc", Wide); err != nil {
			b.Fatal(err)
		}
	}
}

func ExampleText() {
	text, _ := Text("_ZN3foo3barEPKc", Wide)
	fmt.Println(text)
	// Output: foo::bar(char const*)
}
