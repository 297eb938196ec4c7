// Package symdemangle demangles C++ (Itanium ABI) and Rust (v0 and older) names within a limit on what a text costs, by a proved library
// that cgo compiles with the package.
//
// A call takes up to 600 bytes of memory for a byte of the name (measured), whatever the limit. So names that someone else chose should be
// cut: 4,096 bytes hold nearly all real ones.
package symdemangle

// #include <symdemangle.h>
import "C"

import (
	"fmt"
	"strings"
	"sync"
	"unsafe"
)

// Flags say how names are read and shown; several flags are added together.
type Flags uint32

const (
	Brief        Flags = C.SYMDEMANGLE_BRIEF         // template and generic arguments are left out
	NoParameters Flags = C.SYMDEMANGLE_NO_PARAMETERS // each C++ function is its name alone
	Wide         Flags = C.SYMDEMANGLE_WIDE          // newer and rarer C++ forms are read, too
	Legacy       Flags = C.SYMDEMANGLE_LEGACY        // Rust's older names are shown as Rust paths
	Underscore   Flags = C.SYMDEMANGLE_UNDERSCORE    // a name may begin with __Z or __R, as on macOS
	ASCIIWords   Flags = C.SYMDEMANGLE_ASCII_WORDS   // of Filter: words end at bytes from 0x80, and begin where runs do
	Types        Flags = C.SYMDEMANGLE_TYPES         // of Text: a name that doesn't begin like a symbol is read as a C++ type
	Short        Flags = C.SYMDEMANGLE_SHORT         // C++ names without what std's templates have by default: std::vector<int>, std::string
	KeepInline   Flags = C.SYMDEMANGLE_KEEP_INLINE   // with Short: inline namespaces stay, and different texts stay different
)

// Flags that the first library didn't know: a call that is refused because of them is made again without them.
const newer = Flags(C.SYMDEMANGLE_WITHIN) | Types | Short | KeepInline

// DefaultLimit is what a text may cost where no other limit is named.
const DefaultLimit = C.SYMDEMANGLE_DEFAULT_LIMIT

// Options are flags with a limit on what a text may cost: its bytes, and 1 for each item that it is put together from. 25,000 is ample
// for names that someone else chose.
type Options struct {
	Flags Flags
	Limit uint32 // 0 is DefaultLimit
}

// Error says why a name has no text, and how many bytes precede the first bad byte.
type Error struct {
	Status uint32
	Offset uint32
}

func (e *Error) Error() string {
	message := C.GoString(C.symdemangle_message(C.uint32_t(e.Status)))
	switch e.Status {
	case C.SYMDEMANGLE_MALFORMED, C.SYMDEMANGLE_BAD_REFERENCE, C.SYMDEMANGLE_BAD_VALUE:
		return fmt.Sprintf("%s at %d", message, e.Offset)
	}
	return message
}

// Buffers of calls, except large ones, are kept so that a call needn't clear a new buffer.
var buffers = sync.Pool{New: func() any { return new([]byte) }}

const largestKept = 1 << 16

func bufferOf(size int) *[]byte {
	buffer := buffers.Get().(*[]byte)
	if len(*buffer) < size {
		*buffer = make([]byte, size)
	}
	return buffer
}

func keep(buffer *[]byte) {
	if len(*buffer) <= largestKept {
		buffers.Put(buffer)
	}
}

func (o Options) limit() C.uint32_t {
	if o.Limit == 0 {
		return DefaultLimit
	}
	return C.uint32_t(o.Limit)
}

type call func(flags C.uint32_t, buffer *C.char, capacity C.size_t, result *C.symdemangle_result)

// written is what a call writes into a buffer that is large enough.
func written(flags Flags, size int, made call) (string, error) {
	var result C.symdemangle_result
	for {
		buffer := bufferOf(size)
		made(C.uint32_t(flags), (*C.char)(unsafe.Pointer(&(*buffer)[0])), C.size_t(len(*buffer)), &result)
		if result.status == C.SYMDEMANGLE_OK {
			text := string((*buffer)[:result.length])
			keep(buffer)
			return text, nil
		}
		keep(buffer)
		switch {
		case result.status == C.SYMDEMANGLE_BUFFER:
			size = int(result.length)
		case result.status == C.SYMDEMANGLE_FLAGS && flags&newer != 0:
			flags &^= newer
		default:
			return "", &Error{uint32(result.status), uint32(result.offset)}
		}
	}
}

// bytesOf is where a string's bytes are, to lend to one call.
func bytesOf(s string) *C.char {
	return *(**C.char)(unsafe.Pointer(&s))
}

// Text is the text of a name, if it has one.
func (o Options) Text(name string) (string, error) {
	return written(o.Flags, 2048, func(flags C.uint32_t, buffer *C.char, capacity C.size_t, result *C.symdemangle_result) {
		C.symdemangle_text(bytesOf(name), C.size_t(len(name)), o.limit(), flags, buffer, capacity, result)
	})
}

// Filter is a text with each word that is a symbol replaced by its text. Words are those of the program demangle, or with ASCIIWords those
// that end at bytes from 0x80. Over a library that doesn't know the words of demangle, a word begins where a run of its letters does.
func (o Options) Filter(text string) (string, error) {
	words := o.Flags &^ Types
	if words&ASCIIWords == 0 {
		words |= Flags(C.SYMDEMANGLE_WITHIN)
	}
	return written(words, 2*len(text)+4096, func(flags C.uint32_t, buffer *C.char, capacity C.size_t, result *C.symdemangle_result) {
		C.symdemangle_filter(bytesOf(text), C.size_t(len(text)), o.limit(), flags, buffer, capacity, nil, result)
	})
}

// Part is a part of a text: what it is, such as "base" or "generic_argument"; where it starts in the text; its own bytes; and where the
// bytes of the name that spell it start and end. These places count an underscore that was dropped. A part that the text doesn't have, such
// as the hash of an older Rust name, is empty, at the text's end.
type Part struct {
	Role  string
	Start int
	Text  string
	From  int
	To    int
}

// Parsed is a text, what its name is (such as "function"), how the name is mangled ("itanium", "rust-v0", "rust-legacy"), and the parts of
// the text in the order of their starts. Any two parts are apart, or one is within the other. A newer library may report more roles and
// kinds.
type Parsed struct {
	Text     string
	Kind     string
	Mangling string
	Parts    []Part
}

// Of is the first part of a role, or an empty string where there is none.
func (p *Parsed) Of(role string) string {
	for _, part := range p.Parts {
		if part.Role == role {
			return part.Text
		}
	}
	return ""
}

// Base is the name itself, without its scope and its arguments.
func (p *Parsed) Base() string { return p.Of("base") }

// Scope is what the name is in.
func (p *Parsed) Scope() string { return p.Of("scope") }

var manglings = map[C.uint32_t]string{
	C.SYMDEMANGLE_ITANIUM: "itanium", C.SYMDEMANGLE_RUST_V0: "rust-v0", C.SYMDEMANGLE_RUST_LEGACY: "rust-legacy",
}

// wordOf is the library's word for a number, or the number if it has none.
func wordOf(word *C.char, number C.uint32_t) string {
	if word == nil {
		return fmt.Sprint(number)
	}
	return C.GoString(word)
}

// Parts is the text of a name with its parts, if it has one. Short texts and types have none: Short and Types are refused. If the installed
// library is older than this call, the program ends when it makes the call.
func (o Options) Parts(name string) (*Parsed, error) {
	told := C.symdemangle_name{length: 4096, count: 32}
	for {
		text, found := make([]byte, told.length+1), make([]C.symdemangle_part, told.count+1)
		C.symdemangle_parts(bytesOf(name), C.size_t(len(name)), o.limit(), C.uint32_t(o.Flags), (*C.char)(unsafe.Pointer(&text[0])),
			C.size_t(len(text)), &found[0], C.size_t(len(found)), &told)
		switch told.status {
		case C.SYMDEMANGLE_BUFFER:
		case C.SYMDEMANGLE_OK:
			return parsed(string(text[:told.length]), found[:told.count], &told), nil
		default:
			return nil, &Error{uint32(told.status), uint32(told.offset)}
		}
	}
}

func parsed(text string, found []C.symdemangle_part, told *C.symdemangle_name) *Parsed {
	mangling, known := manglings[told.mangling]
	if !known {
		mangling = fmt.Sprint(told.mangling)
	}
	parts := make([]Part, len(found))
	for i, part := range found {
		parts[i] = Part{
			wordOf(C.symdemangle_role(part.role), part.role), int(part.start), text[part.start : part.start+part.length], int(part.from), int(part.to),
		}
	}
	return &Parsed{text, wordOf(C.symdemangle_kind(told.kind), told.kind), mangling, parts}
}

// Texts are the texts of many names, by one call of the library. A name without a text is given back as it is, with an error that says why.
func (o Options) Texts(names []string) ([]string, []error) {
	texts, errs := append([]string(nil), names...), make([]error, len(names))
	if len(names) == 0 {
		return texts, errs
	}
	all := strings.Join(names, "")
	ends, results := make([]C.size_t, len(names)), make([]C.symdemangle_result, len(names))
	end := 0
	for i, name := range names {
		end += len(name)
		ends[i] = C.size_t(end)
	}
	buffer := bufferOf(4*len(all) + 4096)
	defer keep(buffer)
	status := o.textsInto(all, ends, *buffer, results)
	at := 0
	for i, result := range results {
		length := int(result.length)
		switch {
		case status != C.SYMDEMANGLE_OK:
			errs[i] = &Error{uint32(status), 0}
		case result.status == C.SYMDEMANGLE_OK:
			texts[i] = string((*buffer)[at : at+length])
			at += length
		case result.status == C.SYMDEMANGLE_BUFFER:
			if text, err := o.Text(names[i]); err == nil {
				texts[i] = text
			} else {
				errs[i] = err
			}
		default:
			errs[i] = &Error{uint32(result.status), uint32(result.offset)}
		}
	}
	return texts, errs
}

func (o Options) textsInto(all string, ends []C.size_t, buffer []byte, results []C.symdemangle_result) C.uint32_t {
	flags := o.Flags
	for {
		status := C.symdemangle_texts(bytesOf(all), C.size_t(len(all)), &ends[0], C.size_t(len(ends)), o.limit(), C.uint32_t(flags),
			(*C.char)(unsafe.Pointer(&buffer[0])), C.size_t(len(buffer)), &results[0])
		if status != C.SYMDEMANGLE_FLAGS || flags&newer == 0 {
			return status
		}
		flags &^= newer
	}
}

// Text is the text of a name, if it has one that costs at most DefaultLimit.
func Text(name string, flags Flags) (string, error) {
	return Options{Flags: flags}.Text(name)
}

// Parts is the text of a name with its parts, if the text costs at most DefaultLimit.
func Parts(name string, flags Flags) (*Parsed, error) {
	return Options{Flags: flags}.Parts(name)
}

// Filter is a text with each word that is a symbol replaced by its text, if this text costs at most DefaultLimit.
func Filter(text string, flags Flags) (string, error) {
	return Options{Flags: flags}.Filter(text)
}
