//go:build symdemangle_installed

package symdemangle

// #cgo pkg-config: symdemangle
import "C"
