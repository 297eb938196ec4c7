//go:build !symdemangle_installed

package symdemangle

// #cgo CFLAGS: -O1 -I${SRCDIR}/../../dist
import "C"
