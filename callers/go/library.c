//go:build !symdemangle_installed

/* The library's C file, which the repository has in dist/. In a released module that file is in this folder, in place of this one. */
#include <symdemangle.c>
