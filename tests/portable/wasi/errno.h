/* Errors by Linux's numbers, as dist/wasi.c gives them. */
#ifndef ERRNO_H
#define ERRNO_H

extern int errno;
enum {
    EPERM = 1, ENOENT, EINTR = 4, EIO, ENXIO, EBADF = 9, EAGAIN = 11, ENOMEM, EACCES, EEXIST = 17, ENODEV = 19, ENOTDIR, EISDIR, EINVAL,
    ENFILE, EMFILE, EFBIG = 27, ENOSPC, ESPIPE, EROFS, EPIPE = 32, ENAMETOOLONG = 36, ELOOP = 40
};

#endif
